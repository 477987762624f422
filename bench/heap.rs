//! Times a run of expirations over the proved heap (`crates/bench_loops`) against three heaps of plain Rust. Each makes the
//! same expirations in the same order.

mod heaps;
mod timing;

use heaps::{FIRES, Fires};

unsafe extern "C" {
    fn bench_heap(intervals: *const u64, count: usize, step: u64, fires: u64) -> u64;
}

/// Stands for a handler: it is called, and folds the ids in the order of the calls into one number.
#[inline(never)]
fn call(order: &mut u64, id: u64) {
    *order = order.wrapping_mul(31).wrapping_add(id);
}

fn main() {
    timing::head(
        "An expiration in a heap",
        heaps::WHAT,
        &heaps::columns("Proved heap, ns"),
    );
    for (count, step) in FIRES {
        let intervals = heaps::spread(count);
        let run = Fires::new(&intervals, step);
        let expirations = run.expirations();
        let indexes = || {
            let mut order = 0;
            run.by_indexes(|id| call(&mut order, id));
            order
        };
        let keys = || {
            let mut order = 0;
            run.by_keys(|id| call(&mut order, id));
            order
        };
        let library = || {
            let mut order = 0;
            run.by_library(|id| call(&mut order, id));
            order
        };
        // The call reads the intervals and keeps nothing.
        let proved = || unsafe { bench_heap(intervals.as_ptr(), count, step, run.fires) };
        let times = timing::least(
            heaps::ROUNDS,
            expirations,
            [&indexes, &keys, &library, &proved],
        );
        timing::row(&heaps::what(count, step), &times, times[3] / times[0]);
    }
}
