//! Tables of runs of fires in which the handler of each expiration counts the calls of its cyclic: three heaps and a wheel of plain
//! Rust, and another side that makes the same expirations.

use crate::heaps::{self, FIRES, Fires};
use crate::timing;

/// A run of so many fires, so many nanoseconds apart: the calls of each handler, folded into one number.
pub type Run =
    unsafe extern "C" fn(intervals: *const u64, count: usize, step: u64, fires: u64) -> u64;

/// The calls of each id, as the proved side counts them.
struct Tally {
    most: u64,
    counts: Vec<u64>,
}

impl Tally {
    fn new(count: usize) -> Tally {
        Tally {
            most: u64::MAX,
            counts: vec![0; count],
        }
    }

    fn call(&mut self, id: u64) {
        let count = &mut self.counts[id as usize - 1];
        assert!(*count < self.most, "the handler refuses no call here");
        *count += 1;
    }

    /// The counts, folded into one number.
    fn folded(&self) -> u64 {
        self.counts.iter().fold(0, |all: u64, count| {
            all.wrapping_mul(31).wrapping_add(*count)
        })
    }
}

/// Times the other side, whose column has this name, beside those of plain Rust.
pub fn table(title: &str, other: &str, fire: Run) {
    let [indexes, keys, library, other, ratio] = heaps::columns(other);
    let columns = [indexes, keys, library, "Wheel, ns", other, ratio];
    timing::head(title, heaps::WHAT, &columns);
    for (count, step) in FIRES {
        let intervals = heaps::spread(count);
        let run = Fires::new(&intervals, step);
        let expirations = run.expirations();
        let indexes = || {
            let mut tally = Tally::new(count);
            run.by_indexes(|id| tally.call(id));
            tally.folded()
        };
        let keys = || {
            let mut tally = Tally::new(count);
            run.by_keys(|id| tally.call(id));
            tally.folded()
        };
        let library = || {
            let mut tally = Tally::new(count);
            run.by_library(|id| tally.call(id));
            tally.folded()
        };
        let wheel = || {
            let mut tally = Tally::new(count);
            run.by_wheel(|id| tally.call(id));
            tally.folded()
        };
        // The call reads the intervals and keeps nothing.
        let other = || unsafe { fire(intervals.as_ptr(), count, step, run.fires) };
        let sides: [timing::Side; 5] = [&indexes, &keys, &library, &wheel, &other];
        let times = timing::least(heaps::ROUNDS, expirations, sides);
        timing::row(&heaps::what(count, step), &times, times[4] / times[0]);
    }
}
