//! Times the fires of a proved CPU (`crates/bench_loops`) against heaps and a wheel of plain Rust that make the same expirations. The
//! handler of each expiration counts the calls of its cyclic.

mod counted;
mod heaps;
mod timing;
mod wheel;

unsafe extern "C" {
    fn bench_fire_high(intervals: *const u64, count: usize, step: u64, fires: u64) -> u64;
    fn bench_fire_low(intervals: *const u64, count: usize, step: u64, fires: u64) -> u64;
}

fn main() {
    counted::table(
        "An expiration of a fire, at high level",
        "`fire`, ns",
        bench_fire_high,
    );
    println!();
    counted::table(
        "An expiration of a fire, at low level, and its call by the soft interrupt",
        "`fire` and `softint`, ns",
        bench_fire_low,
    );
}
