//! Times a run of expirations over the timer wheel of tokio-util, as the kit has ported it (`crates/bench_loops`), against heaps and a
//! wheel of plain Rust.

mod counted;
mod heaps;
mod timing;
mod wheel;

unsafe extern "C" {
    fn bench_queue(intervals: *const u64, count: usize, step: u64, fires: u64) -> u64;
}

fn main() {
    counted::table(
        "An expiration in the wheel of tokio-util",
        "tokio-util's wheel, ported, ns",
        bench_queue,
    );
}
