//! Times calls of a proved system of 16 CPUs (`crates/bench_loops`) at several numbers of cyclics.

#[allow(dead_code)]
mod timing;

/// So many operations on a system of so many cyclics.
type Run = unsafe extern "C" fn(cyclics: u64, operations: u64) -> u64;

unsafe extern "C" {
    fn bench_system_replace(cyclics: u64, operations: u64) -> u64;
    fn bench_system_churn(cyclics: u64, operations: u64) -> u64;
    fn bench_system_bind(cyclics: u64, operations: u64) -> u64;
    fn bench_system_reprogram(cyclics: u64, operations: u64) -> u64;
}

const OPERATIONS: u64 = 20_000;
const ROUNDS: usize = 5;

/// The nanoseconds of one operation: a run of many, less the median of those that only make the system.
fn nanoseconds(run: Run, cyclics: u64) -> f64 {
    let timed = |operations: u64| {
        let mut times: Vec<f64> = (0..ROUNDS)
            .map(|_| {
                let start = std::time::Instant::now();
                // The call keeps nothing.
                let answer = unsafe { run(cyclics, operations) };
                assert!(operations == 0 || answer > 0, "no call is refused");
                start.elapsed().as_nanos() as f64
            })
            .collect();
        timing::median(&mut times)
    };
    (timed(OPERATIONS) - timed(0)) / OPERATIONS as f64
}

fn main() {
    println!("A call of a system of 16 CPUs:\n");
    println!("| Cyclics | A removal of the oldest and an `add`, ns | Of any, ns | A `bind` to another CPU and one back, ns | A `reprogram`, ns |");
    println!("|--|--:|--:|--:|--:|");
    for cyclics in [256, 1024, 4080, 16384, 65280] {
        let runs = [bench_system_replace as Run, bench_system_churn, bench_system_bind, bench_system_reprogram];
        let times = runs.map(|run| nanoseconds(run, cyclics));
        println!(
            "| {cyclics} | {:.0} | {:.0} | {:.0} | {:.0} |",
            times[0], times[1], times[2], times[3]
        );
    }
}
