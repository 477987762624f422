//! Times hand-overs on a proved level (`crates/bench_loops`) against the same work in plain Rust.

mod level;
mod timing;

unsafe extern "C" {
    fn rattle_hand_overs(ids: u16, turns: u64) -> u64;
}

const TURNS: u64 = 1_000_000;
const ROUNDS: usize = 15;

fn main() {
    timing::head(
        "A hand-over on a level",
        "Cyclics",
        &["Rust, ns", "Rattle, ns", "Rattle to Rust"],
    );
    for ids in [1, 16, 256, 4096] {
        let rust = || level::hand_overs(ids, TURNS);
        // The call takes numbers and keeps nothing.
        let rattle = || unsafe { rattle_hand_overs(ids, TURNS) };
        let times = timing::medians(ROUNDS, TURNS, [&rust, &rattle]);
        timing::row(&ids.to_string(), &times, times[1] / times[0]);
    }
}
