//! Times hand-overs on a proved ring (`crates/bench_loops`) in one thread, against the same calls in plain Rust, and against
//! their atomic steps alone, with no look-up of the id and no count of its expirations.

mod timing;
#[allow(dead_code)]
mod words;

use std::hint::black_box;
use std::sync::atomic::{AtomicU64, Ordering::SeqCst};
use words::{BANK, CYCLICS, DrainEnd, HARD, PRODUCERS, RaiseEnd, Ring, WORDS, pend_word, spread};

unsafe extern "C" {
    fn bench_ring(ids: u16, turns: u64) -> u64;
}

const TURNS: u64 = 500_000;
const ROUNDS: usize = 15;

fn following(id: u64, ids: u16) -> u64 {
    if id < u64::from(ids) { id + 1 } else { 1 }
}

/// `turns` times one raise, one take and one finish, the ids from 1 to `ids` raised round.
#[inline(never)]
fn calls(ids: u16, turns: u64) -> u64 {
    let ring = Ring::<1, 9>::open();
    let mut raise_end = RaiseEnd::filled(&ring, ids);
    let mut drain_end = DrainEnd::new(&ring);
    let mut last = 0;
    let mut id = 1;
    for _ in 0..turns {
        raise_end.raise(id);
        last += u64::from(drain_end.serve());
        id = following(id, ids);
    }
    last
}

/// The same atomic steps, and nothing else that needs memory.
#[inline(never)]
fn steps(ids: u16, turns: u64) -> u64 {
    let words: Vec<AtomicU64> = (0..WORDS).map(|_| AtomicU64::new(0)).collect();
    let bank = black_box(BANK);
    words[HARD].store(BANK as u64, SeqCst);
    let (mut producer, mut consumer) = (0, 0);
    let mut last = 0;
    let mut id = 1;
    for _ in 0..turns {
        let index = id as usize - 1;
        let pend = &words[pend_word::<9>(index)];
        if pend.load(SeqCst) != u64::from(u32::MAX) && pend.fetch_add(1, SeqCst) == 0 {
            words[2 * CYCLICS - 1 + spread::<9>(CYCLICS, producer)]
                .store(id * CYCLICS as u64 + index as u64, SeqCst);
            producer += 1;
            words[PRODUCERS + bank].store(producer as u64, SeqCst);
        }
        words[HARD].load(SeqCst);
        if words[PRODUCERS + bank].load(SeqCst) != consumer as u64 {
            let entry = words[2 * CYCLICS - 1 + spread::<9>(CYCLICS, consumer)].load(SeqCst);
            consumer += 1;
            let pend = &words[pend_word::<9>(entry as usize % CYCLICS)];
            last += u64::from(pend.fetch_sub(1, SeqCst) == 1);
        }
        id = following(id, ids);
    }
    last
}

fn main() {
    let columns = [
        "Rust, the steps alone, ns",
        "Rust, ns",
        "Rattle, ns",
        "Rattle to Rust",
    ];
    timing::head("A hand-over on a ring, in one thread", "Cyclics", &columns);
    for ids in [1, 16, 256, 4096] {
        // The call takes numbers and keeps nothing.
        let rattle = || unsafe { bench_ring(ids, TURNS) };
        let sides: [timing::Side; 3] = [&|| steps(ids, TURNS), &|| calls(ids, TURNS), &rattle];
        let times = timing::medians(ROUNDS, TURNS, sides);
        timing::row(&ids.to_string(), &times, times[2] / times[1]);
    }
}
