//! A timer service with a worker thread for each soft level: the main thread sleeps until the next moment, fires, and wakes both
//! workers, which make the calls. No call of the package takes a lock. At the end one cyclic is removed, the workers are told to
//! stop, the three sides come back, and the books have to have just the calls that were made.
//!
//!     cargo run --offline --example workers --manifest-path rust/cyclic/Cargo.toml -- 3

use cyclic::{close, open, Book, FiringSide, Id, Receipt, Refusal, Removal, Soft, SoftSide};
use std::collections::BTreeMap;
use std::error::Error;
use std::sync::atomic::{AtomicBool, AtomicU64, Ordering::SeqCst};
use std::sync::Arc;
use std::thread::{self, JoinHandle};
use std::time::{Duration, Instant};

/// The calls that a worker has made, by cyclic.
type Calls = BTreeMap<Id, u64>;

struct Worker {
    stop: Arc<AtomicBool>,
    thread: JoinHandle<(SoftSide, Calls)>,
}

impl Worker {
    /// Starts the thread of a soft side. It serves until nothing waits, and then sleeps until it is woken.
    fn start(mut side: SoftSide) -> Worker {
        let stop = Arc::new(AtomicBool::new(false));
        let told = stop.clone();
        let thread = thread::spawn(move || {
            let mut calls = Calls::new();
            loop {
                // Loaded before the look: what was raised before the stop is found by it.
                let last = told.load(SeqCst);
                let ran = side.softint(64, |id| *calls.entry(id).or_default() += 1);
                if ran.idle && last {
                    return (side, calls);
                }
                if ran.idle {
                    thread::park();
                }
            }
        });
        Worker { stop, thread }
    }

    /// A wake before the sleep is kept, and the next sleep ends at once.
    fn wake(&self) {
        self.thread.thread().unpark();
    }

    fn finish(self) -> (SoftSide, Calls) {
        self.stop.store(true, SeqCst);
        self.wake();
        self.thread.join().expect("a worker panicked")
    }
}

/// Adds a cyclic of a soft level. Where the CPU's size has doubled, the workers follow when they are woken.
fn add(
    firing: &mut FiringSide,
    workers: &[Worker; 2],
    level: Soft,
    interval: Duration,
    now: Duration,
) -> Result<Id, Refusal> {
    loop {
        match firing.add(level, 0, interval, now) {
            Err(Refusal::Expanding) => {
                workers.iter().for_each(Worker::wake);
                thread::yield_now();
            }
            answer => return answer,
        }
    }
}

/// Removes a cyclic, and waits until the calls that were kept are made.
fn remove(firing: &mut FiringSide, workers: &[Worker; 2], id: Id) -> Result<Receipt, Refusal> {
    if let Removal::Done(receipt) = firing.begin_remove(id)? {
        return Ok(receipt);
    }
    loop {
        workers.iter().for_each(Worker::wake);
        if let Some(receipt) = firing.poll_remove() {
            return Ok(receipt);
        }
        thread::yield_now();
    }
}

/// Adds a cyclic at each of these levels and intervals.
fn add_all(
    firing: &mut FiringSide,
    workers: &[Worker; 2],
    begin: Instant,
) -> Result<Vec<Id>, Refusal> {
    let micros = [
        (Soft::Lock, 500),
        (Soft::Low, 1_000),
        (Soft::Low, 10_000),
        (Soft::Lock, 300),
    ];
    let adds = micros.iter().map(|&(level, micros)| {
        let interval = Duration::from_micros(micros);
        add(firing, workers, level, interval, begin.elapsed())
    });
    adds.collect()
}

/// Whether each book has just the calls that its worker has made, and all others of its expirations were lost.
fn equal(books: &[Book], made: &Calls) -> bool {
    books.iter().all(|book| {
        println!(
            "{:?}: {} expirations, {} calls, {} lost",
            book.level, book.expired, book.done, book.lost
        );
        let calls = made.get(&book.id).copied().unwrap_or(0);
        book.done == calls && book.expired == calls + book.lost && book.pending == 0
    })
}

/// Runs for so long, and answers the high expirations where all sums are equal.
fn run(length: Duration) -> Result<u64, Box<dyn Error>> {
    let (begin, ticks) = (Instant::now(), Arc::new(AtomicU64::new(0)));
    let (mut firing, lock, low) = open(100, u64::MAX)?;
    let workers = [Worker::start(lock), Worker::start(low)];
    let counted = ticks.clone();
    let tick = firing.add_high(0, Duration::from_millis(2), begin.elapsed(), move || {
        counted.fetch_add(1, SeqCst);
    })?;
    let added = add_all(&mut firing, &workers, begin)?;

    while begin.elapsed() < length {
        let fired = firing.fire(begin.elapsed())?;
        workers.iter().for_each(Worker::wake);
        thread::sleep(fired.next.saturating_duration_since(begin.elapsed()));
    }

    let receipt = remove(&mut firing, &workers, added[3])?;
    let expired = firing.totals(tick).ok_or(Refusal::NoCyclic)?.expired;
    let [lock, low] = workers;
    let ((lock, mut made), (low, lows)) = (lock.finish(), low.finish());
    made.extend(lows);
    let books = close(firing, lock, low)?;
    let removed = made.get(&receipt.id).copied().unwrap_or(0);
    if !equal(&books, &made) || books.len() != 3 || receipt.calls() != removed {
        return Err("the sums differ".into());
    }
    if expired != ticks.load(SeqCst) {
        return Err("the ticks differ".into());
    }
    Ok(expired)
}

fn main() -> Result<(), Box<dyn Error>> {
    let seconds = match std::env::args().nth(1) {
        Some(word) => word.parse()?,
        None => 5,
    };
    let expired = run(Duration::from_secs(seconds))?;
    println!("{expired} high expirations: all sums are equal");
    Ok(())
}
