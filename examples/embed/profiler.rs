//! A sampling profiler's tick: a high-level cyclic at 997 Hz takes a sample of what the program does, and a low-level one prints
//! the table each second.
//!
//!     cargo run --offline --example profiler --manifest-path rust/cyclic/Cargo.toml -- 3
//!
//! One thread has the CPU: it sleeps until the next moment, fires, and serves the low level. The other does the work that is
//! sampled, and says by one shared word what it is at.

use cyclic::{Cpu, Level, Soft};
use std::cell::RefCell;
use std::sync::atomic::{AtomicBool, AtomicUsize, Ordering::SeqCst};
use std::thread;
use std::time::{Duration, Instant};

const TASKS: [&str; 3] = ["sorting", "searching", "adding"];
const SECOND: Duration = Duration::from_secs(1);

/// Works until it is told to stop, and keeps in `at` which task it is at.
fn work(at: &AtomicUsize, stop: &AtomicBool) {
    let mut numbers: Vec<u64> = (0..4096).collect();
    let mut seed = 1u64;
    while !stop.load(SeqCst) {
        at.store(0, SeqCst);
        for number in &mut numbers {
            seed = seed.wrapping_mul(6364136223846793005).wrapping_add(1);
            *number = seed >> 33;
        }
        numbers.sort_unstable();
        at.store(1, SeqCst);
        let found = (0..2000u64).filter(|n| numbers.binary_search(&(n * 977)).is_ok());
        seed = seed.wrapping_add(found.count() as u64);
        at.store(2, SeqCst);
        seed = (0..20).fold(seed, |sum, _| {
            numbers.iter().fold(sum, |s, n| s.wrapping_add(*n))
        });
    }
}

/// Fires until `seconds` have passed, and gives the samples that were taken and the tables that were printed.
fn profile(at: &AtomicUsize, seconds: u32) -> Result<(u64, u64), Box<dyn std::error::Error>> {
    let samples = RefCell::new([0u64; TASKS.len()]);
    let tables = RefCell::new(0u64);
    let sample = || samples.borrow_mut()[at.load(SeqCst)] += 1;
    let table = || {
        *tables.borrow_mut() += 1;
        let samples = samples.borrow();
        let all: u64 = samples.iter().sum();
        for (task, count) in TASKS.iter().zip(samples.iter()) {
            println!("{task:>10} {count:6} {:3} %", 100 * count / all.max(1));
        }
        println!();
    };

    let mut cpu = Cpu::open(16, u64::MAX)?;
    let sampler = cpu.add(Level::High, 0, SECOND / 997, 0, sample)?;
    let printer = cpu.add(Level::Low, SECOND, SECOND, 0, table)?;
    let begin = Instant::now();
    loop {
        let now = begin.elapsed();
        if now >= SECOND * seconds + SECOND / 2 {
            break;
        }
        cpu.fire(now)?;
        cpu.softint(Soft::Low, 16);
        thread::sleep(cpu.next().saturating_duration_since(begin.elapsed()));
    }

    let (sampled, printed) = (cpu.totals(sampler).unwrap(), cpu.totals(printer).unwrap());
    let (samples, tables): (u64, u64) = (samples.borrow().iter().sum(), *tables.borrow());
    if sampled.expired != samples || printed.expired != tables + printed.lost {
        return Err("the sums differ".into());
    }
    Ok((samples, tables))
}

fn main() -> Result<(), Box<dyn std::error::Error>> {
    let seconds = match std::env::args().nth(1) {
        Some(word) => word.parse()?,
        None => 5,
    };
    let (at, stop) = (AtomicUsize::new(0), AtomicBool::new(false));
    let (samples, tables) = thread::scope(|scope| {
        scope.spawn(|| work(&at, &stop));
        let profiled = profile(&at, seconds);
        stop.store(true, SeqCst);
        profiled
    })?;
    println!("{samples} samples and {tables} tables: as many as expirations");
    Ok(())
}
