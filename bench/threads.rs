//! Times items handed from one thread to another, at most 256 on the way, over a proved ring (`crates/bench_threads`, a program,
//! whose path is the argument), against the same calls in plain Rust over the same words, over those words in the order of their
//! indexes, over words each on a cache line of its own, over a locked queue and over a channel of the library.

#[allow(dead_code)]
mod timing;
#[allow(dead_code)]
mod words;

use std::collections::VecDeque;
use std::hint::spin_loop;
use std::process::Command;
use std::sync::{Mutex, mpsc};
use std::thread;
use std::time::Instant;
use words::{DrainEnd, RaiseEnd, Ring};

const IDS: u16 = 256;
const ITEMS: u64 = 1_000_000;
const ROUNDS: usize = 9;

/// The nanoseconds that the two take at once.
fn at_once(raise: impl FnOnce() + Send, serve: impl FnOnce() -> u64) -> f64 {
    let start = Instant::now();
    thread::scope(|scope| {
        scope.spawn(raise);
        assert_eq!(serve(), ITEMS);
    });
    start.elapsed().as_nanos() as f64
}

fn ring<const APART: usize, const SPREAD: usize>() -> f64 {
    let ring = Ring::<APART, SPREAD>::open();
    let mut raise_end = RaiseEnd::filled(&ring, IDS);
    let mut drain_end = DrainEnd::new(&ring);
    at_once(
        move || raise_end.raise_done(IDS, ITEMS),
        move || drain_end.serve_until(ITEMS),
    )
}

fn locked() -> f64 {
    let queue = Mutex::new(VecDeque::with_capacity(usize::from(IDS)));
    at_once(
        || {
            let mut item = 0;
            while item < ITEMS {
                let mut queue = queue.lock().expect("no panic");
                if queue.len() < usize::from(IDS) {
                    queue.push_back(item);
                    item += 1;
                } else {
                    drop(queue);
                    spin_loop();
                }
            }
        },
        || {
            let mut made = 0;
            while made < ITEMS {
                match queue.lock().expect("no panic").pop_front() {
                    Some(_) => made += 1,
                    None => spin_loop(),
                }
            }
            made
        },
    )
}

fn channel() -> f64 {
    let (sender, receiver) = mpsc::sync_channel(usize::from(IDS));
    at_once(
        move || (0..ITEMS).for_each(|item| sender.send(item).expect("a receiver")),
        move || receiver.iter().count() as u64,
    )
}

/// The program writes the nanoseconds to standard error.
fn proved(program: &str) -> f64 {
    let done = Command::new(program)
        .arg(ITEMS.to_string())
        .output()
        .expect("the program");
    assert_eq!(done.stdout, format!("{ITEMS} calls\n").as_bytes());
    let nanoseconds = String::from_utf8(done.stderr).expect("text");
    nanoseconds.trim().parse().expect("a number")
}

fn main() {
    let program = std::env::args().nth(1).expect("the path of the program");
    let mut times = [const { Vec::new() }; 6];
    for _ in 0..ROUNDS {
        for (times, time) in times.iter_mut().zip([
            ring::<1, 9>(),
            ring::<1, 1>(),
            ring::<8, 1>(),
            locked(),
            channel(),
            proved(&program),
        ]) {
            times.push(time / ITEMS as f64);
        }
    }
    let times = times.map(|mut times| timing::median(&mut times));
    timing::head(
        "An item from one thread to another",
        "Items",
        &[
            "Rust, ns",
            "Rust, words in order, ns",
            "Rust, words apart, ns",
            "`Mutex<VecDeque>`, ns",
            "`sync_channel`, ns",
            "Rattle, ns",
            "Rattle to Rust",
        ],
    );
    timing::row(&ITEMS.to_string(), &times, times[5] / times[0]);
}
