//! The threaded machine as a Rust programmer writes it without proofs: two draining threads for each CPU from the start to the end,
//! which park where nothing waits, and at each advance threads that fire. The buffers between them are the same shared words as
//! the proved ring's, or a locked queue, or a channel of the library.

use crate::words;
use std::cmp::Reverse;
use std::collections::{BinaryHeap, VecDeque};
use std::sync::atomic::{AtomicBool, AtomicU64, Ordering::SeqCst};
use std::sync::mpsc::{self, Receiver, Sender};
use std::sync::{Arc, Mutex};
use std::thread::{self, JoinHandle, Thread};

/// The most calls between two questions whether a draining thread is to stop.
const BUDGET: u32 = 64;

/// The firing side of a soft level.
pub trait Firing: Send + 'static {
    fn raise(&mut self, id: u64);
    /// Whether no call is outstanding.
    fn is_settled(&self) -> bool;
}

/// The draining side of a soft level.
pub trait Draining: Send + 'static {
    /// The id of the call that is to be made next.
    fn in_hand(&mut self) -> Option<u64>;
    fn finish(&mut self);
}

type Ring = words::Ring<1, 9>;

/// The words of a ring, of a CPU with so many cyclics.
struct Words {
    raise_end: words::RaiseEnd<'static, 1, 9>,
    ids: u16,
}

impl Firing for Words {
    fn raise(&mut self, id: u64) {
        self.raise_end.raise(id);
    }

    fn is_settled(&self) -> bool {
        self.raise_end.is_settled(self.ids)
    }
}

impl Draining for words::DrainEnd<'static, 1, 9> {
    fn in_hand(&mut self) -> Option<u64> {
        words::DrainEnd::in_hand(self)
    }

    fn finish(&mut self) {
        words::DrainEnd::finish(self);
    }
}

/// A queue of both sides, and how many calls are done.
struct Sent<Q> {
    queue: Q,
    sent: u64,
    done: Arc<AtomicU64>,
}

impl Firing for Sent<Arc<Mutex<VecDeque<u64>>>> {
    fn raise(&mut self, id: u64) {
        self.queue.lock().expect("no panic").push_back(id);
        self.sent += 1;
    }

    fn is_settled(&self) -> bool {
        self.done.load(SeqCst) == self.sent
    }
}

impl Firing for Sent<Sender<u64>> {
    fn raise(&mut self, id: u64) {
        self.queue.send(id).expect("a receiver");
        self.sent += 1;
    }

    fn is_settled(&self) -> bool {
        self.done.load(SeqCst) == self.sent
    }
}

/// The other end of a queue, and the id whose call is made.
struct Taken<Q> {
    queue: Q,
    hand: Option<u64>,
    done: Arc<AtomicU64>,
}

impl Draining for Taken<Arc<Mutex<VecDeque<u64>>>> {
    fn in_hand(&mut self) -> Option<u64> {
        if self.hand.is_none() {
            self.hand = self.queue.lock().expect("no panic").pop_front();
        }
        self.hand
    }

    fn finish(&mut self) {
        self.hand = None;
        self.done.fetch_add(1, SeqCst);
    }
}

impl Draining for Taken<Receiver<u64>> {
    fn in_hand(&mut self) -> Option<u64> {
        if self.hand.is_none() {
            self.hand = self.queue.try_recv().ok();
        }
        self.hand
    }

    fn finish(&mut self) {
        self.hand = None;
        self.done.fetch_add(1, SeqCst);
    }
}

/// Both sides over shared words, which live until the process ends.
pub fn over_words(ids: u16) -> (impl Firing, impl Draining) {
    let ring: &'static Ring = Box::leak(Box::new(Ring::open()));
    let raise_end = words::RaiseEnd::filled(ring, ids);
    (Words { raise_end, ids }, words::DrainEnd::new(ring))
}

fn both<A, B>(firing: A, draining: B) -> (Sent<A>, Taken<B>) {
    let done = Arc::new(AtomicU64::new(0));
    let taken = Taken {
        queue: draining,
        hand: None,
        done: done.clone(),
    };
    let sent = Sent {
        queue: firing,
        sent: 0,
        done,
    };
    (sent, taken)
}

/// Both sides over a locked queue.
pub fn over_lock(_ids: u16) -> (impl Firing, impl Draining) {
    let queue = Arc::new(Mutex::new(VecDeque::new()));
    both(queue.clone(), queue)
}

/// Both sides over a channel.
pub fn over_channel(_ids: u16) -> (impl Firing, impl Draining) {
    let (sender, receiver) = mpsc::channel::<u64>();
    both(sender, receiver)
}

/// The calls of each id.
struct Tally {
    most: u64,
    counts: Vec<u64>,
}

impl Tally {
    fn new(ids: u16) -> Tally {
        Tally {
            most: u64::MAX,
            counts: vec![0; usize::from(ids)],
        }
    }

    fn call(&mut self, id: u64) {
        let count = &mut self.counts[id as usize - 1];
        assert!(*count < self.most, "the handler refuses no call here");
        *count += 1;
    }

    fn sum(&self) -> u64 {
        self.counts.iter().sum()
    }
}

/// A draining thread: the calls that it made, once it was told to stop and a look after that found nothing.
fn drain(mut side: impl Draining, stop: &AtomicBool, mut calls: Tally) -> u64 {
    loop {
        let told = stop.load(SeqCst);
        let mut made = 0;
        while made < BUDGET
            && let Some(id) = side.in_hand()
        {
            calls.call(id);
            side.finish();
            made += 1;
        }
        if made < BUDGET {
            if told {
                return calls.sum();
            }
            thread::park();
        }
    }
}

/// A soft level, or high level.
#[derive(Clone, Copy, PartialEq, Eq)]
pub enum Level {
    High,
    Low,
}

/// One CPU: its cyclics all of one level, the firing sides of its lock and its low level, and the threads that drain these.
struct Cpu<F> {
    heap: BinaryHeap<Reverse<(u64, u64)>>,
    intervals: Vec<u64>,
    level: Level,
    calls: Tally,
    lock: F,
    low: F,
    drains: [Thread; 2],
}

impl<F: Firing> Cpu<F> {
    /// Makes every expiration that is due, and wakes the draining threads.
    fn fire(&mut self, now: u64) {
        while let Some(mut root) = self.heap.peek_mut() {
            let Reverse((moment, id)) = *root;
            if moment > now {
                break;
            }
            match self.level {
                Level::High => self.calls.call(id),
                Level::Low => self.low.raise(id),
            }
            *root = Reverse((moment + self.intervals[id as usize - 1], id));
        }
        self.wake();
    }

    fn wake(&self) {
        self.drains.iter().for_each(Thread::unpark);
    }

    /// Waits until no call is outstanding at both levels.
    fn settle(&self) {
        while !(self.lock.is_settled() && self.low.is_settled()) {
            self.wake();
            thread::yield_now();
        }
    }
}

/// In which threads the CPUs fire at an advance.
#[derive(Clone, Copy, PartialEq, Eq)]
pub enum Starts {
    /// Each in a new thread, as the program does.
    Each,
    /// All in the thread that leads, one after another.
    None,
}

fn fire_all<F: Firing>(cpus: &mut [Cpu<F>], now: u64, starts: Starts) {
    match starts {
        Starts::Each => thread::scope(|scope| {
            for cpu in cpus {
                scope.spawn(move || cpu.fire(now));
            }
        }),
        Starts::None => cpus.iter_mut().for_each(|cpu| cpu.fire(now)),
    }
}

/// What a machine is to do: so many CPUs, on each as many cyclics as intervals, which begin `apart` nanoseconds after one another,
/// and so many advances, `step` nanoseconds apart.
#[derive(Clone, Copy)]
pub struct Work {
    pub cpus: u64,
    pub cyclics: u16,
    pub level: Level,
    pub apart: u64,
    pub step: u64,
    pub advances: u64,
}

fn start<D: Draining>(side: D, stop: &Arc<AtomicBool>, ids: u16) -> JoinHandle<u64> {
    let stop = stop.clone();
    thread::spawn(move || drain(side, &stop, Tally::new(ids)))
}

/// Runs the machine over such buffers: the calls that were made.
pub fn run<F: Firing, D: Draining>(work: Work, starts: Starts, open: fn(u16) -> (F, D)) -> u64 {
    let stop = Arc::new(AtomicBool::new(false));
    let ids = work.cyclics;
    let mut threads = Vec::new();
    let mut cpus = Vec::new();
    for _ in 0..work.cpus {
        let (lock, lock_side) = open(ids);
        let (low, low_side) = open(ids);
        let own = [start(lock_side, &stop, ids), start(low_side, &stop, ids)];
        cpus.push(Cpu {
            heap: (1..=u64::from(ids))
                .map(|id| Reverse((id * work.apart, id)))
                .collect(),
            intervals: vec![u64::from(ids) * work.apart; usize::from(ids)],
            level: work.level,
            calls: Tally::new(ids),
            lock,
            low,
            drains: [own[0].thread().clone(), own[1].thread().clone()],
        });
        threads.extend(own);
    }
    for advance in 1..=work.advances {
        fire_all(&mut cpus, advance * work.step, starts);
    }
    cpus.iter().for_each(Cpu::settle);
    stop.store(true, SeqCst);
    cpus.iter().for_each(Cpu::wake);
    let drained: u64 = threads
        .into_iter()
        .map(|thread| thread.join().expect("no panic"))
        .sum();
    drained + cpus.iter().map(|cpu| cpu.calls.sum()).sum::<u64>()
}
