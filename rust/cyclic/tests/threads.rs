//! A CPU between threads.

use cyclic::{close, open, Book, CloseRefused, Ran, Refusal, Soft};
use std::sync::atomic::{AtomicBool, Ordering::SeqCst};
use std::sync::mpsc;
use std::thread;

/// The old bank is drained first: the firing side in one thread, the low side in another.
#[test]
fn the_old_bank_is_drained_first() {
    let (mut firing, lock, mut low) = open(u32::MAX, u64::MAX).unwrap();
    let a = firing.add(Soft::Low, 1, 10, 0).unwrap();
    assert_eq!(firing.fire(1).unwrap().expired, 1);
    let b = firing.add(Soft::Low, 2, 10, 1).unwrap();
    assert_eq!(firing.fire(2).unwrap().expired, 1);
    let served = thread::spawn(move || {
        let mut called = Vec::new();
        let ran = low.softint(1, |id| called.push(id));
        (low, ran, called)
    });
    let (low, ran, called) = served.join().unwrap();
    assert_eq!(called, [a]);
    assert_eq!(
        ran,
        Ran {
            calls: 1,
            idle: false
        }
    );
    let book = |id, done, pending| Book {
        id,
        level: Soft::Low,
        expired: 1,
        done,
        lost: 0,
        pending,
        removed: false,
    };
    assert_eq!(
        close(firing, lock, low).map_err(Refusal::from),
        Ok(vec![book(a, 1, 0), book(b, 0, 1)])
    );
}

#[test]
fn the_sums_of_three_threads_are_exact() {
    static STOP: AtomicBool = AtomicBool::new(false);
    let (mut firing, lock, low) = open(100, u64::MAX).unwrap();
    let (sender, highs) = mpsc::channel();
    firing
        .add_high(1, 1, 0, move || sender.send(()).unwrap())
        .unwrap();
    let drain = |mut side: cyclic::SoftSide| {
        thread::spawn(move || {
            let mut calls = 0u64;
            loop {
                let last = STOP.load(SeqCst);
                let ran = side.softint(1000, |_| ());
                calls += u64::from(ran.calls);
                if last && ran.idle {
                    return (side, calls);
                }
            }
        })
    };
    let (lock, low) = (drain(lock), drain(low));
    for level in [Soft::Lock, Soft::Low, Soft::Lock] {
        while let Err(refusal) = firing.add(level, 1, 1, 0) {
            assert_eq!(refusal, Refusal::Expanding);
        }
    }
    for now in 1..=50_000 {
        assert_eq!(firing.fire(now).unwrap().expired, 4);
    }
    STOP.store(true, SeqCst);
    let ((lock, lock_calls), (low, low_calls)) = (lock.join().unwrap(), low.join().unwrap());
    let books = close(firing, lock, low).unwrap();
    assert_eq!(highs.iter().count(), 50_000);
    let done = |level| -> u64 {
        let of = books.iter().filter(|book| book.level == level);
        of.map(|book| book.done).sum()
    };
    assert_eq!((done(Soft::Lock), done(Soft::Low)), (lock_calls, low_calls));
    for book in &books {
        assert_eq!(book.expired, 50_000);
        assert_eq!((book.done + book.lost, book.pending), (50_000, 0));
    }
}

/// While the firing side is suspended the others go on, and what it missed comes after the resume.
#[test]
fn the_soft_sides_go_on_while_the_cpu_is_suspended() {
    let (mut firing, lock, mut low) = open(u32::MAX, u64::MAX).unwrap();
    let a = firing.add(Soft::Low, 10, 10, 0).unwrap();
    assert_eq!(firing.fire(25).unwrap().expired, 2);
    firing.suspend();
    let served = thread::spawn(move || {
        let calls = low.softint(8, |_| ()).calls;
        (low, calls)
    });
    let refused = firing.fire(45).unwrap_err();
    assert_eq!((refused.why, refused.expired), (Refusal::Suspended, 0));
    let (low, calls) = served.join().unwrap();
    assert_eq!(calls, 2);
    firing.resume();
    assert_eq!(firing.fire(46).unwrap().expired, 2);
    assert_eq!(firing.pending(a), Some(2));
    let books = close(firing, lock, low).unwrap();
    assert_eq!((books[0].expired, books[0].done, books[0].pending), (4, 2, 2));
}

#[test]
fn sides_of_two_opens_are_refused() {
    let (first, lock, low) = open(1, 1).unwrap();
    let (second, other, _) = open(1, 1).unwrap();
    let refused = close(first, other, low).unwrap_err();
    assert_eq!(refused.why, Refusal::Misused);
    // The sides come back, and may be closed with their own.
    let CloseRefused {
        firing,
        lock: other,
        low,
        ..
    } = *refused;
    assert_eq!(close(firing, lock, low).unwrap(), []);
    drop((second, other));
}
