//! Worked runs of one CPU on one thread, with the answers that the subsystem's rules give.

use cyclic::{
    Cpu, FireRefused, Fired, Id, Level, Ran, Receipt, Refusal, Removal, Soft, Totals, NEVER,
};
use std::cell::Cell;
use std::panic::{catch_unwind, AssertUnwindSafe};

/// A CPU with this ceiling, and counts for handlers.
fn cpu<'h>(ceiling: u32) -> Cpu<'h> {
    Cpu::open(ceiling, u64::MAX).unwrap()
}

fn count(cell: &Cell<u64>) -> impl FnMut() + '_ {
    || cell.set(cell.get() + 1)
}

#[track_caller]
fn fired(cpu: &mut Cpu, now: i64, expired: u64, lost: u64) {
    let answer = cpu.fire(now).unwrap();
    assert_eq!((answer.expired, answer.lost), (expired, lost));
    assert_eq!(answer.next, cpu.next());
}

#[track_caller]
fn ran(cpu: &mut Cpu, level: Soft, budget: u32, calls: u32, idle: bool) {
    assert_eq!(cpu.softint(level, budget), Ran { calls, idle });
}

#[track_caller]
fn report(cpu: &mut Cpu, id: Id, expired: u64, lost: u64, pending: u32) {
    let totals = Totals {
        expired,
        lost,
        pending,
    };
    assert_eq!(cpu.totals(id), Some(totals));
    assert_eq!(cpu.pending(id), Some(pending));
}

#[test]
fn a_high_cyclic_expires_three_times() {
    let calls = Cell::new(0);
    let mut cpu = cpu(u32::MAX);
    let a = cpu.add(Level::High, 0, 10, 0, count(&calls)).unwrap();
    fired(&mut cpu, 35, 3, 0);
    report(&mut cpu, a, 3, 0, 0);
    assert_eq!(calls.get(), 3);
}

#[test]
fn a_low_cyclic_is_called_by_the_soft_interrupt() {
    let calls = Cell::new(0);
    let mut cpu = cpu(u32::MAX);
    let a = cpu.add(Level::Low, 5, 10, 0, count(&calls)).unwrap();
    fired(&mut cpu, 5, 1, 0);
    assert_eq!(calls.get(), 0);
    ran(&mut cpu, Soft::Low, 8, 1, true);
    report(&mut cpu, a, 1, 0, 0);
    assert_eq!(calls.get(), 1);
}

#[test]
fn exactly_a_second_late_is_not_distant() {
    let calls = Cell::new(0);
    let mut cpu = cpu(u32::MAX);
    let a = cpu
        .add(Level::High, 100_000_000, 100_000_000, 0, count(&calls))
        .unwrap();
    fired(&mut cpu, 1_200_000_000, 12, 0);
    report(&mut cpu, a, 12, 0, 0);
    assert_eq!(calls.get(), 12);
}

#[test]
fn more_than_a_second_late_makes_one_expiration() {
    let calls = Cell::new(0);
    let mut cpu = cpu(u32::MAX);
    let a = cpu
        .add(Level::High, 100_000_000, 100_000_000, 0, count(&calls))
        .unwrap();
    fired(&mut cpu, 1_200_000_001, 1, 0);
    fired(&mut cpu, 1_299_999_999, 0, 0);
    fired(&mut cpu, 1_300_000_000, 1, 0);
    report(&mut cpu, a, 2, 0, 0);
    assert_eq!(calls.get(), 2);
}

#[test]
fn a_one_shot_is_set_again_and_to_never() {
    let calls = Cell::new(0);
    let mut cpu = cpu(u32::MAX);
    let a = cpu.add(Level::High, 7, NEVER, 0, count(&calls)).unwrap();
    fired(&mut cpu, 100, 1, 0);
    cpu.reprogram(a, 150).unwrap();
    fired(&mut cpu, 150, 1, 0);
    cpu.reprogram(a, NEVER).unwrap();
    fired(&mut cpu, NEVER - 1, 0, 0);
    report(&mut cpu, a, 2, 0, 0);
    assert_eq!(calls.get(), 2);
}

#[test]
fn what_finds_the_ceiling_is_lost_and_counted() {
    let calls = Cell::new(0);
    let mut cpu = cpu(2);
    let a = cpu.add(Level::Low, 1, 1, 0, count(&calls)).unwrap();
    fired(&mut cpu, 5, 5, 3);
    ran(&mut cpu, Soft::Low, 8, 2, true);
    report(&mut cpu, a, 5, 3, 0);
    assert_eq!(calls.get(), 2);
}

#[test]
fn a_cyclic_in_hand_is_not_put_in_again() {
    let calls = Cell::new(0);
    let mut cpu = cpu(u32::MAX);
    let a = cpu.add(Level::Low, 1, 1, 0, count(&calls)).unwrap();
    fired(&mut cpu, 2, 2, 0);
    ran(&mut cpu, Soft::Low, 1, 1, false);
    fired(&mut cpu, 3, 1, 0);
    ran(&mut cpu, Soft::Low, 8, 2, true);
    report(&mut cpu, a, 3, 0, 0);
    assert_eq!(calls.get(), 3);
}

#[test]
fn the_old_bank_is_drained_first() {
    let (first, second) = (Cell::new(0), Cell::new(0));
    let mut cpu = cpu(u32::MAX);
    let a = cpu.add(Level::Low, 1, 10, 0, count(&first)).unwrap();
    fired(&mut cpu, 1, 1, 0);
    let b = cpu.add(Level::Low, 2, 10, 1, count(&second)).unwrap();
    fired(&mut cpu, 2, 1, 0);
    ran(&mut cpu, Soft::Low, 1, 1, false);
    report(&mut cpu, a, 1, 0, 0);
    report(&mut cpu, b, 1, 0, 1);
    assert_eq!((first.get(), second.get()), (1, 0));
}

#[test]
fn an_add_waits_until_both_levels_have_followed() {
    let mut cpu = cpu(u32::MAX);
    cpu.add(Level::Low, 1, 10, 0, || {}).unwrap();
    cpu.add(Level::Low, 2, 10, 0, || {}).unwrap();
    assert_eq!(
        cpu.add(Level::Low, 3, 10, 0, || {}),
        Err(Refusal::Expanding)
    );
    ran(&mut cpu, Soft::Low, 8, 0, true);
    assert_eq!(
        cpu.add(Level::Low, 3, 10, 0, || {}),
        Err(Refusal::Expanding)
    );
    ran(&mut cpu, Soft::Lock, 8, 0, true);
    let e = cpu.add(Level::Low, 3, 10, 0, || {}).unwrap();
    report(&mut cpu, e, 0, 0, 0);
}

#[test]
fn a_removal_waits_for_the_calls_that_are_kept() {
    let calls = Cell::new(0);
    let mut cpu = cpu(u32::MAX);
    let a = cpu.add(Level::Low, 1, 1, 0, count(&calls)).unwrap();
    fired(&mut cpu, 3, 3, 0);
    assert_eq!(cpu.begin_remove(a), Ok(Removal::Kept(3)));
    fired(&mut cpu, 9, 0, 0);
    assert_eq!(cpu.begin_remove(a), Err(Refusal::Busy(a)));
    ran(&mut cpu, Soft::Low, 2, 2, false);
    assert_eq!(cpu.poll_remove(), None);
    ran(&mut cpu, Soft::Low, 8, 1, true);
    let receipt = Receipt {
        id: a,
        expired: 3,
        lost: 0,
    };
    assert_eq!(cpu.poll_remove(), Some(receipt));
    assert_eq!(receipt.calls(), 3);
    assert_eq!(cpu.begin_remove(a), Err(Refusal::NoCyclic));
    assert_eq!(cpu.totals(a), None);
    assert_eq!(calls.get(), 3);
}

#[test]
fn a_removal_at_high_level_answers_at_once() {
    let calls = Cell::new(0);
    let mut cpu = cpu(u32::MAX);
    let a = cpu.add(Level::High, 0, 10, 0, count(&calls)).unwrap();
    fired(&mut cpu, 20, 2, 0);
    let receipt = Receipt {
        id: a,
        expired: 2,
        lost: 0,
    };
    assert_eq!(cpu.begin_remove(a), Ok(Removal::Done(receipt)));
    assert_eq!(cpu.begin_remove(a), Err(Refusal::NoCyclic));
    assert_eq!(calls.get(), 2);
}

#[track_caller]
fn refused(cpu: &mut Cpu, now: i64) {
    let suspended = FireRefused {
        why: Refusal::Suspended,
        expired: 0,
        lost: 0,
    };
    assert_eq!(cpu.fire(now), Err(suspended));
}

#[test]
fn a_suspended_cpu_makes_no_fire() {
    let (high, low) = (Cell::new(0), Cell::new(0));
    let mut cpu = cpu(u32::MAX);
    let a = cpu.add(Level::High, 10, 10, 0, count(&high)).unwrap();
    ran(&mut cpu, Soft::Low, 8, 0, true);
    ran(&mut cpu, Soft::Lock, 8, 0, true);
    let b = cpu.add(Level::Low, 10, 10, 0, count(&low)).unwrap();
    fired(&mut cpu, 15, 2, 0);
    cpu.suspend();
    cpu.suspend();
    refused(&mut cpu, 35);
    refused(&mut cpu, NEVER);
    assert_eq!(cpu.fire(-1).unwrap_err().why, Refusal::BadWhen);
    report(&mut cpu, a, 1, 0, 0);
    // All else goes on.
    ran(&mut cpu, Soft::Low, 8, 1, true);
    ran(&mut cpu, Soft::Lock, 8, 0, true);
    let c = cpu.add(Level::High, 25, 25, 15, count(&high)).unwrap();
    cpu.reprogram(c, 27).unwrap();
    assert!(matches!(cpu.begin_remove(b), Ok(Removal::Done(_))));
    assert_eq!(cpu.next(), 20);
    refused(&mut cpu, 35);
    cpu.resume();
    cpu.resume();
    fired(&mut cpu, 36, 3, 0);
    assert_eq!((high.get(), low.get()), (4, 1));
    assert_eq!(cpu.next(), 40);
}

#[test]
fn a_cyclic_that_slept_for_more_than_a_second_expires_once() {
    let calls = Cell::new(0);
    let mut cpu = cpu(u32::MAX);
    cpu.add(Level::High, 100_000_000, 100_000_000, 0, count(&calls))
        .unwrap();
    cpu.suspend();
    refused(&mut cpu, 1_200_000_001);
    cpu.resume();
    fired(&mut cpu, 1_200_000_001, 1, 0);
    assert_eq!(calls.get(), 1);
}

#[test]
fn what_was_handed_out_is_counted_after_the_resume() {
    let calls = Cell::new(0);
    let mut cpu = cpu(u32::MAX);
    let count_and_panic = || {
        calls.set(calls.get() + 1);
        assert!(calls.get() != 1, "the first call panics");
    };
    let a = cpu.add(Level::High, 10, 10, 0, count_and_panic).unwrap();
    assert!(catch_unwind(AssertUnwindSafe(|| cpu.fire(25))).is_err());
    report(&mut cpu, a, 0, 0, 0);
    cpu.suspend();
    refused(&mut cpu, 25);
    refused(&mut cpu, 26);
    report(&mut cpu, a, 0, 0, 0);
    cpu.resume();
    // The call at 10 was made, and only the one at 20 is made now.
    fired(&mut cpu, 27, 2, 0);
    report(&mut cpu, a, 2, 0, 0);
    assert_eq!(calls.get(), 2);
}

#[test]
fn the_other_refusals() {
    assert_eq!(Cpu::open(0, 1).err(), Some(Refusal::Misused));
    assert_eq!(Cpu::open(1, 0).err(), Some(Refusal::Misused));
    let mut cpu = Cpu::open(1, 3).unwrap();
    assert_eq!(cpu.add(Level::High, -1, 1, 0, || {}), Err(Refusal::BadWhen));
    assert_eq!(
        cpu.add(Level::High, 0, 0, 0, || {}),
        Err(Refusal::BadInterval)
    );
    assert_eq!(
        cpu.add(Level::High, 0, 1, NEVER, || {}),
        Err(Refusal::BadNow)
    );
    let a = cpu.add(Level::High, 1, 1, 0, || {}).unwrap();
    let spent = |expired| {
        Err(FireRefused {
            why: Refusal::CountSpent(a),
            expired,
            lost: 0,
        })
    };
    assert_eq!(cpu.fire(5), spent(3));
    assert_eq!(cpu.fire(5), spent(0));
    let never: Result<Fired, _> = cpu.fire(NEVER);
    assert_eq!(never.unwrap_err().why, Refusal::BadNow);
    assert_eq!(cpu.reprogram(a, -1), Err(Refusal::BadWhen));
}
