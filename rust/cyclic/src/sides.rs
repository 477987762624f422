//! A CPU between three threads.

use crate::handle::OpenHandle;
use crate::moments::{Interval, Moment, NEVER};
use crate::refusals::{done, FireRefused, Refusal};
use crate::sys;
use crate::values::{whole_fire, Fired, Id, Level, Ran, Receipt, Removal, Soft, Totals, LAST_ID};
use alloc::boxed::Box;
use alloc::collections::BTreeMap;
use alloc::sync::Arc;

/// What the handles of one open have in common: it tells them from those of another.
pub(crate) struct Origin;

/// A handle of one side.
pub(crate) struct Owned(pub(crate) OpenHandle);

// What the library has behind a handle may go to another thread, and the calls on different handles of one open may run side by
// side. Each handle is used by one thread at a time, since it is not Sync.
unsafe impl Send for Owned {}

/// The firing side of a CPU, with the handlers of its high cyclics, which it calls as they expire. A side that is dropped and
/// not closed gives its memory back with the last side of its open.
///
/// It may go to another thread (Send), and is used by one at a time (not Sync).
///
/// ```
/// use cyclic::{open, Soft};
///
/// let (mut firing, _, mut low) = open(100, u64::MAX)?;
/// firing.add(Soft::Low, 10, 10, 0)?;
/// let fires = std::thread::spawn(move || firing.fire(30).map(|fired| fired.expired));
/// assert_eq!(fires.join().unwrap()?, 3);
/// assert_eq!(low.softint(8, |_| ()).calls, 3);
/// # Ok::<(), cyclic::Refusal>(())
/// ```
pub struct FiringSide {
    pub(crate) owned: Owned,
    pub(crate) origin: Arc<Origin>,
    high: BTreeMap<u64, Box<dyn FnMut() + Send>>,
    next_id: u64,
}

/// The soft side of one level. Its handlers are given to its soft interrupt.
///
/// It may go to another thread (Send), and is used by one at a time (not Sync).
///
/// ```
/// use cyclic::{open, Soft};
///
/// let (mut firing, mut lock, _) = open(100, u64::MAX)?;
/// let id = firing.add(Soft::Lock, 10, 10, 0)?;
/// firing.fire(10)?;
/// let serves = std::thread::spawn(move || {
///     let mut called = Vec::new();
///     lock.softint(8, |id| called.push(id));
///     called
/// });
/// assert_eq!(serves.join().unwrap(), [id]);
/// # Ok::<(), cyclic::Refusal>(())
/// ```
pub struct SoftSide {
    pub(crate) owned: Owned,
    pub(crate) origin: Arc<Origin>,
    pub(crate) level: Soft,
}

/// Opens a CPU with no cyclic for three threads: the firing side, and the soft sides of the lock and the low level. As
/// [`Cpu::open`](crate::Cpu::open).
///
/// ```
/// let (firing, lock, low) = cyclic::open(100, u64::MAX)?;
/// assert_eq!(cyclic::open(100, 0).err(), Some(cyclic::Refusal::Misused));
/// # Ok::<(), cyclic::Refusal>(())
/// ```
pub fn open(ceiling: u32, most: u64) -> Result<(FiringSide, SoftSide, SoftSide), Refusal> {
    let mut firing = sys::Handle::CLOSED;
    let mut lock = sys::Handle::CLOSED;
    let mut low = sys::Handle::CLOSED;
    let answer = unsafe { sys::cyclic_open(ceiling, most, &mut firing, &mut lock, &mut low) };
    done(answer, 0)?;
    let origin = Arc::new(Origin);
    let soft = |raw, level| SoftSide {
        owned: Owned(OpenHandle::new(raw)),
        origin: origin.clone(),
        level,
    };
    let (lock, low) = (soft(lock, Soft::Lock), soft(low, Soft::Low));
    Ok((
        FiringSide {
            owned: Owned(OpenHandle::new(firing)),
            origin,
            high: BTreeMap::new(),
            next_id: 1,
        },
        lock,
        low,
    ))
}

impl FiringSide {
    fn raw(&self) -> *mut sys::Handle {
        self.owned.0.raw()
    }

    /// Adds a cyclic of a soft level, whose handler the soft side has. As [`Cpu::add`](crate::Cpu::add).
    ///
    /// ```
    /// use cyclic::{open, Soft};
    /// use std::time::Duration;
    ///
    /// let (mut firing, _, _) = open(100, u64::MAX)?;
    /// firing.add(Soft::Lock, 0, Duration::from_millis(20), Duration::from_millis(3))?;
    /// assert_eq!(firing.next(), 20_000_000);
    /// # Ok::<(), cyclic::Refusal>(())
    /// ```
    pub fn add(
        &mut self,
        level: Soft,
        start: impl Into<Moment>,
        interval: impl Into<Interval>,
        now: impl Into<Moment>,
    ) -> Result<Id, Refusal> {
        self.added(level.number(), start.into(), interval.into(), now.into())
    }

    /// Adds a cyclic at high level, whose handler is called as it expires.
    ///
    /// ```
    /// use std::sync::atomic::{AtomicU32, Ordering::SeqCst};
    ///
    /// static CALLS: AtomicU32 = AtomicU32::new(0);
    /// let (mut firing, _, _) = cyclic::open(100, u64::MAX)?;
    /// firing.add_high(10, 10, 0, || {
    ///     CALLS.fetch_add(1, SeqCst);
    /// })?;
    /// firing.fire(30)?;
    /// assert_eq!(CALLS.load(SeqCst), 3);
    /// # Ok::<(), cyclic::Refusal>(())
    /// ```
    pub fn add_high(
        &mut self,
        start: impl Into<Moment>,
        interval: impl Into<Interval>,
        now: impl Into<Moment>,
        handler: impl FnMut() + Send + 'static,
    ) -> Result<Id, Refusal> {
        let high = Level::High.number();
        let id = self.added(high, start.into(), interval.into(), now.into())?;
        self.high.insert(id.0, Box::new(handler));
        Ok(id)
    }

    fn added(
        &mut self,
        level: u32,
        start: Moment,
        interval: Interval,
        now: Moment,
    ) -> Result<Id, Refusal> {
        let id = self.next_id;
        if id > LAST_ID {
            return Err(Refusal::IdsSpent);
        }
        let (start, interval, now) = (start.as_nanos(), interval.as_nanos(), now.as_nanos());
        let mut busy = 0;
        let raw = self.raw();
        let answer =
            unsafe { sys::cyclic_firing_add(raw, id, level, start, interval, now, &mut busy) };
        done(answer, busy)?;
        self.next_id += 1;
        Ok(Id(id))
    }

    /// As [`Cpu::reprogram`](crate::Cpu::reprogram).
    ///
    /// ```
    /// let (mut firing, _, _) = cyclic::open(100, u64::MAX)?;
    /// let id = firing.add(cyclic::Soft::Low, 10, 10, 0)?;
    /// firing.reprogram(id, 25)?;
    /// assert_eq!(firing.next(), 25);
    /// # Ok::<(), cyclic::Refusal>(())
    /// ```
    pub fn reprogram(&mut self, id: Id, moment: impl Into<Moment>) -> Result<(), Refusal> {
        let moment = moment.into().as_nanos();
        let answer = unsafe { sys::cyclic_firing_reprogram(self.raw(), id.0, moment) };
        done(answer, 0)
    }

    /// As [`Cpu::begin_remove`](crate::Cpu::begin_remove). The calls that are outstanding are those that one load has found.
    ///
    /// ```
    /// use cyclic::{open, Removal, Soft};
    ///
    /// let (mut firing, _, _) = open(100, u64::MAX)?;
    /// let id = firing.add(Soft::Low, 10, 10, 0)?;
    /// firing.fire(20)?;
    /// assert_eq!(firing.begin_remove(id)?, Removal::Kept(2));
    /// # Ok::<(), cyclic::Refusal>(())
    /// ```
    pub fn begin_remove(&mut self, id: Id) -> Result<Removal, Refusal> {
        let (mut kept, mut busy) = (0, 0);
        let mut receipt = sys::Receipt::default();
        let raw = self.raw();
        let answer = unsafe {
            sys::cyclic_firing_begin_remove(raw, id.0, &mut kept, &mut receipt, &mut busy)
        };
        done(answer, busy)?;
        Ok(match self.answered(&receipt) {
            Some(receipt) => Removal::Done(receipt),
            None => Removal::Kept(kept),
        })
    }

    /// As [`Cpu::poll_remove`](crate::Cpu::poll_remove).
    ///
    /// ```
    /// let (mut firing, _, mut low) = cyclic::open(100, u64::MAX)?;
    /// let id = firing.add(cyclic::Soft::Low, 10, 10, 0)?;
    /// firing.fire(20)?;
    /// firing.begin_remove(id)?;
    /// assert_eq!(firing.poll_remove(), None);
    /// low.softint(8, |_| ());
    /// assert_eq!(firing.poll_remove().unwrap().calls(), 2);
    /// # Ok::<(), cyclic::Refusal>(())
    /// ```
    pub fn poll_remove(&mut self) -> Option<Receipt> {
        let mut receipt = sys::Receipt::default();
        unsafe { sys::cyclic_firing_poll_remove(self.raw(), &mut receipt) };
        self.answered(&receipt)
    }

    fn answered(&mut self, receipt: &sys::Receipt) -> Option<Receipt> {
        let told = Receipt::told(receipt)?;
        self.high.remove(&receipt.id);
        Some(told)
    }

    /// As [`Cpu::fire`](crate::Cpu::fire). To wake the threads of the soft sides afterwards is the caller's.
    ///
    /// ```
    /// let (mut firing, _, mut low) = cyclic::open(100, u64::MAX)?;
    /// firing.add(cyclic::Soft::Low, 10, 10, 0)?;
    /// let fired = firing.fire(35)?;
    /// assert_eq!(fired.expired, 3);
    /// assert_eq!(fired.next, 40);
    /// # Ok::<(), cyclic::Refusal>(())
    /// ```
    pub fn fire(&mut self, now: impl Into<Moment>) -> Result<Fired, FireRefused> {
        let now = now.into().as_nanos();
        whole_fire(
            self,
            |side, part| unsafe { sys::cyclic_firing_fire(side.raw(), now, part) },
            |side, id| {
                if let Some(handler) = side.high.get_mut(&id) {
                    handler();
                }
            },
        )
    }

    /// As [`Cpu::suspend`](crate::Cpu::suspend). The soft sides go on.
    ///
    /// ```
    /// let (mut firing, _, mut low) = cyclic::open(100, u64::MAX)?;
    /// firing.add(cyclic::Soft::Low, 10, 10, 0)?;
    /// firing.fire(25)?;
    /// firing.suspend();
    /// assert_eq!(firing.fire(35).unwrap_err().why, cyclic::Refusal::Suspended);
    /// assert_eq!(low.softint(8, |_| ()).calls, 2);
    /// # Ok::<(), cyclic::Refusal>(())
    /// ```
    pub fn suspend(&mut self) {
        unsafe { sys::cyclic_firing_suspend(self.raw()) };
    }

    /// As [`Cpu::resume`](crate::Cpu::resume).
    ///
    /// ```
    /// let (mut firing, _, _) = cyclic::open(100, u64::MAX)?;
    /// firing.add(cyclic::Soft::Low, 10, 10, 0)?;
    /// firing.suspend();
    /// assert!(firing.fire(35).is_err());
    /// firing.resume();
    /// assert_eq!(firing.fire(36)?.expired, 3);
    /// # Ok::<(), cyclic::Refusal>(())
    /// ```
    pub fn resume(&mut self) {
        unsafe { sys::cyclic_firing_resume(self.raw()) };
    }

    /// As [`Cpu::pending`](crate::Cpu::pending): what one load has found.
    ///
    /// ```
    /// let (mut firing, _, _) = cyclic::open(100, u64::MAX)?;
    /// let id = firing.add(cyclic::Soft::Low, 10, 10, 0)?;
    /// firing.fire(35)?;
    /// assert_eq!(firing.pending(id), Some(3));
    /// # Ok::<(), cyclic::Refusal>(())
    /// ```
    pub fn pending(&self, id: Id) -> Option<u32> {
        let mut pending = 0;
        match unsafe { sys::cyclic_firing_pending(self.raw(), id.0, &mut pending) } {
            0 => Some(pending),
            _ => None,
        }
    }

    /// As [`Cpu::totals`](crate::Cpu::totals).
    ///
    /// ```
    /// let (mut firing, _, _) = cyclic::open(2, u64::MAX)?;
    /// let id = firing.add(cyclic::Soft::Low, 10, 10, 0)?;
    /// firing.fire(50)?;
    /// let totals = firing.totals(id).unwrap();
    /// assert_eq!((totals.expired, totals.lost, totals.pending), (5, 3, 2));
    /// # Ok::<(), cyclic::Refusal>(())
    /// ```
    pub fn totals(&self, id: Id) -> Option<Totals> {
        let mut totals = sys::Totals::default();
        match unsafe { sys::cyclic_firing_totals(self.raw(), id.0, &mut totals) } {
            0 => Some(Totals {
                expired: totals.expired,
                lost: totals.lost,
                pending: totals.pending,
            }),
            _ => None,
        }
    }

    /// As [`Cpu::next`](crate::Cpu::next).
    ///
    /// ```
    /// let (mut firing, _, _) = cyclic::open(100, u64::MAX)?;
    /// assert_eq!(firing.next(), cyclic::Moment::NEVER);
    /// firing.add(cyclic::Soft::Low, 25, 10, 0)?;
    /// assert_eq!(firing.next(), 25);
    /// # Ok::<(), cyclic::Refusal>(())
    /// ```
    pub fn next(&self) -> Moment {
        let mut moment = NEVER;
        unsafe { sys::cyclic_firing_next(self.raw(), &mut moment) };
        moment.into()
    }
}

impl SoftSide {
    fn raw(&self) -> *mut sys::Handle {
        self.owned.0.raw()
    }

    /// The cyclic in hand: one whose handler panicked, whose call is the next.
    ///
    /// ```
    /// use std::panic::{catch_unwind, AssertUnwindSafe};
    ///
    /// let (mut firing, _, mut low) = cyclic::open(100, u64::MAX)?;
    /// let id = firing.add(cyclic::Soft::Low, 10, 10, 0)?;
    /// firing.fire(10)?;
    /// assert_eq!(low.hand(), None);
    /// assert!(catch_unwind(AssertUnwindSafe(|| low.softint(8, |_| panic!()))).is_err());
    /// assert_eq!(low.hand(), Some(id));
    /// assert_eq!(low.softint(8, |_| ()).calls, 1);
    /// # Ok::<(), cyclic::Refusal>(())
    /// ```
    pub fn hand(&self) -> Option<Id> {
        let mut id = 0;
        unsafe { sys::cyclic_soft_hand(self.raw(), &mut id) };
        (id != 0).then_some(Id(id))
    }

    /// The level that it serves.
    ///
    /// ```
    /// let (_, lock, _) = cyclic::open(100, u64::MAX)?;
    /// assert_eq!(lock.level(), cyclic::Soft::Lock);
    /// # Ok::<(), cyclic::Refusal>(())
    /// ```
    pub fn level(&self) -> Soft {
        self.level
    }

    /// The soft interrupt: at most `budget` calls of `handler`, which is given the cyclic, until no call waits.
    ///
    /// Where the handler panics, its call is not counted, and is the next one.
    ///
    /// ```
    /// let (mut firing, _, mut low) = cyclic::open(100, u64::MAX)?;
    /// let id = firing.add(cyclic::Soft::Low, 10, 10, 0)?;
    /// firing.fire(35)?;
    /// let ran = low.softint(8, |called| assert_eq!(called, id));
    /// assert_eq!((ran.calls, ran.idle), (3, true));
    /// # Ok::<(), cyclic::Refusal>(())
    /// ```
    pub fn softint(&mut self, budget: u32, mut handler: impl FnMut(Id)) -> Ran {
        for calls in 0..budget {
            let mut id = 0;
            unsafe { sys::cyclic_soft_take(self.raw(), &mut id) };
            if id == 0 {
                return Ran { calls, idle: true };
            }
            handler(Id(id));
            unsafe { sys::cyclic_soft_finish(self.raw()) };
        }
        Ran {
            calls: budget,
            idle: false,
        }
    }
}

// Where the CPU was closed the handle is closed too, and a drop of it does nothing.
impl Drop for FiringSide {
    fn drop(&mut self) {
        unsafe { sys::cyclic_firing_drop(self.raw()) };
    }
}

impl Drop for SoftSide {
    fn drop(&mut self) {
        unsafe { sys::cyclic_soft_drop(self.raw()) };
    }
}
