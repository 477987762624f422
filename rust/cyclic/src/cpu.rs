//! A CPU on one thread.

use crate::handle::OpenHandle;
use crate::moments::{Interval, Moment, NEVER};
use crate::refusals::{done, FireRefused, Refusal};
use crate::sys;
use crate::values::{whole_fire, Fired, Id, Level, Ran, Receipt, Removal, Soft, Totals, LAST_ID};
use alloc::boxed::Box;
use alloc::collections::BTreeMap;

type Handler<'h> = Box<dyn FnMut() + 'h>;

/// A CPU that one thread uses, and the handlers of its cyclics. A drop closes it.
///
/// It stays on the thread that opened it, since its handlers may use what is that thread's alone: it is neither Send nor Sync.
/// For several threads there is [`open`](crate::open).
///
/// ```
/// use cyclic::{Cpu, Level};
/// use std::time::{Duration, Instant};
///
/// let begin = Instant::now();
/// let mut cpu = Cpu::open(100, u64::MAX)?;
/// cpu.add(Level::High, 0, Duration::from_millis(2), begin.elapsed(), || println!("tick"))?;
/// for _ in 0..3 {
///     let until = cpu.next().saturating_duration_since(begin.elapsed());
///     std::thread::sleep(until);
///     cpu.fire(begin.elapsed())?;
/// }
/// # Ok::<(), cyclic::Refusal>(())
/// ```
pub struct Cpu<'h> {
    handle: OpenHandle,
    handlers: BTreeMap<u64, Handler<'h>>,
    next_id: u64,
}

// Each call below hands over a handle that is open, as it came from `cyclic_cpu_open` and is closed by the drop alone, and
// references to values that this thread alone uses. That is what cyclic.h asks of a caller.
impl<'h> Cpu<'h> {
    /// Opens a CPU with no cyclic. `ceiling` is the greatest pend of a cyclic at a soft level, and no cyclic expires more than
    /// `most` times; both from 1 on. Takes memory; refuses Misused where one is 0, then Memory.
    ///
    /// ```
    /// use cyclic::{Cpu, Moment, Refusal};
    ///
    /// let cpu = Cpu::open(100, u64::MAX)?;
    /// assert_eq!(cpu.next(), Moment::NEVER);
    /// assert_eq!(Cpu::open(0, u64::MAX).err(), Some(Refusal::Misused));
    /// # Ok::<(), Refusal>(())
    /// ```
    pub fn open(ceiling: u32, most: u64) -> Result<Cpu<'h>, Refusal> {
        let mut raw = sys::Handle::CLOSED;
        done(unsafe { sys::cyclic_cpu_open(ceiling, most, &mut raw) }, 0)?;
        Ok(Cpu {
            handle: OpenHandle::new(raw),
            handlers: BTreeMap::new(),
            next_id: 1,
        })
    }

    /// Adds a cyclic. It expires from `start` on, once each `interval`; a start of 0 stands for the next multiple of the
    /// interval above `now`. Takes memory.
    ///
    /// Refuses IdsSpent, then BadWhen, BadInterval, BadNow, Full, and where the size must double Busy, Expanding and Memory.
    ///
    /// ```
    /// use cyclic::{Cpu, Level};
    /// use std::time::Duration;
    ///
    /// let mut calls = 0;
    /// let mut cpu = Cpu::open(100, u64::MAX)?;
    /// cpu.add(Level::High, 0, 10, 7, || calls += 1)?;
    /// assert_eq!(cpu.next(), 10);
    /// cpu.add(Level::High, Duration::from_nanos(5), Duration::from_secs(1), 7, || ())?;
    /// assert_eq!(cpu.next(), 5);
    /// cpu.fire(30)?;
    /// drop(cpu);
    /// assert_eq!(calls, 3);
    /// # Ok::<(), cyclic::Refusal>(())
    /// ```
    pub fn add(
        &mut self,
        level: Level,
        start: impl Into<Moment>,
        interval: impl Into<Interval>,
        now: impl Into<Moment>,
        handler: impl FnMut() + 'h,
    ) -> Result<Id, Refusal> {
        let id = self.next_id;
        if id > LAST_ID {
            return Err(Refusal::IdsSpent);
        }
        let (start, now) = (start.into().as_nanos(), now.into().as_nanos());
        let interval = interval.into().as_nanos();
        let mut busy = 0;
        let (raw, level) = (self.handle.raw(), level.number());
        let answer = unsafe { sys::cyclic_add(raw, id, level, start, interval, now, &mut busy) };
        done(answer, busy)?;
        self.next_id += 1;
        self.handlers.insert(id, Box::new(handler));
        Ok(Id(id))
    }

    /// Gives the cyclic another next expiration. Refuses BadWhen, then NoCyclic.
    ///
    /// ```
    /// use cyclic::{Cpu, Level, Moment};
    ///
    /// let mut cpu = Cpu::open(100, u64::MAX)?;
    /// let id = cpu.add(Level::High, 10, 10, 0, || ())?;
    /// cpu.reprogram(id, 25)?;
    /// assert_eq!(cpu.next(), 25);
    /// cpu.reprogram(id, Moment::NEVER)?;
    /// assert_eq!(cpu.fire(1_000)?.expired, 0);
    /// # Ok::<(), cyclic::Refusal>(())
    /// ```
    pub fn reprogram(&mut self, id: Id, moment: impl Into<Moment>) -> Result<(), Refusal> {
        let moment = moment.into().as_nanos();
        let answer = unsafe { sys::cyclic_reprogram(self.handle.raw(), id.0, moment) };
        done(answer, 0)
    }

    /// Begins the removal of the cyclic: from now on it never expires. Refuses NoCyclic, then Busy.
    ///
    /// ```
    /// use cyclic::{Cpu, Level, Refusal, Removal};
    ///
    /// let mut cpu = Cpu::open(100, u64::MAX)?;
    /// let id = cpu.add(Level::Low, 10, 10, 0, || ())?;
    /// cpu.fire(20)?;
    /// assert_eq!(cpu.begin_remove(id)?, Removal::Kept(2));
    /// assert_eq!(cpu.begin_remove(id), Err(Refusal::Busy(id)));
    /// assert_eq!(cpu.fire(1_000)?.expired, 0);
    /// # Ok::<(), Refusal>(())
    /// ```
    pub fn begin_remove(&mut self, id: Id) -> Result<Removal, Refusal> {
        let (mut kept, mut busy) = (0, 0);
        let mut receipt = sys::Receipt::default();
        let raw = self.handle.raw();
        let answer =
            unsafe { sys::cyclic_begin_remove(raw, id.0, &mut kept, &mut receipt, &mut busy) };
        done(answer, busy)?;
        match self.answered(&receipt) {
            Some(receipt) => Ok(Removal::Done(receipt)),
            None => Ok(Removal::Kept(kept)),
        }
    }

    /// Ends the open removal where the last of its calls was made. From then on its handler is never called.
    ///
    /// ```
    /// use cyclic::{Cpu, Level, Soft};
    ///
    /// let mut cpu = Cpu::open(100, u64::MAX)?;
    /// let id = cpu.add(Level::Low, 10, 10, 0, || ())?;
    /// cpu.fire(20)?;
    /// cpu.begin_remove(id)?;
    /// assert_eq!(cpu.poll_remove(), None);
    /// cpu.softint(Soft::Low, 8);
    /// assert_eq!(cpu.poll_remove().unwrap().calls(), 2);
    /// # Ok::<(), cyclic::Refusal>(())
    /// ```
    pub fn poll_remove(&mut self) -> Option<Receipt> {
        let mut receipt = sys::Receipt::default();
        unsafe { sys::cyclic_poll_remove(self.handle.raw(), &mut receipt) };
        self.answered(&receipt)
    }

    /// The receipt, where there is one, and its handler is dropped.
    fn answered(&mut self, receipt: &sys::Receipt) -> Option<Receipt> {
        let told = Receipt::told(receipt)?;
        self.handlers.remove(&receipt.id);
        Some(told)
    }

    /// Makes the expirations that are due at `now`, in the order of their moments and ids; the handlers of high cyclics are
    /// called as they expire. Refuses BadWhen, Suspended, BadNow, and CountSpent at an expiration; those before it were made.
    ///
    /// Where a high handler panics, its call is counted as made by the next fire that is not refused at once.
    ///
    /// ```
    /// use cyclic::{Cpu, Level};
    ///
    /// let mut cpu = Cpu::open(100, u64::MAX)?;
    /// cpu.add(Level::High, 10, 10, 0, || ())?;
    /// let fired = cpu.fire(35)?;
    /// assert_eq!((fired.expired, fired.lost), (3, 0));
    /// assert_eq!(fired.next, 40);
    /// # Ok::<(), cyclic::Refusal>(())
    /// ```
    pub fn fire(&mut self, now: impl Into<Moment>) -> Result<Fired, FireRefused> {
        let now = now.into().as_nanos();
        whole_fire(
            self,
            |cpu, part| unsafe { sys::cyclic_fire(cpu.handle.raw(), now, part) },
            Cpu::call,
        )
    }

    /// Suspends the CPU: until [`resume`](Cpu::resume) every fire is refused with Suspended, and changes nothing. All else goes on.
    /// A CPU that is suspended stays so. Refuses nothing, and takes no memory.
    ///
    /// ```
    /// use cyclic::{Cpu, Level, Refusal};
    ///
    /// let mut cpu = Cpu::open(100, u64::MAX)?;
    /// cpu.add(Level::High, 10, 10, 0, || ())?;
    /// cpu.suspend();
    /// assert_eq!(cpu.fire(35).unwrap_err().why, Refusal::Suspended);
    /// cpu.add(Level::High, 20, 20, 0, || ())?;
    /// assert_eq!(cpu.next(), 10);
    /// # Ok::<(), Refusal>(())
    /// ```
    pub fn suspend(&mut self) {
        unsafe { sys::cyclic_suspend(self.handle.raw()) };
    }

    /// Resumes the CPU: the next fire makes all that is due by then, as any fire that comes late. On a CPU that is not suspended it
    /// changes nothing. Refuses nothing, and takes no memory.
    ///
    /// ```
    /// use cyclic::{Cpu, Level};
    ///
    /// let mut cpu = Cpu::open(100, u64::MAX)?;
    /// cpu.add(Level::High, 10, 10, 0, || ())?;
    /// cpu.suspend();
    /// assert!(cpu.fire(35).is_err());
    /// cpu.resume();
    /// assert_eq!(cpu.fire(36)?.expired, 3);
    /// # Ok::<(), cyclic::Refusal>(())
    /// ```
    pub fn resume(&mut self) {
        unsafe { sys::cyclic_resume(self.handle.raw()) };
    }

    /// The soft interrupt of one level: at most `budget` handler calls, until no call waits.
    ///
    /// Where a handler panics, its call is not counted, and is the next one.
    ///
    /// ```
    /// use cyclic::{Cpu, Level, Soft};
    ///
    /// let mut cpu = Cpu::open(100, u64::MAX)?;
    /// cpu.add(Level::Lock, 10, 10, 0, || ())?;
    /// cpu.fire(35)?;
    /// let ran = cpu.softint(Soft::Lock, 8);
    /// assert_eq!((ran.calls, ran.idle), (3, true));
    /// # Ok::<(), cyclic::Refusal>(())
    /// ```
    pub fn softint(&mut self, level: Soft, budget: u32) -> Ran {
        let level = level.number();
        for calls in 0..budget {
            let mut id = 0;
            unsafe { sys::cyclic_take(self.handle.raw(), level, &mut id) };
            if id == 0 {
                return Ran { calls, idle: true };
            }
            self.call(id);
            unsafe { sys::cyclic_finish(self.handle.raw(), level) };
        }
        Ran {
            calls: budget,
            idle: false,
        }
    }

    fn call(&mut self, id: u64) {
        if let Some(handler) = self.handlers.get_mut(&id) {
            handler();
        }
    }

    /// The calls of the cyclic that are outstanding. None where it is not here.
    ///
    /// ```
    /// use cyclic::{Cpu, Level};
    ///
    /// let mut cpu = Cpu::open(100, u64::MAX)?;
    /// let id = cpu.add(Level::Low, 10, 10, 0, || ())?;
    /// cpu.fire(35)?;
    /// assert_eq!(cpu.pending(id), Some(3));
    /// # Ok::<(), cyclic::Refusal>(())
    /// ```
    pub fn pending(&self, id: Id) -> Option<u32> {
        let mut pending = 0;
        match unsafe { sys::cyclic_pending(self.handle.raw(), id.0, &mut pending) } {
            0 => Some(pending),
            _ => None,
        }
    }

    /// The counts of the cyclic. None where it is not here.
    ///
    /// ```
    /// use cyclic::{Cpu, Level};
    ///
    /// let mut cpu = Cpu::open(100, u64::MAX)?;
    /// let id = cpu.add(Level::High, 10, 10, 0, || ())?;
    /// cpu.fire(35)?;
    /// assert_eq!(cpu.totals(id).unwrap().expired, 3);
    /// cpu.begin_remove(id)?;
    /// assert_eq!(cpu.totals(id), None);
    /// # Ok::<(), cyclic::Refusal>(())
    /// ```
    pub fn totals(&self, id: Id) -> Option<Totals> {
        let mut totals = sys::Totals::default();
        match unsafe { sys::cyclic_totals(self.handle.raw(), id.0, &mut totals) } {
            0 => Some(Totals {
                expired: totals.expired,
                lost: totals.lost,
                pending: totals.pending,
            }),
            _ => None,
        }
    }

    /// The least expiration of all cyclics, never where there is none: the moment at which to fire.
    ///
    /// ```
    /// use cyclic::{Cpu, Level};
    ///
    /// let mut cpu = Cpu::open(100, u64::MAX)?;
    /// cpu.add(Level::High, 25, 10, 0, || ())?;
    /// cpu.add(Level::Low, 15, 10, 0, || ())?;
    /// assert_eq!(cpu.next(), 15);
    /// # Ok::<(), cyclic::Refusal>(())
    /// ```
    pub fn next(&self) -> Moment {
        let mut moment = NEVER;
        unsafe { sys::cyclic_next(self.handle.raw(), &mut moment) };
        moment.into()
    }
}

impl Drop for Cpu<'_> {
    fn drop(&mut self) {
        unsafe { sys::cyclic_cpu_close(self.handle.raw()) };
    }
}
