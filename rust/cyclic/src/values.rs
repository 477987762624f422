//! What goes into the calls and comes out of them.

use crate::moments::Moment;
use crate::refusals::{done, FireRefused};
use crate::sys;

/// The greatest number of a cyclic.
pub(crate) const LAST_ID: u64 = (1 << 52) - 1;

/// The cyclics that a CPU can hold, each at an index below this.
pub(crate) const CYCLICS: u32 = 4096;

/// What a part of a fire answers that has stopped in front of a high handler.
const HANDLER_REFUSED: u32 = 12;

/// The number of a cyclic. No CPU gives one twice, and each gives its own: it names nothing, or another cyclic, on another CPU.
///
/// ```
/// use cyclic::{Cpu, Id, Level};
///
/// let mut cpu = Cpu::open(100, u64::MAX)?;
/// let first: Id = cpu.add(Level::High, 1, 1, 0, || ())?;
/// cpu.begin_remove(first)?;
/// let second = cpu.add(Level::High, 1, 1, 0, || ())?;
/// assert!(second > first);
/// # Ok::<(), cyclic::Refusal>(())
/// ```
#[derive(Clone, Copy, Debug, PartialEq, Eq, PartialOrd, Ord, Hash)]
pub struct Id(pub(crate) u64);

impl Id {
    /// The number, from 1 on.
    ///
    /// ```
    /// use cyclic::{Cpu, Level};
    ///
    /// let mut cpu = Cpu::open(100, u64::MAX)?;
    /// assert_eq!(cpu.add(Level::High, 1, 1, 0, || ())?.number(), 1);
    /// # Ok::<(), cyclic::Refusal>(())
    /// ```
    pub fn number(self) -> u64 {
        self.0
    }
}

/// The level at which a handler is called.
///
/// ```
/// use cyclic::{Cpu, Level, Soft};
/// use std::cell::Cell;
///
/// let (high, low) = (Cell::new(0), Cell::new(0));
/// let mut cpu = Cpu::open(100, u64::MAX)?;
/// cpu.add(Level::High, 1, 1, 0, || high.set(high.get() + 1))?;
/// cpu.add(Level::Low, 1, 1, 0, || low.set(low.get() + 1))?;
/// cpu.fire(3)?;
/// assert_eq!((high.get(), low.get()), (3, 0));
/// cpu.softint(Soft::Low, 8);
/// assert_eq!((high.get(), low.get()), (3, 3));
/// # Ok::<(), cyclic::Refusal>(())
/// ```
#[derive(Clone, Copy, Debug, PartialEq, Eq)]
pub enum Level {
    /// By the soft interrupt of the low level.
    Low,
    /// By the soft interrupt of the lock level.
    Lock,
    /// In the fire, as it expires.
    High,
}

/// A level that has a soft interrupt.
///
/// ```
/// use cyclic::{open, Soft};
///
/// let (_, lock, low) = open(100, u64::MAX)?;
/// assert_eq!((lock.level(), low.level()), (Soft::Lock, Soft::Low));
/// # Ok::<(), cyclic::Refusal>(())
/// ```
#[derive(Clone, Copy, Debug, PartialEq, Eq)]
pub enum Soft {
    /// The low level.
    Low,
    /// The lock level.
    Lock,
}

impl Level {
    pub(crate) fn number(self) -> u32 {
        match self {
            Level::Low => 0,
            Level::Lock => 1,
            Level::High => 2,
        }
    }
}

impl Soft {
    pub(crate) fn number(self) -> u32 {
        match self {
            Soft::Low => 0,
            Soft::Lock => 1,
        }
    }
}

/// A whole fire of a side: each part goes up to the next high cyclic, whose handler is then called.
pub(crate) fn whole_fire<S>(
    side: &mut S,
    part: impl Fn(&mut S, &mut sys::Fired) -> u32,
    call: impl Fn(&mut S, u64),
) -> Result<Fired, FireRefused> {
    let (mut expired, mut lost) = (0, 0);
    loop {
        let mut fired = sys::Fired::default();
        let answer = part(side, &mut fired);
        expired += fired.expired;
        lost += fired.lost;
        if answer == HANDLER_REFUSED {
            call(side, fired.id);
            continue;
        }
        return match done(answer, fired.id) {
            Ok(()) => Ok(Fired {
                expired,
                lost,
                next: fired.next.into(),
            }),
            Err(why) => Err(FireRefused { why, expired, lost }),
        };
    }
}

/// What a fire did.
///
/// ```
/// use cyclic::{Cpu, Fired, Level};
///
/// // With a ceiling of 2 the third call that would be outstanding is lost.
/// let mut cpu = Cpu::open(2, u64::MAX)?;
/// cpu.add(Level::Low, 10, 10, 0, || ())?;
/// assert_eq!(cpu.fire(30)?, Fired { expired: 3, lost: 1, next: 40.into() });
/// # Ok::<(), cyclic::Refusal>(())
/// ```
#[derive(Clone, Copy, Debug, Default, PartialEq, Eq)]
pub struct Fired {
    /// The expirations.
    pub expired: u64,
    /// Those of them that were lost at the ceiling.
    pub lost: u64,
    /// The least expiration from now on, never where there is none: the moment at which to fire next.
    pub next: Moment,
}

/// What a soft interrupt did.
///
/// ```
/// use cyclic::{Cpu, Level, Ran, Soft};
///
/// let mut cpu = Cpu::open(100, u64::MAX)?;
/// cpu.add(Level::Low, 1, 1, 0, || ())?;
/// cpu.fire(3)?;
/// assert_eq!(cpu.softint(Soft::Low, 2), Ran { calls: 2, idle: false });
/// assert_eq!(cpu.softint(Soft::Low, 2), Ran { calls: 1, idle: true });
/// # Ok::<(), cyclic::Refusal>(())
/// ```
#[derive(Clone, Copy, Debug, PartialEq, Eq)]
pub struct Ran {
    /// The handler calls that it made.
    pub calls: u32,
    /// Whether it stopped because no call waits; else it has used its budget.
    pub idle: bool,
}

/// The counts of a cyclic.
///
/// ```
/// use cyclic::{Cpu, Level, Totals};
///
/// let mut cpu = Cpu::open(2, u64::MAX)?;
/// let id = cpu.add(Level::Low, 1, 1, 0, || ())?;
/// cpu.fire(5)?;
/// assert_eq!(cpu.totals(id), Some(Totals { expired: 5, lost: 3, pending: 2 }));
/// # Ok::<(), cyclic::Refusal>(())
/// ```
#[derive(Clone, Copy, Debug, PartialEq, Eq)]
pub struct Totals {
    /// Its expirations.
    pub expired: u64,
    /// Those of them that were lost at the ceiling.
    pub lost: u64,
    /// Its calls that are outstanding.
    pub pending: u32,
}

/// What a removal answers.
///
/// ```
/// use cyclic::{Cpu, Level, Receipt, Removal};
///
/// let mut cpu = Cpu::open(100, u64::MAX)?;
/// let id = cpu.add(Level::High, 10, 10, 0, || ())?;
/// cpu.fire(20)?;
/// assert_eq!(cpu.begin_remove(id)?, Removal::Done(Receipt { id, expired: 2, lost: 0 }));
/// # Ok::<(), cyclic::Refusal>(())
/// ```
#[derive(Clone, Copy, Debug, PartialEq, Eq)]
pub struct Receipt {
    /// The cyclic.
    pub id: Id,
    /// The expirations.
    pub expired: u64,
    /// Those of them that were lost at the ceiling.
    pub lost: u64,
}

impl Receipt {
    /// What the library tells, where it tells of a receipt.
    pub(crate) fn told(raw: &sys::Receipt) -> Option<Receipt> {
        (raw.id != 0).then_some(Receipt {
            id: Id(raw.id),
            expired: raw.expired,
            lost: raw.lost,
        })
    }

    /// The calls that were made.
    ///
    /// ```
    /// use cyclic::{Cpu, Level, Soft};
    ///
    /// let mut cpu = Cpu::open(2, u64::MAX)?;
    /// let id = cpu.add(Level::Low, 1, 1, 0, || ())?;
    /// cpu.fire(5)?;
    /// cpu.begin_remove(id)?;
    /// cpu.softint(Soft::Low, 8);
    /// let receipt = cpu.poll_remove().unwrap();
    /// assert_eq!((receipt.expired, receipt.lost, receipt.calls()), (5, 3, 2));
    /// # Ok::<(), cyclic::Refusal>(())
    /// ```
    pub fn calls(&self) -> u64 {
        self.expired - self.lost
    }
}

/// What the beginning of a removal found.
///
/// ```
/// use cyclic::{Cpu, Level, Removal, Soft};
///
/// let mut cpu = Cpu::open(100, u64::MAX)?;
/// let id = cpu.add(Level::Low, 1, 1, 0, || ())?;
/// cpu.fire(3)?;
/// let receipt = match cpu.begin_remove(id)? {
///     Removal::Done(receipt) => receipt,
///     Removal::Kept(calls) => {
///         assert_eq!(calls, 3);
///         while !cpu.softint(Soft::Low, 16).idle {}
///         cpu.poll_remove().unwrap()
///     }
/// };
/// assert_eq!(receipt.calls(), 3);
/// # Ok::<(), cyclic::Refusal>(())
/// ```
#[derive(Clone, Copy, Debug, PartialEq, Eq)]
pub enum Removal {
    /// No call was outstanding: the cyclic is gone.
    Done(Receipt),
    /// So many calls are outstanding: poll the removal.
    Kept(u32),
}

/// What a closed CPU says of a cyclic of a soft level: its expirations are its calls that are done, those that are outstanding,
/// and those that were lost.
///
/// ```
/// use cyclic::{close, open, Soft};
///
/// let (mut firing, mut lock, low) = open(2, u64::MAX)?;
/// let id = firing.add(Soft::Lock, 1, 1, 0)?;
/// firing.fire(5)?;
/// lock.softint(1, |_| ());
/// let books = close(firing, lock, low)?;
/// let book = books[0];
/// assert_eq!((book.id, book.level, book.removed), (id, Soft::Lock, false));
/// assert_eq!((book.expired, book.done, book.pending, book.lost), (5, 1, 1, 3));
/// # Ok::<(), cyclic::Refusal>(())
/// ```
#[derive(Clone, Copy, Debug, PartialEq, Eq)]
pub struct Book {
    /// The cyclic.
    pub id: Id,
    /// Its level.
    pub level: Soft,
    /// The expirations.
    pub expired: u64,
    /// The calls that are done.
    pub done: u64,
    /// The expirations that were lost at the ceiling.
    pub lost: u64,
    /// The calls that are outstanding.
    pub pending: u32,
    /// Its removal is open.
    pub removed: bool,
}
