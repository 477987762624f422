//! The closing of a CPU between three threads.

use crate::refusals::{done, Refusal};
use crate::sides::{FiringSide, SoftSide};
use crate::sys;
use crate::values::{Book, Id, Soft, CYCLICS};
use alloc::boxed::Box;
use alloc::sync::Arc;
use alloc::vec::Vec;
use core::fmt;

/// A close that was refused, with the sides, which are as they were: it may be tried again. `?` hands it on as itself, as a boxed
/// error, or as the [`Refusal`] alone, which drops the sides.
///
/// ```
/// use cyclic::{close, open, CloseRefused, Refusal};
///
/// let (firing, lock, low) = open(100, u64::MAX)?;
/// let (_, other, _) = open(100, u64::MAX)?;
/// let refused = close(firing, other, low).unwrap_err();
/// assert_eq!(refused.why, Refusal::Misused);
/// assert!(refused.to_string().starts_with("the CPU is not closed: "));
///
/// let CloseRefused { firing, low, .. } = *refused;
/// assert_eq!(close(firing, lock, low)?, []);
/// # Ok::<(), Refusal>(())
/// ```
pub struct CloseRefused {
    /// Why it was refused.
    pub why: Refusal,
    /// The firing side that was given.
    pub firing: FiringSide,
    /// What was given as the soft side of the lock level.
    pub lock: SoftSide,
    /// What was given as the soft side of the low level.
    pub low: SoftSide,
}

impl fmt::Debug for CloseRefused {
    fn fmt(&self, f: &mut fmt::Formatter<'_>) -> fmt::Result {
        let mut shown = f.debug_struct("CloseRefused");
        shown.field("why", &self.why).finish_non_exhaustive()
    }
}

impl fmt::Display for CloseRefused {
    fn fmt(&self, f: &mut fmt::Formatter<'_>) -> fmt::Result {
        write!(f, "the CPU is not closed: {}", self.why)
    }
}

#[cfg(feature = "std")]
impl std::error::Error for CloseRefused {}

impl From<Box<CloseRefused>> for Refusal {
    fn from(refused: Box<CloseRefused>) -> Refusal {
        refused.why
    }
}

/// Closes a CPU whose three sides come back, also where calls are outstanding, and gives the book of each cyclic of a soft level.
/// Refuses Misused where the sides are not of one open, or not in their places, and Memory where there is none for the books; then
/// it gives the sides back.
///
/// ```
/// use cyclic::{close, open, Soft};
///
/// let (mut firing, lock, mut low) = open(100, u64::MAX)?;
/// firing.add(Soft::Low, 10, 10, 0)?;
/// firing.fire(50)?;
/// low.softint(2, |_| ());
/// for book in close(firing, lock, low)? {
///     assert_eq!((book.expired, book.done, book.pending, book.lost), (5, 2, 3, 0));
/// }
/// # Ok::<(), cyclic::Refusal>(())
/// ```
pub fn close(
    firing: FiringSide,
    lock: SoftSide,
    low: SoftSide,
) -> Result<Vec<Book>, Box<CloseRefused>> {
    let mut books = sys::Handle::CLOSED;
    match closed(&firing, &lock, &low, &mut books) {
        Ok(()) => Ok(read(books)),
        Err(why) => Err(Box::new(CloseRefused {
            why,
            firing,
            lock,
            low,
        })),
    }
}

/// Opens the books, where the three are of one open.
fn closed(
    firing: &FiringSide,
    lock: &SoftSide,
    low: &SoftSide,
    books: &mut sys::Handle,
) -> Result<(), Refusal> {
    let one = Arc::ptr_eq(&firing.origin, &lock.origin) && Arc::ptr_eq(&firing.origin, &low.origin);
    if !one || lock.level != Soft::Lock || low.level != Soft::Low {
        return Err(Refusal::Misused);
    }
    let (lock, low) = (lock.owned.0.raw(), low.owned.0.raw());
    done(
        unsafe { sys::cyclic_close(firing.owned.0.raw(), lock, low, books) },
        0,
    )
}

/// All that stands in the books, which are closed then.
fn read(mut books: sys::Handle) -> Vec<Book> {
    let mut all = Vec::new();
    for level in [Soft::Lock, Soft::Low] {
        for index in 0..CYCLICS {
            let mut book = sys::Book::default();
            unsafe { sys::cyclic_book(&mut books, level.number(), index, &mut book) };
            if book.id != 0 {
                all.push(Book {
                    id: Id(book.id),
                    level,
                    expired: book.expired,
                    done: book.done,
                    lost: book.lost,
                    pending: book.pending,
                    removed: book.removed,
                });
            }
        }
    }
    unsafe { sys::cyclic_books_close(&mut books) };
    all
}
