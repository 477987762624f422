//! The proved cyclic subsystem for Rust: interval timers of one CPU, as in the illumos kernel.
//!
//! ```
//! use cyclic::{Cpu, Level, Soft};
//! use std::cell::Cell;
//!
//! let ticks = Cell::new(0);
//! let mut cpu = Cpu::open(100, u64::MAX)?;
//! cpu.add(Level::Low, 10, 10, 0, || ticks.set(ticks.get() + 1))?;
//! let fired = cpu.fire(35)?;
//! assert_eq!(fired.expired, 3);
//! assert_eq!(fired.next, 40);
//! assert!(cpu.softint(Soft::Low, 8).idle);
//! assert_eq!(ticks.get(), 3);
//! # Ok::<(), cyclic::Refusal>(())
//! ```
//!
//! # What may go to another thread
//!
//! | | Send | Sync | Why |
//! |--|--|--|--|
//! | [`Cpu`] | no | no | its handlers may use what its thread alone has |
//! | [`FiringSide`], [`SoftSide`], and [`CloseRefused`] with them | yes | no | one thread at a time is in the calls of a side; those of different sides run side by side |
//! | all other values and refusals | yes | yes | they are numbers |
//!
//! ```
//! # fn sends<T: Send>() {}
//! # fn shares<T: Sync>() {}
//! sends::<(cyclic::FiringSide, cyclic::SoftSide, cyclic::CloseRefused)>();
//! sends::<(cyclic::Refusal, cyclic::FireRefused, cyclic::Fired, cyclic::Ran, cyclic::Totals)>();
//! shares::<(cyclic::Refusal, cyclic::FireRefused, cyclic::Fired, cyclic::Ran, cyclic::Totals)>();
//! sends::<(cyclic::Receipt, cyclic::Removal, cyclic::Book, cyclic::Id, cyclic::Level, cyclic::Soft)>();
//! shares::<(cyclic::Receipt, cyclic::Removal, cyclic::Book, cyclic::Id, cyclic::Level, cyclic::Soft)>();
//! sends::<(cyclic::Moment, cyclic::Interval)>();
//! shares::<(cyclic::Moment, cyclic::Interval)>();
//! ```
//!
//! ```compile_fail,E0277
//! # fn sends<T: Send>() {}
//! sends::<cyclic::Cpu<'static>>();
//! ```
//!
//! ```compile_fail,E0277
//! # fn shares<T: Sync>() {}
//! shares::<cyclic::Cpu<'static>>();
//! ```
//!
//! ```compile_fail,E0277
//! # fn shares<T: Sync>() {}
//! shares::<cyclic::FiringSide>();
//! ```
//!
//! ```compile_fail,E0277
//! # fn shares<T: Sync>() {}
//! shares::<cyclic::SoftSide>();
//! ```
//!
//! ```compile_fail,E0277
//! # fn shares<T: Sync>() {}
//! shares::<cyclic::CloseRefused>();
//! ```
//!
//! # Without the standard library
//!
//! With `default-features = false` the package needs `core` and `alloc` alone, and the program's `malloc`, `realloc` and `free`.
//! The refusals have their texts there too, but are no `std::error::Error`.

#![no_std]
#![warn(missing_docs)]

extern crate alloc;
#[cfg(feature = "std")]
extern crate std;

mod closing;
mod cpu;
mod handle;
mod moments;
mod refusals;
mod sides;
mod sys;
mod values;

pub use closing::{close, CloseRefused};
pub use cpu::Cpu;
pub use moments::{Interval, Moment, NEVER};
pub use refusals::{FireRefused, Refusal};
pub use sides::{open, FiringSide, SoftSide};
pub use values::{Book, Fired, Id, Level, Ran, Receipt, Removal, Soft, Totals};

/// The version of the proved library that is linked: major, minor and patch. It is this package's own where the two belong together.
///
/// ```
/// let (major, minor, patch) = cyclic::version();
/// assert_eq!(format!("{}.{}.{}", major, minor, patch), env!("CARGO_PKG_VERSION"));
/// ```
pub fn version() -> (u32, u32, u32) {
    let number = unsafe { sys::cyclic_version() };
    (number / 1_000_000, number / 1_000 % 1_000, number % 1_000)
}
