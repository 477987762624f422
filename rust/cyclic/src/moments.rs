//! Moments and intervals.

use core::fmt;
use core::time::Duration;

/// The nanoseconds of the moment that is never due. As an interval they make a one-shot.
///
/// ```
/// use cyclic::{Cpu, Level, NEVER};
///
/// let mut cpu = Cpu::open(1, u64::MAX)?;
/// cpu.add(Level::High, 7, NEVER, 0, || ())?;
/// assert_eq!(cpu.fire(100)?.expired, 1);
/// assert_eq!(cpu.next(), NEVER);
/// # Ok::<(), cyclic::Refusal>(())
/// ```
pub const NEVER: i64 = i64::MAX;

/// A moment: nanoseconds from 0 to [`NEVER`], on any clock that never goes back.
///
/// Each call that takes one takes `impl Into<Moment>`: whole nanoseconds as an `i64`, or the [`Duration`] since the clock began,
/// as `Instant::elapsed` gives it. A negative moment is refused by the call that is given it, as `BadWhen`.
///
/// ```
/// use cyclic::Moment;
/// use std::time::Duration;
///
/// assert_eq!(Moment::from(Duration::from_micros(3)), Moment::from(3_000));
/// assert!(Moment::from(3_000) < Moment::NEVER);
/// ```
#[derive(Clone, Copy, Debug, Default, PartialEq, Eq, PartialOrd, Ord, Hash)]
pub struct Moment(i64);

impl Moment {
    /// The moment that is never due.
    ///
    /// ```
    /// let cpu = cyclic::Cpu::open(1, u64::MAX)?;
    /// assert_eq!(cpu.next(), cyclic::Moment::NEVER);
    /// # Ok::<(), cyclic::Refusal>(())
    /// ```
    pub const NEVER: Moment = Moment(NEVER);

    /// Its nanoseconds.
    ///
    /// ```
    /// assert_eq!(cyclic::Moment::from(40).as_nanos(), 40);
    /// ```
    pub const fn as_nanos(self) -> i64 {
        self.0
    }

    /// How long it is from `earlier` to this moment, zero where that has passed: how long to sleep until it. Where it is never,
    /// that is some 292 years.
    ///
    /// ```
    /// use cyclic::Moment;
    /// use std::time::Duration;
    ///
    /// let next = Moment::from(Duration::from_secs(3));
    /// assert_eq!(next.saturating_duration_since(Duration::from_secs(1)), Duration::from_secs(2));
    /// assert_eq!(next.saturating_duration_since(Duration::from_secs(4)), Duration::ZERO);
    /// ```
    pub fn saturating_duration_since(self, earlier: impl Into<Moment>) -> Duration {
        let nanos = self.0.saturating_sub(earlier.into().0);
        Duration::from_nanos(u64::try_from(nanos).unwrap_or(0))
    }
}

/// The least of a duration's nanoseconds and never.
fn nanos_of(duration: Duration) -> i64 {
    i64::try_from(duration.as_nanos()).unwrap_or(NEVER)
}

/// From whole nanoseconds.
impl From<i64> for Moment {
    fn from(nanos: i64) -> Moment {
        Moment(nanos)
    }
}

/// From what has passed since the clock began; never, where its nanoseconds are more.
impl From<Duration> for Moment {
    fn from(since: Duration) -> Moment {
        Moment(nanos_of(since))
    }
}

impl PartialEq<i64> for Moment {
    fn eq(&self, nanos: &i64) -> bool {
        self.0 == *nanos
    }
}

/// Its nanoseconds.
impl fmt::Display for Moment {
    fn fmt(&self, f: &mut fmt::Formatter<'_>) -> fmt::Result {
        self.0.fmt(f)
    }
}

/// The time from one expiration of a cyclic to the next, in nanoseconds.
///
/// An add takes `impl Into<Interval>`: whole nanoseconds as an `i64`, or a [`Duration`]. One below 1 is refused as `BadInterval`.
///
/// ```
/// use cyclic::{Cpu, Interval, Level, Refusal};
/// use std::time::Duration;
///
/// let mut cpu = Cpu::open(1, u64::MAX)?;
/// let id = cpu.add(Level::High, 0, Duration::from_millis(20), 0, || ())?;
/// assert_eq!(cpu.next(), 20_000_000);
/// assert_eq!(Interval::from(Duration::from_micros(3)), Interval::from(3_000));
/// assert_eq!(cpu.add(Level::High, 0, Duration::ZERO, 0, || ()), Err(Refusal::BadInterval));
/// # Ok::<(), Refusal>(())
/// ```
#[derive(Clone, Copy, Debug, PartialEq, Eq, PartialOrd, Ord, Hash)]
pub struct Interval(i64);

impl Interval {
    /// The interval of a one-shot: it expires once, at its start, and again where it is reprogrammed.
    ///
    /// ```
    /// use cyclic::{Cpu, Interval, Level};
    ///
    /// let mut cpu = Cpu::open(1, u64::MAX)?;
    /// let id = cpu.add(Level::High, 7, Interval::NEVER, 0, || ())?;
    /// assert_eq!(cpu.fire(100)?.expired, 1);
    /// cpu.reprogram(id, 150)?;
    /// assert_eq!(cpu.fire(200)?.expired, 1);
    /// # Ok::<(), cyclic::Refusal>(())
    /// ```
    pub const NEVER: Interval = Interval(NEVER);

    /// Its nanoseconds.
    ///
    /// ```
    /// use std::time::Duration;
    ///
    /// assert_eq!(cyclic::Interval::from(Duration::from_micros(3)).as_nanos(), 3_000);
    /// assert_eq!(cyclic::Interval::from(Duration::MAX), cyclic::Interval::NEVER);
    /// ```
    pub const fn as_nanos(self) -> i64 {
        self.0
    }
}

/// From whole nanoseconds.
impl From<i64> for Interval {
    fn from(nanos: i64) -> Interval {
        Interval(nanos)
    }
}

/// From a duration; never, where its nanoseconds are more.
impl From<Duration> for Interval {
    fn from(duration: Duration) -> Interval {
        Interval(nanos_of(duration))
    }
}
