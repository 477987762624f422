//! Why a call refused.

use crate::values::Id;
use core::fmt;

/// Why a call refused. Where its text says nothing else, a refused call has changed nothing.
///
/// ```
/// use cyclic::{Cpu, Level, Refusal};
///
/// let mut cpu = Cpu::open(100, u64::MAX)?;
/// let refused = cpu.add(Level::Low, 0, 0, 0, || ()).unwrap_err();
/// assert_eq!(refused, Refusal::BadInterval);
/// assert_eq!(refused.to_string(), "the interval is below 1");
///
/// // It is an error, so `?` hands it on.
/// fn open() -> Result<Cpu<'static>, Box<dyn std::error::Error>> {
///     Ok(Cpu::open(0, u64::MAX)?)
/// }
/// assert!(open().is_err());
/// # Ok::<(), Refusal>(())
/// ```
#[derive(Clone, Copy, Debug, PartialEq, Eq)]
pub enum Refusal {
    /// A growth of memory was refused.
    Memory,
    /// A start or a moment is negative.
    BadWhen,
    /// The interval is below 1.
    BadInterval,
    /// The moment of the fire or of the add is [`NEVER`](crate::NEVER).
    BadNow,
    /// The CPU holds 4,096 cyclics.
    Full,
    /// A soft level has not followed the last doubling of the CPU's size: serve both until they are idle.
    Expanding,
    /// The removal of this cyclic is open: poll it until it answers.
    Busy(Id),
    /// There is no such cyclic here, or its removal is open.
    NoCyclic,
    /// Every id was given.
    IdsSpent,
    /// The cyclic has expired as often as it may.
    CountSpent(Id),
    /// The CPU is suspended: [`Cpu::resume`](crate::Cpu::resume) it before it is fired.
    Suspended,
    /// From [`Cpu::open`](crate::Cpu::open) and [`open`](crate::open): the ceiling or the greatest count is 0. From
    /// [`close`](crate::close): the three sides are not of one open, or the lock and the low one changed places. No other call
    /// answers it.
    Misused,
}

impl fmt::Display for Refusal {
    fn fmt(&self, f: &mut fmt::Formatter<'_>) -> fmt::Result {
        match self {
            Refusal::Memory => f.write_str("a growth of memory was refused"),
            Refusal::BadWhen => f.write_str("the start or the moment is negative"),
            Refusal::BadInterval => f.write_str("the interval is below 1"),
            Refusal::BadNow => f.write_str("the moment is never"),
            Refusal::Full => f.write_str("the CPU holds 4,096 cyclics"),
            Refusal::Expanding => f.write_str("a soft level has not followed the last doubling"),
            Refusal::Busy(id) => write!(f, "the removal of cyclic {} is open", id.0),
            Refusal::NoCyclic => f.write_str("there is no such cyclic"),
            Refusal::IdsSpent => f.write_str("every id was given"),
            Refusal::CountSpent(id) => write!(f, "cyclic {} has expired as often as it may", id.0),
            Refusal::Suspended => f.write_str("the CPU is suspended"),
            Refusal::Misused => f.write_str(
                "the ceiling or the greatest count is 0, or the sides are not of one open",
            ),
        }
    }
}

/// A fire that was refused, with what it did before. `?` hands it on as itself, as a boxed error, or as the [`Refusal`] alone.
///
/// ```
/// use cyclic::{Cpu, Level, Refusal};
///
/// let mut cpu = Cpu::open(100, 3)?;
/// let id = cpu.add(Level::High, 1, 1, 0, || ())?;
/// let refused = cpu.fire(5).unwrap_err();
/// assert_eq!((refused.why, refused.expired), (Refusal::CountSpent(id), 3));
/// assert_eq!(
///     refused.to_string(),
///     "the fire stopped after 3 expirations, of which 0 were lost: cyclic 1 has expired as often as it may"
/// );
///
/// fn fire(cpu: &mut Cpu<'_>) -> Result<u64, Refusal> {
///     Ok(cpu.fire(5)?.expired)
/// }
/// assert_eq!(fire(&mut cpu), Err(Refusal::CountSpent(id)));
/// # Ok::<(), Refusal>(())
/// ```
#[derive(Clone, Copy, Debug, PartialEq, Eq)]
pub struct FireRefused {
    /// Why it stopped.
    pub why: Refusal,
    /// The expirations that it made before.
    pub expired: u64,
    /// Those of them that were lost at the ceiling.
    pub lost: u64,
}

impl fmt::Display for FireRefused {
    fn fmt(&self, f: &mut fmt::Formatter<'_>) -> fmt::Result {
        write!(
            f,
            "the fire stopped after {} expirations, of which {} were lost: {}",
            self.expired, self.lost, self.why
        )
    }
}

impl From<FireRefused> for Refusal {
    fn from(refused: FireRefused) -> Refusal {
        refused.why
    }
}

#[cfg(feature = "std")]
impl std::error::Error for Refusal {}

#[cfg(feature = "std")]
impl std::error::Error for FireRefused {}

/// What the number of an answer says, where the id is the one that came out with it.
pub(crate) fn done(answer: u32, id: u64) -> Result<(), Refusal> {
    match answer {
        0 => Ok(()),
        1 => Err(Refusal::Memory),
        2 => Err(Refusal::BadWhen),
        3 => Err(Refusal::BadInterval),
        4 => Err(Refusal::BadNow),
        5 => Err(Refusal::Full),
        6 => Err(Refusal::Expanding),
        7 => Err(Refusal::Busy(Id(id))),
        8 => Err(Refusal::NoCyclic),
        11 => Err(Refusal::CountSpent(Id(id))),
        25 => Err(Refusal::Suspended),
        _ => Err(Refusal::Misused),
    }
}
