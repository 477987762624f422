//! A CPU in a loop over one timer of the system (Linux): a timerfd, armed for the next expiration on the system's own clock. Where
//! it can be read the moment has come: the CPU fires, and both soft levels are served. In the event loop of a program it stands
//! beside the other descriptors.
//!
//!     cargo run --offline --example timerfd --manifest-path rust/cyclic/Cargo.toml -- 3

use cyclic::{Cpu, Interval, Level, Moment, Refusal, Soft};
use std::cell::Cell;
use std::error::Error;
use std::fs::File;
use std::io::{self, Read};
use std::os::raw::{c_int, c_long};
use std::os::unix::io::{AsRawFd, FromRawFd};
use std::ptr;
use std::time::Duration;

#[repr(C)]
#[derive(Default)]
struct Timespec {
    seconds: i64,
    nanoseconds: c_long,
}

#[repr(C)]
struct Itimerspec {
    interval: Timespec,
    value: Timespec,
}

extern "C" {
    fn clock_gettime(clock: c_int, time: *mut Timespec) -> c_int;
    fn timerfd_create(clock: c_int, flags: c_int) -> c_int;
    fn timerfd_settime(
        timer: c_int,
        flags: c_int,
        new: *const Itimerspec,
        old: *mut Itimerspec,
    ) -> c_int;
}

const CLOCK_MONOTONIC: c_int = 1;
const TFD_CLOEXEC: c_int = 0o2000000;
const TFD_TIMER_ABSTIME: c_int = 1;
const SECOND: i64 = 1_000_000_000;

fn checked(answer: c_int) -> io::Result<c_int> {
    match answer {
        -1 => Err(io::Error::last_os_error()),
        answer => Ok(answer),
    }
}

/// What the system's clock shows.
fn now() -> io::Result<Duration> {
    let mut time = Timespec::default();
    checked(unsafe { clock_gettime(CLOCK_MONOTONIC, &mut time) })?;
    Ok(Duration::new(time.seconds as u64, time.nanoseconds as u32))
}

/// A timer of the system.
struct Timer(File);

impl Timer {
    fn new() -> io::Result<Timer> {
        let timer = checked(unsafe { timerfd_create(CLOCK_MONOTONIC, TFD_CLOEXEC) })?;
        // It was just made, and nothing else has it.
        Ok(Timer(unsafe { File::from_raw_fd(timer) }))
    }

    /// Sleeps until the clock shows this moment, which is not 0.
    fn sleep_until(&mut self, moment: Moment) -> io::Result<()> {
        let nanos = moment.as_nanos();
        let time = Itimerspec {
            interval: Timespec::default(),
            value: Timespec {
                seconds: nanos / SECOND,
                nanoseconds: nanos % SECOND,
            },
        };
        let timer = self.0.as_raw_fd();
        checked(unsafe { timerfd_settime(timer, TFD_TIMER_ABSTIME, &time, ptr::null_mut()) })?;
        self.0.read_exact(&mut [0; 8])
    }
}

fn serve(cpu: &mut Cpu<'_>) {
    while !cpu.softint(Soft::Lock, 16).idle || !cpu.softint(Soft::Low, 16).idle {}
}

/// A tick each millisecond, a line each half second, and an end, which is a one-shot.
fn run(seconds: u64) -> Result<(u64, u64), Box<dyn Error>> {
    let (ticks, lines, ended) = (Cell::new(0u64), Cell::new(0u64), Cell::new(false));
    let print = || {
        lines.set(lines.get() + 1);
        println!("{} ticks", ticks.get());
    };
    let (begin, half) = (now()?, Duration::from_millis(500));
    let mut cpu = Cpu::open(16, u64::MAX)?;
    let ticker = cpu.add(Level::High, 0, Duration::from_millis(1), begin, || {
        ticks.set(ticks.get() + 1)
    })?;
    let printer = cpu.add(Level::Low, begin + half, half, begin, print)?;
    // The second add has doubled the CPU's size. Both soft levels follow where they are served, and the next add is not refused.
    serve(&mut cpu);
    let end = begin + Duration::from_secs(seconds);
    cpu.add(Level::Lock, end, Interval::NEVER, begin, || ended.set(true))?;

    let mut timer = Timer::new()?;
    while !ended.get() {
        timer.sleep_until(cpu.next())?;
        cpu.fire(now()?)?;
        serve(&mut cpu);
    }
    let (ticked, printed) = (
        cpu.totals(ticker).ok_or(Refusal::NoCyclic)?,
        cpu.totals(printer).ok_or(Refusal::NoCyclic)?,
    );
    if ticked.expired != ticks.get() || printed.expired != lines.get() + printed.lost {
        return Err("the sums differ".into());
    }
    Ok((ticks.get(), lines.get()))
}

fn main() -> Result<(), Box<dyn Error>> {
    let seconds = match std::env::args().nth(1) {
        Some(word) => word.parse()?,
        None => 5,
    };
    let (ticks, lines) = run(seconds)?;
    println!("{ticks} ticks and {lines} lines: as many as expirations");
    Ok(())
}
