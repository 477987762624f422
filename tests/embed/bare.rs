//! The Rust package with no standard library: `core`, `alloc`, and the C library's memory. The status is 0 where all is as it should be.
#![no_std]
#![no_main]

extern crate alloc;

use alloc::{format, rc::Rc};
use core::alloc::{GlobalAlloc, Layout};
use core::cell::Cell;
use core::ffi::c_void;
use core::time::Duration;
use cyclic::{close, open, Cpu, Level, Refusal, Soft};

struct Memory;

#[global_allocator]
static MEMORY: Memory = Memory;

#[link(name = "c")]
extern "C" {
    fn malloc(size: usize) -> *mut c_void;
    fn free(memory: *mut c_void);
    fn abort() -> !;
}

// What is asked for here is aligned to at most 16 bytes, as malloc's is.
unsafe impl GlobalAlloc for Memory {
    unsafe fn alloc(&self, layout: Layout) -> *mut u8 {
        malloc(layout.size()).cast()
    }

    unsafe fn dealloc(&self, memory: *mut u8, _: Layout) {
        free(memory.cast())
    }
}

#[panic_handler]
fn panic(_: &core::panic::PanicInfo<'_>) -> ! {
    unsafe { abort() }
}

// Nothing unwinds here, but the toolchain's alloc names these two.
#[no_mangle]
pub extern "C" fn rust_eh_personality() {}

#[no_mangle]
pub extern "C" fn _Unwind_Resume() {
    unsafe { abort() }
}

fn run() -> Result<(), Refusal> {
    let calls = Rc::new(Cell::new(0));
    let counted = calls.clone();
    let mut cpu = Cpu::open(100, u64::MAX)?;
    cpu.add(Level::Low, 0, Duration::from_nanos(10), 0, move || {
        counted.set(counted.get() + 1)
    })?;
    assert_eq!(cpu.fire(35)?.next, 40);
    assert!(cpu.softint(Soft::Low, 8).idle);
    assert_eq!(calls.get(), 3);
    cpu.suspend();
    assert_eq!(cpu.fire(45).unwrap_err().why, Refusal::Suspended);
    cpu.resume();
    assert_eq!(cpu.fire(45)?.expired, 1);
    assert_eq!(
        format!("{}", cpu.fire(-1).unwrap_err().why),
        "the start or the moment is negative"
    );

    let (mut firing, lock, mut low) = open(2, u64::MAX)?;
    firing.add(Soft::Low, 10, 10, 0)?;
    assert_eq!(firing.fire(50)?.lost, 3);
    assert_eq!(low.softint(1, |_| ()).calls, 1);
    let books = close(firing, lock, low)?;
    assert_eq!(
        (books[0].expired, books[0].done, books[0].pending),
        (5, 1, 1)
    );
    Ok(())
}

#[no_mangle]
pub extern "C" fn main() -> i32 {
    run().is_err().into()
}
