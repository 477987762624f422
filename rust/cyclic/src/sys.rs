//! include/cyclic.h, declaration by declaration.

use core::ffi::c_void;

#[repr(C)]
pub struct Handle {
    pub held: *mut c_void,
    pub open: bool,
}

impl Handle {
    pub const CLOSED: Handle = Handle {
        held: core::ptr::null_mut(),
        open: false,
    };
}

#[repr(C)]
#[derive(Default)]
pub struct Fired {
    pub expired: u64,
    pub lost: u64,
    pub next: i64,
    pub id: u64,
}

#[repr(C)]
#[derive(Default)]
pub struct Totals {
    pub expired: u64,
    pub lost: u64,
    pub pending: u32,
}

#[repr(C)]
#[derive(Default)]
pub struct Receipt {
    pub id: u64,
    pub expired: u64,
    pub lost: u64,
}

extern "C" {
    pub fn cyclic_version() -> u32;
    pub fn cyclic_cpu_open(ceiling: u32, most: u64, cpu: *mut Handle) -> u32;
    pub fn cyclic_cpu_close(cpu: *mut Handle) -> u32;
    pub fn cyclic_add(
        cpu: *mut Handle,
        id: u64,
        level: u32,
        start: i64,
        interval: i64,
        now: i64,
        busy: *mut u64,
    ) -> u32;
    pub fn cyclic_reprogram(cpu: *mut Handle, id: u64, moment: i64) -> u32;
    pub fn cyclic_begin_remove(
        cpu: *mut Handle,
        id: u64,
        kept: &mut u32,
        receipt: &mut Receipt,
        busy: *mut u64,
    ) -> u32;
    pub fn cyclic_poll_remove(cpu: *mut Handle, receipt: &mut Receipt) -> u32;
    pub fn cyclic_fire(cpu: *mut Handle, now: i64, fired: &mut Fired) -> u32;
    pub fn cyclic_suspend(cpu: *mut Handle) -> u32;
    pub fn cyclic_resume(cpu: *mut Handle) -> u32;
    pub fn cyclic_take(cpu: *mut Handle, level: u32, id: &mut u64) -> u32;
    pub fn cyclic_finish(cpu: *mut Handle, level: u32) -> u32;
    pub fn cyclic_pending(cpu: *mut Handle, id: u64, pending: &mut u32) -> u32;
    pub fn cyclic_totals(cpu: *mut Handle, id: u64, totals: &mut Totals) -> u32;
    pub fn cyclic_next(cpu: *mut Handle, moment: &mut i64) -> u32;
}

/// The book of a cyclic. The firing side, a soft side and the books have handles of the same form.
#[repr(C)]
#[derive(Default)]
pub struct Book {
    pub id: u64,
    pub expired: u64,
    pub done: u64,
    pub lost: u64,
    pub pending: u32,
    pub removed: bool,
}

extern "C" {
    pub fn cyclic_open(
        ceiling: u32,
        most: u64,
        firing: *mut Handle,
        lock: *mut Handle,
        low: *mut Handle,
    ) -> u32;
    pub fn cyclic_close(
        firing: *mut Handle,
        lock: *mut Handle,
        low: *mut Handle,
        books: *mut Handle,
    ) -> u32;
    pub fn cyclic_book(books: *mut Handle, level: u32, index: u32, book: &mut Book) -> u32;
    pub fn cyclic_books_close(books: *mut Handle) -> u32;
    pub fn cyclic_firing_add(
        firing: *mut Handle,
        id: u64,
        level: u32,
        start: i64,
        interval: i64,
        now: i64,
        busy: *mut u64,
    ) -> u32;
    pub fn cyclic_firing_reprogram(firing: *mut Handle, id: u64, moment: i64) -> u32;
    pub fn cyclic_firing_begin_remove(
        firing: *mut Handle,
        id: u64,
        kept: &mut u32,
        receipt: &mut Receipt,
        busy: *mut u64,
    ) -> u32;
    pub fn cyclic_firing_poll_remove(firing: *mut Handle, receipt: &mut Receipt) -> u32;
    pub fn cyclic_firing_fire(firing: *mut Handle, now: i64, fired: &mut Fired) -> u32;
    pub fn cyclic_firing_suspend(firing: *mut Handle) -> u32;
    pub fn cyclic_firing_resume(firing: *mut Handle) -> u32;
    pub fn cyclic_firing_pending(firing: *mut Handle, id: u64, pending: &mut u32) -> u32;
    pub fn cyclic_firing_totals(firing: *mut Handle, id: u64, totals: &mut Totals) -> u32;
    pub fn cyclic_firing_next(firing: *mut Handle, moment: &mut i64) -> u32;
    pub fn cyclic_firing_drop(firing: *mut Handle) -> u32;
    pub fn cyclic_soft_drop(soft: *mut Handle) -> u32;
    pub fn cyclic_soft_take(soft: *mut Handle, id: &mut u64) -> u32;
    pub fn cyclic_soft_hand(soft: *mut Handle, id: &mut u64) -> u32;
    pub fn cyclic_soft_finish(soft: *mut Handle) -> u32;
}
