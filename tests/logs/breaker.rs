//! A library that stands before the C library of a program and makes some of its
//! reads fail: those that follow a read whose bytes end in the one mark, with or
//! without a line feed behind it; and, as if a signal came, the next read alone
//! behind the other mark.

use std::sync::atomic::{AtomicI32, Ordering};

const BREAKS: u8 = b'!';
const INTERRUPTS: u8 = b'?';

/// The system call, and the errors that are given: a signal, a failing device.
const SYS_READ: i64 = 0;
const EINTR: i32 = 4;
const EIO: i32 = 5;

extern "C" {
    fn syscall(number: i64, ...) -> isize;
    fn __errno_location() -> *mut i32;
}

/// The descriptor whose reads fail from now on, and the one whose next read does.
static BROKEN: AtomicI32 = AtomicI32::new(-1);
static INTERRUPTED: AtomicI32 = AtomicI32::new(-1);

/// Gives an error.
unsafe fn fails(error: i32) -> isize {
    *__errno_location() = error;
    -1
}

/// # Safety
/// As of the C library's.
#[no_mangle]
pub unsafe extern "C" fn read(file: i32, room: *mut u8, most: usize) -> isize {
    if BROKEN.load(Ordering::Relaxed) == file {
        return fails(EIO);
    }
    if INTERRUPTED.load(Ordering::Relaxed) == file {
        INTERRUPTED.store(-1, Ordering::Relaxed);
        return fails(EINTR);
    }
    let length = syscall(SYS_READ, file, room, most);
    if length > 0 {
        let bytes = std::slice::from_raw_parts(room, length as usize);
        match bytes.strip_suffix(b"\n").unwrap_or(bytes).last() {
            Some(&BREAKS) => BROKEN.store(file, Ordering::Relaxed),
            Some(&INTERRUPTS) => INTERRUPTED.store(file, Ordering::Relaxed),
            _ => {}
        }
    }
    length
}
