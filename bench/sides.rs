//! The two sides, under names that callgrind can be told.

use crate::delivered;
use crate::memory::{Head, Leaf, Reply, Ruling, State};
use crate::reference;

pub struct Side {
    pub read: fn(&[u8], &mut [Leaf], &mut Head) -> Ruling,
    pub release: fn(&[Leaf], &Head, &mut State) -> Reply,
    pub report: fn(&[Leaf], &Head, &mut State, u64, u64) -> Reply,
    pub end: fn(&[Leaf], &Head, &mut State, u64) -> Reply,
}

pub const PROVED: Side = Side {
    read: bench_proved_read,
    release: bench_proved_release,
    report: bench_proved_report,
    end: bench_proved_end,
};

pub const REFERENCE: Side = Side {
    read: bench_reference_read,
    release: bench_reference_release,
    report: bench_reference_report,
    end: bench_reference_end,
};

// SAFETY of all four: pointers and lengths are those of live references, and what is written to overlaps with nothing else.

#[no_mangle]
#[inline(never)]
fn bench_proved_read(text: &[u8], row: &mut [Leaf], head: &mut Head) -> Ruling {
    unsafe {
        delivered::rolsipay_read(text.as_ptr(), text.len(), row.as_mut_ptr(), row.len(), head)
    }
}

#[no_mangle]
#[inline(never)]
fn bench_proved_release(row: &[Leaf], head: &Head, state: &mut State) -> Reply {
    unsafe { delivered::rolsipay_release(row.as_ptr(), row.len(), head, state) }
}

#[no_mangle]
#[inline(never)]
fn bench_proved_report(
    row: &[Leaf],
    head: &Head,
    state: &mut State,
    point: u64,
    reading: u64,
) -> Reply {
    unsafe { delivered::rolsipay_report(row.as_ptr(), row.len(), head, state, point, reading) }
}

#[no_mangle]
#[inline(never)]
fn bench_proved_end(row: &[Leaf], head: &Head, state: &mut State, reading: u64) -> Reply {
    unsafe { delivered::rolsipay_end(row.as_ptr(), row.len(), head, state, reading) }
}

#[no_mangle]
#[inline(never)]
fn bench_reference_read(text: &[u8], row: &mut [Leaf], head: &mut Head) -> Ruling {
    reference::read(text, row, head)
}

#[no_mangle]
#[inline(never)]
fn bench_reference_release(row: &[Leaf], head: &Head, state: &mut State) -> Reply {
    reference::release(row, head, state)
}

#[no_mangle]
#[inline(never)]
fn bench_reference_report(
    row: &[Leaf],
    head: &Head,
    state: &mut State,
    point: u64,
    reading: u64,
) -> Reply {
    reference::report(row, head, state, point, reading)
}

#[no_mangle]
#[inline(never)]
fn bench_reference_end(row: &[Leaf], head: &Head, state: &mut State, reading: u64) -> Reply {
    reference::end(row, head, state, reading)
}
