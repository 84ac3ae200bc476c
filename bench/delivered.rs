//! The delivered calls, as in `include/rolsipay.h`.

use crate::memory::{Head, Leaf, Reply, Ruling, State};

extern "C" {
    pub fn rolsipay_read(
        text: *const u8,
        bytes: usize,
        row: *mut Leaf,
        records: usize,
        head: *mut Head,
    ) -> Ruling;

    pub fn rolsipay_release(
        row: *const Leaf,
        records: usize,
        head: *const Head,
        state: *mut State,
    ) -> Reply;

    pub fn rolsipay_report(
        row: *const Leaf,
        records: usize,
        head: *const Head,
        state: *mut State,
        point: u64,
        reading: u64,
    ) -> Reply;

    pub fn rolsipay_end(
        row: *const Leaf,
        records: usize,
        head: *const Head,
        state: *mut State,
        reading: u64,
    ) -> Reply;
}
