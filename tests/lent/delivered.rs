//! The delivered calls as `include/rolsipay.h` declares them. Row, head and state
//! are the numbers that their structs hold, in the header's order.

use reference::records::Record;
use reference::table::Head;

use super::answers::{Reply, Ruling};
use super::state::Numbers;

extern "C" {
    pub fn rolsipay_read(
        text: *const u8,
        bytes: usize,
        row: *mut Record,
        records: usize,
        head: *mut Head,
    ) -> Ruling;

    pub fn rolsipay_release(
        row: *const Record,
        records: usize,
        head: *const Head,
        state: *mut Numbers,
    ) -> Reply;

    pub fn rolsipay_report(
        row: *const Record,
        records: usize,
        head: *const Head,
        state: *mut Numbers,
        point: u64,
        reading: u64,
    ) -> Reply;

    pub fn rolsipay_end(
        row: *const Record,
        records: usize,
        head: *const Head,
        state: *mut Numbers,
        reading: u64,
    ) -> Reply;
}
