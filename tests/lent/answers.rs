//! The answers of the delivered calls as `include/rolsipay.h` lays them out.

#[repr(C)]
#[derive(Clone, Copy, Debug, PartialEq, Eq)]
pub struct Ruling {
    pub number: u64,
    pub line: u64,
}

#[repr(C)]
#[derive(Clone, Copy, Debug, PartialEq, Eq)]
pub struct Reply {
    pub word: u64,
    pub number: u64,
    pub remaining: u64,
    pub margin: i64,
    pub late: u64,
}
