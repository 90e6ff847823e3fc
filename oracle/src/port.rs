//! The port through its C interface (include/kladomyne.h), from the archive that `rt lib` makes in crates/capi.

use std::ffi::c_void;

#[repr(C)]
#[derive(Clone, Copy, Debug, PartialEq, Eq)]
pub struct Head {
    pub words: u32,
    pub len: u32,
    /// C's bool, kept as a byte so that a value other than 0 and 1 would be seen.
    pub allocated: u8,
}

#[repr(C)]
#[derive(Clone, Copy, Debug)]
pub struct SetAnswer {
    pub refused: u32,
    pub value: u32,
    pub head: Head,
}

#[repr(C)]
#[derive(Clone, Copy, Debug)]
pub struct Answer {
    pub refused: u32,
    pub value: u32,
}

#[repr(C)]
#[derive(Clone, Copy, Debug)]
pub struct Found {
    pub refused: u32,
    pub found: u32,
    pub at: u64,
    pub end: u64,
}

#[repr(C)]
#[derive(Clone, Copy, Debug)]
pub struct Place {
    pub refused: u32,
    pub found: u32,
    pub at: u64,
}

#[allow(dead_code)]
#[link(name = "capi", kind = "static")]
unsafe extern "C" {
    pub fn klado_set_new(capacity: usize) -> SetAnswer;
    pub fn klado_set_capacity(head: Head) -> Answer;
    pub fn klado_set_len(head: Head) -> Answer;
    pub fn klado_set_get(head: Head, storage: *const u64, len: usize, index: usize) -> Answer;
    pub fn klado_set_set(head: Head, storage: *mut u64, len: usize, index: usize, value: bool) -> SetAnswer;
    pub fn klado_set_assign(
        head: Head,
        storage: *mut u64,
        len: usize,
        start: usize,
        end: usize,
        value: bool,
    ) -> SetAnswer;
    pub fn klado_set_count(head: Head, storage: *const u64, len: usize, start: usize, end: usize) -> Answer;
    pub fn klado_set_next_one(head: Head, storage: *const u64, len: usize, start: usize, end: usize) -> Found;
    pub fn klado_set_next_zero(head: Head, storage: *const u64, len: usize, start: usize, end: usize) -> Found;
    pub fn klado_set_select(head: Head, storage: *const u64, len: usize, n: usize) -> Place;
    pub fn klado_set_clear(head: Head, storage: *mut u64, len: usize) -> SetAnswer;
    pub fn klado_set_audit(head: Head, storage: *const u64, len: usize) -> Answer;
    pub fn klado_set_both(
        first: Head,
        first_storage: *const u64,
        first_len: usize,
        second: Head,
        second_storage: *const u64,
        second_len: usize,
        third: *mut u64,
        third_len: usize,
        scratch: *mut u64,
        scratch_len: usize,
    ) -> SetAnswer;
    pub fn klado_set_either(
        first: Head,
        first_storage: *const u64,
        first_len: usize,
        second: Head,
        second_storage: *const u64,
        second_len: usize,
        third: *mut u64,
        third_len: usize,
        scratch: *mut u64,
        scratch_len: usize,
    ) -> SetAnswer;
    pub fn klado_set_without(
        first: Head,
        first_storage: *const u64,
        first_len: usize,
        second: Head,
        second_storage: *const u64,
        second_len: usize,
        third: *mut u64,
        third_len: usize,
        scratch: *mut u64,
        scratch_len: usize,
    ) -> SetAnswer;
}

/// One of the last three.
#[allow(dead_code)]
pub type Combine = unsafe extern "C" fn(
    Head,
    *const u64,
    usize,
    Head,
    *const u64,
    usize,
    *mut u64,
    usize,
    *mut u64,
    usize,
) -> SetAnswer;

/// How many numbers a set of `words` words needs.
pub fn needed(words: usize) -> usize {
    words + 3 * words.div_ceil(64) + 2
}

#[allow(dead_code)]
pub type Handler = extern "C" fn(i32);

// The C library's calls that the fuzz driver needs, on Linux.
#[allow(dead_code)]
unsafe extern "C" {
    pub fn mmap(address: *mut c_void, len: usize, prot: i32, flags: i32, fd: i32, offset: i64) -> *mut c_void;
    pub fn mprotect(address: *mut c_void, len: usize, prot: i32) -> i32;
    pub fn signal(number: i32, handler: Handler) -> usize;
    pub fn alarm(seconds: u32) -> u32;
    pub fn _exit(status: i32) -> !;
}
