//! The port's ledger, the writer of saved lists and the estimate through their C interface (include/kladomyne.h), from the archive
//! that `rt lib` makes in crates/capi_ledger.

use crate::port::{Answer, Head};

#[repr(C)]
#[derive(Clone, Copy, Debug, PartialEq, Eq)]
pub struct Ledger {
    pub set: Head,
    pub journal: u32,
    pub used: u32,
}

#[repr(C)]
#[derive(Clone, Copy, Debug, PartialEq, Eq)]
pub struct LedgerAnswer {
    pub refused: u32,
    pub value: u32,
    pub head: Ledger,
}

#[repr(C)]
#[derive(Clone, Copy, Debug, PartialEq, Eq)]
pub struct Opened {
    pub refused: u32,
    pub run: u64,
    pub head: Ledger,
}

#[repr(C)]
#[derive(Clone, Copy, Debug, PartialEq, Eq)]
pub struct Estimate {
    pub pence: u32,
    pub sheets: u32,
    pub classes: [u32; 5],
}

#[repr(C)]
#[derive(Clone, Copy, Debug, PartialEq, Eq)]
pub struct Estimated {
    pub refused: u32,
    pub position: u64,
    pub estimate: Estimate,
}

#[allow(dead_code)]
#[link(name = "capi_ledger", kind = "static")]
unsafe extern "C" {
    pub fn klado_ledger_new(
        capacity: usize,
        limit: usize,
        storage: *const u64,
        storage_len: usize,
        journal: *const u32,
        journal_len: usize,
    ) -> Opened;
    pub fn klado_ledger_open(
        file: *const u8,
        file_len: usize,
        limit: usize,
        storage: *mut u64,
        storage_len: usize,
        journal: *const u32,
        journal_len: usize,
    ) -> Opened;
    pub fn klado_ledger_mark(
        head: Ledger,
        storage: *mut u64,
        storage_len: usize,
        journal: *mut u32,
        journal_len: usize,
        start: usize,
        end: usize,
    ) -> LedgerAnswer;
    pub fn klado_ledger_clear(
        head: Ledger,
        storage: *mut u64,
        storage_len: usize,
        journal: *mut u32,
        journal_len: usize,
        start: usize,
        end: usize,
    ) -> LedgerAnswer;
    pub fn klado_ledger_mark_point(
        head: Ledger,
        storage: *mut u64,
        storage_len: usize,
        journal: *mut u32,
        journal_len: usize,
        index: usize,
    ) -> LedgerAnswer;
    pub fn klado_ledger_clear_point(
        head: Ledger,
        storage: *mut u64,
        storage_len: usize,
        journal: *mut u32,
        journal_len: usize,
        index: usize,
    ) -> LedgerAnswer;
    pub fn klado_ledger_take_back(
        head: Ledger,
        storage: *mut u64,
        storage_len: usize,
        journal: *const u32,
        journal_len: usize,
    ) -> LedgerAnswer;
    pub fn klado_ledger_wipe(head: Ledger, storage: *mut u64, storage_len: usize) -> LedgerAnswer;
    pub fn klado_list_write(
        head: Head,
        storage: *const u64,
        storage_len: usize,
        file: *mut u8,
        file_len: usize,
    ) -> Answer;
    pub fn klado_estimate_price(
        head: Head,
        storage: *const u64,
        storage_len: usize,
        edges: *const u16,
        edges_len: usize,
        start: usize,
        end: usize,
    ) -> Estimated;
}
