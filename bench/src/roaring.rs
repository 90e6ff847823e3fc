//! libroaring beside the two sets, through roaring.c.

use crate::Set;
use crate::combine::Combine;
use std::ffi::c_void;

unsafe extern "C" {
    fn beside_new() -> *mut c_void;
    fn beside_free(set: *mut c_void);
    fn beside_assign(set: *mut c_void, start: u64, end: u64, value: bool);
    fn beside_set(set: *mut c_void, index: u32, value: bool) -> bool;
    fn beside_get(set: *const c_void, index: u32) -> bool;
    fn beside_count(set: *const c_void, start: u64, end: u64) -> u64;
    fn beside_next_one(set: *const c_void, start: u32) -> u64;
    fn beside_select(set: *const c_void, n: u32) -> u64;
    fn beside_combine(first: *const c_void, second: *const c_void, rule: u32) -> u64;
}

pub struct Roaring(*mut c_void);

impl Drop for Roaring {
    fn drop(&mut self) {
        unsafe { beside_free(self.0) }
    }
}

impl Set for Roaring {
    fn new(_: usize) -> Self {
        Roaring(unsafe { beside_new() })
    }
    fn assign(&mut self, start: usize, end: usize, value: bool) -> u32 {
        unsafe { beside_assign(self.0, start as u64, end as u64, value) };
        0
    }
    fn set(&mut self, index: usize, value: bool) -> bool {
        unsafe { beside_set(self.0, index as u32, value) }
    }
    fn get(&self, index: usize) -> bool {
        unsafe { beside_get(self.0, index as u32) }
    }
    fn count(&self, start: usize, end: usize) -> u32 {
        unsafe { beside_count(self.0, start as u64, end as u64) as u32 }
    }
    fn next_one(&self, start: usize, end: usize) -> Option<usize> {
        let at = unsafe { beside_next_one(self.0, start as u32) };
        if at < end as u64 { Some(at as usize) } else { None }
    }
    fn next_zero(&self, _: usize, _: usize) -> Option<usize> {
        None
    }
    fn select(&self, n: usize) -> Option<usize> {
        let at = unsafe { beside_select(self.0, n as u32) };
        if at == u64::MAX { None } else { Some(at as usize) }
    }
}

/// Into a new bitmap each time, which is freed again.
impl Combine for Roaring {
    fn combine(&self, other: &Self, _: &mut Self, rule: usize) -> u64 {
        unsafe { beside_combine(self.0, other.0, rule as u32) }
    }
}
