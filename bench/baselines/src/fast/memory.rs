//! Memory straight from the system: zeroed, in large pages if it is large, or a file; kept until the process ends.

use std::ffi::c_void;
use std::ptr::null_mut;

extern "C" {
    fn mmap(at: *mut c_void, size: usize, protection: i32, flags: i32, file: i32, offset: i64) -> *mut c_void;
    fn madvise(at: *mut c_void, size: usize, advice: i32) -> i32;
}

const READ: i32 = 1;
const READ_AND_WRITE: i32 = 1 | 2;
const PRIVATE_AND_ANONYMOUS: i32 = 0x02 | 0x20;
const PRIVATE_FIXED_AND_FILLED: i32 = 0x02 | 0x10 | 0x8000;
const PAGE: usize = 4096;
const MAP_FAILED: isize = -1;
const HUGE_PAGES: i32 = 14;
const HUGE: usize = 2 << 20;

/// So many zeroed bytes, at a place that is a multiple of 4,096.
pub fn zeroed(size: usize) -> *mut u8 {
    let spare = if size < HUGE { 0 } else { HUGE };
    let at = unsafe { mmap(null_mut(), size.max(1) + spare, READ_AND_WRITE, PRIVATE_AND_ANONYMOUS, -1, 0) };
    if at as isize == MAP_FAILED {
        eprintln!("fast: no memory");
        std::process::exit(1);
    }
    if spare == 0 {
        return at as *mut u8;
    }
    let at = (at as usize).next_multiple_of(HUGE) as *mut c_void;
    unsafe { madvise(at, size, HUGE_PAGES) };
    at as *mut u8
}

/// The bytes of a file of this size, with a page of zeros after them. None if it cannot be mapped, or is empty.
pub fn mapped(file: i32, size: usize) -> Option<&'static [u8]> {
    if size == 0 {
        return None;
    }
    let at = zeroed(size.next_multiple_of(PAGE) + PAGE) as *mut c_void;
    let text = unsafe { mmap(at, size, READ, PRIVATE_FIXED_AND_FILLED, file, 0) };
    (text == at).then(|| unsafe { std::slice::from_raw_parts(text as *const u8, size) })
}

/// Types of which zeros are a value.
pub trait Plain: Copy {}
impl Plain for u8 {}
impl Plain for u32 {}
impl Plain for u64 {}
impl Plain for i32 {}
impl Plain for (u32, u32) {}

/// A list of a number of zeros.
pub fn zeros<T: Plain>(count: usize) -> &'static mut [T] {
    unsafe { std::slice::from_raw_parts_mut(zeroed(count * size_of::<T>()) as *mut T, count) }
}

#[inline(always)]
pub fn prefetch(at: *const u8) {
    #[cfg(target_arch = "x86_64")]
    unsafe {
        use std::arch::x86_64::{_mm_prefetch, _MM_HINT_T0};
        _mm_prefetch(at as *const i8, _MM_HINT_T0)
    }
    #[cfg(not(target_arch = "x86_64"))]
    let _ = at;
}
