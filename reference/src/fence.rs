//! Memory between two pages that can't be touched, for the slices that the library is lent.

use std::ffi::c_void;

extern "C" {
    fn mmap(
        at: *mut c_void,
        length: usize,
        protection: i32,
        flags: i32,
        file: i32,
        offset: i64,
    ) -> *mut c_void;
    fn mprotect(at: *mut c_void, length: usize, protection: i32) -> i32;
    fn munmap(at: *mut c_void, length: usize) -> i32;
}

const PAGE: usize = 4096;
const READ_WRITE: i32 = 3;
const PRIVATE_ANONYMOUS: i32 = 0x22;

/// Where a slice stands between the fences.
#[derive(Clone, Copy, Debug, PartialEq)]
pub enum Side {
    /// It ends against the page behind.
    End,
    /// It starts behind the page in front.
    Start,
}

pub const SIDES: [Side; 2] = [Side::End, Side::Start];

/// A stretch of memory with a fence on both sides, and where slices stand in it.
pub struct Fenced {
    whole: *mut u8,
    inner: usize,
    side: Side,
}

impl Fenced {
    pub fn new(side: Side, bytes: usize) -> Fenced {
        let inner = bytes.div_ceil(PAGE).max(1) * PAGE;
        let nowhere = std::ptr::null_mut();
        unsafe {
            let whole = mmap(nowhere, inner + 2 * PAGE, 0, PRIVATE_ANONYMOUS, -1, 0) as *mut u8;
            assert!(whole as isize != -1, "no memory to fence");
            let opened = mprotect(whole.add(PAGE) as *mut c_void, inner, READ_WRITE);
            assert_eq!(opened, 0, "the memory can't be opened");
            Fenced { whole, inner, side }
        }
    }

    /// `count` bytes against the fence.
    pub fn bytes(&mut self, count: usize) -> &mut [u8] {
        if self.inner < count {
            *self = Fenced::new(self.side, count);
        }
        let from = match self.side {
            Side::End => PAGE + self.inner - count,
            Side::Start => PAGE,
        };
        unsafe { std::slice::from_raw_parts_mut(self.whole.add(from), count) }
    }
}

impl Drop for Fenced {
    fn drop(&mut self) {
        unsafe {
            munmap(self.whole as *mut c_void, self.inner + 2 * PAGE);
        }
    }
}
