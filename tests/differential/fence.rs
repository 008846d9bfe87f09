// Lent buffers whose surroundings are watched: one side ends at a page that can't be read or written, the other side
// has guard bytes that must stay. A call that reads or writes past the fence ends the program with its input's number.

use std::ffi::c_void;

extern "C" {
    fn mmap(start: *mut c_void, bytes: usize, protection: i32, flags: i32, file: i32, offset: i64) -> *mut c_void;
    fn mprotect(start: *mut c_void, bytes: usize, protection: i32) -> i32;
}

const PAGE: usize = 4096;
const GUARD: usize = 64;
const GUARD_BYTE: u8 = 0x5c;
const READ_WRITE: i32 = 3;
const PRIVATE_ANONYMOUS: i32 = 0x22;

pub struct Fence {
    first: *mut u8,
    bytes: usize,
}

/// A buffer lent from a fence, with its place and length in bytes.
pub struct Lent {
    start: *mut u8,
    bytes: usize,
}

impl Fence {
    /// Room for `bytes` between two closed pages.
    pub fn new(bytes: usize) -> Fence {
        let bytes = (bytes + GUARD).div_ceil(PAGE) * PAGE;
        unsafe {
            let start = mmap(std::ptr::null_mut(), bytes + 2 * PAGE, READ_WRITE, PRIVATE_ANONYMOUS, -1, 0);
            assert!(start as isize != -1, "no memory for a fence");
            let first = (start as *mut u8).add(PAGE);
            assert_eq!(mprotect(start, PAGE, 0), 0);
            assert_eq!(mprotect(first.add(bytes) as *mut c_void, PAGE, 0), 0);
            Fence { first, bytes }
        }
    }

    /// Copies the content in: against the closed page after it if `fence_after`, else against the one before it.
    pub fn lend<T: Copy>(&self, content: &[T], fence_after: bool) -> Lent {
        let bytes = std::mem::size_of_val(content);
        assert!(bytes + GUARD <= self.bytes);
        unsafe {
            let (start, guard) = if fence_after {
                let start = self.first.add(self.bytes - bytes);
                (start, start.sub(GUARD))
            } else {
                (self.first, self.first.add(bytes))
            };
            std::ptr::write_bytes(guard, GUARD_BYTE, GUARD);
            std::ptr::copy_nonoverlapping(content.as_ptr() as *const u8, start, bytes);
            Lent { start, bytes }
        }
    }

    pub fn guards_hold(&self, lent: &Lent, fence_after: bool) -> bool {
        unsafe {
            let guard = if fence_after { lent.start.sub(GUARD) } else { lent.start.add(lent.bytes) };
            std::slice::from_raw_parts(guard, GUARD).iter().all(|&byte| byte == GUARD_BYTE)
        }
    }
}

impl Lent {
    /// The pointer to hand over; null where there is nothing and `null_if_empty`.
    pub fn pointer<T>(&self, null_if_empty: bool) -> *mut T {
        if self.bytes == 0 && null_if_empty {
            std::ptr::null_mut()
        } else {
            self.start as *mut T
        }
    }

    pub fn read_back<T: Copy>(&self) -> Vec<T> {
        unsafe { std::slice::from_raw_parts(self.start as *const T, self.bytes / std::mem::size_of::<T>()).to_vec() }
    }
}
