//! Memory between two pages that nobody may touch. What is lent ends where they start and, in every
//! other call, starts where they end: a byte too many, read or written, stops the trial.

use std::ffi::{c_int, c_long, c_void};
use std::ptr::{null_mut, NonNull};
use std::slice;

// The C library that the standard library links anyway.
extern "C" {
    fn mmap(
        at: *mut c_void,
        size: usize,
        may: c_int,
        how: c_int,
        file: c_int,
        from: i64,
    ) -> *mut c_void;
    fn mprotect(at: *mut c_void, size: usize, may: c_int) -> c_int;
    fn munmap(at: *mut c_void, size: usize) -> c_int;
    fn sysconf(name: c_int) -> c_long;
}

const NOTHING: c_int = 0;
const READ_AND_WRITE: c_int = 3;
const PRIVATE_WITHOUT_FILE: c_int = 0x22;
const PAGE_SIZE: c_int = 30;

pub struct Guarded {
    start: NonNull<u8>,
    size: usize,
    page: usize,
    at_the_start: bool,
}

impl Guarded {
    /// Memory for so many bytes at most.
    pub fn new(most: usize) -> Guarded {
        // SAFETY: new pages, which overlap nothing, are asked for and opened between the outer two.
        unsafe {
            let page = sysconf(PAGE_SIZE) as usize;
            let size = most.max(1).next_multiple_of(page);
            let all = mmap(
                null_mut(),
                size + 2 * page,
                NOTHING,
                PRIVATE_WITHOUT_FILE,
                -1,
                0,
            );
            assert!(all as isize != -1, "no memory");
            let start = all.byte_add(page);
            assert_eq!(mprotect(start, size, READ_AND_WRITE), 0, "no memory");
            Guarded {
                start: NonNull::new(start.cast()).expect("a mapping is not at 0"),
                size,
                page,
                at_the_start: false,
            }
        }
    }

    /// The next place for so many bytes.
    fn next(&mut self, size: usize) -> NonNull<u8> {
        if size > self.size {
            *self = Guarded::new(size);
        }
        self.at_the_start = !self.at_the_start;
        let offset = if self.at_the_start {
            0
        } else {
            self.size - size
        };
        // SAFETY: the offset lies within the pages.
        unsafe { self.start.add(offset) }
    }

    /// So many bytes, as the last loan left them.
    pub fn lend(&mut self, size: usize) -> &mut [u8] {
        let start = self.next(size);
        // SAFETY: these bytes are ours, were given as zeros, and are borrowed with `self`.
        unsafe { slice::from_raw_parts_mut(start.as_ptr(), size) }
    }

    /// A copy of some bytes.
    pub fn copy(&mut self, bytes: &[u8]) -> &mut [u8] {
        let copy = self.lend(bytes.len());
        copy.copy_from_slice(bytes);
        copy
    }

    /// A copy of a value.
    pub fn place<T: Copy>(&mut self, value: T) -> &mut T {
        let start = self.next(size_of::<T>()).cast::<T>();
        // SAFETY: a size is a multiple of its alignment and pages are aligned for anything.
        unsafe {
            start.write(value);
            &mut *start.as_ptr()
        }
    }
}

impl Drop for Guarded {
    fn drop(&mut self) {
        // SAFETY: the pages are ours, and no borrow of them outlives `self`.
        unsafe {
            let all = self.start.sub(self.page);
            munmap(all.as_ptr().cast(), self.size + 2 * self.page);
        }
    }
}

#[cfg(test)]
mod tests {
    use super::*;

    #[test]
    fn loans_lie_at_both_ends() {
        let mut memory = Guarded::new(100);
        let page = memory.page;
        let places = [(); 4].map(|()| memory.copy(b"abc").as_ptr() as usize);
        assert_eq!((places[0] % page, (places[1] + 3) % page), (0, 0));
        assert_eq!((places[0], places[1]), (places[2], places[3]));
        assert_eq!(places[1] + 3 - places[0], page);
        assert_eq!(memory.lend(3 * page + 1).len(), 3 * page + 1);
        assert_eq!(*memory.place(7_u64), 7);
        assert_eq!(*memory.place(8_u64), 8);
    }
}
