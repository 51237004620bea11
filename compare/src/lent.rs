//! Memory to lend: a slice that ends, or begins, at a page that nothing may touch, with known bytes on its other side. A byte
//! read or written past the guarded end stops the process; one written past the other end is found.

use std::ffi::c_void;

extern "C" {
    fn mmap(at: *mut c_void, size: usize, may: i32, how: i32, file: i32, place: i64) -> *mut c_void;
    fn mprotect(at: *mut c_void, size: usize, may: i32) -> i32;
}

const PAGE: usize = 4_096;
/// PROT_READ | PROT_WRITE, and MAP_PRIVATE | MAP_ANONYMOUS.
const READ_WRITE: i32 = 3;
const PRIVATE: i32 = 0x22;
/// So many known bytes, of this value.
const BESIDE: usize = 32;
const KNOWN: u8 = 0xC5;

pub struct Lent {
    base: *mut u8,
    size: usize,
    at: usize,
    len: usize,
}

impl Lent {
    /// Room for slices of up to `most` bytes.
    pub fn new(most: usize) -> Self {
        let size = (most + BESIDE).div_ceil(PAGE) * PAGE;
        let whole = unsafe { mmap(std::ptr::null_mut(), size + 2 * PAGE, 0, PRIVATE, -1, 0) };
        assert!(whole as isize != -1, "memory between guarded pages");
        let base = unsafe { whole.cast::<u8>().add(PAGE) };
        assert_eq!(unsafe { mprotect(base.cast(), size, READ_WRITE) }, 0);
        Lent { base, size, at: 0, len: 0 }
    }

    fn all(&mut self) -> &mut [u8] {
        unsafe { std::slice::from_raw_parts_mut(self.base, self.size) }
    }

    /// A slice of `len` bytes, at the back or at the front, with what it held last.
    pub fn place(&mut self, len: usize, front: bool) -> *mut u8 {
        assert!(len + BESIDE <= self.size);
        self.at = if front { 0 } else { self.size - len };
        self.len = len;
        let beside = if front { len } else { self.at - BESIDE };
        self.all()[beside..beside + BESIDE].fill(KNOWN);
        unsafe { self.base.add(self.at) }
    }

    /// The same, filled.
    pub fn with(&mut self, bytes: &[u8], front: bool) -> *mut u8 {
        let place = self.place(bytes.len(), front);
        self.bytes().copy_from_slice(bytes);
        place
    }

    pub fn bytes(&mut self) -> &mut [u8] {
        let (at, len) = (self.at, self.len);
        &mut self.all()[at..at + len]
    }

    /// Is what lies beside the slice as it was?
    pub fn beside_untouched(&mut self) -> bool {
        let beside = if self.at == 0 { self.len } else { self.at - BESIDE };
        self.all()[beside..beside + BESIDE] == [KNOWN; BESIDE]
    }
}
