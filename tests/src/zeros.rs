//! Very long slices.

/// More bytes than 32 bits can count.
pub const WHOLE: usize = 1 << 32;

/// Bytes that are all 0 and take no memory until they are written.
pub struct Zeros {
    start: *mut u8,
    length: usize,
}

extern "C" {
    fn mmap(
        at: *mut u8,
        length: usize,
        protection: i32,
        flags: i32,
        file: i32,
        from: i64,
    ) -> *mut u8;
    fn munmap(at: *mut u8, length: usize) -> i32;
}

impl Zeros {
    pub fn new(length: usize) -> Zeros {
        // read and write; private, of no file, nothing set aside
        let start = unsafe { mmap(std::ptr::null_mut(), length, 3, 0x4022, -1, 0) };
        assert!(start as isize != -1, "no room for {length} bytes");
        Zeros { start, length }
    }

    pub fn bytes(&mut self) -> &mut [u8] {
        unsafe { std::slice::from_raw_parts_mut(self.start, self.length) }
    }
}

impl Drop for Zeros {
    fn drop(&mut self) {
        unsafe { munmap(self.start, self.length) };
    }
}
