//! The few calls of the operating system that the driver needs: a child for
//! each part of a run, so that a crash costs one section, and memory that ends
//! at a page nobody may touch.
use std::sync::atomic::AtomicU64;

extern "C" {
    fn fork() -> i32;
    fn waitpid(pid: i32, status: *mut i32, options: i32) -> i32;
    fn _exit(code: i32) -> !;
    fn mmap(at: *mut u8, len: usize, protection: i32, flags: i32, file: i32, offset: i64) -> *mut u8;
    fn mprotect(at: *mut u8, len: usize, protection: i32) -> i32;
    fn alarm(seconds: u32) -> u32;
}

const PAGE: usize = 4096;
const READ: i32 = 1;
const READ_WRITE: i32 = 3;
const SHARED_ANONYMOUS: i32 = 0x21;
const PRIVATE_ANONYMOUS: i32 = 0x22;

/// Runs `work` in a child on a stack of 1 GiB; gives the signal that ended it, 0 for none.
pub fn in_child(work: impl FnOnce() + Send + 'static) -> i32 {
    unsafe {
        let pid = fork();
        assert!(pid >= 0, "fork failed");
        if pid == 0 {
            let done = std::thread::Builder::new().stack_size(1 << 30).spawn(work).map(|t| t.join().is_ok());
            _exit(if matches!(done, Ok(true)) { 0 } else { 1 });
        }
        let mut status = 0;
        waitpid(pid, &mut status, 0);
        if status & 0x7f != 0 { status & 0x7f } else { -(status >> 8 & 255) }
    }
}

/// The child is ended if it does not ask again in time.
pub fn watch(seconds: u32) {
    unsafe { alarm(seconds) };
}

/// Counters that parent and children share.
pub fn shared_counters(n: usize) -> &'static [AtomicU64] {
    unsafe {
        let at = mmap(std::ptr::null_mut(), n * 8, READ_WRITE, SHARED_ANONYMOUS, -1, 0);
        assert!(at as isize != -1, "mmap failed");
        std::slice::from_raw_parts(at as *const AtomicU64, n)
    }
}

/// Memory whose slices end where a forbidden page starts.
pub struct Arena {
    at: *mut u8,
    len: usize,
}

const CANARY: u8 = 0x6b;

impl Arena {
    pub fn new(len: usize) -> Arena {
        let len = len.next_multiple_of(PAGE) + PAGE;
        unsafe {
            let at = mmap(std::ptr::null_mut(), len + PAGE, READ_WRITE, PRIVATE_ANONYMOUS, -1, 0);
            assert!(at as isize != -1, "mmap failed");
            assert!(mprotect(at.add(len), PAGE, 0) == 0, "mprotect failed");
            Arena { at, len }
        }
    }

    pub fn room(&self) -> usize {
        self.len - PAGE
    }

    /// the last n bytes, with a canary before them
    pub fn slice(&mut self, n: usize) -> &'static mut [u8] {
        assert!(n <= self.room(), "arena of {} bytes asked for {n}", self.room());
        unsafe {
            let start = self.at.add(self.len - n);
            std::ptr::write_bytes(start.sub(64), CANARY, 64);
            std::slice::from_raw_parts_mut(start, n)
        }
    }

    /// Whether it may be written; a write to sealed memory ends the process.
    pub fn seal(&mut self, sealed: bool) {
        unsafe { assert!(mprotect(self.at, self.len, if sealed { READ } else { READ_WRITE }) == 0, "mprotect failed") }
    }

    /// whether nothing before the last n bytes was written
    pub fn canary_stands(&self, n: usize) -> bool {
        unsafe { std::slice::from_raw_parts(self.at.add(self.len - n - 64), 64).iter().all(|&b| b == CANARY) }
    }
}
