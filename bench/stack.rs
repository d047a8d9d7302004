//! How much stack our calls use: they run on a thread whose stack was painted
//! before, and the paint that is left is counted.
use crate::both::{ours_all, ours_open, Lent};

extern "C" {
    fn mmap(at: *mut u8, len: usize, protection: i32, flags: i32, file: i32, offset: i64) -> *mut u8;
    fn munmap(at: *mut u8, len: usize) -> i32;
    fn pthread_attr_init(attributes: *mut u64) -> i32;
    fn pthread_attr_setstack(attributes: *mut u64, at: *mut u8, len: usize) -> i32;
    fn pthread_create(thread: *mut u64, attributes: *const u64, start: extern "C" fn(*mut u8) -> usize, job: *mut u8) -> i32;
    fn pthread_join(thread: u64, result: *mut usize) -> i32;
}

const STACK: usize = 64 << 20;
const PAINT: u64 = 0x5a5a_5a5a_5a5a_5a5a;

struct Job<'a> {
    section: &'a [u8],
    lent: &'a mut Lent,
    opening: bool,
}

extern "C" fn start(job: *mut u8) -> usize {
    let job = unsafe { &mut *(job as *mut Job) };
    if job.opening {
        ours_open(job.section, job.lent);
    } else {
        ours_all(job.section, job.lent);
    }
    0
}

/// bytes of stack that the call used, the thread's own start counted
fn used(job: &mut Job) -> usize {
    unsafe {
        let at = mmap(std::ptr::null_mut(), STACK, 3, 0x22, -1, 0);
        assert!(at as isize != -1, "mmap failed");
        let words = std::slice::from_raw_parts_mut(at as *mut u64, STACK / 8);
        words.fill(PAINT);
        let (mut attributes, mut thread) = ([0u64; 8], 0u64);
        assert!(pthread_attr_init(attributes.as_mut_ptr()) == 0);
        assert!(pthread_attr_setstack(attributes.as_mut_ptr(), at, STACK) == 0);
        assert!(pthread_create(&mut thread, attributes.as_ptr(), start, job as *mut Job as *mut u8) == 0);
        pthread_join(thread, std::ptr::null_mut());
        let left = words.iter().take_while(|&&w| w == PAINT).count() * 8;
        munmap(at, STACK);
        STACK - left
    }
}

pub fn tell(name: &str, section: &[u8]) {
    let mut lent = Lent::new(section, 64 << 20);
    let open = used(&mut Job { section, lent: &mut lent, opening: true });
    let all = used(&mut Job { section, lent: &mut lent, opening: false });
    println!("{name:28} opening {:6} KiB, all ids {:6} KiB (answer {})", open / 1024, all / 1024, lent.number);
}
