//! The two sides, each behind functions that do one thing, so that a clock or
//! an instruction counter can be put around them.
use btfdump::c_dumper::{CDumper, CDumperCfg};
use btfdump::types::Btf;
use std::sync::{Arc, Mutex};

extern "C" {
    fn btfdump_open(
        record: *mut u8, record_len: usize, section: *const u8, section_len: usize,
        pointer_size: u32, modes: u32, work: *mut u8, work_len: usize, text: *mut u8, text_len: usize,
    ) -> u64;
    fn btfdump_dump_types(
        record: *mut u8, record_len: usize, section: *const u8, section_len: usize,
        work: *mut u8, work_len: usize, text: *mut u8, text_len: usize,
    ) -> u64;
    fn open(path: *const u8, flags: i32) -> i32;
    fn dup(file: i32) -> i32;
    fn dup2(from: i32, to: i32) -> i32;
    fn close(file: i32) -> i32;
}

/// What a caller of our library lends.
pub struct Lent {
    record: [u8; 128],
    work: Vec<u8>,
    pub text: Vec<u8>,
    /// of the last request
    pub text_len: usize,
    pub number: u32,
}

impl Lent {
    /// exactly the work words that document 01 names, and so much text
    pub fn new(section: &[u8], text: usize) -> Lent {
        let word = |p: usize| u32::from_le_bytes(section[p..p + 4].try_into().unwrap()) as usize;
        let (mut p, end) = (word(4) + word(8), word(4) + word(8) + word(12));
        let (mut types, mut enumerators) = (1, 0);
        while p < end {
            let (kind, count) = (word(p + 4) >> 24 & 31, word(p + 4) & 0xffff);
            types += 1;
            enumerators += if kind == 6 || kind == 19 { count } else { 0 };
            p += 12 + match kind {
                1 | 14 | 17 => 4,
                3 => 12,
                4 | 5 | 15 | 19 => 12 * count,
                6 | 13 => 8 * count,
                _ => 0,
            };
        }
        let work = 4 * (16 * types + 8 * enumerators + 4096);
        Lent { record: [0; 128], work: vec![1; work], text: vec![1; text], text_len: 0, number: 0 }
    }

    /// with a text slice of the length that all ids need
    pub fn for_section(section: &[u8]) -> Lent {
        let mut lent = Lent::new(section, 64 << 20);
        ours_open(section, &mut lent);
        ours_all(section, &mut lent);
        lent.text = vec![1; lent.text_len];
        lent
    }

    pub fn bytes(&self) -> usize {
        self.record.len() + self.work.len() + self.text.len()
    }
}

#[inline(never)]
#[no_mangle]
pub fn measured_ours_open(section: &[u8], l: &mut Lent) -> u64 {
    unsafe {
        btfdump_open(l.record.as_mut_ptr(), 128, section.as_ptr(), section.len(), 8, 0, l.work.as_mut_ptr(), l.work.len(),
            l.text.as_mut_ptr(), l.text.len())
    }
}

#[inline(never)]
#[no_mangle]
pub fn measured_ours_all(section: &[u8], l: &mut Lent) -> u64 {
    unsafe {
        btfdump_dump_types(l.record.as_mut_ptr(), 128, section.as_ptr(), section.len(), l.work.as_mut_ptr(), l.work.len(),
            l.text.as_mut_ptr(), l.text.len())
    }
}

pub fn ours_open(section: &[u8], lent: &mut Lent) {
    let a = measured_ours_open(section, lent);
    assert!(a >> 32 == 0, "opening refused by {}", a >> 32);
}

pub fn ours_all(section: &[u8], lent: &mut Lent) {
    let a = measured_ours_all(section, lent);
    lent.number = (a >> 32) as u32;
    lent.text_len = a as u32 as usize;
}

#[inline(never)]
#[no_mangle]
pub fn measured_rust_load(section: &[u8]) -> Btf<'_> {
    Btf::load_raw(section).expect("the Rust opens it")
}

#[inline(never)]
#[no_mangle]
pub fn measured_rust_new<'a>(btf: &'a Btf<'a>) -> CDumper<'a> {
    CDumper::new(btf, CDumperCfg { verbose: false, union_as_struct: false })
}

#[inline(never)]
#[no_mangle]
pub fn measured_rust_all(dumper: &mut CDumper) {
    dumper.dump_types(Box::new(|_, _| true)).expect("the Rust dumps it")
}

pub fn rust_open(section: &[u8]) -> Btf<'_> {
    measured_rust_load(section)
}

pub fn dumper<'a>(btf: &'a Btf<'a>) -> CDumper<'a> {
    measured_rust_new(btf)
}

pub fn rust_all(dumper: &mut CDumper) {
    measured_rust_all(dumper)
}

/// Runs with standard output at /dev/null: the Rust writes each line there.
pub fn quiet<R>(f: impl FnOnce() -> R) -> R {
    unsafe {
        let (kept, null) = (dup(1), open(c"/dev/null".as_ptr().cast(), 1));
        dup2(null, 1);
        let r = f();
        dup2(kept, 1);
        close(kept);
        close(null);
        r
    }
}

/// What print! writes goes to memory, without a system call.
pub struct Captured(Arc<Mutex<Vec<u8>>>);

impl Captured {
    pub fn start() -> Captured {
        let sink = Arc::new(Mutex::new(Vec::new()));
        std::io::set_output_capture(Some(sink.clone()));
        Captured(sink)
    }

    pub fn stop(self) -> Vec<u8> {
        std::io::set_output_capture(None);
        std::mem::take(&mut *self.0.lock().unwrap())
    }
}

fn peak_kib() -> u64 {
    let status = std::fs::read_to_string("/proc/self/status").unwrap();
    let line = status.lines().find(|l| l.starts_with("VmHWM")).unwrap();
    line.split_whitespace().nth(1).unwrap().parse().unwrap()
}

/// Peak memory above what the loaded section takes, for opening and all ids.
pub fn memory(who: &str, path: &str) {
    let section = std::fs::read(path).expect(path);
    let text = if who == "ours" {
        let size = std::env::var("TEXT").map_or(64 << 20, |s| s.parse().expect("a number"));
        Some(size)
    } else {
        None
    };
    let before = peak_kib();
    let (mut opened, mut told) = (0, String::new());
    quiet(|| match text {
        Some(size) => {
            let mut lent = Lent::new(&section, size);
            ours_open(&section, &mut lent);
            opened = peak_kib();
            ours_all(&section, &mut lent);
            told = format!("lent {} KiB, text {} bytes, ", lent.bytes() / 1024, lent.text_len);
        }
        None => {
            let btf = rust_open(&section);
            let mut d = dumper(&btf);
            opened = peak_kib();
            rust_all(&mut d);
        }
    });
    // the kernel's count lags by some pages
    let peak = peak_kib().max(opened);
    println!("{who:5} {told}after opening {} KiB, peak {} KiB above the section", opened - before, peak - before);
}

pub fn count(what: &str, path: &str) {
    let section = std::fs::read(path).expect(path);
    quiet(|| match what {
        "ours-open" | "ours-all" => {
            let size = std::env::var("TEXT").map_or(64 << 20, |s| s.parse().expect("a number"));
            let mut lent = Lent::new(&section, size);
            ours_open(&section, &mut lent);
            if what == "ours-all" {
                ours_all(&section, &mut lent);
            }
        }
        "rust-open" | "rust-all" => {
            let btf = rust_open(&section);
            let mut d = dumper(&btf);
            if what == "rust-all" {
                rust_all(&mut d);
            }
        }
        _ => panic!("{what}"),
    });
}
