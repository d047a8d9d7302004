//! Our library and the Rust on the same section, in one run.
//!   bench time PATH              wall time of both, in turn; medians and ratios
//!   bench memory ours|rust PATH  peak memory of one of them
//!   bench count WHAT PATH        runs WHAT once, for an instruction counter:
//!                                ours-open, ours-all, rust-open, rust-all
//!   bench stack PATH             stack of our calls, on this table and on deep ones
//!   bench make DIR               writes the generated and hostile tables
//!   bench hostile DIR            times the hostile tables
//! For the Rust, opening is Btf::load_raw and CDumper::new; all ids is
//! dump_types with a filter that takes all.
#![feature(internal_output_capture)]

mod both;
mod hostile;
mod kernel;
mod stack;
#[allow(dead_code)]
#[path = "../oracle/driver/random.rs"]
mod random;
#[allow(dead_code)]
#[path = "../oracle/driver/table.rs"]
mod table;

use both::{ours_all, ours_open, rust_open, Captured, Lent};
use std::time::Instant;

/// the size that the generated tables are 1, 2, 4 and 8 times of
const SIZE: u32 = 15_820;

fn median(mut times: Vec<f64>) -> f64 {
    times.sort_by(|a, b| a.total_cmp(b));
    times[times.len() / 2]
}

fn seconds(f: impl FnOnce()) -> f64 {
    let t = Instant::now();
    f();
    t.elapsed().as_secs_f64()
}

/// What one round took, in seconds.
#[derive(Clone, Copy)]
struct Round {
    ours_open: f64,
    ours_all: f64,
    rust_open: f64,
    rust_all: f64,
    /// the same with the text taken in memory
    rust_all_captured: f64,
}

/// Rounds in which the five are measured in turn, so that what else the machine does meets all alike.
fn measure(section: &[u8], rounds: usize) -> Vec<Round> {
    let mut lent = Lent::for_section(section);
    let mut all = vec![];
    for round in 0..=rounds {
        let ours_open = seconds(|| ours_open(section, &mut lent));
        let ours_all = seconds(|| ours_all(section, &mut lent));
        let mut opened = None;
        let load = seconds(|| opened = Some(rust_open(section)));
        let btf = opened.unwrap();
        let mut dumper = None;
        let new = seconds(|| dumper = Some(both::dumper(&btf)));
        let rust_all = seconds(|| both::rust_all(dumper.as_mut().unwrap()));
        let mut dumper = both::dumper(&btf);
        let captured = Captured::start();
        let rust_all_captured = seconds(|| both::rust_all(&mut dumper));
        assert!(captured.stop() == lent.text[..lent.text_len], "the texts differ");
        if round > 0 {
            // the first one warms up
            all.push(Round { ours_open, ours_all, rust_open: load + new, rust_all, rust_all_captured });
        }
    }
    all
}

fn time(path: &str) {
    let section = std::fs::read(path).expect(path);
    let rounds = if section.len() > 3_000_000 { 15 } else { 31 };
    let t = both::quiet(|| measure(&section, rounds));
    let of = |f: fn(&Round) -> f64| median(t.iter().map(f).collect());
    let ms = |f: fn(&Round) -> f64| format!("{:9.3} ms", of(f) * 1e3);
    println!("{:18} opening: ours {} Rust {} ratio {:.3}", name(path), ms(|r| r.ours_open), ms(|r| r.rust_open),
        of(|r| r.ours_open / r.rust_open));
    println!("{:18} all ids: ours {} Rust {} ratio {:.3}; Rust into memory {} ratio {:.3}", "", ms(|r| r.ours_all),
        ms(|r| r.rust_all), of(|r| r.ours_all / r.rust_all), ms(|r| r.rust_all_captured),
        of(|r| r.ours_all / r.rust_all_captured));
}

fn name(path: &str) -> &str {
    path.rsplit('/').next().unwrap()
}

fn hostile(dir: &str) {
    let cases: [(&str, usize, bool); 12] = [
        // file, bytes of text, whether the Rust can be run on it
        ("doubling-16", 1 << 16, true),
        ("doubling-20", 1 << 16, true),
        ("doubling-alignment-16", 1 << 20, true),
        ("doubling-alignment-20", 1 << 20, true),
        ("doubling-text-14", 4 << 20, true),
        ("doubling-text-18", 1 << 16, true),
        ("gap-2e24", 8 << 20, true),
        ("gap-2e32", 1 << 16, false),
        ("tails-16384", 300 << 20, true),
        ("distinct-16384", 8 << 20, true),
        ("colliding-16384", 8 << 20, true),
        ("colliding-8192", 8 << 20, true),
    ];
    for (file, text, rust) in cases {
        let section = std::fs::read(format!("{dir}/{file}.btf")).expect(file);
        let mut lent = Lent::new(&section, text);
        let open = seconds(|| ours_open(&section, &mut lent));
        let all = seconds(|| ours_all(&section, &mut lent));
        let (mut r_open, mut r_all) = (f64::NAN, f64::NAN);
        if rust {
            both::quiet(|| {
                let mut btf = None;
                r_open = seconds(|| btf = Some(rust_open(&section)));
                let btf = btf.unwrap();
                let mut dumper = both::dumper(&btf);
                r_all = seconds(|| both::rust_all(&mut dumper));
            });
        }
        println!("{file:24} {:7} bytes, answer {:2}, text {:9}: opening ours {:9.3} ms Rust {:9.3} ms; all ids ours {:9.3} ms Rust {:9.3} ms",
            section.len(), lent.number, lent.text_len, open * 1e3, r_open * 1e3, all * 1e3, r_all * 1e3);
    }
}

fn make(dir: &str) {
    std::fs::create_dir_all(dir).unwrap();
    let write = |name: &str, bytes: Vec<u8>| std::fs::write(format!("{dir}/{name}.btf"), bytes).unwrap();
    for times in [1, 2, 4, 8] {
        write(&format!("generated-{times}"), kernel::table(times, SIZE));
    }
    write("doubling-16", hostile::doubling(16));
    write("doubling-20", hostile::doubling(20));
    write("doubling-alignment-16", hostile::doubling_alignment(16));
    write("doubling-alignment-20", hostile::doubling_alignment(20));
    write("doubling-text-14", hostile::doubling_text(14));
    write("doubling-text-18", hostile::doubling_text(18));
    write("gap-2e24", hostile::gap(1 << 24));
    write("gap-2e32", hostile::gap(u32::MAX - 7));
    write("tails-16384", hostile::tails(16_384));
    write("distinct-16384", hostile::distinct(16_384));
    write("colliding-16384", hostile::colliding(16_384));
    write("colliding-8192", hostile::colliding(8_192));
}

fn main() {
    let args: Vec<String> = std::env::args().skip(1).collect();
    let words: Vec<&str> = args.iter().map(String::as_str).collect();
    let work = move || match words[..] {
        ["time", path] => time(path),
        ["memory", who, path] => both::memory(who, path),
        ["stack", path] => {
            stack::tell(name(path), &std::fs::read(path).expect(path));
            for (what, section) in hostile::deep() {
                stack::tell(&what, &section);
            }
        }
        ["count", what, path] => both::count(what, path),
        ["make", dir] => make(dir),
        ["hostile", dir] => hostile(dir),
        _ => panic!("bench time PATH | stack PATH | memory ours|rust PATH | count WHAT PATH | make DIR | hostile DIR"),
    };
    std::thread::scope(|s| {
        std::thread::Builder::new().stack_size(1 << 30).spawn_scoped(s, work).unwrap().join().unwrap();
    });
}
