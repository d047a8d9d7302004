//! Many sections, three sessions each; counts by outcome, and the smallest
//! section of each difference in build/oracle.
use crate::causes;
use crate::damage;
use crate::domain;
use crate::host;
use crate::ours;
use crate::plan::{self, Plan};
use crate::random::Random;
use crate::lent::Memory;
use crate::session::{self, Met};
use crate::shrink;
use crate::table::{is_big, Table};
use std::sync::atomic::{AtomicU64, Ordering::Relaxed};

const OUT: &str = "build/oracle";

/// Places in the shared counters.
const CURRENT: usize = 0;
const SECTIONS: usize = 1;
const OPENED: usize = 2;
const WITH_TEXT: usize = 3;
const SESSIONS: usize = 4;
const REQUESTS: usize = 5;
const COSTLY: usize = 6;
const OUTSIDE: usize = 7;
const TEXT_BYTES: usize = 8;
const DIFFERENCES: usize = 9;
const OPENINGS: usize = 10;
/// opened sections with their most significant bytes first
const BIG: usize = 11;
const OPENING_NUMBERS: usize = 16;
const REQUEST_NUMBERS: usize = 32;
const DEEPEST: usize = 64;
/// sessions by pointer size and union setting
const SETTINGS: usize = 72;
/// records of opened sections by kind
const KINDS: usize = 80;
const COUNTERS: usize = 100;

type Counters = &'static [AtomicU64];

fn memory() -> Memory {
    Memory::new(8 << 20, 40 << 20, 64 << 20)
}

/// One section: its opening, then sessions; the first difference ends it.
fn section(c: Counters, memory: &mut Memory, s: &[u8], r: &mut Random, tell: bool) -> Result<(), (String, Option<Plan>)> {
    c[SECTIONS].fetch_add(1, Relaxed);
    let mut p = plan::plan(r, 1, 0);
    let opening = |c: Counters, n: u32| {
        c[OPENINGS].fetch_add(1, Relaxed);
        c[OPENING_NUMBERS + n as usize].fetch_add(1, Relaxed);
    };
    if r.percent(4) {
        p.pointer_size = r.pick(&[0, 1, 5, 16, 0xffff_ffff, 0x1_0000_0008u64 as u32 ^ 12]);
    }
    let work_len = r.pick(&[0usize, 3, 16384, 20000]);
    let sound = match causes::opening(s, p.pointer_size, u64::MAX) {
        Err(n) => {
            opening(c, n);
            session::refused(memory, s, &p, n, work_len).map_err(|e| (e, None))?;
            if n != 1 {
                return Ok(());
            }
            match causes::opening(s, 8, u64::MAX) {
                Err(_) => return Ok(()),
                Ok(sound) => sound,
            }
        }
        Ok(sound) => sound,
    };
    if r.percent(15) {
        let short = sound.work_bytes() as usize - r.pick(&[1, 1, 3, 4, 100]);
        opening(c, 9);
        session::refused(memory, s, &Plan { pointer_size: 8, ..p.clone() }, 9, short).map_err(|e| (e, None))?;
    }
    c[OPENED].fetch_add(1, Relaxed);
    c[BIG].fetch_add(is_big(s) as u64, Relaxed);
    if !domain::rust_opens(s) {
        c[OUTSIDE].fetch_add(1, Relaxed);
    }
    for rec in &Table::read(s).recs {
        c[KINDS + rec.kind as usize].fetch_add(1, Relaxed);
    }
    let mut text = 0;
    for how in 0..3 {
        let p = plan::plan(r, sound.types, how);
        opening(c, 0);
        if tell {
            println!("plan {p:?}");
        }
        c[SETTINGS + (p.pointer_size == 8) as usize * 2 + (p.modes & 1) as usize].fetch_add(1, Relaxed);
        let met = session::run(memory, s, &p, sound).map_err(|e| (e, Some(p)))?;
        count(c, &met, tell);
        text = text.max(met.text);
    }
    if text > 0 {
        c[WITH_TEXT].fetch_add(1, Relaxed);
    }
    Ok(())
}

fn count(c: Counters, met: &Met, tell: bool) {
    c[SESSIONS].fetch_add(1, Relaxed);
    c[COSTLY].fetch_add(met.costly as u64, Relaxed);
    c[TEXT_BYTES].fetch_add(met.text as u64, Relaxed);
    for &n in &met.numbers {
        c[REQUESTS].fetch_add(1, Relaxed);
        c[REQUEST_NUMBERS + n as usize].fetch_add(1, Relaxed);
    }
    if tell {
        for (n, text) in &met.answers {
            println!("number {n}, text of {} bytes:\n{}", text.len(), String::from_utf8_lossy(text));
        }
    }
}

fn note_depth(c: Counters) {
    for (i, n) in counted::counted::deepest().iter().enumerate() {
        c[DEEPEST + i].fetch_max(*n as u64, Relaxed);
    }
}

fn hex(bytes: &[u8]) -> String {
    bytes.iter().map(|b| format!("{b:02x}")).collect()
}

fn write_difference(name: &str, s: &[u8], text: &str) {
    std::fs::create_dir_all(OUT).unwrap();
    std::fs::write(format!("{OUT}/difference-{name}.btf"), s).unwrap();
    std::fs::write(format!("{OUT}/difference-{name}.txt"), text).unwrap();
    println!("DIFFERENCE {name} (section in {OUT}/difference-{name}.btf)\n{text}");
}

fn tell_difference(memory: &mut Memory, name: &str, s: &[u8], what: (String, Option<Plan>)) {
    let (why, plan) = what;
    let Some(plan) = plan else {
        write_difference(name, s, &format!("{why}\nsection {}\n", hex(s)));
        return;
    };
    let (small, plan) = if s.len() > 100_000 { (s.to_vec(), plan) } else { shrink::smallest(memory, s, &plan) };
    let sound = causes::opening(&small, plan.pointer_size, u64::MAX).unwrap();
    let why = session::run(memory, &small, &plan, sound).err().unwrap_or(why);
    let mut text = format!("{why}\n{plan:?}\n");
    if small.len() < 10_000 {
        text += &format!("section {}\n", hex(&small));
    }
    write_difference(name, &small, &text);
}

/// One section of four has its most significant bytes first.
fn made(r: &mut Random, index: u64) -> Vec<u8> {
    damage::section(r, index % 4 == 3)
}

pub fn generated(sections: u64, seed: u64) -> u64 {
    let c = host::shared_counters(COUNTERS);
    let mut next = 0;
    while next < sections {
        let end = (next + 5_000).min(sections);
        let signal = host::in_child(move || {
            let mut memory = memory();
            for index in next..end {
                c[CURRENT].store(index, Relaxed);
                host::watch(120);
                let mut r = Random::new(seed, index);
                let s = made(&mut r, index);
                if let Err(what) = section(c, &mut memory, &s, &mut r, false) {
                    if c[DIFFERENCES].fetch_add(1, Relaxed) < 20 {
                        tell_difference(&mut memory, &format!("{seed}-{index}"), &s, what);
                    }
                }
            }
            note_depth(c);
            c[CURRENT].store(end, Relaxed);
        });
        next = end;
        if signal != 0 {
            let index = c[CURRENT].load(Relaxed);
            let s = made(&mut Random::new(seed, index), index);
            c[DIFFERENCES].fetch_add(1, Relaxed);
            write_difference(&format!("{seed}-{index}"), &s, &format!("ended by signal {signal}\nsection {}\n", hex(&s)));
            next = index + 1;
        }
    }
    summary(c, sections, seed);
    c[DIFFERENCES].load(Relaxed)
}

pub fn one(seed: u64, index: u64) -> u64 {
    let c = host::shared_counters(COUNTERS);
    let signal = host::in_child(move || {
        let mut r = Random::new(seed, index);
        let s = made(&mut r, index);
        println!("section {}", hex(&s));
        if let Err(what) = section(c, &mut memory(), &s, &mut r, true) {
            c[DIFFERENCES].fetch_add(1, Relaxed);
            println!("{what:?}");
        }
    });
    c[DIFFERENCES].load(Relaxed) + (signal != 0) as u64
}

pub fn files(paths: &[String]) -> u64 {
    let c = host::shared_counters(COUNTERS);
    for path in paths {
        let s = std::fs::read(path).expect(path);
        let name = path.rsplit('/').next().unwrap().to_string();
        let copy = s.clone();
        let signal = host::in_child(move || {
            let mut memory = memory();
            for round in 0..if copy.len() > 100_000 { 1 } else { 4 } {
                if let Err(what) = section(c, &mut memory, &copy, &mut Random::new(7, round), false) {
                    c[DIFFERENCES].fetch_add(1, Relaxed);
                    tell_difference(&mut memory, &name, &copy, what);
                    break;
                }
            }
            note_depth(c);
        });
        if signal != 0 {
            c[DIFFERENCES].fetch_add(1, Relaxed);
            println!("DIFFERENCE {path}: ended by signal {signal}");
        }
    }
    summary(c, paths.len() as u64, 7);
    c[DIFFERENCES].load(Relaxed)
}

/// Each PATH.btf must give, by the Rust, what stands in PATH.out.
pub fn recorded(paths: &[String]) -> u64 {
    let paths = paths.to_vec();
    let n = paths.len();
    let c = host::shared_counters(COUNTERS);
    let signal = host::in_child(move || {
        for path in &paths {
            let want = std::fs::read(path.replace(".btf", ".out")).expect(path);
            let got = session::program(&std::fs::read(path).expect(path));
            if got != want {
                c[DIFFERENCES].fetch_add(1, Relaxed);
                println!("DIFFERENCE {path}: the Rust {:?}", String::from_utf8_lossy(&got[..got.len().min(200)]));
            }
        }
    });
    println!("recorded answers {n}, differences {}{}", c[DIFFERENCES].load(Relaxed), if signal == 0 { "" } else { ", ended early" });
    c[DIFFERENCES].load(Relaxed) + (signal != 0) as u64
}

fn summary(c: Counters, sections: u64, seed: u64) {
    let get = |i: usize| c[i].load(Relaxed);
    if !ours::linked() {
        println!("(the Rust alone: original against counted copy)");
    }
    println!("sections {sections}, seed {seed}");
    println!("runs {}, opened {}, of these gave text {}, most significant byte first {}", get(SECTIONS), get(OPENED), get(WITH_TEXT), get(BIG));
    println!("opened here, not by the Rust as they are (compared with encodings, linkages, layout made plain): {}", get(OUTSIDE));
    print!("openings {}:", get(OPENINGS));
    for n in 0..10 {
        print!(" {n}: {}", get(OPENING_NUMBERS + n));
    }
    print!("\nsessions {}, too costly for the Rust {}, requests {}:", get(SESSIONS), get(COSTLY), get(REQUESTS));
    for n in [0, 10, 11, 12, 13, 14, 15, 16, 17] {
        print!(" {n}: {}", get(REQUEST_NUMBERS + n));
    }
    println!("\nsessions with pointer size 4: {} and {} (unions as structs); 8: {} and {}",
        get(SETTINGS), get(SETTINGS + 1), get(SETTINGS + 2), get(SETTINGS + 3));
    println!("text compared: {} bytes", get(TEXT_BYTES));
    print!("records of opened sections by kind:");
    for k in 1..20 {
        print!(" {k}: {}", get(KINDS + k));
    }
    println!();
    println!("most open calls: order {}, emit {}, size {}, align {}, declarations {}; longest chain {}",
        get(DEEPEST), get(DEEPEST + 1), get(DEEPEST + 2), get(DEEPEST + 3), get(DEEPEST + 4), get(DEEPEST + 5));
    println!("differences {}", get(DIFFERENCES));
}
