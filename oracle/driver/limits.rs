//! The largest sections and counts, each just inside and just outside.
use crate::causes;
use crate::ours;
use crate::plan::{Call, Odd, Plan, Room, Step};
use crate::lent::Memory;
use crate::session;
use crate::table::*;

fn plan() -> Plan {
    let all = Step { call: Call::All, room: Room::Over(9), odd: Odd::No };
    Plan { pointer_size: 8, modes: 0, spare_work: 0, open_text: 100, junk: 0xcd, steps: vec![all] }
}

fn pointers(n: u32) -> Table {
    let mut t = Table::new();
    t.recs = vec![Rec::new(PTR, 0, 0); n as usize];
    t
}

/// a section of exactly so many bytes, filled up by its string area
fn of_length(len: usize) -> Vec<u8> {
    let mut t = pointers(3);
    let missing = len - t.bytes().len();
    t.strings.resize(1 + missing, 0);
    t.bytes()
}

pub fn run() -> u64 {
    let cases = [
        ("262,144 records", pointers(262_144).bytes(), Ok(262_145)),
        ("262,145 records", pointers(262_145).bytes(), Err(5)),
        ("16,777,216 bytes", of_length(16_777_216), Ok(4)),
        ("16,777,217 bytes", of_length(16_777_217), Err(2)),
        ("no types", Table::new().bytes(), Ok(1)),
    ];
    let mut differences = 0;
    for (what, section, want) in cases {
        let found = causes::opening(&section, 8, u64::MAX);
        assert_eq!(found.map(|s| s.types), want, "{what}");
        let done = crate::host::in_child(move || {
            let mut memory = Memory::new(20 << 20, 40 << 20, 1 << 20);
            let outcome = match found {
                Ok(sound) => session::run(&mut memory, &section, &plan(), sound),
                Err(n) => session::refused(&mut memory, &section, &plan(), n, 16384),
            };
            if let Err(e) = outcome {
                println!("DIFFERENCE {what}: {e}");
                panic!();
            }
        });
        println!("{what}: {}{}", if done == 0 { "same" } else { "DIFFERENT" }, if ours::linked() { "" } else { " (the Rust alone)" });
        differences += (done != 0) as u64;
    }
    differences
}
