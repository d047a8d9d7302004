//! Frames that differ from the usual one, and damaged copies.
use crate::random::Random;
use crate::table::*;

/// A sound frame: longer header, gaps, areas in the other order, bytes after.
pub fn frame(r: &mut Random, t: &mut Table) {
    if r.percent(80) {
        return;
    }
    let f = &mut t.frame;
    f.flags = r.below(256) as u8;
    f.strings_first = r.percent(30);
    f.gap_before_types = r.pick(&[0, 0, 1, 3, 4, 7, 40]);
    f.gap_before_strings = r.pick(&[0, 0, 1, 3, 4, 7, 40]);
    f.trailing = r.pick(&[0, 0, 1, 5]);
    f.header_tail = match r.below(6) {
        0 => vec![0xff; r.from(1, 7) as usize],
        1 => vec![0; 8],
        2 => {
            // a kind layout area, mostly one that the Rust cannot read
            let mut words = vec![];
            words.extend_from_slice(&to_bytes(r.pick(&[0u32, 4, 0xffff_ffff, 100]), f.big));
            words.extend_from_slice(&to_bytes(r.pick(&[0u32, 1, 4, 8, 0x7fff_fffc]), f.big));
            words.resize(r.pick(&[8, 9, 16]), 1);
            words
        }
        _ => vec![],
    };
}

/// One change to a record, aimed at causes 5 to 8.
pub fn record(r: &mut Random, t: &mut Table) {
    let n = t.recs.len() as u32;
    if n == 0 {
        return;
    }
    let i = r.below(n) as usize;
    let strings = t.strings.len() as u32;
    let choice = r.below(12);
    let rec = &mut t.recs[i];
    match choice {
        0 => rec.name = r.pick(&[strings, strings - 1, u32::MAX, strings + 1]),
        1 => rec.kind = r.pick(&[0, 20, 31, 32]) & 31,
        2 => {
            // a name offset of an entry
            if rec.entries() > 0 && rec.kind != DATASEC {
                let at = r.below(rec.entries() as u32) as usize * entry_words(rec.kind);
                rec.body[at] = r.pick(&[strings, strings - 1, u32::MAX]);
            }
        }
        3 => {
            rec.body.pop();
        }
        4 => rec.third = r.pick(&[0, 1, n, n + 1, u32::MAX]),
        5 | 6 => {
            // a member or an element that may be a prototype
            let to = t.recs.iter().position(|x| x.kind == FUNC_PROTO).map_or(1, |at| at as u32 + 1);
            let from: Vec<usize> = (0..n as usize).filter(|&k| matches!(t.recs[k].kind, ARRAY | STRUCT | UNION | TYPEDEF)).collect();
            for _ in 0..3 {
                if !from.is_empty() {
                    let k = r.pick(&from);
                    if let Some(id) = t.recs[k].ids().into_iter().next() {
                        *id = to;
                    }
                }
            }
        }
        _ => {
            let new = match r.below(6) {
                0 => n + 1,
                1 => n,
                2 => i as u32 + 1,
                _ => r.from(1, n),
            };
            let mut ids = rec.ids();
            if !ids.is_empty() {
                let k = r.below(ids.len() as u32) as usize;
                *ids[k] = new;
            }
        }
    }
}

/// Changes to the bytes of a section.
pub fn bytes(r: &mut Random, s: &mut Vec<u8>) {
    for _ in 0..r.pick(&[1, 1, 1, 2, 3]) {
        if s.is_empty() {
            return;
        }
        let len = s.len() as u32;
        let big = is_big(s);
        let header = from_bytes(s.get(4..8).map_or([0; 4], |b| b.try_into().unwrap()), big);
        match r.below(12) {
            0..=2 => {
                let at = r.below(len) as usize;
                s[at] ^= 1 << r.below(8);
            }
            3 | 4 => {
                // a word of the type area
                let at = (header.min(len) + 4 * r.below(len / 4 + 1)) as usize;
                if at + 4 <= s.len() {
                    let w: u32 = r.pick(&[0, 1, 2, 5, 0x0400_0001, 0x8000_0000, 0xffff_ffff, 0x0d00_0002, 0x0e00_0000, 16]);
                    s[at..at + 4].copy_from_slice(&to_bytes(w, big));
                }
            }
            5 => s.truncate(r.below(len) as usize),
            6 => {
                let cut = r.from(1, 16.min(len));
                s.truncate((len - cut) as usize);
            }
            7 => s.extend(std::iter::repeat_n(r.below(2) as u8, r.from(1, 9) as usize)),
            8 | 9 => {
                // a word of the header, by little
                let at = 4 * r.from(1, 5) as usize;
                if at + 4 <= s.len() {
                    let w = from_bytes(s[at..at + 4].try_into().unwrap(), big);
                    let w = match r.below(4) {
                        0 => w.wrapping_add(r.from(1, 4)),
                        1 => w.wrapping_sub(r.from(1, 4)),
                        2 => r.pick(&[0, 23, 24, 25, 32, len, len - 24.min(len), u32::MAX, u32::MAX - 24]),
                        _ => w ^ 1 << r.below(32),
                    };
                    s[at..at + 4].copy_from_slice(&to_bytes(w, big));
                }
            }
            10 => {
                // near the end, where the strings mostly are
                let at = len - 1 - r.below(len.min(8));
                s[at as usize] = r.pick(&[0, 1, 127, 128, 255]);
            }
            _ => s[r.below(len.min(24)) as usize] = r.next() as u8,
        }
    }
}

/// A section by chance, in either order of its bytes; three of four are sound.
pub fn section(r: &mut Random, big: bool) -> Vec<u8> {
    let mut t = crate::shapes::table(r);
    t.frame.big = big;
    frame(r, &mut t);
    let damage = r.below(100);
    if damage < 10 {
        for _ in 0..r.from(1, 2) {
            record(r, &mut t);
        }
    }
    let mut s = t.bytes();
    if (10..24).contains(&damage) {
        bytes(r, &mut s);
    }
    s
}
