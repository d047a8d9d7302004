//! Which sound sections the Rust opens, and what is given to it instead of the
//! others.

use crate::table::{from_bytes, is_big};

fn word(s: &[u8], p: usize) -> u64 {
    from_bytes(s[p..p + 4].try_into().unwrap(), is_big(s)) as u64
}

/// bytes after the first twelve of a record
fn extra(kind: u64, count: u64) -> u64 {
    match kind {
        1 | 14 | 17 => 4,
        3 => 12,
        4 | 5 | 15 | 19 => 12 * count,
        6 | 13 => 8 * count,
        _ => 0,
    }
}

/// Kind and place of the first word after the head, of every record of a sound section.
fn records(section: &[u8]) -> Vec<(u64, usize)> {
    let start = word(section, 4) + word(section, 8);
    let (mut p, end) = (start, start + word(section, 12));
    let mut all = vec![];
    while p < end {
        let info = word(section, p as usize + 4);
        let (kind, count) = (info >> 24 & 31, info & 0xffff);
        all.push((kind, p as usize + 12));
        p += 12 + extra(kind, count);
    }
    all
}

/// The Rust also looks at INT encodings, VAR linkages and a kind layout area
/// (FINDINGS 15, 16).
pub fn rust_opens(section: &[u8]) -> bool {
    let header = word(section, 4);
    if header >= 32 {
        let (start, length) = (header + word(section, 24), word(section, 28));
        if length > 0 && (length % 4 != 0 || start > u32::MAX as u64 || start + length > section.len() as u64) {
            return false;
        }
    }
    records(section).into_iter().all(|(kind, at)| match kind {
        1 => matches!(word(section, at) >> 24 & 15, 0 | 1 | 2 | 4),
        14 => word(section, at) <= 2,
        _ => true,
    })
}

/// The section as the Rust opens it: encodings, linkages and the kind layout
/// area, which it refuses and which never reach the text, are made plain.
/// Nothing where the areas share bytes: then the change could reach a name.
pub fn for_the_rust(section: &[u8]) -> Option<Vec<u8>> {
    let mut s = section.to_vec();
    if rust_opens(section) {
        return Some(s);
    }
    if word(section, 8) < word(section, 16) + word(section, 20) && word(section, 16) < word(section, 8) + word(section, 12) {
        return None;
    }
    if word(section, 4) >= 32 {
        s[28..32].fill(0); // both areas start past the header
    }
    for (kind, at) in records(section) {
        match kind {
            1 => s[if is_big(section) { at } else { at + 3 }] &= 0xf0,
            14 => s[at..at + 4].fill(0),
            _ => {}
        }
    }
    Some(s)
}
