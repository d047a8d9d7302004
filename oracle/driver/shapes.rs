//! A table by chance, and what the makers of tables need to know of types.
use crate::random::Random;
use crate::table::*;
use crate::{deep, small, web};

pub fn table(r: &mut Random) -> Table {
    match r.weighted(&[60, 12, 10, 6, 6, 4, 2]) {
        0 => web::web(r),
        1 => small::declarators(r),
        2 => small::gaps(r),
        3 => deep::table(r),
        4 => small::holders(r),
        5 => small::motif(r),
        _ => small::large(r),
    }
}

pub fn is_node(kind: u32) -> bool {
    matches!(kind, PTR | ARRAY | TYPEDEF | VOLATILE | CONST | RESTRICT | FUNC_PROTO | TYPE_TAG)
}

pub fn may_be_followed(kind: u32) -> bool {
    !matches!(kind, FUNC | VAR | DATASEC | DECL_TAG)
}

pub fn kind_of(t: &Table, id: u32) -> u32 {
    if id == 0 { 0 } else { t.recs[id as usize - 1].kind }
}

/// the first type that is no array, typedef, qualifier or type tag
pub fn base(t: &Table, mut id: u32) -> u32 {
    loop {
        id = match kind_of(t, id) {
            ARRAY => t.recs[id as usize - 1].body[0],
            TYPEDEF | VOLATILE | CONST | RESTRICT | TYPE_TAG => t.recs[id as usize - 1].third,
            _ => return id,
        }
    }
}

pub fn size_of(t: &Table, id: u32, pointer: u64) -> u64 {
    if id == 0 {
        return 0;
    }
    let r = &t.recs[id as usize - 1];
    match r.kind {
        INT => (r.body[0] as u64 & 255).div_ceil(8),
        PTR => pointer,
        ARRAY => (r.body[2] as u64).saturating_mul(size_of(t, r.body[0], pointer)).min(1 << 40),
        STRUCT | UNION | ENUM | ENUM64 | FLOAT => r.third as u64,
        TYPEDEF | VOLATILE | CONST | RESTRICT | TYPE_TAG => size_of(t, r.third, pointer),
        _ => 0,
    }
}

pub fn align_of(t: &Table, id: u32, pointer: u64, depth: u32) -> u64 {
    let b = base(t, id);
    match kind_of(t, b) {
        STRUCT | UNION if depth < 6 => {
            let members = t.recs[b as usize - 1].body.iter().skip(1).step_by(3);
            members.take(40).map(|&m| align_of(t, m, pointer, depth + 1)).max().unwrap_or(1).max(1)
        }
        0 | FWD => 0,
        _ => size_of(t, b, pointer).min(pointer),
    }
}

/// Other ids, so that types lead forward and back.
pub fn mix(r: &mut Random, t: &mut Table) {
    let n = t.recs.len() as u32;
    let mut to: Vec<u32> = (1..=n).collect();
    match r.below(10) {
        0..=3 => return,
        4..=5 => to.reverse(),
        6..=7 => {
            for _ in 0..r.from(1, 3) {
                let (a, b) = (r.below(n), r.below(n));
                to.swap(a as usize, b as usize);
            }
        }
        _ => r.shuffle(&mut to),
    }
    t.renumber(&to);
}
