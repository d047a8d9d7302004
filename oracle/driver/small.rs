//! Tables of one subject: declarators, gaps, holders of a name, large sizes, and
//! the shapes around which the rules of ordering and emission turn.
use crate::names::names;
use crate::random::Random;
use crate::shapes::{base, kind_of, mix, size_of};
use crate::table::*;

fn int(t: &mut Table, name: &str, bits: u32) -> u32 {
    let name = t.string(name);
    t.push(Rec { body: vec![bits], ..Rec::new(INT, name, bits / 8) })
}

/// Long declarators: a chain of nodes, used as typedef, member and parameter.
pub fn declarators(r: &mut Random) -> Table {
    let mut t = Table::new();
    let names = names(r, &mut t, 6, false);
    let mut bases = vec![0, int(&mut t, "int", 32)];
    let nameless = r.pick(&[0, 100]);
    let name = names.maybe(r, nameless);
    bases.push(t.push(Rec { body: vec![names.name(r), 1, 0], ..Rec::new(r.pick(&[STRUCT, UNION]), name, 4) }));
    let name = names.maybe(r, 50);
    bases.push(t.push(Rec { body: vec![names.name(r), 1], ..Rec::new(ENUM, name, 4) }));
    for _ in 0..r.from(1, 4) {
        let mut at = r.pick(&bases);
        for _ in 0..r.from(1, 11) {
            let kind = r.pick(&[PTR, PTR, PTR, PTR, ARRAY, ARRAY, CONST, CONST, VOLATILE, RESTRICT, TYPE_TAG, FUNC_PROTO, FUNC_PROTO]);
            at = match kind {
                ARRAY if kind_of(&t, base(&t, at)) == FUNC_PROTO => t.push(Rec::new(PTR, 0, at)),
                ARRAY => t.push(Rec { body: vec![at, 1, r.below(9)], ..Rec::new(ARRAY, 0, 0) }),
                FUNC_PROTO => {
                    let mut body = vec![];
                    for _ in 0..r.pick(&[0, 1, 1, 2, 3]) {
                        body.extend([names.maybe(r, 50), if r.percent(30) { 0 } else { r.pick(&bases) }]);
                    }
                    t.push(Rec { body, ..Rec::new(FUNC_PROTO, 0, at) })
                }
                TYPE_TAG => t.push(Rec { flag: r.percent(30), ..Rec::new(TYPE_TAG, r.pick(&names.tags), at) }),
                _ => t.push(Rec::new(kind, 0, at)),
            };
            if r.percent(30) {
                bases.push(at);
            }
        }
        match r.below(3) {
            0 => {
                let td = t.push(Rec::new(TYPEDEF, names.name(r), at));
                bases.push(td);
            }
            1 => {
                let p = t.push(Rec { body: vec![names.maybe(r, 50), at], ..Rec::new(FUNC_PROTO, 0, 0) });
                t.push(Rec::new(TYPEDEF, names.name(r), p));
            }
            _ => {
                let b = kind_of(&t, base(&t, at));
                if b == FUNC_PROTO || b == 0 {
                    at = t.push(Rec::new(PTR, 0, at));
                }
                let size = size_of(&t, at, 8) as u32;
                let name = names.maybe(r, 20);
                t.push(Rec { body: vec![name, at, 0], ..Rec::new(STRUCT, names.name(r), size.next_multiple_of(8)) });
            }
        }
    }
    mix(r, &mut t);
    t
}

/// Structs of few plain members and bit fields with gaps of all sizes between them.
pub fn gaps(r: &mut Random) -> Table {
    let mut t = Table::new();
    let names = names(r, &mut t, 24, false);
    let ints = [int(&mut t, "char", 8), int(&mut t, "short", 16), int(&mut t, "int", 32), int(&mut t, "long", 64), int(&mut t, "i128", 128)];
    for _ in 0..r.from(1, 4) {
        let flag = r.percent(60);
        let mut at = 0;
        let mut body = vec![];
        for _ in 0..r.from(1, 6) {
            let k = r.below(5) as usize;
            let field = flag && r.percent(50);
            let gap = r.pick(&[0, 0, 1, 7, 8, 9, 12, 15, 16, 17, 24, 31, 32, 33, 40, 63, 64, 65, 96, 97, 128, 300]);
            let gap = if r.percent(40) { r.below(300) } else { gap };
            let bits = [8, 16, 32, 64, 128][k];
            let mut bit = at + gap;
            if !field && r.percent(70) {
                bit = bit.next_multiple_of(bits.min(64));
            }
            let width = if field { r.from(1, bits.min(64)) } else { 0 };
            body.extend([names.name(r), ints[k], bit | width << 24]);
            at = if r.percent(5) { bit.saturating_sub(8) } else { bit + if field { width } else { bits } };
        }
        let size = if r.percent(75) { at.div_ceil(8).next_multiple_of(8) } else { at.div_ceil(8) };
        let kind = if r.percent(85) { STRUCT } else { UNION };
        let name = names.maybe(r, 15);
        t.push(Rec { flag, body, ..Rec::new(kind, name, size) });
    }
    let all: Vec<u32> = (6..=t.recs.len() as u32).collect();
    if r.percent(50) {
        let body = all.iter().enumerate().flat_map(|(i, &id)| [names.ordinary[0], id, i as u32 * 512]).collect();
        t.push(Rec { body, ..Rec::new(STRUCT, names.name(r), 512) });
    }
    mix(r, &mut t);
    t
}

/// Many holders of few names: tags, typedefs, enumerators, mentions before definitions.
pub fn holders(r: &mut Random) -> Table {
    let mut t = Table::new();
    let builtin = r.percent(10);
    let names = names(r, &mut t, 3, builtin);
    int(&mut t, "int", 32);
    let n = r.from(3, 30);
    let mut pointers = vec![];
    for _ in 0..n {
        let name = names.maybe(r, 8);
        let id = match r.below(7) {
            0 | 1 => t.push(Rec { body: vec![names.name(r), 1, 0], ..Rec::new(r.pick(&[STRUCT, UNION]), name, 4) }),
            2 => t.push(Rec { flag: r.percent(50), ..Rec::new(FWD, name, 0) }),
            3 => {
                let name = names.name(r);
                t.push(Rec::new(TYPEDEF, name, 1))
            }
            4 => {
                let mut body = vec![];
                for i in 0..r.below(5) {
                    body.extend([names.maybe(r, 10), i]);
                }
                t.push(Rec { body, ..Rec::new(ENUM, name, 4) })
            }
            5 => t.push(Rec { body: vec![names.name(r), r.next() as u32, r.next() as u32], flag: r.percent(50), ..Rec::new(ENUM64, name, 8) }),
            _ => {
                let body = pointers.iter().take(6).enumerate().flat_map(|(i, &p)| [names.ordinary[0], p, 64 * i as u32]).collect();
                t.push(Rec { body, ..Rec::new(STRUCT, names.name(r), 64) })
            }
        };
        if r.percent(60) {
            let p = t.push(Rec::new(PTR, 0, id));
            pointers.insert(0, p);
        }
    }
    mix(r, &mut t);
    t
}

/// Sizes and offsets near 2^32: products, sums, and those just inside.
pub fn large(r: &mut Random) -> Table {
    let mut t = Table::new();
    let names = names(r, &mut t, 12, false);
    let char_ = int(&mut t, "char", 8);
    let int_ = int(&mut t, "int", 32);
    let counts = [0u32, 1, 2, 65536, 65535, 1 << 28, (1 << 28) + 1, (1 << 29) - 1, 1 << 29, 1 << 30, (1 << 30) - 1, 1 << 31, u32::MAX];
    let mut types = vec![char_, int_];
    for _ in 0..r.from(1, 4) {
        let (of, count) = (r.pick(&types), r.pick(&counts));
        let mut id = t.push(Rec { body: vec![of, 1, count], ..Rec::new(ARRAY, 0, 0) });
        if r.percent(30) {
            id = t.push(Rec::new(r.pick(&[TYPEDEF, CONST, PTR]), names.name(r), id));
        }
        types.push(id);
    }
    let size = r.pick(&[4, 8, 1 << 29, u32::MAX, 1 << 31]);
    let body = vec![names.name(r), r.pick(&types), 0];
    let holder = t.push(Rec { body, ..Rec::new(r.pick(&[STRUCT, UNION]), names.maybe(r, 30), size) });
    types.push(holder);
    for _ in 0..r.from(1, 3) {
        let flag = r.percent(20);
        let mut body = vec![];
        for _ in 0..r.from(1, 3) {
            let bit = r.pick(&[0, 0, 0, 8, 32, 64, 4096]);
            let width = if flag && r.percent(40) { r.from(1, 32) << 24 } else { 0 };
            body.extend([names.name(r), r.pick(&types), bit | width]);
        }
        let kind = r.pick(&[STRUCT, STRUCT, UNION]);
        t.push(Rec { flag, body, ..Rec::new(kind, names.name(r), 8) });
    }
    mix(r, &mut t);
    t
}

/// Small tables around one trap each, with the ids mixed.
pub fn motif(r: &mut Random) -> Table {
    let mut t = Table::new();
    let names = names(r, &mut t, 6, false);
    let name = |r: &mut Random| names.maybe(r, 6);
    let i = int(&mut t, "int", 32);
    match r.below(7) {
        // a typedef of a prototype, listed twice or weakly
        0 => {
            let result = r.pick(&[i, 0, 4, 6]);
            let (second, third) = (r.pick(&[i, 4, 6]), r.pick(&[i, 4, 6]));
            t.push(Rec::new(TYPEDEF, name(r), 3));
            t.push(Rec { body: vec![0, second, 0, third], ..Rec::new(FUNC_PROTO, 0, result) });
            t.push(Rec { body: vec![name(r), 5, 0], ..Rec::new(STRUCT, name(r), 8) });
            t.push(Rec::new(PTR, 0, 2));
            let inside = r.pick(&[1, 6, 5]);
            t.push(Rec { body: vec![name(r), inside, 0], ..Rec::new(STRUCT, name(r), 8) });
        }
        // two structs that point at each other through a typedef
        1 => {
            t.push(Rec { body: vec![name(r), 5, 0, name(r), r.pick(&[i, 7]), 64], ..Rec::new(STRUCT, name(r), 16) });
            t.push(Rec { body: vec![name(r), 7, 0], ..Rec::new(STRUCT, name(r), 8) });
            t.push(Rec::new(TYPEDEF, name(r), r.pick(&[2, 3])));
            t.push(Rec::new(PTR, 0, 4));
            t.push(Rec::new(TYPEDEF, name(r), 5));
            t.push(Rec::new(PTR, 0, r.pick(&[2, 3, 6])));
        }
        // nameless inside nameless, pointing out
        2 => {
            t.push(Rec { body: vec![name(r), 3, 0], ..Rec::new(STRUCT, name(r), 8) });
            t.push(Rec { body: vec![0, 4, 0], ..Rec::new(UNION, 0, 8) });
            t.push(Rec { body: vec![name(r), 5, 0, name(r), i, 64], ..Rec::new(STRUCT, 0, 8) });
            t.push(Rec::new(PTR, 0, r.pick(&[2, 2, 3, 6])));
            t.push(Rec::new(TYPEDEF, name(r), r.pick(&[2, 3, 4])));
        }
        // nameless typedefs behind pointers
        3 => {
            t.push(Rec::new(TYPEDEF, 0, i));
            t.push(Rec::new(PTR, 0, 2));
            t.push(Rec { body: vec![name(r), 3, 0], ..Rec::new(STRUCT, name(r), 8) });
            t.push(Rec { body: vec![name(r), i, 0, name(r), 3, 64], ..Rec::new(STRUCT, name(r), 16) });
            t.push(Rec::new(TYPEDEF, name(r), r.pick(&[2, 3])));
        }
        // a typedef of void and void itself
        4 => {
            t.push(Rec::new(TYPEDEF, name(r), 0));
            t.push(Rec::new(PTR, 0, 2));
            t.push(Rec { ..Rec::new(STRUCT, name(r), 0) });
            t.push(Rec::new(PTR, 0, 4));
            t.push(Rec { body: vec![name(r), 5, 0, name(r), 3, 64], ..Rec::new(STRUCT, name(r), 16) });
        }
        // each level uses the one below twice
        5 => {
            let kind = r.pick(&[STRUCT, UNION, FUNC_PROTO]);
            let mut below = i;
            for k in 0..r.from(2, 8) {
                below = if kind == FUNC_PROTO {
                    t.push(Rec { body: vec![0, below, 0, below], ..Rec::new(FUNC_PROTO, 0, 0) })
                } else {
                    t.push(Rec { body: vec![name(r), below, 0, name(r), below, 32 << k], ..Rec::new(kind, 0, 8 << k) })
                };
            }
            t.push(Rec::new(TYPEDEF, name(r), below));
        }
        // a ring of structs
        _ => {
            let n = r.from(1, 5);
            for k in 0..n {
                let next = 2 + (k + 1) % n;
                t.push(Rec { body: vec![name(r), next, 0], ..Rec::new(STRUCT, names.maybe(r, 30), 8) });
            }
            if r.percent(70) {
                let last = t.recs.len() as u32 - 1;
                let p = t.push(Rec::new(PTR, 0, 2));
                t.recs[last as usize].body[1] = p;
            }
        }
    }
    mix(r, &mut t);
    t
}
