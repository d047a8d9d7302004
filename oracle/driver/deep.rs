//! Tables whose depth lies near the limit of 512 calls.
use crate::random::Random;
use crate::table::*;

/// a length near the one where the refusal starts
fn near(r: &mut Random, limit: u32) -> u32 {
    if r.percent(85) { (limit + r.below(5)).saturating_sub(2).max(1) } else { r.from(1, limit) }
}

pub fn table(r: &mut Random) -> Table {
    let mut t = Table::new();
    let (x, y) = (t.string("x"), t.string("y"));
    let bits = r.pick(&[8, 32]);
    let int = t.push(Rec { body: vec![bits], ..Rec::new(INT, x, 4) });
    let composite = r.pick(&[STRUCT, STRUCT, UNION]);
    let hold = |kind: u32, name: u32, of: u32| Rec { body: vec![y, of, 0], ..Rec::new(kind, name, 4) };
    let mut at = int;
    match r.below(13) {
        0 | 1 => {
            // a chain of one kind or of several, under a typedef, member or alone
            let kinds: &[u32] = r.pick(&[&[PTR][..], &[CONST], &[TYPE_TAG], &[PTR, CONST, VOLATILE, RESTRICT, TYPE_TAG, ARRAY], &[ARRAY]]);
            for _ in 0..near(r, 510) {
                at = match r.pick(kinds) {
                    ARRAY => t.push(Rec { body: vec![at, 0, 1], ..Rec::new(ARRAY, 0, 0) }),
                    k => t.push(Rec::new(k, if k == TYPE_TAG { y } else { 0 }, at)),
                };
            }
            match r.below(4) {
                0 => {}
                1 => at = t.push(Rec::new(TYPEDEF, x, at)),
                _ => at = t.push(hold(composite, x, at)),
            }
        }
        2 => {
            for _ in 0..near(r, 510) {
                at = t.push(Rec::new(TYPEDEF, x, at));
            }
            at = t.push(hold(composite, x, at));
        }
        3 | 4 => {
            // nameless composites in a named one
            if r.percent(50) {
                at = t.push(Rec::new(composite, 0, 0));
            }
            for _ in 0..near(r, 169) {
                at = t.push(hold(r.pick(&[STRUCT, UNION]), 0, at));
            }
            at = t.push(hold(composite, x, at));
        }
        5 | 6 => {
            // named composites, each in the next
            for _ in 0..near(r, 511) {
                at = t.push(hold(composite, x, at));
            }
        }
        7 => {
            // prototypes as parameters of prototypes
            for _ in 0..near(r, 255) {
                at = t.push(Rec { body: vec![y, at], ..Rec::new(FUNC_PROTO, 0, 0) });
            }
            at = t.push(Rec::new(TYPEDEF, x, at));
        }
        8 => {
            // prototypes as results, with and without pointers between
            let pointers = r.percent(60);
            for _ in 0..near(r, if pointers { 255 } else { 510 }) {
                at = t.push(Rec::new(FUNC_PROTO, 0, at));
                if pointers {
                    at = t.push(Rec::new(PTR, 0, at));
                }
            }
            at = t.push(Rec::new(TYPEDEF, x, at));
        }
        9 => {
            // a ring of structs: the cycle is met at one call, too deep at the next
            let n = near(r, 511);
            for k in 0..n {
                let next = 2 + (k + 1) % n;
                t.push(hold(STRUCT, x, next));
            }
            at = 2;
        }
        10 => {
            // nameless composites behind pointers
            for _ in 0..near(r, 170) {
                at = t.push(hold(composite, 0, at));
                at = t.push(Rec::new(PTR, 0, at));
            }
            at = t.push(hold(STRUCT, x, at));
        }
        11 => {
            // a union whose padding asks for a deep alignment
            for _ in 0..near(r, 510) {
                at = t.push(Rec::new(TYPEDEF, x, at));
            }
            at = t.push(Rec { body: vec![y, at, 128, y, at, 8], ..Rec::new(UNION, x, 4) });
        }
        _ => {
            // arrays of pointers to arrays
            for _ in 0..near(r, 255) {
                at = t.push(Rec { body: vec![at, 0, 2], ..Rec::new(ARRAY, 0, 0) });
                at = t.push(Rec::new(PTR, 0, at));
            }
            at = t.push(hold(STRUCT, x, at));
        }
    }
    if r.percent(20) {
        let p = t.push(Rec::new(PTR, 0, at));
        t.push(hold(STRUCT, y, p));
    }
    if r.percent(50) {
        let n = t.recs.len() as u32;
        t.renumber(&(1..=n).rev().collect::<Vec<u32>>());
    }
    t
}
