//! Tables of all kinds. Nodes (pointers, arrays, qualifiers, typedefs, prototypes,
//! type tags) lead to earlier nodes or to anything else, so that no loop arises;
//! members come last; then the ids are mixed.
use crate::names::{names, Names};
use crate::random::Random;
use crate::shapes::{align_of, base, is_node, kind_of, may_be_followed, mix, size_of};
use crate::table::*;

/// What a table leans to.
struct Temper {
    /// composites may hold themselves
    cycles: bool,
    /// void, FWD and types of size 0 as members
    zero_alignment: bool,
    /// array lengths and offsets near 2^32
    huge: bool,
    nameless_typedef: u32,
    nameless_composite: u32,
    builtin: bool,
    /// distinct names to choose from
    pool: usize,
    gaps: u32,
    bit_fields: u32,
}

fn named(t: &Table, id: u32) -> bool {
    t.strings[t.recs[id as usize - 1].name as usize] != 0
}

/// Composites that a way from id needs are all before `self_id`.
fn needs_only_earlier(t: &Table, id: u32, self_id: u32) -> bool {
    let mut todo = vec![(id, false)];
    let mut seen = std::collections::HashSet::new();
    while let Some((id, ptr)) = todo.pop() {
        if id == 0 || !seen.insert((id, ptr)) {
            continue;
        }
        let rec = &t.recs[id as usize - 1];
        match rec.kind {
            STRUCT | UNION => {
                if (!ptr || !named(t, id)) && id >= self_id {
                    return false;
                }
            }
            PTR => todo.push((rec.third, true)),
            TYPEDEF | VOLATILE | CONST | RESTRICT | TYPE_TAG => todo.push((rec.third, ptr)),
            ARRAY => todo.push((rec.body[0], ptr)),
            FUNC_PROTO => {
                todo.push((rec.third, ptr));
                todo.extend(rec.body.iter().skip(1).step_by(2).map(|&p| (p, ptr)));
            }
            _ => {}
        }
    }
    true
}

fn temper(r: &mut Random) -> Temper {
    Temper {
        cycles: r.percent(9),
        zero_alignment: r.percent(6),
        huge: r.percent(4),
        nameless_typedef: r.pick(&[0, 0, 0, 0, 4, 30]),
        nameless_composite: r.pick(&[0, 10, 25, 25, 50]),
        builtin: r.percent(10),
        pool: r.pick(&[2, 3, 6, 12, 24]),
        gaps: r.pick(&[0, 10, 40]),
        bit_fields: r.pick(&[0, 10, 60]),
    }
}

const WEIGHTS: [u32; 20] = [0, 8, 14, 7, 16, 6, 5, 4, 14, 2, 4, 2, 1, 8, 1, 1, 2, 5, 3, 3];

pub fn web(r: &mut Random) -> Table {
    let tp = temper(r);
    let mut t = Table::new();
    let names = names(r, &mut t, tp.pool, tp.builtin);
    let n = match r.weighted(&[32, 40, 22, 6]) {
        0 => r.from(1, 6),
        1 => r.from(4, 16),
        2 => r.from(10, 40),
        _ => r.from(40, 110),
    };
    let mut weights = WEIGHTS;
    for _ in 0..r.below(4) {
        weights[r.from(1, 19) as usize] *= 4;
    }
    for i in 0..n {
        let kind = if i == 0 && r.percent(60) { INT } else { r.weighted(&weights) as u32 };
        leaf(r, &mut t, &names, &tp, kind);
    }
    for id in 1..=n {
        lead(r, &mut t, &names, &tp, id, n);
    }
    for id in 1..=n {
        if matches!(kind_of(&t, id), STRUCT | UNION) {
            members(r, &mut t, &names, &tp, id, n);
        }
    }
    tags(r, &mut t, n);
    mix(r, &mut t);
    t
}

/// Record of a kind, without what it leads to.
fn leaf(r: &mut Random, t: &mut Table, names: &Names, tp: &Temper, kind: u32) {
    let mut rec = Rec::new(kind, 0, 0);
    match kind {
        INT => {
            let bits = if tp.zero_alignment && r.percent(20) { 0 } else { r.pick(&[8, 16, 32, 32, 32, 64, 64, 1, 7, 24, 128, 255]) };
            let encoding = if r.percent(1) { r.below(16) } else { r.pick(&[0, 1, 2, 4]) };
            let offset = if r.percent(5) { r.below(256) } else { 0 };
            rec.name = names.maybe(r, 2);
            rec.third = if r.percent(90) { bits / 8 } else { r.below(20) };
            rec.body = vec![bits | offset << 16 | encoding << 24 | if r.percent(3) { 0xf000_ff00 & r.next() as u32 } else { 0 }];
        }
        STRUCT | UNION => rec.name = names.maybe(r, tp.nameless_composite),
        ENUM | ENUM64 => {
            rec.name = names.maybe(r, 25);
            rec.flag = r.percent(50);
            rec.third = if tp.zero_alignment && r.percent(20) { 0 } else { r.pick(&[4, 4, 4, 8, 1, 2, 3]) };
            for _ in 0..r.pick(&[0, 1, 2, 2, 3, 5]) {
                rec.body.push(names.maybe(r, 4));
                rec.body.extend(value(r, kind == ENUM64));
            }
        }
        FWD => {
            rec.name = names.maybe(r, 10);
            rec.flag = r.percent(40);
        }
        TYPEDEF => rec.name = names.maybe(r, tp.nameless_typedef),
        FUNC => {
            rec.name = names.maybe(r, 5);
            rec.vlen = r.below(4);
        }
        VAR => {
            rec.name = names.maybe(r, 5);
            rec.body = vec![if r.percent(3) { r.below(9) } else { r.below(3) }];
        }
        FLOAT => {
            rec.name = names.maybe(r, 2);
            rec.third = if tp.zero_alignment && r.percent(20) { 0 } else { r.pick(&[4, 8, 2, 16, 12]) };
        }
        DECL_TAG | TYPE_TAG => {
            rec.name = r.pick(&names.tags);
            rec.flag = r.percent(30);
        }
        _ => {}
    }
    if r.percent(3) && !matches!(kind, STRUCT | UNION) {
        rec.flag = !rec.flag;
    }
    if r.percent(3) && entry_words(kind) == 0 {
        rec.vlen = r.below(65536);
    }
    if r.percent(3) && is_node(kind) && !matches!(kind, TYPEDEF | TYPE_TAG) {
        rec.name = names.name(r);
    }
    t.push(rec);
}

fn value(r: &mut Random, wide: bool) -> Vec<u32> {
    let edge = [0u32, 1, 2, 0xffff_ffff, 0x8000_0000, 0x7fff_ffff, 0x8000_0001, 10, 99, 100, 999_999_999, 1_000_000_000];
    if wide && r.percent(40) {
        let v = r.pick(&[i64::MIN, i64::MAX, i64::MIN + 1, -1, 1 << 32, -(1 << 32), 0xffff_ffff, -10_000_000_000]);
        return vec![v as u32, (v >> 32) as u32];
    }
    let one = |r: &mut Random| if r.percent(80) { r.pick(&edge) } else { r.next() as u32 };
    if wide { vec![one(r), one(r)] } else { vec![one(r)] }
}

/// An id that a node may lead to: an earlier one, or any that is no node.
fn target(r: &mut Random, t: &Table, id: u32, n: u32, ok: impl Fn(u32) -> bool) -> u32 {
    for _ in 0..12 {
        let j = match r.below(10) {
            0 => 0,
            1..=4 if id > 1 => r.from(id.saturating_sub(4).max(1), id - 1),
            _ => r.from(1, n),
        };
        if (j == 0 || (!is_node(kind_of(t, j)) || j < id) && may_be_followed(kind_of(t, j))) && ok(j) {
            return j;
        }
    }
    0
}

fn lead(r: &mut Random, t: &mut Table, names: &Names, tp: &Temper, id: u32, n: u32) {
    let kind = kind_of(t, id);
    match kind {
        PTR | TYPEDEF | VOLATILE | CONST | RESTRICT | TYPE_TAG => {
            let to = target(r, t, id, n, |_| true);
            t.recs[id as usize - 1].third = to;
        }
        ARRAY => {
            let to = target(r, t, id, n, |j| kind_of(t, base(t, j)) != FUNC_PROTO);
            let count = match r.below(20) {
                0 => 0,
                1 if tp.huge => r.pick(&[0xffff_ffff, 0x4000_0000, 0x1fff_ffff, 0x2000_0000, 65536]),
                _ => r.pick(&[1, 2, 3, 4, 16, 100]),
            };
            let index = if r.percent(5) { r.next() as u32 } else { r.below(n + 1) };
            t.recs[id as usize - 1].body = vec![to, index, count];
        }
        FUNC_PROTO => {
            t.recs[id as usize - 1].third = target(r, t, id, n, |_| true);
            let count = r.pick(&[0, 0, 1, 1, 1, 2, 2, 3, 5]);
            for i in 0..count {
                let last = i + 1 == count;
                let to = if last && r.percent(20) { 0 } else { target(r, t, id, n, |_| true) };
                let name = names.maybe(r, 50);
                t.recs[id as usize - 1].body.extend([name, to]);
            }
        }
        FUNC | VAR => t.recs[id as usize - 1].third = r.below(n + 5),
        DATASEC => {
            for _ in 0..r.below(4) {
                let entry = [r.below(n + 5), r.below(100), r.below(100)];
                t.recs[id as usize - 1].body.extend(entry);
            }
            t.recs[id as usize - 1].name = names.maybe(r, 10);
        }
        _ => {}
    }
}

fn member_type(r: &mut Random, t: &Table, tp: &Temper, id: u32, n: u32) -> Option<u32> {
    for _ in 0..14 {
        let j = if r.percent(3) { 0 } else { r.from(1, n) };
        let b = base(t, j);
        let zero = b == 0 || kind_of(t, b) == FWD;
        if !may_be_followed(kind_of(t, j)) || kind_of(t, b) == FUNC_PROTO {
            continue;
        }
        if zero && !(tp.zero_alignment && r.percent(40)) {
            continue;
        }
        if tp.cycles || needs_only_earlier(t, j, id) {
            return Some(j);
        }
    }
    None
}

fn members(r: &mut Random, t: &mut Table, names: &Names, tp: &Temper, id: u32, n: u32) {
    let count = match r.weighted(&[8, 25, 45, 18, 4]) {
        0 => 0,
        1 => 1,
        2 => r.from(2, 4),
        3 => r.from(5, 10),
        _ => r.from(20, 40),
    };
    let pointer = r.pick(&[4u64, 8, 8]);
    let is_union = kind_of(t, id) == UNION;
    let style = r.weighted(&[50, 20, 12, 10, 8]); // natural, with gaps, close together, any offset, fields only
    let flag = r.percent(tp.bit_fields.max(3));
    let (mut at, mut largest, mut alignment) = (0u64, 0u64, 1u64);
    let mut body = vec![];
    for _ in 0..count {
        let Some(to) = member_type(r, t, tp, id, n) else { continue };
        let (size, align) = (size_of(t, to, pointer) * 8, align_of(t, to, pointer, 0).max(1) * 8);
        let name = names.maybe(r, if matches!(kind_of(t, to), STRUCT | UNION) { 50 } else { 4 });
        let field = flag && (style == 4 || r.percent(tp.bit_fields.max(30)));
        alignment = alignment.max(align / 8);
        let mut bit = match style {
            0 | 1 if !field => at.next_multiple_of(align),
            3 => r.below(260) as u64,
            _ => at,
        };
        if style == 1 || r.percent(tp.gaps) {
            bit += match r.below(4) {
                0 => align * r.below(4) as u64,
                1 => r.below(130) as u64,
                2 => 8 * r.below(40) as u64,
                _ => r.below(9) as u64,
            };
        }
        if is_union && r.percent(90) {
            bit = 0;
        }
        if tp.huge && r.percent(8) {
            bit = r.pick(&[1u64 << 24, (1 << 24) + 32, 1 << 20, 0xffff_fff8, 0xffff_ffff, 1 << 31]);
        }
        let width = if field { r.pick(&[1, 1, 2, 3, 5, 8, 16, 31, 32, 33, 64, 255]) } else { 0 };
        let word = if flag { (bit as u32 & 0xff_ffff) | width << 24 } else { bit as u32 };
        at = bit + if width > 0 { width as u64 } else { size };
        largest = largest.max(at);
        body.extend([name, to, word]);
    }
    let mut bytes = largest.div_ceil(8);
    if style != 2 || r.percent(40) {
        bytes = bytes.next_multiple_of(alignment);
    }
    if r.percent(8) {
        bytes = r.below(64) as u64;
    }
    let rec = &mut t.recs[id as usize - 1];
    rec.flag = flag;
    rec.body = body;
    rec.third = bytes as u32;
}

/// Declaration tags lead to composites and typedefs, mostly.
fn tags(r: &mut Random, t: &mut Table, n: u32) {
    for id in 1..=n {
        if kind_of(t, id) != DECL_TAG {
            continue;
        }
        let mut to = r.below(n + 2);
        for _ in 0..6 {
            if to >= 1 && to <= n && matches!(kind_of(t, to), STRUCT | UNION | TYPEDEF) {
                break;
            }
            to = r.below(n + 2);
        }
        let entries = if to >= 1 && to <= n { t.recs[to as usize - 1].entries() as u32 } else { 3 };
        let component = match r.below(8) {
            0..=2 => u32::MAX,
            3 => r.pick(&[0xffff_fffe, 0x8000_0000, 7, 65536]),
            _ => r.below(entries + 1),
        };
        t.recs[id as usize - 1].third = to;
        t.recs[id as usize - 1].body = vec![component];
    }
}
