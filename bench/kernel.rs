//! A table shaped like a kernel's: kinds, entries, nameless shares and names in
//! the proportions of a 6.x kernel's own table. It is made of blocks that are
//! alike but for their names, so that twice the blocks are twice the work.
use crate::random::Random;
use crate::table::*;

/// kinds in a thousand types
const SHARES: [(u32, u32); 13] = [
    (FUNC, 444), (FUNC_PROTO, 227), (PTR, 120), (STRUCT, 84), (CONST, 28), (ARRAY, 27), (TYPEDEF, 25), (UNION, 20),
    (ENUM, 19), (VAR, 3), (DECL_TAG, 1), (FWD, 1), (VOLATILE, 1),
];

pub fn table(blocks: u32, block: u32) -> Vec<u8> {
    let types = blocks * block + 6;
    let mut r = Random::new(1, 1);
    let mut t = Table::new();
    let ints = [("char", 8), ("short", 16), ("int", 32), ("long", 64), ("_Bool", 8), ("unsigned int", 32)];
    for (name, bits) in ints {
        let name = t.string(name);
        t.push(Rec { body: vec![bits], ..Rec::new(INT, name, bits / 8) });
    }
    // member and parameter names repeat; a kernel has some thousands of them
    let common: Vec<u32> = (0..block / 20).map(|i| t.string(&format!("{}_{}", WORDS[i as usize % WORDS.len()], i))).collect();
    let weights: Vec<u32> = SHARES.iter().map(|s| s.1).collect();
    let kinds: Vec<u32> = (0..block).map(|_| SHARES[r.weighted(&weights)].0).collect();
    let first = 7;
    let n = types;
    let kind = |id: u32| if id < first { INT } else { kinds[((id - first) % block) as usize] };
    // tables keep what belongs together close
    let near = |r: &mut Random, id: u32| -> u32 {
        let reach = if r.percent(70) { 60 } else { 4000 };
        let back = 1 + r.below(reach);
        if back > (id - first) % block { r.from(1, 6) } else { id - back }
    };
    let mut sizes: Vec<(u32, u32)> = vec![(0, 1); n as usize + 1]; // size and alignment
    for (id, &(_, bits)) in (1..).zip(&ints) {
        sizes[id as usize] = (bits / 8, bits / 8);
    }
    let mut proto = vec![false; n as usize + 1];
    let nameless: Vec<bool> = (0..block).map(|i| r.percent(if kinds[i as usize] == UNION { 80 } else { 15 })).collect();
    let nameless = |id: u32| nameless[((id - first) % block) as usize];
    for id in first..=n {
        if (id - first) % block == 0 {
            r = Random::new(1, 2);
        }
        let k = kind(id);
        let plain = |r: &mut Random, proto: &[bool], sizes: &[(u32, u32)]| loop {
            let j = near(r, id);
            if !matches!(kind(j), FUNC | VAR | DECL_TAG | FWD | FUNC_PROTO) && !proto[j as usize] && sizes[j as usize].0 < 4096 {
                return j;
            }
        };
        let any = |r: &mut Random| {
            for _ in 0..8 {
                let j = near(r, id);
                if !matches!(kind(j), FUNC | VAR | DECL_TAG) {
                    return j;
                }
            }
            1
        };
        let name = format!("{}_{:x}", WORDS[r.below(WORDS.len() as u32) as usize], id);
        let mut rec = Rec::new(k, 0, 0);
        match k {
            FUNC => {
                rec.name = t.string(&name);
                rec.third = any(&mut r);
            }
            FUNC_PROTO => {
                rec.third = if r.percent(25) { 0 } else { r.from(1, 6) };
                for _ in 0..r.pick(&[0, 1, 2, 2, 3, 3, 4, 6]) {
                    let p = if r.percent(70) { any(&mut r) } else { r.from(1, 6) };
                    rec.body.extend([r.pick(&common), if kind(p) == FUNC_PROTO { 3 } else { p }]);
                }
            }
            PTR => {
                // half of the pointers lead forward, to a named struct: no cycle of needs arises
                rec.third = any(&mut r);
                if r.percent(50) {
                    let (ahead, end) = (id + r.below(40), id - (id - first) % block + block);
                    rec.third = (ahead..end.min(n + 1)).find(|&j| kind(j) == STRUCT && !nameless(j)).unwrap_or(0);
                }
                sizes[id as usize] = (8, 8);
            }
            CONST | VOLATILE | TYPEDEF => {
                rec.third = any(&mut r);
                if k == TYPEDEF {
                    rec.name = t.string(&name);
                }
                proto[id as usize] = kind(rec.third) == FUNC_PROTO || proto[rec.third as usize];
                if matches!(kind(rec.third), FWD) {
                    rec.third = 3;
                }
                sizes[id as usize] = sizes[rec.third as usize];
            }
            ARRAY => {
                let of = plain(&mut r, &proto, &sizes);
                let count = r.pick(&[1, 2, 4, 8, 16]);
                rec.body = vec![of, 3, count];
                sizes[id as usize] = (sizes[of as usize].0 * count, sizes[of as usize].1);
            }
            STRUCT | UNION => {
                rec.name = if nameless(id) { 0 } else { t.string(&name) };
                let (mut at, mut largest, mut align) = (0u32, 0, 1);
                for _ in 0..if k == UNION { r.from(2, 3) } else { r.from(1, 10) } {
                    let m = if r.percent(45) { r.from(1, 6) } else { plain(&mut r, &proto, &sizes) };
                    let (size, a) = sizes[m as usize];
                    if size == 0 {
                        continue;
                    }
                    at = if k == UNION { 0 } else { at.next_multiple_of(a) };
                    rec.body.extend([r.pick(&common), m, at * 8]);
                    at += size;
                    (largest, align) = (largest.max(at), align.max(a));
                }
                rec.third = largest.next_multiple_of(align);
                sizes[id as usize] = (rec.third, align);
            }
            ENUM => {
                rec.name = if r.percent(40) { 0 } else { t.string(&name) };
                rec.third = 4;
                for v in 0..r.pick(&[2, 3, 5, 8, 12, 17]) {
                    let e = t.string(&format!("{}_{v}", name.to_uppercase()));
                    rec.body.extend([e, v]);
                }
                sizes[id as usize] = (4, 4);
            }
            VAR => {
                rec.name = t.string(&name);
                rec.third = any(&mut r);
                rec.body = vec![1];
            }
            DECL_TAG => {
                rec.name = common[0];
                rec.third = any(&mut r);
                rec.body = vec![u32::MAX];
            }
            _ => rec.name = t.string(&name),
        }
        t.push(rec);
    }
    t.bytes()
}

const WORDS: [&str; 16] = [
    "task", "list_head", "net_device", "ops", "inode", "file_operations", "sk_buff", "page", "priv", "work_struct",
    "device", "flags", "mutex", "bpf_map", "cgroup", "xfs_trans",
];
