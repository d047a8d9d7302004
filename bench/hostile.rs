//! Tables made to cost much.
use crate::random::Random;
use crate::table::*;

fn with_int() -> Table {
    let mut t = Table::new();
    let name = t.string("int");
    t.push(Rec { body: vec![32], ..Rec::new(INT, name, 4) });
    t
}

/// each prototype takes the one below twice: ordering calls double at each level
pub fn doubling(levels: u32) -> Vec<u8> {
    let mut t = with_int();
    let mut below = 1;
    for _ in 0..levels {
        below = t.push(Rec { body: vec![0, below, 0, below], ..Rec::new(FUNC_PROTO, 0, 0) });
    }
    t.bytes()
}

/// each named struct holds the one below twice: alignment calls double at each level
pub fn doubling_alignment(levels: u32) -> Vec<u8> {
    let mut t = with_int();
    let mut below = 1;
    for k in 0..levels {
        let name = t.string(&format!("s{k}"));
        let size = 4 << (k + 1).min(20);
        below = t.push(Rec { body: vec![name, below, 0, name, below, size * 4], ..Rec::new(STRUCT, name, size) });
    }
    t.bytes()
}

/// nameless structs, each holding the one below twice: the text doubles at each level
pub fn doubling_text(levels: u32) -> Vec<u8> {
    let mut t = with_int();
    let x = t.string("x");
    let mut below = 1;
    for k in 0..levels {
        let size = 4 << (k + 1);
        below = t.push(Rec { body: vec![x, below, 0, x, below, size * 4], ..Rec::new(UNION, 0, size) });
    }
    t.push(Rec { body: vec![x, below, 0], ..Rec::new(STRUCT, x, 4) });
    t.bytes()
}

/// one gap of so many bits
pub fn gap(bits: u32) -> Vec<u8> {
    let mut t = with_int();
    let x = t.string("x");
    t.push(Rec { body: vec![x, 1, 0, x, 1, bits], ..Rec::new(STRUCT, x, bits / 8 + 4) });
    t.bytes()
}

/// typedefs whose names are the tails of one long string
pub fn tails(n: u32) -> Vec<u8> {
    let mut t = with_int();
    let long: String = (0..n).map(|i| (b'a' + (i % 23) as u8) as char).collect();
    let at = t.string(&long);
    for i in 0..n {
        t.push(Rec::new(TYPEDEF, at + i, 1));
    }
    t.bytes()
}

/// typedefs with other names, of the length that `colliding` has
pub fn distinct(n: u32) -> Vec<u8> {
    let mut t = with_int();
    for i in 0..n {
        let name = t.string(&format!("{:0>1$}", i, 8 * (32 - (n - 1).leading_zeros()) as usize).replace('0', "o"));
        t.push(Rec::new(TYPEDEF, name, 1));
    }
    t.bytes()
}

/// One byte more into the hash of a name, as crates/btf_open_names/src/keys/hash.rt has it.
fn step(acc: u32, x: u8) -> u32 {
    acc.wrapping_mul(16777619).wrapping_add(x as u32)
}

/// Typedefs whose names all have one hash: two words with the same hash are
/// found by chance, and each name is a row of these two.
pub fn colliding(n: u32) -> Vec<u8> {
    let mut r = Random::new(1, 1);
    let mut seen = std::collections::HashMap::new();
    let (a, b) = loop {
        let word: String = (0..8).map(|_| (b'a' + r.below(26) as u8) as char).collect();
        let hash = word.bytes().fold(0, step);
        if let Some(other) = seen.insert(hash, word.clone()) {
            if other != word {
                break (other, word);
            }
        }
    };
    let rows = 32 - (n - 1).leading_zeros();
    let mut t = with_int();
    for i in 0..n {
        let name: String = (0..rows).map(|k| if i >> k & 1 == 0 { a.as_str() } else { b.as_str() }).collect();
        let at = t.string(&name);
        t.push(Rec::new(TYPEDEF, at, 1));
    }
    t.bytes()
}

/// Tables as deep as passes, and one deeper (READING C8): name, section.
pub fn deep() -> Vec<(String, Vec<u8>)> {
    let mut all = vec![];
    for more in [0, 1] {
        // a typedef of pointers
        let mut t = with_int();
        let x = t.string("x");
        let mut at = 1;
        for _ in 0..510 + more {
            at = t.push(Rec::new(PTR, 0, at));
        }
        t.push(Rec::new(TYPEDEF, x, at));
        all.push((format!("{} pointers", 510 + more), t.bytes()));
        // arrays of arrays as a member
        let mut t = with_int();
        let x = t.string("x");
        let mut at = 1;
        for _ in 0..510 + more {
            at = t.push(Rec { body: vec![at, 1, 1], ..Rec::new(ARRAY, 0, 0) });
        }
        t.push(Rec { body: vec![x, at, 0], ..Rec::new(STRUCT, x, 4) });
        all.push((format!("{} arrays", 510 + more), t.bytes()));
        // nameless structs in a named one
        let mut t = with_int();
        let x = t.string("x");
        let mut at = 1;
        for _ in 0..169 + more {
            at = t.push(Rec { body: vec![x, at, 0], ..Rec::new(STRUCT, 0, 4) });
        }
        t.push(Rec { body: vec![x, at, 0], ..Rec::new(STRUCT, x, 4) });
        all.push((format!("{} nameless structs", 169 + more), t.bytes()));
        // prototypes as parameters
        let mut t = with_int();
        let x = t.string("x");
        let mut at = 1;
        for _ in 0..255 + more {
            at = t.push(Rec { body: vec![x, at], ..Rec::new(FUNC_PROTO, 0, 0) });
        }
        t.push(Rec::new(TYPEDEF, x, at));
        all.push((format!("{} prototypes", 255 + more), t.bytes()));
        // named structs, the outermost first
        let mut t = Table::new();
        let x = t.string("x");
        for id in 1..=511 + more {
            t.push(Rec { body: vec![x, id + 1, 0], ..Rec::new(STRUCT, x, 4) });
        }
        t.push(Rec { body: vec![32], ..Rec::new(INT, x, 4) });
        all.push((format!("{} named structs", 511 + more), t.bytes()));
    }
    all
}
