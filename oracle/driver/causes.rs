//! Causes 1 to 9 of a refused opening, in the plainest and slowest way. The
//! numbers are those of document 01; nothing is shared with the library.

/// What a successful opening tells.
#[derive(Clone, Copy, Debug, PartialEq)]
pub struct Sound {
    /// void counted
    pub types: u32,
    pub enumerators: u32,
}

impl Sound {
    pub fn work_bytes(&self) -> u64 {
        4 * (16 * self.types as u64 + 8 * self.enumerators as u64 + 4096)
    }
}

struct Type {
    kind: u64,
    third: u64,
    /// element type of an array
    element: u64,
    /// the second word of each entry that has a name
    entries: Vec<u64>,
}

fn word(big: bool, s: &[u8], p: u64) -> u64 {
    let p = p as usize;
    let (a, b, c, d) = if big { (s[p + 3], s[p + 2], s[p + 1], s[p]) } else { (s[p], s[p + 1], s[p + 2], s[p + 3]) };
    a as u64 + 256 * b as u64 + 65536 * c as u64 + 16777216 * d as u64
}

const FOLLOW: [u64; 6] = [2, 8, 9, 10, 11, 18];

impl Type {
    fn followed(&self) -> Vec<u64> {
        let mut ids = if [4, 5, 13].contains(&self.kind) { self.entries.clone() } else { vec![] };
        if FOLLOW.contains(&self.kind) || self.kind == 13 {
            ids.push(self.third);
        }
        if self.kind == 3 {
            ids.push(self.element);
        }
        ids
    }

    fn is_node(&self) -> bool {
        [2, 3, 8, 9, 10, 11, 13, 18].contains(&self.kind)
    }
}

/// The refusal number, or what opening finds.
pub fn opening(section: &[u8], pointer_size: u32, work_bytes: u64) -> Result<Sound, u32> {
    let len = section.len() as u64;
    if pointer_size != 4 && pointer_size != 8 {
        return Err(1);
    }
    if len > 16_777_216 {
        return Err(2);
    }
    if len < 24 || section[2] != 1 {
        return Err(3);
    }
    let big = match (section[0], section[1]) {
        (0x9f, 0xeb) => false,
        (0xeb, 0x9f) => true,
        _ => return Err(3),
    };
    let (h, to, tl) = (word(big, section, 4), word(big, section, 8), word(big, section, 12));
    let (so, sl) = (word(big, section, 16), word(big, section, 20));
    if h < 24 || h > len || h + to + tl > len || h + so + sl > len {
        return Err(3);
    }
    let strings = &section[(h + so) as usize..(h + so + sl) as usize];
    if strings.is_empty() || strings[0] != 0 || strings[strings.len() - 1] != 0 || strings.iter().any(|&b| b > 127) {
        return Err(4);
    }
    let types = records(big, &section[(h + to) as usize..(h + to + tl) as usize], sl).ok_or(5u32)?;
    let count = types.len() as u64;
    let bad = |id: u64| id >= count || [12, 14, 15, 17].contains(&types[id as usize].kind);
    if types.iter().any(|t| t.followed().iter().any(|&id| bad(id))) {
        return Err(6);
    }
    for t in &types {
        let elements = match t.kind {
            3 => vec![t.element],
            4 | 5 => t.entries.clone(),
            _ => vec![],
        };
        if elements.iter().any(|&e| leads_to_prototype(&types, e)) {
            return Err(7);
        }
    }
    if has_loop(&types) {
        return Err(8);
    }
    let enumerators = types.iter().filter(|t| t.kind == 6 || t.kind == 19).map(|t| t.entries.len() as u32).sum();
    let sound = Sound { types: count as u32, enumerators };
    if work_bytes < sound.work_bytes() {
        return Err(9);
    }
    Ok(sound)
}

/// The records, void first, or nothing for cause 5.
fn records(big: bool, area: &[u8], string_len: u64) -> Option<Vec<Type>> {
    let len = area.len() as u64;
    let mut types = vec![Type { kind: 0, third: 0, element: 0, entries: vec![] }];
    let mut p = 0;
    while p < len {
        if p + 12 > len {
            return None;
        }
        let (name, info, third) = (word(big, area, p), word(big, area, p + 4), word(big, area, p + 8));
        let (kind, count) = (info / 16777216 % 32, info % 65536);
        if kind == 0 || kind > 19 || info / 65536 % 256 > 0 || info / 536870912 % 4 > 0 || name >= string_len {
            return None;
        }
        let extra = match kind {
            1 | 14 | 17 => 4,
            3 => 12,
            4 | 5 | 15 | 19 => 12 * count,
            6 | 13 => 8 * count,
            _ => 0,
        };
        p += 12;
        if p + extra > len {
            return None;
        }
        let mut t = Type { kind, third, element: 0, entries: vec![] };
        if kind == 3 {
            t.element = word(big, area, p);
        }
        for i in 0..count {
            let at = match kind {
                4 | 5 | 19 => p + 12 * i,
                6 | 13 => p + 8 * i,
                _ => break,
            };
            if word(big, area, at) >= string_len {
                return None;
            }
            t.entries.push(word(big, area, at + 4));
        }
        types.push(t);
        if types.len() > 262_145 {
            return None;
        }
        p += extra;
    }
    Some(types)
}

fn leads_to_prototype(types: &[Type], from: u64) -> bool {
    let mut at = from;
    for _ in 0..=types.len() {
        let t = &types[at as usize];
        at = match t.kind {
            3 => t.element,
            8 | 9 | 10 | 11 | 18 => t.third,
            k => return k == 13,
        };
    }
    false
}

/// Peels off nodes that lead to no other node left; a loop is what cannot be peeled.
fn has_loop(types: &[Type]) -> bool {
    let mut left: Vec<bool> = types.iter().map(|t| t.is_node()).collect();
    loop {
        let mut peeled = false;
        for i in 0..types.len() {
            if left[i] && !types[i].followed().iter().any(|&id| left[id as usize]) {
                left[i] = false;
                peeled = true;
            }
        }
        if !peeled {
            return left.iter().any(|&x| x);
        }
    }
}
