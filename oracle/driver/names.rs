//! The names of a table: few, so that many types share one; the same name at
//! two offsets, as the tail of a longer string, and at a zero byte.
use crate::random::Random;
use crate::table::Table;

pub struct Names {
    pub ordinary: Vec<u32>,
    pub empty: Vec<u32>,
    /// names of declaration and type tags
    pub tags: Vec<u32>,
}

const WORDS: [&str; 24] = [
    "x", "y", "s", "T", "node", "x___2", "yx", "list_head", "a", "b", "u32", "ops", "flags", "x___3", "data", "next",
    "Ax", "state", "_", "priv", "E", "len", "__x", "buf",
];
const BUILTIN: [&str; 5] = [
    "__builtin_va_list", "x__builtin_va_list", "__builtin_va_list_y", "__builtin_va_lis", "a__builtin_va_list___2",
];
const TAGS: [&str; 10] = [
    "user", "rcu", "m\"\\\n\t\r\u{1}", "", "packed", "aligned(4)", "\\\\", "\"", "a b", "\u{7f}\u{b}'%s",
];

pub fn names(r: &mut Random, table: &mut Table, pool: usize, builtin: bool) -> Names {
    let mut names = Names { ordinary: vec![], empty: vec![0], tags: vec![] };
    let mut words: Vec<&str> = WORDS.to_vec();
    r.shuffle(&mut words[2..]);
    words.truncate(pool);
    if builtin {
        for _ in 0..r.from(1, 2) {
            words.push(r.pick(&BUILTIN));
        }
    }
    if r.percent(5) {
        words.push(TAGS[2]);
    }
    for w in &words {
        names.ordinary.push(table.string(w));
        if r.percent(20) {
            names.ordinary.push(table.string(w)); // the same name at another offset
        }
        if r.percent(20) {
            let at = table.string(&format!("pre{w}"));
            names.ordinary.push(at + 3); // the tail of a longer string
            names.ordinary.push(at);
        }
    }
    if r.percent(2) {
        let long: String = (0..r.from(100, 700)).map(|i| (b'a' + (i % 26) as u8) as char).collect();
        names.ordinary.push(table.string(&long));
    }
    for _ in 0..3 {
        names.tags.push({
            let t = r.pick(&TAGS);
            table.string(t)
        });
    }
    names.tags.push(names.ordinary[0]);
    if r.percent(40) {
        names.empty.push(table.strings.len() as u32 - 1); // a zero byte that is not the first
    }
    names
}

impl Names {
    /// a name that is not empty
    pub fn name(&self, r: &mut Random) -> u32 {
        r.pick(&self.ordinary)
    }
    /// an empty one, so many times in a hundred
    pub fn maybe(&self, r: &mut Random, nameless: u32) -> u32 {
        if r.percent(nameless) { r.pick(&self.empty) } else { self.name(r) }
    }
}
