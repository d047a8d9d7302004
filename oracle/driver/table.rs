//! A type table as records, and the section made of it.

pub const INT: u32 = 1;
pub const PTR: u32 = 2;
pub const ARRAY: u32 = 3;
pub const STRUCT: u32 = 4;
pub const UNION: u32 = 5;
pub const ENUM: u32 = 6;
pub const FWD: u32 = 7;
pub const TYPEDEF: u32 = 8;
pub const VOLATILE: u32 = 9;
pub const CONST: u32 = 10;
pub const RESTRICT: u32 = 11;
pub const FUNC: u32 = 12;
pub const FUNC_PROTO: u32 = 13;
pub const VAR: u32 = 14;
pub const DATASEC: u32 = 15;
pub const FLOAT: u32 = 16;
pub const DECL_TAG: u32 = 17;
pub const TYPE_TAG: u32 = 18;
pub const ENUM64: u32 = 19;

/// One record. `body` holds the words after the first three.
#[derive(Clone, Default, Debug)]
pub struct Rec {
    pub kind: u32,
    pub flag: bool,
    /// name offset
    pub name: u32,
    /// size or type
    pub third: u32,
    /// entry count of kinds whose body does not depend on it
    pub vlen: u32,
    pub body: Vec<u32>,
}

/// words of an entry, 0 for kinds without entries
pub fn entry_words(kind: u32) -> usize {
    match kind {
        STRUCT | UNION | DATASEC | ENUM64 => 3,
        ENUM | FUNC_PROTO => 2,
        _ => 0,
    }
}

impl Rec {
    pub fn new(kind: u32, name: u32, third: u32) -> Rec {
        Rec { kind, name, third, ..Rec::default() }
    }

    pub fn entries(&self) -> usize {
        match entry_words(self.kind) {
            0 => 0,
            w => self.body.len() / w,
        }
    }

    /// every type id in the record, also those that are not followed
    pub fn ids(&mut self) -> Vec<&mut u32> {
        match self.kind {
            PTR | TYPEDEF | VOLATILE | CONST | RESTRICT | TYPE_TAG | FUNC | VAR | DECL_TAG => vec![&mut self.third],
            FUNC_PROTO => {
                let mut all = vec![&mut self.third];
                all.extend(self.body.iter_mut().skip(1).step_by(2));
                all
            }
            ARRAY => self.body.iter_mut().take(2).collect(),
            STRUCT | UNION => self.body.iter_mut().skip(1).step_by(3).collect(),
            DATASEC => self.body.iter_mut().step_by(3).collect(),
            _ => vec![],
        }
    }
}

/// Whether the magic says that words have their most significant byte first.
pub fn is_big(section: &[u8]) -> bool {
    section.starts_with(&[0xeb, 0x9f])
}

/// The bytes of a word in either order.
pub fn to_bytes(w: u32, big: bool) -> [u8; 4] {
    if big { w.to_be_bytes() } else { w.to_le_bytes() }
}

pub fn from_bytes(b: [u8; 4], big: bool) -> u32 {
    if big { u32::from_be_bytes(b) } else { u32::from_le_bytes(b) }
}

/// How the two areas lie in the section.
#[derive(Clone, Debug)]
pub struct Frame {
    /// most significant byte first
    pub big: bool,
    pub flags: u8,
    /// bytes of the header past its 24th
    pub header_tail: Vec<u8>,
    pub gap_before_types: u32,
    pub gap_before_strings: u32,
    pub strings_first: bool,
    pub trailing: u32,
}

impl Frame {
    pub fn plain() -> Frame {
        Frame { big: false, flags: 0, header_tail: vec![], gap_before_types: 0, gap_before_strings: 0, strings_first: false, trailing: 0 }
    }
}

#[derive(Clone, Debug)]
pub struct Table {
    pub frame: Frame,
    pub strings: Vec<u8>,
    /// record of id i at i - 1
    pub recs: Vec<Rec>,
}

impl Table {
    pub fn new() -> Table {
        Table { frame: Frame::plain(), strings: vec![0], recs: vec![] }
    }

    /// appends a string, gives its offset
    pub fn string(&mut self, s: &str) -> u32 {
        if s.is_empty() {
            return 0;
        }
        let at = self.strings.len() as u32;
        self.strings.extend_from_slice(s.as_bytes());
        self.strings.push(0);
        at
    }

    /// appends a record, gives its id
    pub fn push(&mut self, rec: Rec) -> u32 {
        self.recs.push(rec);
        self.recs.len() as u32
    }

    /// new ids: record i gets id to[i]; ids past the table stay
    pub fn renumber(&mut self, to: &[u32]) {
        let mut moved: Vec<Option<Rec>> = vec![None; self.recs.len()];
        for (i, mut rec) in std::mem::take(&mut self.recs).into_iter().enumerate() {
            for id in rec.ids() {
                if *id >= 1 && (*id as usize) <= to.len() {
                    *id = to[*id as usize - 1];
                }
            }
            moved[to[i] as usize - 1] = Some(rec);
        }
        self.recs = moved.into_iter().map(|r| r.unwrap()).collect();
    }

    pub fn bytes(&self) -> Vec<u8> {
        let mut types: Vec<u8> = vec![];
        for r in &self.recs {
            let count = match entry_words(r.kind) {
                0 => r.vlen & 0xffff,
                _ => r.entries() as u32,
            };
            let info = count | r.kind << 24 | (r.flag as u32) << 31;
            for w in [r.name, info, r.third].iter().chain(&r.body) {
                types.extend_from_slice(&to_bytes(*w, self.frame.big));
            }
        }
        let f = &self.frame;
        let (type_at, string_at, end);
        if f.strings_first {
            string_at = f.gap_before_strings;
            type_at = string_at + self.strings.len() as u32 + f.gap_before_types;
            end = type_at + types.len() as u32;
        } else {
            type_at = f.gap_before_types;
            string_at = type_at + types.len() as u32 + f.gap_before_strings;
            end = string_at + self.strings.len() as u32;
        }
        let header = 24 + f.header_tail.len();
        let mut out = if f.big { vec![0xeb, 0x9f, 1, f.flags] } else { vec![0x9f, 0xeb, 1, f.flags] };
        for w in [header as u32, type_at, types.len() as u32, string_at, self.strings.len() as u32] {
            out.extend_from_slice(&to_bytes(w, f.big));
        }
        out.extend_from_slice(&f.header_tail);
        out.resize(header + (end + f.trailing) as usize, 0xa5);
        out[header + type_at as usize..][..types.len()].copy_from_slice(&types);
        out[header + string_at as usize..][..self.strings.len()].copy_from_slice(&self.strings);
        out
    }

    /// the table of a sound section with a plain frame
    pub fn read(section: &[u8]) -> Table {
        let big = is_big(section);
        let word = |p: usize| from_bytes(section[p..p + 4].try_into().unwrap(), big);
        let (h, to, tl, so, sl) = (word(4), word(8), word(12), word(16), word(20));
        let mut table = Table::new();
        table.frame.big = big;
        table.strings = section[(h + so) as usize..][..sl as usize].to_vec();
        let (mut p, end) = ((h + to) as usize, (h + to + tl) as usize);
        while p < end {
            let (name, info, third) = (word(p), word(p + 4), word(p + 8));
            let (kind, vlen) = (info >> 24 & 31, info & 0xffff);
            let n = match kind {
                INT | VAR | DECL_TAG => 1,
                ARRAY => 3,
                k => entry_words(k) * vlen as usize,
            };
            p += 12;
            let body = (0..n).map(|i| word(p + 4 * i)).collect();
            p += 4 * n;
            table.push(Rec { kind, flag: info >> 31 == 1, name, third, vlen, body });
        }
        table
    }
}
