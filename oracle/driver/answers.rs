//! The stored answers: sections, requests, numbers and texts of the Rust, in the
//! form of tests/FORMAT.md. A case is kept if it shows enough, for its length,
//! that no earlier one shows: rows of four words of the text (names all count as
//! one word); or a refusal of which there are few yet.
use crate::causes;
use crate::damage;
use crate::domain;
use crate::host;
use crate::ours::Answer;
use crate::plan::{self, Call, Odd, Plan};
use crate::random::Random;
use crate::lent::Memory;
use crate::session;
use std::collections::{HashMap, HashSet};

/// what the file may take
const BYTES: usize = 1_400_000;
/// generated sections looked at
const SECTIONS: u64 = 40_000;
/// cases of each refusal kept in any case
const REFUSALS: u32 = 45;
/// a section longer than this is only kept for a refusal by depth
const SHORT: usize = 1_500;
/// bytes that a case may take for each new row
const BYTES_A_ROW: usize = 350;

struct File {
    bytes: Vec<u8>,
    cases: u32,
    answers: usize,
}

fn number(out: &mut Vec<u8>, n: usize) {
    out.extend_from_slice(&(n as u32).to_le_bytes());
}

impl File {
    fn case(&mut self, name: &str, section: &[u8], calls: &[[usize; 8]], text: &[u8]) {
        let out = &mut self.bytes;
        number(out, name.len());
        out.extend_from_slice(name.as_bytes());
        number(out, section.len());
        out.extend_from_slice(section);
        number(out, calls.len());
        calls.iter().flatten().for_each(|&n| number(out, n));
        number(out, text.len());
        out.extend_from_slice(text);
        self.cases += 1;
        self.answers += calls.len();
    }
}

const WORDS: [&str; 22] = [
    "struct", "union", "enum", "typedef", "const", "volatile", "restrict", "void", "long", "int", "short", "char",
    "__attribute__", "btf_decl_tag", "btf_type_tag", "packed", "ULL", "LL", "__builtin_va_list", "float", "double", "_",
];

/// The text as words: known ones, numbers, other names, single signs.
fn words(text: &[u8]) -> Vec<u32> {
    let mut out = vec![];
    let mut at = 0;
    while at < text.len() {
        let is_name = |b: u8| b.is_ascii_alphanumeric() || b == b'_';
        let end = (at..text.len()).find(|&i| !is_name(text[i])).unwrap_or(text.len());
        if end == at {
            out.push(text[at] as u32);
            at += 1;
            continue;
        }
        let word = &text[at..end];
        out.push(match WORDS.iter().position(|w| w.as_bytes() == word) {
            Some(i) => 1000 + i as u32,
            None if word[0].is_ascii_digit() => 2000 + word.len().min(11) as u32,
            None if word.windows(3).any(|w| w == b"___") => 3001,
            None => 3000,
        });
        at = end;
    }
    out
}

/// The plan with nothing that the form of the cases cannot say.
fn plain_plan(mut p: Plan) -> Plan {
    p.modes &= 1;
    for step in &mut p.steps {
        if matches!(step.odd, Odd::Record | Odd::Opening) {
            step.odd = Odd::No;
        }
    }
    p.steps.truncate(12);
    p
}

fn opening(p: &Plan, section: usize, work: usize, a: Answer) -> [usize; 8] {
    [0, p.pointer_size as usize, p.modes as usize, section, work, p.open_text as usize, a.number as usize, a.value as usize]
}

pub fn store(seed: u64, path: &str) -> u64 {
    let path = path.to_string();
    let signal = host::in_child(move || {
        let file = collect(seed);
        let mut out = b"BTFCASE1".to_vec();
        number(&mut out, file.cases as usize);
        out.extend_from_slice(&file.bytes);
        std::fs::write(&path, &out).expect("the file is written");
        println!("{path}: {} cases, {} answers, {} bytes, seed {seed}", file.cases, file.answers, out.len());
    });
    (signal != 0) as u64
}

fn collect(seed: u64) -> File {
    let mut memory = Memory::new(1 << 20, 8 << 20, 64 << 20);
    let mut file = File { bytes: vec![], cases: 0, answers: 0 };
    let mut seen: HashSet<[u32; 4]> = HashSet::new();
    let mut refusals: HashMap<u32, u32> = HashMap::new();
    for index in 0..SECTIONS {
        let mut r = Random::new(seed, index);
        let s = damage::section(&mut r, false);
        let p = plain_plan(plan::plan(&mut r, 1, 0));
        let mut few = |n: u32| {
            let held = refusals.entry(n).or_insert(0);
            *held += 1;
            *held <= if n == 12 { REFUSALS / 3 } else { REFUSALS }
        };
        let sound = match causes::opening(&s, 8, u64::MAX) {
            Ok(sound) => sound,
            Err(n) => {
                if s.len() <= SHORT && few(n) {
                    let calls = [opening(&p, s.len(), 20_000, Answer { number: n, value: 0 })];
                    file.case(&format!("{seed}-{index} refused {n}"), &s, &calls, &[]);
                }
                continue;
            }
        };
        let need = sound.work_bytes() as usize;
        if few(9) {
            let calls = [opening(&p, s.len(), need - 1, Answer { number: 9, value: 0 })];
            file.case(&format!("{seed}-{index} refused 9"), &s, &calls, &[]);
        }
        if few(1) {
            let p = Plan { pointer_size: 5, ..p };
            file.case(&format!("{seed}-{index} refused 1"), &s, &[opening(&p, s.len(), need, Answer { number: 1, value: 0 })], &[]);
        }
        if !domain::rust_opens(&s) || s.len() > SHORT && index % 4 > 0 {
            continue;
        }
        let how = (index % 3) as u32; // one list a section, so that each way of asking is met
        let p = plain_plan(plan::plan(&mut r, sound.types, how));
        let met = session::run(&mut memory, &s, &p, sound).expect("the Rust and its counted copy agree");
        if met.costly || met.answers.is_empty() {
            continue;
        }
        let text = &met.answers.last().unwrap().1;
        let size = s.len() + text.len() + 32 * met.answers.len();
        if size > 14_000 {
            continue;
        }
        let rows: HashSet<[u32; 4]> = words(text).windows(4).map(|row| row.try_into().unwrap()).collect();
        let new = rows.difference(&seen).count();
        let refusal = met.numbers.iter().any(|&n| n >= 10 && (s.len() <= SHORT || n == 12) && few(n));
        if !refusal && (s.len() > SHORT || new * BYTES_A_ROW < size) {
            continue;
        }
        seen.extend(rows);
        let work = need + p.spare_work as usize;
        let mut calls = vec![opening(&p, s.len(), work, Answer { number: 0, value: sound.types })];
        for (i, (n, t)) in met.answers.iter().enumerate() {
            let step = &p.steps[i];
            let (what, id) = match step.call {
                Call::One(id) => (1, id as usize),
                Call::All => (2, 0),
            };
            let (section, work) = match step.odd {
                Odd::Section => (s.len() - 1, work),
                Odd::Work => (s.len(), work - 1),
                _ => (s.len(), work),
            };
            calls.push([what, id, 0, section, work, met.lent[i], *n as usize, t.len()]);
        }
        file.case(&format!("{seed}-{index}-{how}"), &s, &calls, text);
        if file.bytes.len() > BYTES {
            break;
        }
    }
    file
}
