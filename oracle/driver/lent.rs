//! Our library's side: the memory lent to it, and every byte of that looked at
//! after each call.
use crate::causes::Sound;
use crate::host::Arena;
use crate::ours::{self, Answer, RECORD};
use crate::plan::{Call, Odd, Plan};

pub struct Memory {
    section: Arena,
    work: Arena,
    text: Arena,
    record: Arena,
}

impl Memory {
    pub fn new(section: usize, work: usize, text: usize) -> Memory {
        Memory { section: Arena::new(section), work: Arena::new(work), text: Arena::new(text), record: Arena::new(4096) }
    }
}

/// What a request must answer, and the text held after it.
pub struct Want {
    pub number: u32,
    pub text: Vec<u8>,
}

fn first_difference(a: &[u8], b: &[u8]) -> usize {
    a.iter().zip(b).position(|(x, y)| x != y).unwrap_or(a.len().min(b.len()))
}

fn record_words(words: [u64; 8]) -> Vec<u8> {
    let mut record: Vec<u8> = words.iter().flat_map(|w| w.to_le_bytes()).collect();
    record.resize(RECORD, 0);
    record
}

pub struct Ours<'a> {
    memory: &'a mut Memory,
    section: &'static [u8],
    pub work: &'static mut [u8],
    record: &'static mut [u8],
    junk: u8,
}

impl Ours<'_> {
    pub fn new<'a>(memory: &'a mut Memory, section: &[u8], work_len: usize, junk: u8) -> Ours<'a> {
        memory.section.seal(false);
        let (s, work) = (memory.section.slice(section.len()), memory.work.slice(work_len));
        let record = memory.record.slice(RECORD);
        s.copy_from_slice(section);
        memory.section.seal(true); // the section is only read
        work.fill(junk);
        record.fill(junk);
        Ours { memory, section: s, work, record, junk }
    }

    fn stands(&self, text: usize) -> Result<(), String> {
        let m = &self.memory;
        if m.work.canary_stands(self.work.len()) && m.record.canary_stands(RECORD) && m.text.canary_stands(text) {
            return Ok(());
        }
        Err("a byte before a lent slice was written".into())
    }
}

fn same(what: &str, got: &[u8], want: &[u8]) -> Result<(), String> {
    if got == want {
        return Ok(());
    }
    let at = first_difference(got, want);
    // short slices are told whole
    let around = if got.len().max(want.len()) <= 2000 { 2000 } else { 40 };
    let part = |s: &[u8]| String::from_utf8_lossy(&s[at.saturating_sub(around).min(s.len())..(at + around).min(s.len())]).into_owned();
    Err(format!("{what}: first difference at byte {at}\nours   {:?}\nwanted {:?}", part(got), part(want)))
}

pub fn open_ours(ours: &mut Ours, plan: &Plan, expect: Result<Sound, u32>) -> Result<Vec<u8>, String> {
    let text = ours.memory.text.slice(plan.open_text as usize);
    text.fill(ours.junk);
    let old_work = ours.work.to_vec();
    let answer = ours::open(ours.record, ours.section, plan.pointer_size, plan.modes, ours.work, text);
    ours.stands(text.len())?;
    match expect {
        Err(n) => {
            if answer != (Answer { number: n, value: 0 }) {
                return Err(format!("opening: ours {answer:?}, wanted number {n}, value 0"));
            }
            same("refused opening, work", ours.work, &old_work)?;
            same("refused opening, record", ours.record, &[ours.junk; RECORD])?;
            same("refused opening, text", text, &vec![ours.junk; text.len()])?;
            Ok(vec![])
        }
        Ok(sound) => {
            if answer != (Answer { number: 0, value: sound.types }) {
                return Err(format!("opening: ours {answer:?}, wanted number 0, value {}", sound.types));
            }
            same("opening, text", text, &vec![0; text.len()])?;
            let spare = &ours.work[sound.work_bytes() as usize..];
            same("opening, work past the need", spare, &vec![0; spare.len()])?;
            let record = record_words([
                1, ours.section.len() as u64, ours.work.len() as u64, sound.types as u64, sound.enumerators as u64, 0,
                plan.pointer_size as u64, plan.modes as u64 & 15,
            ]);
            same("opening, record", ours.record, &record)?;
            Ok(record)
        }
    }
}

#[allow(clippy::too_many_arguments)]
pub fn one_call(o: &mut Ours, call: Call, odd: Odd, lent: usize, before: &[u8], want: &Want, record: &mut Vec<u8>, sound: Sound) -> Result<(), String> {
    let text = o.memory.text.slice(lent);
    text.fill(o.junk);
    let kept = before.len().min(lent);
    text[..kept].copy_from_slice(&before[..kept]);
    let (old_text, old_work) = (text.to_vec(), o.work.to_vec());
    if odd == Odd::Opening {
        let a = ours::open(o.record, o.section, 5, 1, o.work, text);
        if a != (Answer { number: 1, value: 0 }) {
            return Err(format!("opening with pointer size 5: {a:?}"));
        }
        same("refused opening, text", text, &old_text)?;
        same("refused opening, work", o.work, &old_work)?;
        same("refused opening, record", o.record, record)?;
    }
    let section = &o.section[..o.section.len() - if odd == Odd::Section { 1 } else { 0 }];
    let cut = o.work.len() - if odd == Odd::Work { 1 } else { 0 };
    let work = &mut o.work[..cut];
    let short = odd == Odd::Record;
    let rec = if short { &mut o.record[..RECORD - 1] } else { &mut o.record[..] };
    let answer = match call {
        Call::One(id) => ours::one(rec, section, work, text, id),
        Call::All => ours::all(rec, section, work, text),
    };
    o.stands(lent)?;
    // 12 to 17 of a single request drop its text; of all ids they keep the text before it
    let value = if short { 0 } else { want.text.len() as u32 };
    if answer != (Answer { number: want.number, value }) {
        let at = text.iter().rposition(|&b| b != 0).map_or(0, |p| p + 1);
        let tail = String::from_utf8_lossy(&text[at.saturating_sub(60)..at]).into_owned();
        return Err(format!("ours {answer:?}, wanted number {}, value {value}; our text ends {tail:?}", want.number));
    }
    match want.number {
        10 | 11 => {
            same("text", text, &old_text)?;
            same("work", o.work, &old_work)?;
        }
        n => {
            let mut whole = want.text.clone();
            whole.resize(lent, 0);
            same("text", text, &whole)?;
            record[40..48].copy_from_slice(&(want.text.len() as u64).to_le_bytes());
            if n != 0 {
                record[0..8].fill(0);
                // a refused id leaves the visits; of all ids they are those of the last one accepted
                if matches!(call, Call::All) {
                    record[64..68].copy_from_slice(&o.record[64..68]);
                }
                same("work after a refusal", o.work, &vec![0; o.work.len()])?;
            } else {
                // the visits are what the work counts
                record[64..68].copy_from_slice(&o.work[8..12]);
                let spare = &o.work[sound.work_bytes() as usize..];
                same("work past the need", spare, &vec![0; spare.len()])?;
            }
        }
    }
    same("record", o.record, record)
}

/// The accepted requests once more on memory filled otherwise, all ids as
/// single requests: the work words must come out the same.
pub fn again(memory: &mut Memory, section: &[u8], plan: &Plan, sound: Sound, accepted: &[Call], work: &[u8], text_len: usize) -> Result<(), String> {
    let mut o = Ours::new(memory, section, work.len(), !plan.junk);
    open_ours(&mut o, plan, Ok(sound))?;
    let lent = text_len + 37;
    let text = o.memory.text.slice(lent);
    for call in accepted {
        let ids = match *call {
            Call::One(id) => id..id + 1,
            Call::All => 1..sound.types,
        };
        for id in ids {
            let a = ours::one(o.record, o.section, o.work, text, id);
            if a.number != 0 {
                return Err(format!("the accepted requests made again: id {id} gives {a:?}"));
            }
        }
        if *call == Call::All && sound.types == 1 {
            ours::all(o.record, o.section, o.work, text);
        }
    }
    same("the accepted requests made again: work", o.work, work)
}
