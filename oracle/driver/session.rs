//! One section, one plan: the Rust and our library in step.
use crate::causes::{self, Sound};
use crate::domain;
use crate::lent::{again, one_call, open_ours, Memory, Ours, Want};
use crate::original::{plain, with_counters, End, Said};
use crate::ours;
use crate::plan::{Call, Odd, Plan, Room};

/// steps of the counted copy in one request, before a table counts as too costly
pub const BUDGET: u64 = 300_000;

/// What a session met, for the counts.
#[derive(Default)]
pub struct Met {
    /// requests by number
    pub numbers: Vec<u32>,
    pub text: usize,
    /// ended early because the table is too costly for the Rust
    pub costly: bool,
    /// the text of the Rust, call by call, for the stored answers
    pub answers: Vec<(u32, Vec<u8>)>,
    /// the text lengths lent, call by call, for the stored answers
    pub lent: Vec<usize>,
}

pub type Outcome = Result<Met, String>;

/// What the program of document 01 prints for this input, by the Rust: the text
/// of all ids or the refusal, with 16,384 work words and 65,536 bytes of text.
pub fn program(input: &[u8]) -> Vec<u8> {
    let section = &input[..input.len().min(65536)];
    let refusal = |n: u32| format!("refused {n}\n").into_bytes();
    let sound = match causes::opening(section, 8, 65536) {
        Ok(sound) => sound,
        Err(n) => return refusal(n),
    };
    let seen = domain::for_the_rust(section).expect("areas apart");
    let said = with_counters::run(&seen, 8, false, |counted| {
        plain::run(&seen, 8, false, |original| {
            let mut all = vec![];
            for id in 1..sound.types {
                all.push(ask(id, counted, original).expect("an end that a rule foresees"));
                if all.last().unwrap().end != End::Done {
                    break;
                }
            }
            all
        })
    });
    let said = said.unwrap().unwrap();
    if said.iter().any(|s| s.end == End::Budget) && said.iter().map(|s| s.bytes.len()).sum::<usize>() <= 65536 {
        return b"too costly\n".to_vec();
    }
    let want = wanted(Call::All, false, sound, &[], &said, 65536);
    if want.number == 0 { want.text } else { refusal(want.number) }
}

/// The Rust asked for one id: the counted copy first, then the original, which must agree.
fn ask(id: u32, counted: &mut dyn FnMut(u32) -> Said, original: &mut dyn FnMut(u32) -> Said) -> Result<Said, String> {
    counted::counted::start(BUDGET);
    let said = counted(id);
    if matches!(said.end, End::Budget | End::Refused(12)) {
        return Ok(said);
    }
    let again = original(id);
    if let End::Strange(text) = &again.end {
        return Err(format!("the Rust ended in a way no rule foresees, id {id}: {text}"));
    }
    if said != again {
        return Err(format!("the counted copy differs from the original, id {id}"));
    }
    Ok(said)
}

/// An opening that must be refused with this number.
pub fn refused(memory: &mut Memory, section: &[u8], plan: &Plan, number: u32, work_len: usize) -> Outcome {
    if ours::linked() {
        let mut ours = Ours::new(memory, section, work_len, plan.junk);
        open_ours(&mut ours, plan, Err(number))?;
    }
    Ok(Met::default())
}

/// A session on a sound section, as the plan says.
pub fn run(memory: &mut Memory, section: &[u8], plan: &Plan, sound: Sound) -> Outcome {
    if !domain::rust_opens(section) && plain::run(section, plan.pointer_size, false, |_| ()).is_ok() {
        return Err("the Rust opens a section that we say it refuses".into());
    }
    let Some(seen) = domain::for_the_rust(section) else {
        return Ok(Met { costly: true, ..Met::default() });
    };
    let union_as_struct = plan.modes & 1 == 1;
    let lockstep = with_counters::run(&seen, plan.pointer_size, union_as_struct, |counted| {
        plain::run(&seen, plan.pointer_size, union_as_struct, |original| {
            requests(memory, section, plan, sound, &mut |id| ask(id, counted, original))
        })
    });
    match lockstep {
        Ok(Ok(outcome)) => outcome,
        Ok(Err(text)) | Err(text) => Err(format!("the Rust does not open what opens here: {text}")),
    }
}

fn requests(memory: &mut Memory, section: &[u8], plan: &Plan, sound: Sound, ask: &mut dyn FnMut(u32) -> Result<Said, String>) -> Outcome {
    let mut met = Met::default();
    let work_len = sound.work_bytes() as usize + plan.spare_work as usize;
    let mut ours = if ours::linked() { Some(Ours::new(memory, section, work_len, plan.junk)) } else { None };
    let mut record = match &mut ours {
        Some(o) => open_ours(o, plan, Ok(sound))?,
        None => vec![],
    };
    let mut text: Vec<u8> = vec![];
    let mut open = true;
    let mut accepted: Vec<Call> = vec![];
    let mut after_closing = 0;
    for (i, step) in plan.steps.iter().enumerate() {
        if !open {
            after_closing += 1;
            if after_closing > 2 {
                break; // two requests on a closed session show enough
            }
        }
        let shut = !open || matches!(step.odd, Odd::Section | Odd::Work | Odd::Record) || step.room == Room::Below && !text.is_empty();
        let ids = match step.call {
            _ if shut => 0..0,
            Call::One(id) if id >= sound.types => 0..0,
            Call::One(id) => id..id + 1,
            Call::All => 1..sound.types,
        };
        let mut said = vec![];
        for id in ids {
            let one = ask(id)?;
            let stop = one.end != End::Done;
            said.push(one);
            if stop {
                break;
            }
        }
        if matches!(said.last(), Some(Said { end: End::Budget, .. })) {
            met.costly = true;
            return Ok(met);
        }
        let new: usize = said.iter().map(|s| s.bytes.len()).sum();
        let lent = match step.room {
            Room::Over(n) => text.len() + new + n as usize,
            Room::Part(p) => text.len() + new * p as usize / 1000,
            Room::Below => text.len().saturating_sub(1),
        };
        let want = wanted(step.call, shut, sound, &text, &said, lent);
        met.numbers.push(want.number);
        met.text = met.text.max(want.text.len());
        met.answers.push((want.number, want.text.clone()));
        met.lent.push(lent);
        if let Some(o) = &mut ours {
            one_call(o, step.call, step.odd, lent, &text, &want, &mut record, sound)
                .map_err(|e| format!("request {} of the list, {:?}, {lent} bytes of text lent: {e}", i + 1, step.call))?;
        }
        if want.number == 0 {
            accepted.push(step.call);
        }
        open = open && want.number < 12;
        text = want.text;
    }
    if let (Some(o), true) = (ours, open) {
        let work = o.work.to_vec();
        again(memory, section, plan, sound, &accepted, &work, text.len())?;
    }
    Ok(met)
}

/// The answer by document 01: the Rust's, or 17 if the bytes printed by then do not fit.
fn wanted(call: Call, shut: bool, sound: Sound, text: &[u8], said: &[Said], lent: usize) -> Want {
    if shut {
        return Want { number: 11, text: text.to_vec() };
    }
    if matches!(call, Call::One(id) if id >= sound.types) {
        return Want { number: 10, text: text.to_vec() };
    }
    let mut held = text.to_vec();
    for one in said {
        if held.len() + one.bytes.len() > lent.min(1 << 30) {
            return Want { number: 17, text: held };
        }
        if let End::Refused(n) = one.end {
            return Want { number: n, text: held };
        }
        held.extend_from_slice(&one.bytes);
    }
    Want { number: 0, text: held }
}
