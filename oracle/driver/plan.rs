//! What is asked of one section: settings, and a list of requests with the
//! text slice lent to each.
use crate::random::Random;

#[derive(Clone, Copy, Debug, PartialEq)]
pub enum Call {
    One(u32),
    All,
}

/// The text slice, seen from the text that the request gives.
#[derive(Clone, Copy, Debug, PartialEq)]
pub enum Room {
    /// so many bytes more than needed
    Over(u32),
    /// so many thousandths of the new bytes
    Part(u32),
    /// one byte less than the text held before (11)
    Below,
}

/// What is done besides.
#[derive(Clone, Copy, Debug, PartialEq)]
pub enum Odd {
    No,
    /// a section one byte shorter (11)
    Section,
    /// work one byte shorter (11)
    Work,
    /// a record one byte too short (11)
    Record,
    /// before the request, an opening that is refused for its pointer size
    Opening,
}

#[derive(Clone, Debug)]
pub struct Step {
    pub call: Call,
    pub room: Room,
    pub odd: Odd,
}

#[derive(Clone, Debug)]
pub struct Plan {
    pub pointer_size: u32,
    pub modes: u32,
    /// bytes of work beyond what the table needs
    pub spare_work: u32,
    /// bytes of text lent to the opening
    pub open_text: u32,
    /// what lent memory is filled with
    pub junk: u8,
    pub steps: Vec<Step>,
}

pub fn plan(r: &mut Random, types: u32, how: u32) -> Plan {
    let ids = types.saturating_sub(1);
    let mut calls: Vec<Call> = match how {
        0 => vec![Call::All],
        1 => {
            let mut list: Vec<u32> = (0..types).collect();
            match r.below(4) {
                0 => {}
                1 => list.reverse(),
                _ => r.shuffle(&mut list),
            }
            list.truncate(60);
            list.into_iter().map(Call::One).collect()
        }
        _ => (0..r.from(1, 9))
            .map(|_| match r.below(12) {
                0 => Call::All,
                1 => Call::One(types + r.pick(&[0, 1, u32::MAX - types])),
                2 => Call::One(0),
                _ => Call::One(r.from(1, ids.max(1))),
            })
            .collect(),
    };
    if how == 1 && r.percent(30) {
        calls.push(Call::All);
    }
    let tight = how == 2 && r.percent(35) || r.percent(8);
    let tight_at = r.below(calls.len() as u32) as usize;
    let steps = calls
        .into_iter()
        .enumerate()
        .map(|(i, call)| Step {
            call,
            room: match r.below(100) {
                _ if tight && i == tight_at => Room::Part(r.pick(&[0, 500, 900, 990, 999])),
                0..=2 => Room::Below,
                3..=30 => Room::Over(0),
                31..=34 => Room::Over(r.below(100_000)),
                _ => Room::Over(r.below(400)),
            },
            odd: match r.below(100) {
                0 => Odd::Section,
                1 => Odd::Work,
                2 => Odd::Record,
                3 => Odd::Opening,
                _ => Odd::No,
            },
        })
        .collect();
    Plan {
        pointer_size: r.pick(&[4, 8]),
        // bits 1 to 3, strong arrays, placing mode and names apart, are not the Rust's
        modes: if r.percent(10) { r.next() as u32 & !14 } else { r.below(2) },
        spare_work: if r.percent(30) { r.below(70) } else { 0 },
        open_text: r.pick(&[0, 0, 1, 17, 300, 5000]),
        junk: r.pick(&[0x00, 0xcd, 0x31, 0xff]),
        steps,
    }
}
