//! A smaller table and a shorter list of requests that still differ.
use crate::causes;
use crate::plan::{Call, Plan};
use crate::lent::Memory;
use crate::session;
use crate::table::*;

fn differs(memory: &mut Memory, section: &[u8], plan: &Plan) -> Option<String> {
    let sound = causes::opening(section, plan.pointer_size, u64::MAX).ok()?;
    session::run(memory, section, plan, sound).err()
}

/// the table without one record; ids that led to it become 0
fn without(table: &Table, id: u32) -> Table {
    let mut t = table.clone();
    t.recs.remove(id as usize - 1);
    for rec in &mut t.recs {
        for x in rec.ids() {
            if *x == id {
                *x = 0;
            } else if *x > id {
                *x -= 1;
            }
        }
    }
    t
}

fn plan_without(plan: &Plan, id: u32) -> Plan {
    let mut p = plan.clone();
    for step in &mut p.steps {
        if let Call::One(x) = &mut step.call {
            if *x == id {
                *x = 0;
            } else if *x > id {
                *x -= 1;
            }
        }
    }
    p
}

pub fn smallest(memory: &mut Memory, section: &[u8], plan: &Plan) -> (Vec<u8>, Plan) {
    let mut plan = plan.clone();
    let mut at = plan.steps.len();
    while at > 0 {
        at -= 1;
        let mut p = plan.clone();
        p.steps.remove(at);
        if differs(memory, section, &p).is_some() {
            plan = p;
        }
    }
    let mut table = Table::read(section);
    if differs(memory, &table.bytes(), &plan).is_none() {
        return (section.to_vec(), plan);
    }
    loop {
        let mut smaller = false;
        for id in (1..=table.recs.len() as u32).rev() {
            let (t, p) = (without(&table, id), plan_without(&plan, id));
            if differs(memory, &t.bytes(), &p).is_some() {
                (table, plan, smaller) = (t, p, true);
            }
        }
        for i in 0..table.recs.len() {
            let width = entry_words(table.recs[i].kind);
            for e in (0..table.recs[i].entries()).rev() {
                let mut t = table.clone();
                t.recs[i].body.drain(e * width..(e + 1) * width);
                if differs(memory, &t.bytes(), &plan).is_some() {
                    (table, smaller) = (t, true);
                }
            }
        }
        if !smaller {
            return (table.bytes(), plan);
        }
    }
}
