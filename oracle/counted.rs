//! Counters of the counted copy: open calls in five groups, chain entries, and
//! a budget of steps, so that a hostile table ends.
use std::cell::Cell;

/// What the copy leaves by, as the payload of an unwinding.
pub enum Left {
    /// more than 512 open calls of a group, or chain entries
    Deep,
    /// the budget is used up; says nothing about the table
    Budget,
}

pub const LIMIT: usize = 512;

thread_local! {
    static OPEN: [Cell<usize>; 5] = const { [const { Cell::new(0) }; 5] };
    static DEEPEST: [Cell<usize>; 6] = const { [const { Cell::new(0) }; 6] };
    static STEPS: Cell<u64> = const { Cell::new(0) };
}

/// Starts a request: no call is open, so many steps are allowed.
pub fn start(steps: u64) {
    OPEN.with(|open| open.iter().for_each(|n| n.set(0)));
    STEPS.with(|s| s.set(steps));
}

/// The most calls open in each group so far, and the longest chain.
pub fn deepest() -> [usize; 6] {
    DEEPEST.with(|d| std::array::from_fn(|i| d[i].get()))
}

fn leave(by: Left) -> ! {
    std::panic::resume_unwind(Box::new(by))
}

pub fn step() {
    STEPS.with(|s| match s.get() {
        0 => leave(Left::Budget),
        n => s.set(n - 1),
    })
}

fn note(group: usize, n: usize) {
    DEEPEST.with(|d| d[group].set(d[group].get().max(n)));
    if n > LIMIT {
        leave(Left::Deep)
    }
}

pub fn entries(n: usize) {
    note(5, n)
}

pub struct Call(usize);

/// A call of the group opens; it is closed when the result is dropped.
pub fn enter(group: usize) -> Call {
    step();
    let n = OPEN.with(|open| {
        open[group].set(open[group].get() + 1);
        open[group].get()
    });
    let call = Call(group);
    note(group, n);
    call
}

impl Drop for Call {
    fn drop(&mut self) {
        OPEN.with(|open| open[self.0].set(open[self.0].get() - 1))
    }
}
