//! The clock law (`docs/lateness.md`): in which clock the core hands out each of the stepper's events.

use crate::decode::{Action, PC};
use crate::event::{Ending, Event};

/// What the law counts for one event.
#[derive(Clone, Copy, Debug, Default, PartialEq, Eq)]
pub struct Counts {
    /// The events up to this one.
    pub n: u64,
    /// L: neighbours of which the first is a load and the second has the loaded register in a source field.
    pub l: u64,
    /// T: branches before this event that were done.
    pub t: u64,
    /// P: writes of register 15 before this event that were done.
    pub p: u64,
    /// Q: writes of register 15 before this event that were skipped.
    pub q: u64,
}

impl Counts {
    pub fn clock(&self) -> u64 {
        self.n + 4 + self.l + 2 * self.t + 4 * self.p + 2 * self.q
    }
}

/// The counts for event `n` of a list, as the page defines them.
///
/// # Panics
///
/// If the list has no event `n`, counted from 1.
pub fn counts(events: &[Event], n: usize) -> Counts {
    let before = &events[..n - 1];
    let number = |is_counted: fn(&Event) -> bool| before.iter().filter(|event| is_counted(event)).count() as u64;
    Counts {
        n: n as u64,
        l: events[..n].windows(2).filter(|pair| waits_for(&pair[0], &pair[1])).count() as u64,
        t: number(is_taken_branch),
        p: number(is_done_pc_write),
        q: number(is_skipped_pc_write),
    }
}

/// The same counts, kept up to date from one event to the next.
#[derive(Clone, Copy, Debug, Default)]
pub struct Law {
    counts: Counts,
    last: Option<Event>,
}

impl Law {
    /// Takes in the next event and answers its counts.
    pub fn next(&mut self, event: &Event) -> Counts {
        self.counts.n += 1;
        if let Some(last) = self.last {
            self.counts.l += waits_for(&last, event) as u64;
            self.counts.t += is_taken_branch(&last) as u64;
            self.counts.p += is_done_pc_write(&last) as u64;
            self.counts.q += is_skipped_pc_write(&last) as u64;
        }
        self.last = Some(*event);
        self.counts
    }
}

/// Whether the earlier event is a load, done or skipped, that the later one has to wait for.
fn waits_for(earlier: &Event, later: &Event) -> bool {
    let loaded = earlier.instruction().and_then(|load| load.brings()).filter(|&register| register != PC);
    match (loaded, later.instruction()) {
        (Some(register), Some(user)) => user.sources().contains(&register),
        _ => false,
    }
}

fn is_taken_branch(event: &Event) -> bool {
    let is_branch = event.instruction().is_some_and(|i| matches!(i.action, Action::Branch { .. }));
    is_branch && event.is_done()
}

fn is_done_pc_write(event: &Event) -> bool {
    is_pc_write(event) && event.is_done()
}

fn is_skipped_pc_write(event: &Event) -> bool {
    is_pc_write(event) && event.ending == Ending::Skipped
}

fn is_pc_write(event: &Event) -> bool {
    event.instruction().is_some_and(|instruction| instruction.writes_pc())
}
