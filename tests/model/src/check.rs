//! The model's own check: the core is the stepper, late (`docs/lateness.md`).
//!
//! Every clock of a run is held against the stepper and the clock law: which event is handed out, if any, and what
//! registers, flags and memory are. After the stop nothing is in flight, and all of them are the stepper's.

use crate::decode::{decode, encode};
use crate::event::Event;
use crate::image::{self, Refusal};
use crate::law::{Counts, Law};
use crate::memory::{Bank, ImageStore};
use crate::pipeline::{Clock, Core, Program};
use crate::stepper::{self, Stepper};
use crate::text::fresh_data;

/// The clocks after which a run is given up.
pub const CLOCK_LIMIT: usize = 10_000;

/// What came of an image that passed the check.
#[derive(Clone, Copy, Debug)]
pub enum Outcome {
    Refused(Refusal),
    Ran(Run),
}

#[derive(Clone, Copy, Debug)]
pub struct Run {
    pub clocks: u64,
    /// The counts of the last event that was handed out.
    pub counts: Counts,
    /// The number of the stop, if the routine stopped.
    pub stop: Option<u32>,
}

/// Checks the run of an image, and answers what came of it or where it goes wrong.
pub fn check(bytes: &[u8]) -> Result<Outcome, String> {
    match image::open(bytes) {
        Err(refusal) => Ok(Outcome::Refused(refusal)),
        Ok(words) => check_run(&words).map(Outcome::Ran),
    }
}

fn check_run(words: &[u32]) -> Result<Run, String> {
    check_coding(words)?;
    let store = ImageStore::new(words, 0);
    let events = stepper::run(&store, &mut fresh_data(), CLOCK_LIMIT);
    let mut law = Law::default();
    let counts: Vec<Counts> = events.iter().map(|event| law.next(event)).collect();

    let program = Program::new(words, 0);
    let mut core = Core::new(&program, fresh_data());
    let mut state = State::new(store);
    let mut handed_out = 0;
    let mut clocks = 0;
    while clocks < CLOCK_LIMIT as u64 && !core.has_stopped() {
        let clock = core.clock().map_err(|_| "a core that has not stopped refuses a clock")?;
        clocks += 1;
        check_event(&clock, clocks, events.get(handed_out), counts.get(handed_out))?;
        handed_out += clock.event.is_some() as usize;
        state.check(&core, handed_out).map_err(|what| format!("clock {clocks}: {what} differ"))?;
    }
    check_end(&core, &state)?;
    let stop = core.has_stopped().then(|| events.last().and_then(|event| event.stop())).flatten();
    let counts = if handed_out == 0 { Counts::default() } else { counts[handed_out - 1] };
    Ok(Run { clocks, counts, stop: stop.map(|stop| stop.cause()) })
}

/// Each word that means an instruction is the word of that instruction.
fn check_coding(words: &[u32]) -> Result<(), String> {
    let is_exact = |&word: &u32| decode(word).is_none_or(|instruction| encode(instruction) == Some(word));
    match words.iter().find(|word| !is_exact(word)) {
        Some(word) => Err(format!("{word:08x} is not the word of its instruction")),
        None => Ok(()),
    }
}

/// A clock hands out the next event if that is due, and nothing otherwise.
fn check_event(clock: &Clock, number: u64, next: Option<&Event>, counts: Option<&Counts>) -> Result<(), String> {
    let expected = next.filter(|_| counts.is_some_and(|counts| counts.clock() == number)).copied();
    if clock.number == number && clock.event == expected {
        Ok(())
    } else {
        Err(format!("clock {number}: handed out {:?} instead of {expected:?}", clock.event))
    }
}

/// A core that stopped is where the stepper is after its stop, and it refuses to go on.
fn check_end(core: &Core, state: &State) -> Result<(), String> {
    if !core.has_stopped() {
        return Ok(());
    }
    let mut again = core.clone();
    if again.clock().is_ok() || core.slots() != [None; 4] || !state.all_stopped() {
        return Err("the core has stopped and is not at rest".to_string());
    }
    Ok(())
}

/// Three steppers, each as far on as one part of the core's state.
struct State<'w> {
    registers: Follower<'w>,
    memory: Follower<'w>,
    flags: Follower<'w>,
}

impl<'w> State<'w> {
    fn new(store: ImageStore<'w>) -> State<'w> {
        State { registers: Follower::new(store), memory: Follower::new(store), flags: Follower::new(store) }
    }

    /// Compares the core after a clock with the steppers, and names what differs.
    fn check(&mut self, core: &Core, handed_out: usize) -> Result<(), &'static str> {
        let [_, _, memory_slot, writeback_slot] = core.slots();
        let accessed = handed_out + writeback_slot.is_some() as usize;
        let executed = accessed + memory_slot.is_some() as usize;
        if core.registers() != self.registers.after(handed_out).0.registers() {
            Err("registers")
        } else if core.data() != self.memory.after(accessed).1 {
            Err("data words")
        } else if core.flags() != self.flags.after(executed).0.flags() {
            Err("flags")
        } else {
            Ok(())
        }
    }

    fn all_stopped(&self) -> bool {
        [&self.registers, &self.memory, &self.flags].iter().all(|follower| follower.stepper.has_stopped())
    }
}

/// A stepper with its data, and how many steps it has taken.
struct Follower<'w> {
    store: ImageStore<'w>,
    stepper: Stepper,
    data: Bank,
    steps: usize,
}

impl<'w> Follower<'w> {
    fn new(store: ImageStore<'w>) -> Follower<'w> {
        Follower { store, stepper: Stepper::new(), data: fresh_data(), steps: 0 }
    }

    fn after(&mut self, steps: usize) -> (&Stepper, &Bank) {
        while self.steps < steps && self.stepper.step(&self.store, &mut self.data).is_ok() {
            self.steps += 1;
        }
        (&self.stepper, &self.data)
    }
}
