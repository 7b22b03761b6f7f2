//! The five-stage core (`docs/pipeline.md`).
//!
//! A clock computes what each stage makes of the slots as they were when the clock began, and puts it all in place at
//! its end. The words of a program are decoded once, when the program is made, and no clock asks for memory.

use crate::alu::{Flags, Operation};
use crate::decode::{branch_target, decode, pc_value, Action, Instruction, Operand, Register, PC};
use crate::event::{Ending, Event, HasStopped, Stop};
use crate::memory::{locate, Bank, Fault};

/// A program, served from address 0 on under one tag.
#[derive(Clone, Debug)]
pub struct Program {
    entries: Vec<Entry>,
    tag: u8,
}

/// A word, and what Decode finds in it; nothing in a word outside the subset.
#[derive(Clone, Copy, Debug)]
struct Entry {
    word: u32,
    meaning: Option<Meaning>,
}

/// An instruction, and those of its traits that the stages ask for in every clock.
#[derive(Clone, Copy, Debug)]
struct Meaning {
    instruction: Instruction,
    sources: [Register; 2],
    brings: Option<Register>,
    writes_pc: bool,
}

impl Program {
    pub fn new(words: &[u32], tag: u8) -> Program {
        let entry = |&word| Entry { word, meaning: decode(word).map(Meaning::new) };
        Program { entries: words.iter().map(entry).collect(), tag }
    }

    #[inline]
    fn read(&self, address: u32) -> Result<&Entry, Fault> {
        locate(address, self.entries.len(), self.tag).map(|place| &self.entries[place])
    }
}

impl Meaning {
    fn new(instruction: Instruction) -> Meaning {
        Meaning {
            instruction,
            sources: instruction.sources(),
            brings: instruction.brings(),
            writes_pc: instruction.writes_pc(),
        }
    }
}

/// What was fetched: a word of the program, or a fault.
#[derive(Clone, Copy, Debug)]
struct DecodeSlot<'p> {
    address: u32,
    fetched: Result<&'p Entry, Fault>,
}

/// An instruction with the values that its source registers had in Decode, or a stop.
#[derive(Clone, Copy, Debug)]
struct ExecuteSlot<'p> {
    address: u32,
    word: u32,
    task: Task<'p>,
}

#[derive(Clone, Copy, Debug)]
enum Task<'p> {
    Instruction { meaning: &'p Meaning, values: [u32; 2] },
    Stop(Stop),
}

/// What is left of an instruction that was executed.
#[derive(Clone, Copy, Debug)]
struct MemorySlot {
    address: u32,
    word: u32,
    flags: Flags,
    rest: Rest,
}

#[derive(Clone, Copy, Debug)]
enum Rest {
    /// Done, and there is no more to do.
    Nothing,
    /// Done but for the writing of a register.
    Write {
        register: Register,
        value: u32,
    },
    Load {
        register: Register,
        address: u32,
    },
    Store {
        address: u32,
        word: u32,
    },
    Skipped,
    Stop(Stop),
}

impl MemorySlot {
    /// The value that is written to the register. A load has none yet: nobody behind it asks, because of the stall.
    #[inline]
    fn written(&self, register: Register) -> Option<u32> {
        match self.rest {
            Rest::Write { register: written, value } if written == register => Some(value),
            _ => None,
        }
    }

    #[inline]
    fn writes_pc(&self) -> bool {
        matches!(self.rest, Rest::Write { register: PC, .. } | Rest::Load { register: PC, .. })
    }
}

impl Rest {
    /// Makes the access, if there is one.
    #[inline]
    fn finish(&self, data: &mut Bank) -> Result<Ending, Fault> {
        Ok(match *self {
            Rest::Nothing => Ending::Done,
            Rest::Write { register, value } => Ending::Wrote { register, value },
            Rest::Load { register, address } => Ending::Wrote { register, value: data.read(address)? },
            Rest::Store { address, word } => {
                data.write(address, word)?;
                Ending::Stored { address, word }
            }
            Rest::Skipped => Ending::Skipped,
            Rest::Stop(stop) => Ending::Stopped(stop),
        })
    }
}

/// What Execute makes of its slot.
#[derive(Clone, Copy, Debug)]
struct Executed {
    slot: Option<MemorySlot>,
    flags: Flags,
    /// The target of a branch that is taken.
    target: Option<u32>,
    origins: [Origin; 2],
}

/// Where a source value of Execute comes from. The values are the numbers of the signals.
#[derive(Clone, Copy, Debug, Default, PartialEq, Eq)]
pub enum Origin {
    #[default]
    Decode = 0,
    Writeback = 1,
    Memory = 2,
}

/// What can be seen of a clock from outside.
#[derive(Clone, Copy, Debug, Default, PartialEq, Eq)]
pub struct Signals {
    pub stall: bool,
    pub write_pending: bool,
    pub branch_taken: bool,
    pub pc_written: bool,
    pub first: Origin,
    pub second: Origin,
}

/// What one clock answers.
#[derive(Clone, Copy, Debug, PartialEq, Eq)]
pub struct Clock {
    /// The number of the clock, counted from 1.
    pub number: u64,
    /// The event that the clock handed out.
    pub event: Option<Event>,
    pub signals: Signals,
}

#[derive(Clone, Debug)]
pub struct Core<'p> {
    program: &'p Program,
    data: Bank,
    registers: [u32; 15],
    flags: Flags,
    fetch_address: u32,
    decode: Option<DecodeSlot<'p>>,
    execute: Option<ExecuteSlot<'p>>,
    memory: Option<MemorySlot>,
    writeback: Option<Event>,
    clocks: u64,
    stopped: bool,
}

impl<'p> Core<'p> {
    /// A core as it is after reset.
    pub fn new(program: &'p Program, data: Bank) -> Core<'p> {
        Core {
            program,
            data,
            registers: [0; 15],
            flags: Flags::default(),
            fetch_address: 0,
            decode: None,
            execute: None,
            memory: None,
            writeback: None,
            clocks: 0,
            stopped: false,
        }
    }

    pub fn registers(&self) -> &[u32; 15] {
        &self.registers
    }

    pub fn flags(&self) -> Flags {
        self.flags
    }

    pub fn data(&self) -> &Bank {
        &self.data
    }

    pub fn fetch_address(&self) -> u32 {
        self.fetch_address
    }

    pub fn has_stopped(&self) -> bool {
        self.stopped
    }

    /// The addresses in the Decode, Execute, Memory and Writeback slot.
    pub fn slots(&self) -> [Option<u32>; 4] {
        [
            self.decode.map(|slot| slot.address),
            self.execute.map(|slot| slot.address),
            self.memory.map(|slot| slot.address),
            self.writeback.map(|event| event.address),
        ]
    }

    /// Moves the core on by one clock. A core that has stopped stays as it is.
    #[inline]
    pub fn clock(&mut self) -> Result<Clock, HasStopped> {
        if self.stopped {
            return Err(HasStopped);
        }
        self.clocks += 1;
        let event = self.writeback;
        let signals = match event {
            Some(stop) if stop.is_stop() => self.halt(),
            _ => self.advance(),
        };
        Ok(Clock { number: self.clocks, event, signals })
    }

    /// The clock that hands out a stop.
    fn halt(&mut self) -> Signals {
        self.empty_front();
        self.writeback = None;
        self.stopped = true;
        Signals::default()
    }

    /// Any other clock.
    #[inline]
    fn advance(&mut self) -> Signals {
        let new_pc = self.write_back();
        let finished = self.access();
        if finished.is_some_and(|event| event.is_stop()) {
            self.empty_front();
            self.writeback = finished;
            return Signals::default();
        }
        let executed = self.execute();
        let stall = self.stalls();
        let write_pending = self.write_pending();
        let decoded = if executed.target.is_some() || stall { None } else { self.decode() };

        self.fetch(executed.target.or(new_pc), stall, write_pending);
        self.execute = decoded;
        self.memory = executed.slot;
        self.flags = executed.flags;
        self.writeback = finished;
        Signals {
            stall,
            write_pending,
            branch_taken: executed.target.is_some(),
            pc_written: new_pc.is_some(),
            first: executed.origins[0],
            second: executed.origins[1],
        }
    }

    /// Empties the three slots behind Writeback.
    fn empty_front(&mut self) {
        self.decode = None;
        self.execute = None;
        self.memory = None;
    }

    /// Writeback: writes the event's register, and answers the value of register 15 if it is that one.
    #[inline]
    fn write_back(&mut self) -> Option<u32> {
        let Some(Event { ending: Ending::Wrote { register, value }, .. }) = self.writeback else {
            return None;
        };
        match self.registers.get_mut(register as usize) {
            Some(place) => {
                *place = value;
                None
            }
            None => Some(value),
        }
    }

    /// Memory: makes the access and finishes the event.
    #[inline]
    fn access(&mut self) -> Option<Event> {
        let slot = self.memory.as_ref()?;
        let ending = slot.rest.finish(&mut self.data).unwrap_or_else(|fault| Ending::Stopped(Stop::Access(fault)));
        Some(Event { address: slot.address, word: slot.word, flags: slot.flags, ending })
    }

    /// Execute: takes the source values, judges the condition, does the arithmetic.
    #[inline]
    fn execute(&self) -> Executed {
        let Some(slot) = &self.execute else {
            return Executed { slot: None, flags: self.flags, target: None, origins: Default::default() };
        };
        let mut flags = self.flags;
        let mut target = None;
        let mut origins = Default::default();
        let rest = match &slot.task {
            Task::Stop(stop) => Rest::Stop(*stop),
            Task::Instruction { meaning, values } => {
                let first = self.source(meaning.sources[0], values[0]);
                let second = self.source(meaning.sources[1], values[1]);
                origins = [first.1, second.1];
                if !meaning.instruction.condition.holds(flags) {
                    Rest::Skipped
                } else if let Action::Branch { distance } = meaning.instruction.action {
                    target = Some(branch_target(slot.address, distance));
                    Rest::Nothing
                } else {
                    perform(&meaning.instruction.action, first.0, second.0, &mut flags)
                }
            }
        };
        let done = MemorySlot { address: slot.address, word: slot.word, flags, rest };
        Executed { slot: Some(done), flags, target, origins }
    }

    /// The value of a source register that was read as `read` in Decode, and where it comes from.
    #[inline]
    fn source(&self, register: Register, read: u32) -> (u32, Origin) {
        if let Some(value) = self.memory.as_ref().and_then(|slot| slot.written(register)) {
            (value, Origin::Memory)
        } else if let Some(value) = self.writeback.as_ref().and_then(|event| event.written(register)) {
            (value, Origin::Writeback)
        } else {
            (read, Origin::Decode)
        }
    }

    /// Decode: says what the word is, and reads the source registers.
    #[inline]
    fn decode(&self) -> Option<ExecuteSlot<'p>> {
        let slot = self.decode.as_ref()?;
        let (word, task) = match &slot.fetched {
            Err(fault) => (0, Task::Stop(Stop::Fetch(*fault))),
            Ok(Entry { word, meaning: None }) => (*word, Task::Stop(Stop::Outside)),
            Ok(Entry { word, meaning: Some(meaning) }) => {
                let values = meaning.sources.map(|register| self.read(register, slot.address));
                (*word, Task::Instruction { meaning, values })
            }
        };
        Some(ExecuteSlot { address: slot.address, word, task })
    }

    #[inline]
    fn read(&self, register: Register, address: u32) -> u32 {
        match self.registers.get(register as usize) {
            Some(&value) => value,
            None => pc_value(address),
        }
    }

    /// Whether Decode waits for a load in Execute.
    #[inline]
    fn stalls(&self) -> bool {
        match (self.execute_meaning(), self.decode_meaning()) {
            (Some(Meaning { brings: Some(register), .. }), Some(waiting)) => {
                waiting.sources[0] == *register || waiting.sources[1] == *register
            }
            _ => false,
        }
    }

    /// Whether a write of register 15 is under way.
    #[inline]
    fn write_pending(&self) -> bool {
        self.memory.as_ref().is_some_and(|slot| slot.writes_pc())
            || self.execute_meaning().is_some_and(|meaning| meaning.writes_pc)
            || self.decode_meaning().is_some_and(|meaning| meaning.writes_pc)
    }

    #[inline]
    fn decode_meaning(&self) -> Option<&'p Meaning> {
        self.decode.as_ref()?.fetched.as_ref().ok()?.meaning.as_ref()
    }

    #[inline]
    fn execute_meaning(&self) -> Option<&'p Meaning> {
        match self.execute.as_ref()?.task {
            Task::Instruction { meaning, .. } => Some(meaning),
            Task::Stop(_) => None,
        }
    }

    /// Fetch: decides the fetch address and what goes to Decode. A taken branch or a written register 15 brings a
    /// new address.
    #[inline]
    fn fetch(&mut self, new_address: Option<u32>, stall: bool, write_pending: bool) {
        if let Some(address) = new_address {
            self.fetch_address = address;
            self.decode = None;
        } else if stall {
            // Both stay.
        } else if write_pending {
            self.decode = None;
        } else {
            let address = self.fetch_address;
            self.decode = Some(DecodeSlot { address, fetched: self.program.read(address) });
            self.fetch_address = address.wrapping_add(4);
        }
    }
}

/// What is left for Memory of an action whose sources are known, and the flags after it.
#[inline]
fn perform(action: &Action, first: u32, second: u32, flags: &mut Flags) -> Rest {
    match *action {
        Action::Data { operation, sets_flags, destination, second: operand, .. } => {
            let operand = match operand {
                Operand::Constant(constant) => constant as u32,
                Operand::Register(_) => second,
            };
            let (value, after) = operation.apply(first, operand, *flags);
            if sets_flags {
                *flags = after;
            }
            match operation {
                Operation::Cmp => Rest::Nothing,
                _ => Rest::Write { register: destination, value },
            }
        }
        Action::Load { destination, offset, .. } => {
            Rest::Load { register: destination, address: first.wrapping_add(offset as u32) }
        }
        Action::Store { offset, .. } => Rest::Store { address: first.wrapping_add(offset as u32), word: second },
        Action::Branch { .. } => Rest::Nothing,
    }
}
