//! The stepper: one instruction at a time (`docs/stepper.md`).

use crate::alu::{Flags, Operation};
use crate::decode::{branch_target, decode, pc_value, Action, Instruction, Operand, Register, PC};
use crate::event::{Ending, Event, HasStopped, Stop};
use crate::memory::{Bank, Fault, ImageStore};

/// What a routine can see of the processor.
#[derive(Clone, Debug, Default, PartialEq, Eq)]
pub struct Stepper {
    registers: [u32; 15],
    flags: Flags,
    next: u32,
    stopped: bool,
}

impl Stepper {
    pub fn new() -> Stepper {
        Stepper::default()
    }

    pub fn registers(&self) -> &[u32; 15] {
        &self.registers
    }

    pub fn flags(&self) -> Flags {
        self.flags
    }

    pub fn next_address(&self) -> u32 {
        self.next
    }

    pub fn has_stopped(&self) -> bool {
        self.stopped
    }

    /// Takes the next instruction and finishes it.
    pub fn step(&mut self, store: &ImageStore, memory: &mut Bank) -> Result<Event, HasStopped> {
        if self.stopped {
            return Err(HasStopped);
        }
        let address = self.next;
        let (word, ending) = match store.read(address) {
            Err(fault) => (0, Ending::Stopped(Stop::Fetch(fault))),
            Ok(word) => match decode(word) {
                None => (word, Ending::Stopped(Stop::Outside)),
                Some(instruction) => (word, self.take(instruction, memory)),
            },
        };
        self.stopped = matches!(ending, Ending::Stopped(_));
        Ok(Event { address, word, flags: self.flags, ending })
    }

    /// Takes an instruction that stands at the next address.
    fn take(&mut self, instruction: Instruction, memory: &mut Bank) -> Ending {
        if !instruction.condition.holds(self.flags) {
            self.next = self.next.wrapping_add(4);
            return Ending::Skipped;
        }
        self.perform(instruction.action, memory).unwrap_or_else(|fault| Ending::Stopped(Stop::Access(fault)))
    }

    /// Does what the action asks for. A fault comes before anything is changed.
    fn perform(&mut self, action: Action, memory: &mut Bank) -> Result<Ending, Fault> {
        let mut next = self.next.wrapping_add(4);
        let ending = match action {
            Action::Data { operation, sets_flags, destination, first, second } => {
                let (value, flags) = operation.apply(self.read(first), self.operand(second), self.flags);
                if sets_flags {
                    self.flags = flags;
                }
                match operation {
                    Operation::Cmp => Ending::Done,
                    _ => Ending::Wrote { register: destination, value },
                }
            }
            Action::Load { destination, base, offset } => {
                let value = memory.read(self.place(base, offset))?;
                Ending::Wrote { register: destination, value }
            }
            Action::Store { source, base, offset } => {
                let (address, word) = (self.place(base, offset), self.read(source));
                memory.write(address, word)?;
                Ending::Stored { address, word }
            }
            Action::Branch { distance } => {
                next = branch_target(self.next, distance);
                Ending::Done
            }
        };
        self.next = next;
        if let Ending::Wrote { register, value } = ending {
            self.write(register, value);
        }
        Ok(ending)
    }

    fn read(&self, register: Register) -> u32 {
        match register {
            PC => pc_value(self.next),
            _ => self.registers[register as usize],
        }
    }

    fn write(&mut self, register: Register, value: u32) {
        match register {
            PC => self.next = value,
            _ => self.registers[register as usize] = value,
        }
    }

    fn operand(&self, operand: Operand) -> u32 {
        match operand {
            Operand::Constant(constant) => constant as u32,
            Operand::Register(register) => self.read(register),
        }
    }

    fn place(&self, base: Register, offset: u16) -> u32 {
        self.read(base).wrapping_add(offset as u32)
    }
}

/// Steps a new stepper until it stops or `limit` steps are taken, and answers the events.
pub fn run(store: &ImageStore, memory: &mut Bank, limit: usize) -> Vec<Event> {
    let mut stepper = Stepper::new();
    std::iter::from_fn(|| stepper.step(store, memory).ok()).take(limit).collect()
}
