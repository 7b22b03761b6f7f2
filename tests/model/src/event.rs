//! The events of a routine (`docs/stepper.md`). The stepper and the core answer the same ones.

use crate::alu::Flags;
use crate::decode::{decode, Instruction, Register};
use crate::memory::Fault;

/// How one instruction ended.
#[derive(Clone, Copy, Debug, PartialEq, Eq)]
pub struct Event {
    /// Where the instruction stands.
    pub address: u32,
    /// Its word; 0 if none could be read.
    pub word: u32,
    /// The flags after it.
    pub flags: Flags,
    pub ending: Ending,
}

/// How an instruction ended. It is done in the first three cases: none of the subset leaves behind more than one word.
#[derive(Clone, Copy, Debug, PartialEq, Eq)]
pub enum Ending {
    /// Done without leaving a word behind.
    Done,
    /// Done, and a register was written; register 15 stands for the next address.
    Wrote {
        register: Register,
        value: u32,
    },
    /// Done, and a word was stored.
    Stored {
        address: u32,
        word: u32,
    },
    Skipped,
    Stopped(Stop),
}

#[derive(Clone, Copy, Debug, PartialEq, Eq)]
pub enum Stop {
    /// There was nothing to fetch.
    Fetch(Fault),
    /// The word is outside the subset.
    Outside,
    /// The data memory refused the access.
    Access(Fault),
}

impl Stop {
    /// The number of the cause that users see.
    pub fn cause(self) -> u32 {
        match self {
            Stop::Fetch(_) => 20,
            Stop::Outside => 21,
            Stop::Access(_) => 22,
        }
    }

    pub fn fault(self) -> Option<Fault> {
        match self {
            Stop::Fetch(fault) | Stop::Access(fault) => Some(fault),
            Stop::Outside => None,
        }
    }
}

impl Event {
    #[inline]
    pub fn stop(&self) -> Option<Stop> {
        match self.ending {
            Ending::Stopped(stop) => Some(stop),
            _ => None,
        }
    }

    #[inline]
    pub fn is_stop(&self) -> bool {
        matches!(self.ending, Ending::Stopped(_))
    }

    #[inline]
    pub fn is_done(&self) -> bool {
        matches!(self.ending, Ending::Done | Ending::Wrote { .. } | Ending::Stored { .. })
    }

    /// The value that was written to the register.
    #[inline]
    pub fn written(&self, register: Register) -> Option<u32> {
        match self.ending {
            Ending::Wrote { register: written, value } if written == register => Some(value),
            _ => None,
        }
    }

    /// The instruction; none if no word could be read or the word is outside the subset.
    pub fn instruction(&self) -> Option<Instruction> {
        match self.ending {
            Ending::Stopped(Stop::Fetch(_)) => None,
            _ => decode(self.word),
        }
    }
}

/// The refusal of a stepper or a core that is asked to go on after its stop.
#[derive(Clone, Copy, Debug, PartialEq, Eq)]
pub struct HasStopped;

impl HasStopped {
    pub const NUMBER: u32 = 6;
}
