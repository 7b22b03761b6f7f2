//! What a word means, and the text of an instruction (`docs/instructions.md`).

use std::fmt;

use crate::alu::{Condition, Operation};

/// The number of a register, 0 to 15. It is as wide as the values that it travels with, which lets the compiler move
/// them together.
pub type Register = u32;

/// The register that is read as the instruction's address plus 8, and whose writing sets the next address.
pub const PC: Register = 15;

#[derive(Clone, Copy, Debug, PartialEq, Eq)]
pub struct Instruction {
    pub condition: Condition,
    pub action: Action,
}

#[derive(Clone, Copy, Debug, PartialEq, Eq)]
pub enum Action {
    Data {
        operation: Operation,
        sets_flags: bool,
        destination: Register,
        first: Register,
        second: Operand,
    },
    Load {
        destination: Register,
        base: Register,
        offset: u16,
    },
    Store {
        source: Register,
        base: Register,
        offset: u16,
    },
    /// The distance is counted in words from the branch's own address plus 8.
    Branch {
        distance: i32,
    },
}

#[derive(Clone, Copy, Debug, PartialEq, Eq)]
pub enum Operand {
    Constant(u8),
    Register(Register),
}

/// The `width` bits of the word from bit `low` upwards.
fn bits(word: u32, low: u32, width: u32) -> u32 {
    word >> low & ((1 << width) - 1)
}

fn register(word: u32, low: u32) -> Register {
    bits(word, low, 4)
}

/// Answers the instruction of a word, or none for a word outside the subset.
pub fn decode(word: u32) -> Option<Instruction> {
    let condition = Condition::from_number(bits(word, 28, 4))?;
    let action = match bits(word, 20, 8) {
        0x00..=0x3F => decode_data(word)?,
        0x58 => Action::Store { source: register(word, 12), base: register(word, 16), offset: offset(word) },
        0x59 => Action::Load { destination: register(word, 12), base: register(word, 16), offset: offset(word) },
        0xA0..=0xAF => Action::Branch { distance: (word << 8) as i32 >> 8 },
        _ => return None,
    };
    Some(Instruction { condition, action })
}

fn offset(word: u32) -> u16 {
    bits(word, 0, 12) as u16
}

fn decode_data(word: u32) -> Option<Action> {
    let operation = Operation::from_number(bits(word, 21, 4))?;
    let sets_flags = bits(word, 20, 1) == 1;
    let destination = register(word, 12);
    let second = if bits(word, 25, 1) == 1 {
        (bits(word, 8, 4) == 0).then(|| Operand::Constant(bits(word, 0, 8) as u8))?
    } else {
        (bits(word, 4, 8) == 0).then(|| Operand::Register(register(word, 0)))?
    };
    fits(operation, sets_flags, destination).then_some(Action::Data {
        operation,
        sets_flags,
        destination,
        first: register(word, 16),
        second,
    })
}

/// Whether S and Rd go together with the operation.
fn fits(operation: Operation, sets_flags: bool, destination: Register) -> bool {
    match operation {
        Operation::Cmp => sets_flags && destination == 0,
        _ => !(sets_flags && destination == PC),
    }
}

/// Answers the word of an instruction, or none if it has no word.
pub fn encode(instruction: Instruction) -> Option<u32> {
    let rest = match instruction.action {
        Action::Data { operation, sets_flags, destination, first, second } => {
            let operand = match second {
                Operand::Constant(constant) => 1 << 25 | constant as u32,
                Operand::Register(register) => field(register, 0),
            };
            fits(operation, sets_flags, destination).then_some(
                operation.number() << 21
                    | (sets_flags as u32) << 20
                    | field(first, 16)
                    | field(destination, 12)
                    | operand,
            )
        }
        Action::Load { destination, base, offset } => encode_transfer(0x59, destination, base, offset),
        Action::Store { source, base, offset } => encode_transfer(0x58, source, base, offset),
        Action::Branch { distance } => {
            (-0x80_0000..0x80_0000).contains(&distance).then_some(0xA << 24 | distance as u32 & 0xFF_FFFF)
        }
    }?;
    Some((instruction.condition as u32) << 28 | rest)
}

fn encode_transfer(opcode: u32, moved: Register, base: Register, offset: u16) -> Option<u32> {
    (offset < 4096).then_some(opcode << 20 | field(base, 16) | field(moved, 12) | offset as u32)
}

fn field(register: Register, low: u32) -> u32 {
    register << low
}

impl Instruction {
    /// The two source fields, whether the instruction needs both or not.
    pub fn sources(&self) -> [Register; 2] {
        match self.action {
            Action::Data { first, second: Operand::Register(second), .. } => [first, second],
            Action::Data { first, second: Operand::Constant(constant), .. } => [first, (constant & 15) as Register],
            Action::Load { base, offset, .. } => [base, (offset & 15) as Register],
            Action::Store { source, base, .. } => [base, source],
            Action::Branch { distance } => [PC, (distance & 15) as Register],
        }
    }

    /// The register that the instruction writes if it is done.
    pub fn destination(&self) -> Option<Register> {
        match self.action {
            Action::Data { operation: Operation::Cmp, .. } => None,
            Action::Data { destination, .. } | Action::Load { destination, .. } => Some(destination),
            Action::Store { .. } | Action::Branch { .. } => None,
        }
    }

    /// The register that a load brings if it is done.
    pub fn brings(&self) -> Option<Register> {
        match self.action {
            Action::Load { destination, .. } => Some(destination),
            _ => None,
        }
    }

    pub fn writes_pc(&self) -> bool {
        self.destination() == Some(PC)
    }
}

/// What register 15 is read as by the instruction at an address.
#[inline]
pub fn pc_value(address: u32) -> u32 {
    address.wrapping_add(8)
}

/// Where a branch at an address goes to.
#[inline]
pub fn branch_target(address: u32, distance: i32) -> u32 {
    pc_value(address).wrapping_add((distance as u32).wrapping_mul(4))
}

/// The text of an instruction. It depends on the address, because a branch names its target.
pub struct Assembly {
    pub address: u32,
    pub instruction: Instruction,
}

impl fmt::Display for Assembly {
    fn fmt(&self, out: &mut fmt::Formatter<'_>) -> fmt::Result {
        let suffix = self.instruction.condition.suffix();
        match self.instruction.action {
            Action::Data { operation: Operation::Cmp, first, second, .. } => {
                write!(out, "CMP{suffix} R{first}, {second}")
            }
            Action::Data { operation, sets_flags, destination, first, second } => {
                let s = if sets_flags { "S" } else { "" };
                write!(out, "{}{s}{suffix} R{destination}, R{first}, {second}", operation.name())
            }
            Action::Load { destination, base, offset } => {
                write!(out, "LDR{suffix} R{destination}, {}", Place { base, offset })
            }
            Action::Store { source, base, offset } => write!(out, "STR{suffix} R{source}, {}", Place { base, offset }),
            Action::Branch { distance } => write!(out, "B{suffix} 0x{:08x}", branch_target(self.address, distance)),
        }
    }
}

impl fmt::Display for Operand {
    fn fmt(&self, out: &mut fmt::Formatter<'_>) -> fmt::Result {
        match self {
            Operand::Constant(constant) => write!(out, "#{constant}"),
            Operand::Register(register) => write!(out, "R{register}"),
        }
    }
}

/// The place in memory that a load or a store names.
struct Place {
    base: Register,
    offset: u16,
}

impl fmt::Display for Place {
    fn fmt(&self, out: &mut fmt::Formatter<'_>) -> fmt::Result {
        match self.offset {
            0 => write!(out, "[R{}]", self.base),
            offset => write!(out, "[R{}, #{offset}]", self.base),
        }
    }
}
