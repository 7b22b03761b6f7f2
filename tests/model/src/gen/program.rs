//! Routines that run for a while.
//!
//! The registers have roles, so that a routine does not stop at its first load: pointers hold multiples of four in
//! the data memory, values hold anything, and backward jumps are taken only while there is fuel. What the roles keep
//! from happening is put in on purpose, at a rate that each routine chooses for itself.

use super::rng::Rng;
use crate::alu::{Condition, Operation};
use crate::decode::{encode, Action, Instruction, Operand, Register, PC};
use crate::image::{BLOCK_WORDS, MAX_BLOCKS};

const VALUES: [Register; 7] = [0, 1, 2, 3, 8, 9, 10];
const POINTERS: [Register; 4] = [4, 5, 6, 7];
/// Counts down; a backward jump goes on only while it is not negative.
const FUEL: Register = 11;
/// Stays 0.
const ZERO: Register = 12;
/// Holds an address just below 0, so that sums with it wrap around.
const NEGATIVE: Register = 13;
/// Holds an address of the program.
const LINK: Register = 14;

/// The conditions that hold after `SUBS FUEL, FUEL, #1` while there is fuel.
const FUELLED: [Condition; 3] = [Condition::Pl, Condition::Ge, Condition::Gt];
const COMPUTING: [Operation; 4] = [Operation::And, Operation::Sub, Operation::Add, Operation::Orr];

/// A whole routine of 1 to 8,064 words.
pub fn routine(rng: &mut Rng) -> Vec<u32> {
    let size = match rng.below(100) {
        0..=4 => return bare_routine(rng),
        5..=44 => rng.between(8, 40),
        45..=79 => rng.between(40, 126),
        80..=86 => BLOCK_WORDS as u32 * rng.between(1, 3),
        87..=98 => rng.between(127, 900),
        _ => rng.between(7_500, 8_064),
    } as usize;
    let mut builder = Builder::new(rng);
    builder.set_up();
    while builder.words.len() < size {
        builder.passage();
    }
    builder.finish();
    builder.words.truncate(MAX_BLOCKS * BLOCK_WORDS);
    if size % BLOCK_WORDS == 0 {
        builder.words.truncate(size); // The last block is full.
    }
    builder.words
}

/// A few instructions or words by pure chance.
fn bare_routine(rng: &mut Rng) -> Vec<u32> {
    let count = rng.between(1, 30);
    let mut builder = Builder::new(rng);
    for _ in 0..count {
        builder.wild();
    }
    builder.words
}

struct Builder<'r> {
    rng: &'r mut Rng,
    words: Vec<u32>,
    /// Where the beginning ends. A jump back into it would fill up the fuel again.
    body: usize,
    /// In how many of a hundred passages something goes wrong.
    risk: u32,
    /// In how many of a hundred instructions the condition is not `Always`.
    conditional: u32,
}

impl<'r> Builder<'r> {
    fn new(rng: &'r mut Rng) -> Builder<'r> {
        let risk = rng.pick(&[0, 0, 1, 4, 15]);
        let conditional = rng.pick(&[5, 25, 60]);
        Builder { rng, words: Vec::new(), body: 0, risk, conditional }
    }

    // ---- single instructions ----

    fn emit(&mut self, condition: Condition, action: Action) {
        let word = encode(Instruction { condition, action }).expect("the generator stays inside the subset");
        self.words.push(word);
    }

    fn data(
        &mut self,
        condition: Condition,
        operation: Operation,
        destination: Register,
        first: Register,
        second: Operand,
    ) {
        let sets_flags = operation == Operation::Cmp || destination != PC && self.rng.chance(40);
        self.emit(condition, Action::Data { operation, sets_flags, destination, first, second });
    }

    fn add(&mut self, destination: Register, first: Register, constant: u32) {
        self.data(Condition::Always, Operation::Add, destination, first, Operand::Constant(constant as u8));
    }

    fn load(&mut self, condition: Condition, destination: Register, base: Register, offset: u32) {
        self.emit(condition, Action::Load { destination, base, offset: offset as u16 });
    }

    fn store(&mut self, condition: Condition, source: Register, base: Register, offset: u32) {
        self.emit(condition, Action::Store { source, base, offset: offset as u16 });
    }

    /// A branch to the instruction that stands `ahead` words behind the branch; 0 is the branch itself.
    fn branch(&mut self, condition: Condition, ahead: i32) {
        self.emit(condition, Action::Branch { distance: ahead - 2 });
    }

    // ---- choices ----

    fn condition(&mut self) -> Condition {
        if self.rng.chance(self.conditional) {
            self.rng.pick(&Condition::ALL)
        } else {
            Condition::Always
        }
    }

    fn value(&mut self) -> Register {
        self.rng.pick(&VALUES)
    }

    fn pointer(&mut self) -> Register {
        self.rng.pick(&POINTERS)
    }

    fn any_register(&mut self) -> Register {
        self.rng.below(16)
    }

    fn operand(&mut self) -> Operand {
        match self.rng.below(10) {
            0..=3 => Operand::Constant(self.rng.below(256) as u8),
            4..=8 => Operand::Register(self.value()),
            _ => Operand::Register(self.any_register()),
        }
    }

    /// A multiple of four; small ones make loads and stores meet.
    fn offset(&mut self) -> u32 {
        let words = self.rng.pick(&[3, 8, 200]);
        4 * self.rng.below(words)
    }

    // ---- the beginning and the end ----

    fn set_up(&mut self) {
        let fuel = self.rng.between(1, 12);
        self.add(FUEL, ZERO, fuel);
        for pointer in POINTERS {
            let address = 4 * self.rng.below(64);
            self.add(pointer, ZERO, address);
            if self.rng.chance(30) {
                self.data(Condition::Always, Operation::Add, pointer, pointer, Operand::Register(pointer));
            }
        }
        for _ in 0..self.rng.between(1, 6) {
            self.constant();
        }
        for _ in 0..self.rng.below(3) {
            let (value, pointer, offset) = (self.value(), self.pointer(), self.offset());
            self.store(Condition::Always, value, pointer, offset);
        }
        self.body = self.words.len();
    }

    /// Gives a value, often a small or a negative one.
    fn constant(&mut self) {
        let value = self.value();
        let operation = self.rng.pick(&[Operation::Add, Operation::Sub]);
        let constant = self.rng.pick(&[1, 2, 4, 127, 128, 255]);
        self.data(Condition::Always, operation, value, ZERO, Operand::Constant(constant));
    }

    fn finish(&mut self) {
        match self.rng.below(24) {
            0..=10 => {}
            11..=14 => self.outside(),
            15..=18 => self.faulty_access(Condition::Always),
            19..=20 => self.lost_branch(Condition::Always),
            21..=22 => self.lost_write(Condition::Always),
            _ => self.forever(),
        }
    }

    /// A loop without end, of one instruction or of many.
    fn forever(&mut self) {
        let back = match self.rng.below(3) {
            0 => 0,
            1 => self.rng.below(self.words.len().min(12) as u32 + 1),
            _ => self.words.len() as u32,
        };
        self.branch(Condition::Always, -(back as i32));
    }

    // ---- passages: a few instructions that belong together ----

    fn passage(&mut self) {
        if self.rng.chance(self.risk) {
            return self.trouble();
        }
        match self.rng.below(100) {
            0..=17 => self.compute(),
            18..=22 => self.move_pointer(),
            23..=40 => self.load_and_use(),
            41..=48 => self.store_somewhere(),
            49..=52 => self.wrapped_access(),
            53..=59 => self.compare(),
            60..=67 => self.short_branch(),
            68..=73 => self.branch_over_anything(),
            74..=82 => self.relative_jump(),
            83..=87 => self.linked_jump(),
            88..=92 => self.loaded_jump(),
            _ => self.jump_back(),
        }
    }

    fn compute(&mut self) {
        for _ in 0..self.rng.between(1, 3) {
            self.compute_one();
        }
    }

    fn compute_one(&mut self) {
        let (condition, operation) = (self.condition(), self.rng.pick(&COMPUTING));
        let first = if self.rng.chance(85) { self.value() } else { self.any_register() };
        let (destination, second) = (self.value(), self.operand());
        self.data(condition, operation, destination, first, second);
    }

    /// Gives a pointer another low address.
    fn move_pointer(&mut self) {
        let (to, from) = (self.pointer(), self.any_register());
        self.data(Condition::Always, Operation::And, to, from, Operand::Constant(252));
        if self.rng.chance(50) {
            let (base, distance) = (self.pointer(), 4 * self.rng.below(32));
            self.data(Condition::Always, Operation::And, to, base, Operand::Constant(252));
            self.add(to, to, distance);
        }
    }

    /// A load, and soon behind it an instruction that has the register in a source field.
    fn load_and_use(&mut self) {
        let (condition, base, offset) = (self.condition(), self.pointer(), self.offset());
        if self.rng.chance(15) {
            return self.load_a_pointer(base, offset);
        }
        let loaded = self.value();
        self.load(condition, loaded, base, offset);
        if self.rng.chance(20) {
            self.compute_one();
        }
        self.use_of(loaded);
    }

    fn use_of(&mut self, loaded: Register) {
        let (condition, operation) = (self.condition(), self.rng.pick(&COMPUTING));
        let (value, pointer, offset) = (self.value(), self.pointer(), self.offset());
        match self.rng.below(10) {
            0 | 1 => {
                let operand = self.operand();
                self.data(condition, operation, value, loaded, operand);
            }
            2 | 3 => self.data(condition, operation, value, value, Operand::Register(loaded)),
            4 => {
                let constant = (16 * self.rng.below(16) + loaded) as u8;
                self.data(condition, operation, value, value, Operand::Constant(constant));
            }
            5 => self.data(condition, Operation::Cmp, 0, loaded, Operand::Constant(offset as u8)),
            6 => self.store(condition, loaded, pointer, offset),
            7 => {
                self.load(condition, loaded, pointer, offset);
                self.data(Condition::Always, operation, value, loaded, Operand::Register(loaded));
            }
            8 => {
                // The last four bits of the offset are the second source field. They can name registers 0 and 8.
                let offset = 16 * self.rng.below(60) + loaded / 4 * 4;
                self.load(condition, value, pointer, offset);
            }
            _ => {
                // The last four bits of the distance, which is one less than the count, are the second source field.
                self.branch_over(condition, loaded + 1);
            }
        }
    }

    /// A load into a pointer, which is brought back into the data memory before it is used.
    fn load_a_pointer(&mut self, base: Register, offset: u32) {
        let pointer = self.pointer();
        self.load(Condition::Always, pointer, base, offset);
        self.data(Condition::Always, Operation::And, pointer, pointer, Operand::Constant(252));
        let (condition, value) = (self.condition(), self.value());
        self.load(condition, value, pointer, 0);
    }

    fn store_somewhere(&mut self) {
        let (condition, pointer, offset) = (self.condition(), self.pointer(), self.offset());
        let source = if self.rng.chance(80) { self.value() } else { self.any_register() };
        self.store(condition, source, pointer, offset);
        if self.rng.chance(40) {
            let (value, condition) = (self.value(), self.condition());
            self.load(condition, value, pointer, offset);
        }
    }

    /// An access at a negative base that comes out in the data memory.
    fn wrapped_access(&mut self) {
        let (below, offset, value) = (4 * self.rng.between(1, 63), self.offset(), self.value());
        self.data(Condition::Always, Operation::Sub, NEGATIVE, ZERO, Operand::Constant(below as u8));
        if self.rng.chance(50) {
            self.load(Condition::Always, value, NEGATIVE, below + offset);
        } else {
            self.store(Condition::Always, value, NEGATIVE, below + offset);
        }
    }

    /// A comparison and instructions under conditions.
    fn compare(&mut self) {
        let (first, second) = (self.value(), self.operand());
        self.data(Condition::Always, Operation::Cmp, 0, first, second);
        for _ in 0..self.rng.between(1, 3) {
            let condition = self.rng.pick(&Condition::ALL);
            let (operation, value, operand) = (self.rng.pick(&COMPUTING), self.value(), self.operand());
            self.data(condition, operation, value, value, operand);
        }
    }

    fn short_branch(&mut self) {
        let condition = if self.rng.chance(70) { self.rng.pick(&Condition::ALL) } else { Condition::Always };
        let count = self.rng.below(5);
        self.branch_over(condition, count);
    }

    /// A branch that passes over so many words. It may end in the middle of a passage, but never behind the countdown
    /// of a jump back, which would then go on without fuel.
    fn branch_over(&mut self, condition: Condition, count: u32) {
        self.branch(condition, count as i32 + 1);
        let end = self.words.len() + count as usize;
        while self.words.len() < end {
            match self.rng.below(4) {
                0 => self.load_and_use(),
                1 => self.store_somewhere(),
                2 => self.compare(),
                _ => self.compute(),
            }
        }
    }

    /// What stands behind a branch that is always taken may be anything.
    fn branch_over_anything(&mut self) {
        let count = self.rng.between(1, 4);
        self.branch(Condition::Always, count as i32 + 1);
        self.anything(count);
    }

    fn anything(&mut self, count: u32) {
        for _ in 0..count {
            if self.rng.chance(60) {
                self.wild();
            } else {
                self.compute_one();
            }
        }
    }

    /// Words that a jump passes over: anything if it is always taken, harmless ones otherwise.
    fn passed_over(&mut self, condition: Condition, count: u32) {
        if condition == Condition::Always {
            self.anything(count);
        } else {
            (0..count).for_each(|_| self.compute_one());
        }
    }

    /// A write of register 15 that goes forward from the present address, or to the next instruction.
    fn relative_jump(&mut self) {
        let (condition, count) = (self.jump_condition(), self.rng.between(1, 4));
        let beyond = 4 * (count - 1);
        let reads = self.words.len() as u32 * 4 + 8;
        match self.rng.below(5) {
            0 | 1 => self.data(condition, Operation::Add, PC, PC, Operand::Constant(beyond as u8)),
            2 if reads & beyond == 0 => self.data(condition, Operation::Orr, PC, PC, Operand::Constant(beyond as u8)),
            3 if reads < 256 => {
                self.data(condition, Operation::And, PC, PC, Operand::Constant(252));
                return self.passed_over(condition, 1);
            }
            _ => {
                let back = self.rng.pick(&[0, 4]);
                self.data(condition, Operation::Sub, PC, PC, Operand::Constant(back));
                return if back == 0 { self.passed_over(condition, 1) } else { self.compute_one() };
            }
        }
        self.passed_over(condition, count);
    }

    fn jump_condition(&mut self) -> Condition {
        if self.rng.chance(40) {
            self.rng.pick(&Condition::ALL)
        } else {
            Condition::Always
        }
    }

    /// A jump to an address that is computed first.
    fn linked_jump(&mut self) {
        let (condition, between, over) = (self.jump_condition(), self.rng.below(3), self.rng.below(4));
        self.add(LINK, PC, 4 * (between + over));
        (0..between).for_each(|_| self.compute_one());
        match self.rng.below(3) {
            0 => self.data(condition, Operation::Add, PC, LINK, Operand::Constant(0)),
            1 => self.data(condition, Operation::Orr, PC, LINK, Operand::Register(ZERO)),
            _ => self.data(condition, Operation::And, PC, LINK, Operand::Register(LINK)),
        }
        self.passed_over(condition, over);
    }

    /// A jump to an address that is stored first, and loaded into register 15.
    fn loaded_jump(&mut self) {
        let (condition, between, over) = (self.jump_condition(), self.rng.below(2), self.rng.below(4));
        let (pointer, offset) = (self.pointer(), self.offset());
        self.add(LINK, PC, 4 * (between + over + 1));
        self.store(Condition::Always, LINK, pointer, offset);
        (0..between).for_each(|_| self.compute_one());
        self.load(condition, PC, pointer, offset);
        self.passed_over(condition, over);
    }

    /// A jump back that is taken only while there is fuel: by a branch or by a write of register 15.
    fn jump_back(&mut self) {
        let one = Operand::Constant(1);
        let countdown =
            Action::Data { operation: Operation::Sub, sets_flags: true, destination: FUEL, first: FUEL, second: one };
        self.emit(Condition::Always, countdown);
        let condition = self.rng.pick(&FUELLED);
        let back = self.rng.between(1, 20).min((self.words.len() - self.body) as u32);
        if self.rng.chance(70) {
            self.branch(condition, -(back as i32));
        } else {
            self.data(condition, Operation::Sub, PC, PC, Operand::Constant((4 * back + 8) as u8));
        }
    }

    // ---- what goes wrong ----

    fn trouble(&mut self) {
        let condition = if self.rng.chance(60) { self.rng.pick(&Condition::ALL) } else { Condition::Always };
        match self.rng.below(8) {
            0 | 1 => self.faulty_access(condition),
            2 => self.outside(),
            3 => self.lost_branch(condition),
            4 => self.lost_write(condition),
            _ => self.wild(),
        }
    }

    /// An access that is not a multiple of four, or beyond the data memory.
    fn faulty_access(&mut self, condition: Condition) {
        let (pointer, moved) = (self.pointer(), self.any_register());
        let (base, offset) = match self.rng.below(3) {
            0 => (pointer, self.rng.below(1024) * 4 + self.rng.between(1, 3)),
            1 => (NEGATIVE, 0),
            _ => (pointer, 4092),
        };
        if base == NEGATIVE {
            let below = self.rng.pick(&[4, 5, 8, 128]);
            self.data(Condition::Always, Operation::Sub, NEGATIVE, ZERO, Operand::Constant(below));
        }
        if self.rng.chance(50) {
            self.load(condition, moved, base, offset);
        } else {
            self.store(condition, moved, base, offset);
        }
        self.compare();
    }

    /// A word outside the subset: a bit away from it, or by chance.
    fn outside(&mut self) {
        let near =
            [0xE1A0_0001, 0xE081_2081, 0xE3A0_0101, 0xE351_1000, 0xE280_F001 | 1 << 20, 0xE5D0_1000, 0xEB00_0000];
        let word = match self.rng.below(4) {
            0 => 0xF000_0000 | self.rng.below(1 << 28),
            1 => self.rng.draw() as u32 | 0x0600_0000,
            _ => self.rng.pick(&near) & 0x0FFF_FFFF | self.rng.below(16) << 28,
        };
        self.words.push(word);
    }

    /// A branch to where there is no program: beyond its end, or below 0 and so at the top.
    fn lost_branch(&mut self, condition: Condition) {
        let here = self.words.len() as i32;
        let ahead = match self.rng.below(4) {
            0 => self.rng.between(100, 9_000) as i32,
            1 => 0x7F_FFFF + 2,
            2 => -here - self.rng.between(1, 4) as i32,
            _ => -0x80_0000 + 2,
        };
        self.branch(condition, ahead);
    }

    /// A write of register 15 with an address that is no multiple of four, or at the top.
    fn lost_write(&mut self, condition: Condition) {
        let constant = Operand::Constant(self.rng.below(256) as u8);
        match self.rng.below(4) {
            0 => self.data(condition, Operation::Add, PC, PC, constant),
            1 => self.data(condition, Operation::Orr, PC, PC, constant),
            2 => self.data(condition, Operation::Sub, PC, ZERO, constant),
            _ => {
                let (pointer, offset, odd) = (self.pointer(), self.offset(), self.rng.pick(&[1, 2, 3, 66, 255]));
                self.add(LINK, PC, odd);
                self.store(Condition::Always, LINK, pointer, offset);
                self.load(condition, PC, pointer, offset);
            }
        }
    }

    /// An instruction with fields by chance, or any word.
    fn wild(&mut self) {
        let (condition, operation) = (self.condition(), self.rng.pick(&COMPUTING));
        let (moved, base, operand) = (self.any_register(), self.any_register(), self.operand());
        let offset = self.rng.below(4096);
        match self.rng.below(9) {
            0 | 1 => self.data(condition, operation, moved, base, operand),
            2 => self.data(condition, operation, PC, base, operand),
            3 => self.load(condition, moved, base, offset),
            4 => self.load(condition, PC, base, offset & !3),
            5 => self.store(condition, moved, base, offset),
            6 => {
                let distance = self.rng.below(1 << 24) as i32 - 0x80_0000;
                let near = self.rng.below(24) as i32 - 12;
                let distance = if self.rng.chance(80) { near } else { distance };
                self.emit(condition, Action::Branch { distance });
            }
            7 => self.outside(),
            _ => {
                let word = self.rng.draw() as u32;
                self.words.push(word);
            }
        }
    }
}
