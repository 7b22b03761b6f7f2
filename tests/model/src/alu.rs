//! Flags, conditions and the arithmetic unit (`docs/instructions.md`).

/// The four flags, packed: N counts 8, Z 4, C 2 and V 1.
#[derive(Clone, Copy, Debug, Default, PartialEq, Eq)]
pub struct Flags(u8);

impl Flags {
    pub fn new(n: bool, z: bool, c: bool, v: bool) -> Flags {
        Flags((n as u8) << 3 | (z as u8) << 2 | (c as u8) << 1 | v as u8)
    }

    pub const fn n(self) -> bool {
        self.0 & 8 != 0
    }

    pub const fn z(self) -> bool {
        self.0 & 4 != 0
    }

    pub const fn c(self) -> bool {
        self.0 & 2 != 0
    }

    pub const fn v(self) -> bool {
        self.0 & 1 != 0
    }

    pub const fn bits(self) -> u8 {
        self.0
    }
}

/// When an instruction is done. The order is that of the numbers 0 to 14.
#[derive(Clone, Copy, Debug, PartialEq, Eq)]
pub enum Condition {
    Eq,
    Ne,
    Cs,
    Cc,
    Mi,
    Pl,
    Vs,
    Vc,
    Hi,
    Ls,
    Ge,
    Lt,
    Gt,
    Le,
    Always,
}

impl Condition {
    pub const ALL: [Condition; 15] = [
        Condition::Eq,
        Condition::Ne,
        Condition::Cs,
        Condition::Cc,
        Condition::Mi,
        Condition::Pl,
        Condition::Vs,
        Condition::Vc,
        Condition::Hi,
        Condition::Ls,
        Condition::Ge,
        Condition::Lt,
        Condition::Gt,
        Condition::Le,
        Condition::Always,
    ];

    /// The condition of a number; 15 is none.
    pub fn from_number(number: u32) -> Option<Condition> {
        Condition::ALL.get(number as usize).copied()
    }

    pub fn suffix(self) -> &'static str {
        match self {
            Condition::Eq => "EQ",
            Condition::Ne => "NE",
            Condition::Cs => "CS",
            Condition::Cc => "CC",
            Condition::Mi => "MI",
            Condition::Pl => "PL",
            Condition::Vs => "VS",
            Condition::Vc => "VC",
            Condition::Hi => "HI",
            Condition::Ls => "LS",
            Condition::Ge => "GE",
            Condition::Lt => "LT",
            Condition::Gt => "GT",
            Condition::Le => "LE",
            Condition::Always => "",
        }
    }

    /// Whether the condition holds: one look into a table that `judge` filled.
    #[inline]
    pub fn holds(self, flags: Flags) -> bool {
        HOLDING[self as usize] >> flags.bits() & 1 != 0
    }

    const fn judge(self, flags: Flags) -> bool {
        let (n, z, c, v) = (flags.n(), flags.z(), flags.c(), flags.v());
        match self {
            Condition::Eq => z,
            Condition::Ne => !z,
            Condition::Cs => c,
            Condition::Cc => !c,
            Condition::Mi => n,
            Condition::Pl => !n,
            Condition::Vs => v,
            Condition::Vc => !v,
            Condition::Hi => c && !z,
            Condition::Ls => !c || z,
            Condition::Ge => n == v,
            Condition::Lt => n != v,
            Condition::Gt => !z && n == v,
            Condition::Le => z || n != v,
            Condition::Always => true,
        }
    }
}

/// For each condition a bit for each of the 16 values of the flags.
const HOLDING: [u16; 15] = {
    let mut table = [0; 15];
    let mut number = 0;
    while number < 15 {
        let mut bits = 0;
        while bits < 16 {
            if Condition::ALL[number].judge(Flags(bits)) {
                table[number] |= 1 << bits;
            }
            bits += 1;
        }
        number += 1;
    }
    table
};

/// The operations of data processing.
#[derive(Clone, Copy, Debug, PartialEq, Eq)]
pub enum Operation {
    And,
    Sub,
    Add,
    Cmp,
    Orr,
}

impl Operation {
    pub fn from_number(number: u32) -> Option<Operation> {
        match number {
            0 => Some(Operation::And),
            2 => Some(Operation::Sub),
            4 => Some(Operation::Add),
            10 => Some(Operation::Cmp),
            12 => Some(Operation::Orr),
            _ => None,
        }
    }

    pub fn number(self) -> u32 {
        match self {
            Operation::And => 0,
            Operation::Sub => 2,
            Operation::Add => 4,
            Operation::Cmp => 10,
            Operation::Orr => 12,
        }
    }

    pub fn name(self) -> &'static str {
        match self {
            Operation::And => "AND",
            Operation::Sub => "SUB",
            Operation::Add => "ADD",
            Operation::Cmp => "CMP",
            Operation::Orr => "ORR",
        }
    }

    /// The result, and the flags after an instruction that sets them.
    #[inline]
    pub fn apply(self, first: u32, second: u32, before: Flags) -> (u32, Flags) {
        let (result, carry, overflow) = match self {
            Operation::And => (first & second, before.c(), before.v()),
            Operation::Orr => (first | second, before.c(), before.v()),
            Operation::Add => {
                let (sum, carry) = first.overflowing_add(second);
                (sum, carry, (first as i32).overflowing_add(second as i32).1)
            }
            Operation::Sub | Operation::Cmp => {
                let (difference, borrow) = first.overflowing_sub(second);
                (difference, !borrow, (first as i32).overflowing_sub(second as i32).1)
            }
        };
        (result, Flags::new((result as i32) < 0, result == 0, carry, overflow))
    }
}
