#!/usr/bin/env python3
"""What the program `trace` has to print for a routine, worked out without it.

An object file goes in; its words and their text are taken from objdump, and the routine is followed by the rules of
the ARM manual, with this product's rules for stops and for register 15. It shares no code with the product.

usage: arm-none-eabi-as -march=armv7-a routine.s -o routine.o
       python3 trace_model.py routine.o > ../crates/trace/stdout
"""
import re
import subprocess
import sys

WORDS = 1024      # of the data memory, all 0 at the start
LIMIT = 10_000    # steps
MASK = 0xFFFFFFFF


def listing(path):
    """The program's words by address, and the text of each."""
    out = subprocess.run(["arm-none-eabi-objdump", "-d", "-z", "-M", "reg-names-raw", path],
                         check=True, capture_output=True, text=True).stdout
    words, texts = {}, {}
    for line in out.splitlines():
        m = re.match(r"\s*([0-9a-f]+):\t([0-9a-f]{8}) *\t(.*)", line)
        if not m:
            continue
        address = int(m[1], 16)
        words[address] = int(m[2], 16)
        name, _, rest = re.split(r"\s*[@;]", m[3])[0].strip().partition("\t")
        if name.startswith("b") and not name.startswith("bic"):
            rest = "0x%08x" % int(rest.split()[0], 16)
        else:
            rest = rest.upper().replace("[PC", "[R15")  # objdump names this one base register its own way
        texts[address] = f"{name.upper()} {rest}"
    return words, texts


def holds(cond, n, z, c, v):
    """Table A8-1: the condition field against the flags."""
    base = [z, c, n, v, c and not z, n == v, n == v and not z, True][cond >> 1]
    return bool(base) != bool(cond & 1)


def in_subset(word):
    """AND, SUB, ADD, ORR and CMP without rotation or shift, LDR and STR with a plain offset, and B."""
    if word >> 28 == 15:
        return False
    if word >> 26 & 3:
        return word >> 20 & 255 in (0x58, 0x59) or word >> 24 & 15 == 10
    op, s, rd = word >> 21 & 15, word >> 20 & 1, word >> 12 & 15
    if (word >> 8 & 15 if word >> 25 & 1 else word >> 4 & 255):
        return False
    if op == 10:
        return s == 1 and rd == 0
    return op in (0, 2, 4, 12) and not (s and rd == 15)


def signed(x):
    return x - (1 << 32) if x & 0x80000000 else x


class Stop(Exception):
    pass


class Routine:
    def __init__(self, program):
        self.program = program
        self.data = {4 * k: 0 for k in range(WORDS)}
        self.r = [0] * 15
        self.n = self.z = self.c = self.v = False
        self.pc = 0

    def reg(self, k):
        return (self.pc + 8) & MASK if k == 15 else self.r[k]

    def cell(self, address):
        if address % 4:
            raise Stop(f"stop 22: fault 10 at {address:08x}, tag 0")
        if address not in self.data:
            raise Stop(f"stop 22: fault 11 at {address:08x}, tag 0")
        return address

    def put(self, rd, value):
        """Writes a register; the answer is the effect and the next address."""
        effect = f"R{rd} = {value:08x}"
        if rd == 15:
            return effect, value
        self.r[rd] = value
        return effect, (self.pc + 4) & MASK

    def alu(self, word):
        op, s = word >> 21 & 15, word >> 20 & 1
        rn, rd = word >> 16 & 15, word >> 12 & 15
        b = word & 255 if word >> 25 & 1 else self.reg(word & 15)
        a, c, v = self.reg(rn), self.c, self.v
        if op == 0:
            result = a & b
        elif op == 12:
            result = a | b
        elif op == 4:
            result, c = (a + b) & MASK, a + b > MASK
            v = not -2**31 <= signed(a) + signed(b) < 2**31
        else:
            result, c = (a - b) & MASK, a >= b
            v = not -2**31 <= signed(a) - signed(b) < 2**31
        if s:
            self.n, self.z, self.c, self.v = bool(result >> 31), result == 0, c, v
        return (None, (self.pc + 4) & MASK) if op == 10 else self.put(rd, result)

    def do(self, word):
        """One instruction whose condition holds: its effect and the next address."""
        if word >> 26 & 3 == 0:
            return self.alu(word)
        address = (self.reg(word >> 16 & 15) + (word & 4095)) & MASK
        rd = word >> 12 & 15
        if word >> 20 & 255 == 0x59:
            return self.put(rd, self.data[self.cell(address)])
        if word >> 20 & 255 == 0x58:
            value = self.reg(rd)
            self.data[self.cell(address)] = value
            return f"[{address:08x}] = {value:08x}", (self.pc + 4) & MASK
        distance = (word & 0xFFFFFF) - (1 << 24 if word >> 23 & 1 else 0)
        return None, (self.pc + 8 + 4 * distance) & MASK

    def step(self):
        """The word, the kind, the effect and the next address."""
        if self.pc % 4 or self.pc not in self.program:
            cause = 10 if self.pc % 4 else 11
            return 0, "stop", f"stop 20: fault {cause} at {self.pc:08x}, tag 0", None
        word = self.program[self.pc]
        if not in_subset(word):
            return word, "stop", "stop 21", None
        if not holds(word >> 28, self.n, self.z, self.c, self.v):
            return word, "skipped", None, (self.pc + 4) & MASK
        try:
            effect, after = self.do(word)
            return word, "done", effect, after
        except Stop as stop:
            return word, "stop", str(stop), None

    def flags(self):
        return "".join(name if on else "-" for name, on in zip("NZCV", (self.n, self.z, self.c, self.v)))


def main():
    program, texts = listing(sys.argv[1])
    routine = Routine(program)
    for number in range(1, LIMIT + 1):
        address = routine.pc
        word, kind, effect, after = routine.step()
        text = "-" if effect and re.match("stop 2[01]", effect) else texts[address]
        line = f"{number:5}  {address:08x}  {word:08x}  {text:24}  {kind:7}  {routine.flags()}"
        print(line + (f"  {effect}" if effect else ""))
        if after is None:
            break
        routine.pc = after


main()
