#!/usr/bin/env python3
"""Makes what the program `words` is run on, and what it has to print.

It shares nothing with the product: GNU as makes the words of source lines, GNU objdump gives their texts, and which
words the subset has is decided by the patterns below, written from the encoding of ARM instructions.
usage: python3 samples/words.py crates/words/stdin crates/words/stdout
"""
import random
import re
import subprocess
import sys
import tempfile

from expected import assembly, disassembled

# The 32 bits of a word from bit 31 down: the condition, and then one of the forms.
# AND, SUB, ADD and ORR with their Rn and Rd, which is not R15 beside S; CMP, which has S, and 0000 for Rd.
FIELDS = "(?:(?:0000|0010|0100|1100)(?:0....|1....(?!1111))....|10101....0000)"
FORMS = [
    f"001{FIELDS}0000........",
    f"000{FIELDS}00000000....",
    "01011001....................",
    "01011000....................",
    "1010........................",
]
SUBSET = re.compile(f"(?!1111)....(?:{'|'.join(FORMS)})")

CONDITIONS = ["eq", "ne", "cs", "cc", "mi", "pl", "vs", "vc", "hi", "ls", "ge", "lt", "gt", "le", ""]

OUTSIDE = """
mov r0, r1
mov r0, #1
movs pc, lr
mvn r0, r1
eor r0, r1, r2
rsb r1, r2, #0
adc r1, r2, r3
sbc r1, r2, r3
rsc r1, r2, r3
bic r1, r2, #1
tst r1, #1
teq r1, r2
cmn r1, #1
nop
add r1, r2, r3, lsl #1
sub r1, r2, r3, lsr #4
and r1, r2, r3, asr #31
orr r1, r2, r3, ror #1
orr r1, r2, r3, rrx
add r1, r2, r3, lsl r4
cmp r1, r2, lsl #2
add r1, r2, #0x100
orr r1, r2, #0xff000000
cmp r1, #1024
adds pc, r1, r2
subs pc, lr, #4
andseq pc, r1, #1
orrs pc, r1, r2
ldrb r1, [r0]
strb r1, [r0, #4]
ldr r1, [r0, #-4]
str r1, [r0, #-4095]
ldr r1, [r0, #4]!
str r1, [r0, #4]!
ldr r1, [r0], #4
str r1, [r0], #4
ldr r1, [r0, r2]
str r1, [r0, -r2]
ldr r1, [r0, r2, lsl #2]
ldrh r1, [r0]
strh r1, [r0, #2]
ldrsb r1, [r0]
ldrd r2, r3, [r0]
ldm r0, {r1, r2}
stmdb r0!, {r1, r2}
push {r1}
pop {pc}
bl .
bleq . + 400
blx r1
bx lr
mul r1, r2, r3
muls r1, r2, r3
mla r1, r2, r3, r4
umull r1, r2, r3, r4
clz r1, r2
movw r1, #1000
movt r1, #1000
svc #0
mrs r1, cpsr
msr cpsr_f, r1
mrc p15, 0, r1, c0, c0, 0
.inst 0xf0812001
.inst 0xf2511001
.inst 0xf5901004
.inst 0xfafffffe
.inst 0xffffffff
.inst 0xe1470008
.inst 0xe3400001
.inst 0xe1571008
.inst 0xe357f008
.inst 0xe291f000
.inst 0xe0812081
.inst 0xe2812101
""".strip().splitlines()


def numbers(chance):
    """Registers, constants of eight bits and offsets of twelve, without end."""
    while True:
        yield chance.randrange(16), chance.randrange(16), chance.randrange(16), chance.randrange(256), chance.randrange(4096)


def sources():
    """Source lines of the subset."""
    draw = numbers(random.Random(1))
    for condition in CONDITIONS:
        for operation in ["and", "sub", "add", "orr"]:
            for s in ["", "s"]:
                d, n, m, k, _ = next(draw)
                d %= 15 if s else 16
                yield f"{operation}{s}{condition} r{d}, r{n}, r{m}"
                d, n, m, k, _ = next(draw)
                d %= 15 if s else 16
                yield f"{operation}{s}{condition} r{d}, r{n}, #{k}"
        _, n, m, k, _ = next(draw)
        yield f"cmp{condition} r{n}, r{m}"
        yield f"cmp{condition} r{m}, #{k}"
        for operation in ["ldr", "str"]:
            d, n, _, _, offset = next(draw)
            yield f"{operation}{condition} r{d}, [r{n}, #{offset}]"
        for far in [next(draw)[4] * 2000, -next(draw)[4] * 2000]:
            yield f"b{condition} . + 8 + 4 * ({far})"
    for operation in ["ldr", "str"]:
        for offset in [0, 1, 2, 3, 4, 8, 255, 256, 2047, 2048, 4092, 4095]:
            d, n, _, _, _ = next(draw)
            yield f"{operation} r{d}, [r{n}, #{offset}]"
    for far in [0, 1, 2, 1000, 2**23 - 1, -1, -2, -3, -1000, -(2**23)]:
        yield f"b . + 8 + 4 * ({far})"
    for k in [0, 1, 127, 128, 255]:
        yield f"add pc, r1, #{k}"
        yield f"cmp pc, #{k}"


def words_of(lines):
    """The word of each source line and objdump's text of it, each as if it stood at address 0."""
    source = ".syntax unified\n.arm\n.arch armv7-a\n"
    for place, line in enumerate(lines):
        source += f'.section .w{place}, "ax"\n{line}\n'
    with tempfile.TemporaryDirectory() as folder:
        object_file = f"{folder}/words.o"
        subprocess.run(["arm-none-eabi-as", "-mno-warn-deprecated", "-o", object_file, "-"], input=source, text=True, check=True)
        text = subprocess.run(["arm-none-eabi-objdump", "-d", object_file], capture_output=True, text=True, check=True)
    found = [(word, text) for address, word, text in disassembled(text.stdout.splitlines()) if address == 0]
    assert len(found) == len(lines)
    return found


def neighbours(words):
    """Words that differ from those given in one bit, and words of any bits at all, as source lines."""
    chance = random.Random(2)
    for word in words:
        yield f".inst {word ^ 1 << chance.randrange(32):#010x}"
    for _ in range(100):
        yield f".inst {chance.getrandbits(32):#010x}"


def main():
    inside = words_of(list(sources()))
    outside = words_of(OUTSIDE)
    either = words_of(list(neighbours(word for word, _ in inside[::3])))
    assert all(SUBSET.fullmatch(f"{word:032b}") for word, _ in inside)
    assert not any(SUBSET.fullmatch(f"{word:032b}") for word, _ in outside)
    asked, told = [], []
    for word, text in inside + outside + either:
        asked.append(f"{word:08x}")
        told.append(f"{word:08x} " + (assembly(text) if SUBSET.fullmatch(f"{word:032b}") else "-"))
    asked.append("E0812001")
    told.append("e0812001 ADD R2, R1, R1")
    for line in ["e081200", "e08120010", "+0812001", "e081200g", ""]:
        asked.append(line)
        told.append(f"line {len(asked)}: not a word")
    for path, lines in zip(sys.argv[1:], [asked, told]):
        with open(path, "w") as out:
            out.writelines(f"{line}\n" for line in lines)


if __name__ == "__main__":
    main()
