#!/usr/bin/env python3
"""What `inspect` has to print for forms.s, made of GNU objdump's text.

It shares nothing with the product. Which words are outside the subset is read off the source: those that stand
between the line below and the label `finish`, one word to a line.
usage: arm-none-eabi-as -march=armv7-a -o forms.o samples/forms.s
       arm-none-eabi-objdump -d forms.o | python3 samples/expected.py samples/forms.s > crates/inspect/stdout
"""
import re
import sys

OUTSIDE = "@ From here on, words outside the subset."
NAMES = {"sl": "R10", "fp": "R11", "ip": "R12", "sp": "R13", "lr": "R14", "pc": "R15"}
LINE = re.compile(r" *([0-9a-f]+):\t([0-9a-f]{8}) \t(.*)")


def assembly(text):
    """An instruction of the subset as the product prints it, from objdump's text of it."""
    mnemonic, operands = text.split("@")[0].strip().split("\t")
    if re.fullmatch("b(..)?", mnemonic):
        target = int(operands.split()[0], 16)
        return f"{mnemonic.upper()} 0x{target:08x}"
    operands = re.sub(r"\b(sl|fp|ip|sp|lr|pc)\b", lambda m: NAMES[m[0]], operands)
    return f"{mnemonic} {operands}".upper()


def disassembled(lines):
    """The address, the word and the text of each line of objdump's that has them."""
    for line in lines:
        match = LINE.match(line.rstrip("\n"))
        if match:
            yield int(match[1], 16), int(match[2], 16), match[3]


def main():
    source = open(sys.argv[1]).read().splitlines()
    part = source[source.index(OUTSIDE) + 1:source.index("finish:")]
    lines = sys.stdin.readlines()
    finish = next(int(line.split()[0], 16) for line in lines if line.endswith("<finish>:\n"))
    first = finish - 4 * len(part)
    for address, word, text in disassembled(lines):
        shown = "-" if first <= address < finish else assembly(text)
        print(f"{address:08x} {word:08x} {shown}")


if __name__ == "__main__":
    main()
