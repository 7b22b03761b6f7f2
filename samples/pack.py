#!/usr/bin/env python3
"""Packs little-endian words from standard input into an image on standard output.

It shares nothing with the product: the samples were made with it, so that the product reads images it did not write.
usage: arm-none-eabi-objcopy -O binary forms.o /dev/stdout | python3 pack.py > image
"""
import struct
import sys

data = sys.stdin.buffer.read()
words = list(struct.unpack(f"<{len(data) // 4}I", data))
out = bytearray()
for place, start in enumerate(range(0, len(words), 126)):
    part = words[start:start + 126]
    body = [place | len(part) << 16] + part + [0] * (126 - len(part))
    check = (0xFFFFFFFF - sum(body)) % 2**32
    out += struct.pack("<128I", *body, check)
sys.stdout.buffer.write(out)
