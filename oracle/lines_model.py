#!/usr/bin/env python3
"""What the line program must write for what stands on standard input: document 01's rules, over the cipher of cipher_model.py."""
import re
import sys

from cipher_model import decrypted, encrypted, number, packed

GOOD = re.compile(rb"([EDRPFG]) ([0-9a-f]{32}) ([0-9a-f]{32})")


def answer(n, line):
    good = GOOD.fullmatch(line)
    if not good:
        return f"bad line {n}"
    letter, key, block = good[1], bytes.fromhex(good[2].decode()), bytes.fromhex(good[3].decode())
    if letter == b"P":
        return " ".join(f"{w:08x}" for w in packed(number(block)))
    found = {b"E": encrypted, b"F": encrypted, b"D": decrypted, b"G": decrypted, b"R": lambda k, b: encrypted(k, b, 1)}[letter](key, block)
    return found.hex()


def output(data):
    lines = data.split(b"\n")
    if lines[-1] == b"":
        lines.pop()
    answers = [answer(n, line) for n, line in enumerate(lines, 1)]
    return "".join(x + "\n" for x in ["gift-lines 1", *answers, f"done {len(lines)}"]).encode()


if __name__ == "__main__":
    sys.stdout.buffer.write(output(sys.stdin.buffer.read()))
