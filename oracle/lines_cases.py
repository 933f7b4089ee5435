#!/usr/bin/env python3
"""Lines for the line program, good ones and ones damaged in every way that document 01 leads one to try.

usage: lines_cases.py SEED COUNT     COUNT lines of each kind, and ten times COUNT keys and blocks by both engines, shuffled; the last one has no newline
       lines_cases.py kinds          the kinds, one to a line
       lines_cases.py stored         the input of the stored run: document 01's example, then two lines of each kind and a good one after them, these by the
                                     letters E, D, R and P; then the same inputs by both engines
"""
import random
import sys

HEX = b"0123456789abcdef"
EXAMPLE = b"R " + b"0" * 32 + b" " + b"0" * 32 + b"\nP " + b"0" * 32 + b" " + b"0" * 31 + b"1\nX\n"


# Key and block of the designers' three test vectors.
DESIGNERS = [(b"0" * 32, b"0" * 32), (b"fedcba9876543210" * 2, b"fedcba9876543210" * 2),
             (b"d0f5c59a7700d3e799028fa9f90ad837", b"e39c141fa57dba43f08a85b6a91f86c1")]


class Lines:
    def __init__(self, seed, letters=b"EDRPFG"):
        self.random = random.Random(seed)
        self.letters = letters

    def digits(self, n=32):
        kind = self.random.randrange(8)
        if kind == 0:
            return self.random.choice([b"0", b"f", b"8", b"1"]) * n
        if kind == 1 and n > 0:
            at = self.random.randrange(n)
            return b"0" * at + bytes([self.random.choice(HEX[1:])]) + b"0" * (n - 1 - at)
        return bytes(self.random.choice(HEX) for _ in range(n))

    def good(self, letter=None):
        return (letter or bytes([self.random.choice(self.letters)])) + b" " + self.digits() + b" " + self.digits()

    def put(self, at, what):
        """A good line with the byte at one of the places exchanged for `what`."""
        line = bytearray(self.good())
        line[self.random.choice(at)] = what
        return bytes(line)

    def digit_places(self):
        return [*range(2, 34), *range(35, 67)]

    def other(self, without):
        return self.random.choice([x for x in range(256) if x != 10 and x not in without])

    def capital(self):
        return self.put(self.digit_places(), self.random.choice(b"ABCDEF"))

    def capitals(self):
        line = self.good()
        return line.upper() if line.upper() != line else self.capital()

    def beside_a_digit(self):
        return self.put(self.digit_places(), self.random.choice(b"/:`g@G\x00\xff\r\t -x"))

    def no_digit(self):
        return self.put(self.digit_places(), self.other(HEX))

    def no_letter(self):
        return self.put([0], self.other(self.letters))

    def small_letter(self):
        return self.put([0], self.random.choice(self.letters.lower()))

    def no_space(self):
        return self.put([1, 34], self.other(b" "))

    def tab(self):
        return self.put([1, 34], 9)

    def nul(self):
        return self.put(range(67), 0)

    def added_at_end(self):
        return self.good() + bytes([self.random.choice(b"\r\t \x00\xff0f,")])

    def added_at_start(self):
        return bytes([self.random.choice(b" \t\x00\xffE\r")]) + self.good()

    def one_missing(self):
        line = self.good()
        at = self.random.randrange(len(line))
        return line[:at] + line[at + 1:]

    def one_more(self):
        line = self.good()
        at = self.random.randrange(len(line) + 1)
        return line[:at] + bytes([self.random.choice(HEX + b" ")]) + line[at:]

    def uneven(self):
        """67 bytes, but the middle space is not in its place."""
        n = self.random.choice([0, 1, 30, 31, 33, 34, 64])
        return bytes([self.random.choice(self.letters)]) + b" " + self.digits(n) + b" " + self.digits(64 - n)

    def cut(self):
        return self.good()[:self.random.randrange(1, 67)]

    def anything(self):
        return bytes(self.other(b"") for _ in range(self.random.choice([1, 2, 66, 67, 68, 69, 200])))

    def overlong(self):
        line = self.good()
        more = self.random.choice([1, 2, 3, 61, 68, 69, 1000, 4028, 4029, 9000])
        return line + bytes(self.other(b"") for _ in range(more))

    def overlong_good_end(self):
        """Any bytes, and a good line at the end, where a buffer would come round."""
        return bytes(self.other(b"") for _ in range(self.random.choice([1, 67, 68, 69, 136, 4096 - 67]))) + self.good()


KINDS = {
    **{f"good {x}": (lambda l, x=x: l.good(x.encode())) for x in "EDRP"},
    "empty": lambda l: b"",
    **{name.replace("_", " "): getattr(Lines, name) for name in """capital capitals beside_a_digit no_digit no_letter small_letter no_space tab
        nul added_at_end added_at_start one_missing one_more uneven cut anything overlong overlong_good_end""".split()},
    **{f"good {x}": (lambda l, x=x: l.good(x.encode())) for x in "FG"},
}


def both_engines(l, count):
    """Each key and block by E and F, and by D and G; last a line of F with a small letter, and one of G with a capital digit."""
    inputs = DESIGNERS + [(l.digits(), l.digits()) for _ in range(count)]
    lines = [letter + b" " + key + b" " + block for key, block in inputs for letter in (b"E", b"F", b"D", b"G")]
    return lines + [b"f" + lines[1][1:], lines[-1][:-1] + b"A"]


def stored():
    l = Lines(1, b"EDRP")
    lines = [line for name, make in KINDS.items() if name not in ("good F", "good G") for line in (make(l), make(l), l.good())]
    more = both_engines(Lines(2), 9)
    return EXAMPLE + b"".join(x + b"\n" for x in [*lines, l.good(b"D"), *more]) + l.good(b"G")


def shuffled(seed, count):
    l = Lines(seed)
    lines = [make(l) for make in KINDS.values() for _ in range(count)] + both_engines(l, 10 * count)
    l.random.shuffle(lines)
    while lines[-1] == b"":
        lines.insert(0, lines.pop())
    return b"\n".join(lines)


if __name__ == "__main__":
    if sys.argv[1:] == ["stored"]:
        sys.stdout.buffer.write(stored())
    elif sys.argv[1:] == ["kinds"]:
        print("\n".join([*KINDS, "times ten keys and blocks, each by E and F and by D and G"]))
    else:
        seed, count = map(int, sys.argv[1:])
        sys.stdout.buffer.write(shuffled(seed, count))
