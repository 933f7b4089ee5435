#!/usr/bin/env python3
"""Any eighty round words and the pairs that they stand for (document 02, 2026-12), over the cipher of cipher_model.py: it makes cases for replay, each with what must come of it.

    oracle/words_model.py SEED COUNT

prints COUNT cases of each kind, for oracle/words. With --store it makes its part of crates/replay/stdin, and crates/replay/stdout.
README.md beside this file says how a case is written.
"""
import random
import sys

from cipher_model import block, done, masks_of, number, packed, pairs_of, row_of, undone, words_of
from stored import store

FIRST = "# Any round words, and the pairs that they stand for, made by 'oracle/words_model.py --store' from document 02."
COUNTED = bytes(range(16))


class Cases:
    def __init__(self, seed):
        self.random = random.Random(seed)
        self.lines = []

    def heading(self, text):
        self.lines.append("## Words: " + text)

    def write(self, call, **fields):
        self.lines.append(" ".join([call, *("%s=%s" % (name, self.digits(value)) for name, value in fields.items())]))

    def digits(self, value):
        if isinstance(value, int):
            return "%x" % value
        return (value.hex() if isinstance(value, bytes) else "".join("%08x" % w for w in value)) or "-"

    def some(self, n):
        return bytes(self.random.randrange(256) for _ in range(n))

    def numbers(self, n=80):
        return [self.random.randrange(2 ** 32) for _ in range(n)]

    def both(self, words, row):
        self.write("pairs", words=words, lent=self.numbers(), number=0, left=row)
        self.write("words", pairs=row, lent=self.numbers(), number=0, left=words)

    def of_keys(self, count):
        self.heading("the words of a key stand for its V and U")
        for key in [COUNTED, bytes(16), *(self.some(16) for _ in range(count))]:
            self.write("precompute_rkeys", key=key, lent=self.numbers(), number=0, left=words_of(pairs_of(key)))
            self.both(words_of(pairs_of(key)), pairs_of(key))

    def of_any(self, count):
        self.heading("any words and the pairs that they stand for")
        for _ in range(count):
            words = self.numbers()
            self.both(words, row_of(words))

    def of_one_bit(self, count):
        self.heading("one bit in one word")
        for n in range(80):
            for at in self.random.sample(range(32), 1 + count // 80):
                words = [0] * n + [1 << at] + [0] * (79 - n)
                self.both(words, row_of(words))

    def refusals(self):
        """4 for another number of what is given, whatever the output; then 3 for an output of another length."""
        self.heading("another number of words, and then another length of the output")
        for given in (0, 1, 40, 79, 80, 81, 120):
            for out in (0, 40, 79, 80, 81, 120):
                code = 4 if given != 80 else 3 if out != 80 else 0
                if code:
                    before = self.numbers(out)
                    self.write("pairs", words=self.numbers(given), lent=before, number=code, left=before)
                    self.write("words", pairs=self.numbers(given), lent=before, number=code, left=before)

    def blocks(self, count):
        self.heading("a block by words that were made of pairs, in both orders")
        for n in range(count):
            order, row, plain = n % 2, self.numbers(), self.some(16)
            words, masks = words_of(row), masks_of(row)
            secret = block(done(number(plain, order), masks), order)
            assert block(undone(number(secret, order), masks), order) == plain
            self.write("encrypt_by_words", order=order, words=words, lent=plain, number=0, left=secret)
            self.write("decrypt_by_words", order=order, words=words, lent=secret, number=0, left=plain)

    def lanes(self, count):
        """A record that the host made, with any words, at any count: each turn is the five rounds that its words stand for, and a take gives what they make."""
        self.heading("a host's own record with any words is served by the rounds that they stand for")
        for n in range(count):
            lane, owner, direction, order, first = self.random.randrange(16), 1 + self.random.randrange(65535), n // 2 % 2, n % 2, 0 if n < 4 else self.random.randrange(8)
            words, x = self.numbers(), self.random.randrange(2 ** 128)
            masks = masks_of(row_of(words))
            record = dict(lane=lane, direction=direction, owner=owner, order=order, words=words)
            self.write("fresh", number=0, made=0, last=15)
            self.write("record", phase=1, count=first, state=packed(x), **record)
            self.write("put", last=15)
            for t in range(first, 8):
                x = undone(x, masks[35 - 5 * t:40 - 5 * t]) if direction else done(x, masks[5 * t:5 * t + 5])
                self.write("record", phase=2 if t == 7 else 1, count=t + 1, state=packed(x), **record)
                self.write("turn", asked=1, number=0, made=1, last=lane)
            self.write("record", lane=lane)
            self.write("take", lane=lane, owner=owner, lent=self.some(16), number=0, made=0, last=lane, left=block(x, order))
        self.write("fresh", number=0, made=0, last=15)


def main():
    storing = sys.argv[1:] == ["--store"]
    seed, count = (1212, 8) if storing else (int(x) for x in sys.argv[1:])
    cases = Cases(seed)
    cases.of_keys(count)
    cases.of_any(count)
    cases.of_one_bit(count)
    cases.refusals()
    cases.blocks(count)
    cases.lanes(count)
    if storing:
        store(FIRST, cases.lines)
    else:
        print("\n".join(cases.lines))


# each map is the other's inverse, word by word, and a word that is not its own round's is told apart
def checked():
    some = random.Random(12)
    for _ in range(64):
        row = [some.randrange(2 ** 32) for _ in range(80)]
        assert row_of(words_of(row)) == row and words_of(row_of(row)) == row
        assert words_of(row)[8::10] == row[8::10] and words_of(row)[9::10] == row[9::10]


checked()
main()
