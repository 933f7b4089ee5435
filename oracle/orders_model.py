#!/usr/bin/env python3
"""The block calls in both orders (document 02, 2026-09), over the cipher of cipher_model.py: it makes cases for replay, each with what must come of it.

    oracle/orders_model.py SEED COUNT

prints COUNT cases of each kind, for oracle/orders. With --store it makes its part of crates/replay/stdin, the known answers first, and crates/replay/stdout.
README.md beside this file says how a case is written.
"""
import random
import sys

from cipher_model import bit, block, decrypted, done, encrypted, masks_of, number, packed, row_of, undone
from stored import store

FIRST = "# Block calls in both orders, made by 'oracle/orders_model.py --store' from document 02."
OTHERS = [2, 3, 255, 256, 257, 65536, 65537, 2 ** 31, 2 ** 32 - 1]  # 256 and 65536 are 0 in their low byte and half, 257 and 65537 are 1


# ---- known answers

def twice(x):
    return x << 1 ^ (0x1000000000000001B if x >> 63 else 0)


def cofb(key, nonce):
    """The two blocks that GIFT-COFB encrypts for the tag of nothing, with no associated data, and what they become; the second is the tag."""
    y = encrypted(key, nonce, order=1)
    high, low = int.from_bytes(y[:8], "big"), int.from_bytes(y[8:], "big")
    mask = high
    for _ in range(4):
        mask ^= twice(mask)
    x = block((low ^ mask ^ 1 << 63) << 64 | (high << 1 | high >> 63) % 2 ** 64)
    return [(nonce, y), (x, encrypted(key, x, order=1))]


# The first of GIFT-COFB's own test vectors: key and nonce 00 01 .. 0f.
TAG = bytes.fromhex("368965836d36614de2fc24d0f801b9af")
COUNTED = bytes(range(16))
KNOWN = cofb(COUNTED, COUNTED)
assert KNOWN[1][1] == TAG


# ---- cases

class Cases:
    def __init__(self, seed):
        self.random = random.Random(seed)
        self.lines = []

    def heading(self, text):
        self.lines.append("## Orders: " + text)

    def write(self, call, **fields):
        self.lines.append(" ".join([call, *("%s=%s" % (name, self.digits(value)) for name, value in fields.items())]))

    def digits(self, value):
        if isinstance(value, int):
            return "%x" % value
        return (value.hex() if isinstance(value, bytes) else "".join("%08x" % w for w in value)) or "-"

    def some(self, n):
        return bytes(self.random.randrange(256) for _ in range(n))

    def words(self, n=80):
        return [self.random.randrange(2 ** 32) for _ in range(n)]

    def known(self):
        self.heading("GIFT-COFB's first test vector, which is order 1")
        for plain, secret in KNOWN:
            self.write("encrypt_by_key", order=1, key=COUNTED, lent=plain, number=0, left=secret)
            self.write("decrypt_by_key", order=1, key=COUNTED, lent=secret, number=0, left=plain)

    def packs(self, count):
        self.heading("packing and unpacking")
        for n in range(count):
            order, bytes_in, buffer = n % 2, self.some(16), self.some(16)
            self.write("packing", order=order, input=bytes_in, gives=packed(number(bytes_in, order)))
            words = self.words(4)
            x = sum(bit(words[j], i) << 4 * i + j for i in range(32) for j in range(4))
            self.write("unpacking", order=order, args=words, lent=buffer, number=0, left=block(x, order))
        for order in OTHERS:
            self.write("packing", order=order, input=self.some(16), gives=[0] * 4)
            buffer = self.some(16)
            self.write("unpacking", order=order, args=self.words(4), lent=buffer, number=0, left=buffer)

    def by_key(self, count):
        self.heading("one block by a key, and by a cipher instance")
        for n in range(count):
            order, key, plain = n % 2, self.some(16), self.some(16)
            secret = encrypted(key, plain, order=order)
            for name in ("by_key", "block"):
                self.write("encrypt_" + name, order=order, key=key, lent=plain, number=0, left=secret)
                self.write("decrypt_" + name, order=order, key=key, lent=secret, number=0, left=plain)

    def by_words(self, count):
        self.heading("one block by eighty words")
        for n in range(count):
            order, words, plain = n % 2, self.words(), self.some(16)
            masks = masks_of(row_of(words))
            secret = block(done(number(plain, order), masks), order)
            assert block(undone(number(secret, order), masks), order) == plain
            self.write("encrypt_by_words", order=order, words=words, lent=plain, number=0, left=secret)
            self.write("decrypt_by_words", order=order, words=words, lent=secret, number=0, left=plain)

    def many(self, count):
        self.heading("many blocks")
        for n in range(count):
            order, key, plains = n % 2, self.some(16), [self.some(16) for _ in range(n // 2 % 8)]
            secrets = [encrypted(key, plain, order=order) for plain in plains]
            before = self.some(16 * len(plains))
            self.write("encrypt_blocks", order=order, key=key, input=b"".join(plains), lent=before, number=0, left=b"".join(secrets))
            self.write("decrypt_blocks", order=order, key=key, input=b"".join(secrets), lent=before, number=0, left=b"".join(plains))

    def refusals(self):
        """13 before every other refusal of its call, and the others in their order where the order is one."""
        self.heading("refusal 13 first, and then the others")
        first = lambda *lines: next((code for code, holds in lines if holds), 0)
        for order in [0, 1, *OTHERS]:
            for key in (15, 16):
                for length in (15, 16):
                    for way in ("encrypt", "decrypt"):
                        k, w, lent = self.some(key), self.words(79 + key % 15), self.some(length)
                        number = first((13, order > 1), (1, key != 16), (2, length != 16))
                        if number:
                            self.write(way + "_by_key", order=order, key=k, lent=lent, number=number, left=lent)
                        number = first((13, order > 1), (4, len(w) != 80), (2, length != 16))
                        if number:
                            self.write(way + "_by_words", order=order, words=w, lent=lent, number=number, left=lent)
                        number = first((13, order > 1), (2, length != 16))
                        if number:
                            self.write(way + "_block", order=order, key=self.some(16), lent=lent, number=number, left=lent)
                        for out in (length, 32):
                            number, buffer = first((13, order > 1), (1, key != 16), (2, length != 16), (3, out != length)), self.some(out)
                            if number:
                                self.write(way + "_blocks", order=order, key=k, input=lent, lent=buffer, number=number, left=buffer)

    def many_by_words(self, count):
        """As many blocks as a group of eight has, two groups, and every rest; and the refusals, 13, 4, 2, 3, each before those after it."""
        self.heading("many blocks by eighty words")
        for n in range(count):
            order, words, plains = n % 2, self.words(), [self.some(16) for _ in range(n // 2 % 20)]
            masks = masks_of(row_of(words))
            secrets = [block(done(number(plain, order), masks), order) for plain in plains]
            before = self.some(16 * len(plains))
            self.write("encrypt_blocks_by_words", order=order, words=words, input=b"".join(plains), lent=before, number=0, left=b"".join(secrets))
            self.write("decrypt_blocks_by_words", order=order, words=words, input=b"".join(secrets), lent=before, number=0, left=b"".join(plains))
        first = lambda *lines: next((code for code, holds in lines if holds), 0)
        for order in [0, 1, *OTHERS]:
            for words in (79, 80):
                for length in (127, 128):
                    for out in (length, 144):
                        for way in ("encrypt", "decrypt"):
                            code, buffer = first((13, order > 1), (4, words != 80), (2, length != 128), (3, out != length)), self.some(out)
                            if code:
                                self.write(way + "_blocks_by_words", order=order, words=self.words(words), input=self.some(length), lent=buffer, number=code, left=buffer)


def main():
    storing = sys.argv[1:] == ["--store"]
    seed, count = (909, 24) if storing else (int(x) for x in sys.argv[1:])
    cases = Cases(seed)
    cases.known()
    cases.packs(count)
    cases.by_key(count)
    cases.by_words(count // 2 if storing else count)
    cases.many(count)
    cases.refusals()
    cases.many_by_words(40 if storing else count)
    if storing:
        store(FIRST, cases.lines)
    else:
        print("\n".join(cases.lines))


# what is read through an order is written back, and an order 1's answer is order 0's on bits that have changed places, and back
def checked():
    some = random.Random(9)
    inward = [32 * (3 - q % 4) + q // 4 for q in range(128)]
    move = lambda x: sum(bit(x, inward[q]) << q for q in range(128))
    back = lambda x: sum(bit(x, q) << inward[q] for q in range(128))
    for _ in range(64):
        bytes_in, key = (bytes(some.randrange(256) for _ in range(16)) for _ in range(2))
        assert all(block(number(bytes_in, order), order) == bytes_in for order in (0, 1))
        assert number(bytes_in, 1) == move(number(bytes_in))
        assert encrypted(key, bytes_in, order=1) == block(back(number(encrypted(key, block(move(number(bytes_in)))))))
        assert decrypted(key, encrypted(key, bytes_in, order=1), order=1) == bytes_in


checked()
main()
