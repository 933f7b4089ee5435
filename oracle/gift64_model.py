#!/usr/bin/env python3
"""GIFT-64 as its designers define it (IACR ePrint 2017/622), bit by bit, with the refusals of document 01. It shares nothing with the code.

    oracle/gift64_model.py                  checks the model: the designers' three vectors, both ways, and document 02's round 1
    oracle/gift64_model.py --store          writes its part of crates/replay/stdin, cases with their answers in the form that README.md beside this file
                                            describes, and crates/replay/stdout anew
    oracle/gift64_model.py --library FILE   holds a shared library that has the C names of include/gift_host.h to the model: thousands of keys and blocks,
                                            both ways and by both engines, many blocks of every length from 0 to 33, and every refusal
"""
import ctypes
import random
import sys

from stored import store

SEED = 64
FIRST = "# Calls of GIFT-64, made by 'oracle/gift64_model.py --store' from its designers' paper."

ROUNDS = 28
TABLE = [int(x, 16) for x in "1 a 4 c 6 f 3 9 2 d b 7 5 0 8 e".split()]

# key, block, what it is encrypted to
VECTORS = [
    ("fedcba9876543210fedcba9876543210", "fedcba9876543210", "c1b71f66160ff587"),
    ("00000000000000000000000000000000", "0000000000000000", "f62bc3ef34f775ac"),
    ("bd91731eb6bc2713a1f9f6ffc75044e7", "c450c7727a9b8a7d", "e3272885fa94ba8b"),
]


# ---- the cipher: a state is the list of its bits, b0 first

def moved(i):
    return 4 * (i // 16) + 16 * ((3 * ((i % 16) // 4) + i % 4) % 4) + i % 4


def bits(block):
    x = int.from_bytes(block, "big")
    return [x >> i & 1 for i in range(64)]


def block_of(b):
    return sum(x << i for i, x in enumerate(b)).to_bytes(8, "big")


def looked_up(b, table):
    out = []
    for n in range(16):
        x = table[b[4 * n] | b[4 * n + 1] << 1 | b[4 * n + 2] << 2 | b[4 * n + 3] << 3]
        out += [x >> j & 1 for j in range(4)]
    return out


def right(k, n):
    return k[n:] + k[:n]


def round_keys(key):
    """For each round the 64 bits that are xored in: U to b(4i+1), V to b(4i), 1 to b63 and the constant's c5..c0 to b23, b19, b15, b11, b7, b3."""
    x = int.from_bytes(key, "big")
    k = [[x >> 16 * w + i & 1 for i in range(16)] for w in range(8)]     # k0 .. k7, bit 0 of each first
    c = [0] * 6                                                          # c0 .. c5
    out = []
    for _ in range(ROUNDS):
        c = [c[5] ^ c[4] ^ 1] + c[:5]
        u, v = k[1], k[0]
        mask = [0] * 64
        for i in range(16):
            mask[4 * i + 1] ^= u[i]
            mask[4 * i] ^= v[i]
        mask[63] ^= 1
        for i in range(6):
            mask[4 * i + 3] ^= c[i]
        out.append(mask)
        k = k[2:] + [right(k[0], 12), right(k[1], 2)]
    return out


def xored(a, b):
    return [x ^ y for x, y in zip(a, b)]


def round_done(b, mask):
    b = looked_up(b, TABLE)
    out = [0] * 64
    for i in range(64):
        out[moved(i)] = b[i]
    return xored(out, mask)


def round_undone(b, mask):
    b = xored(b, mask)
    return looked_up([b[moved(i)] for i in range(64)], [TABLE.index(x) for x in range(16)])


def encrypted(key, block):
    b = bits(block)
    for mask in round_keys(key):
        b = round_done(b, mask)
    return block_of(b)


def decrypted(key, block):
    b = bits(block)
    for mask in reversed(round_keys(key)):
        b = round_undone(b, mask)
    return block_of(b)


# ---- the calls

def one(way, key, block):
    code = 1 if len(key) != 16 else 2 if len(block) != 8 else 0
    return code, way(key, block) if code == 0 else block


def many(way, key, given, output):
    code = 1 if len(key) != 16 else 2 if len(given) % 8 else 3 if len(output) != len(given) else 0
    return code, b"".join(way(key, given[i:i + 8]) for i in range(0, len(given), 8)) if code == 0 else output


# ---- the model's own check

def checked():
    for key, plain, crypt in VECTORS:
        key, plain, crypt = bytes.fromhex(key), bytes.fromhex(plain), bytes.fromhex(crypt)
        assert encrypted(key, plain) == crypt and decrypted(key, crypt) == plain
    assert block_of(round_done(bits(bytes(8)), round_keys(bytes(16))[0])).hex() == "91" + 6 * "11" + "19"
    chance = random.Random(SEED)
    for _ in range(200):
        key, plain = chance.randbytes(16), chance.randbytes(8)
        assert decrypted(key, encrypted(key, plain)) == plain


# ---- cases

def text(b):
    return b.hex() or "-"


def case_one(name, way, key, block):
    code, left = one(way, key, block)
    return "gift64_%s_by_key key=%s lent=%s number=%x left=%s" % (name, text(key), text(block), code, text(left))


def case_many(name, way, key, given, output):
    code, left = many(way, key, given, output)
    return "gift64_%s_blocks key=%s input=%s lent=%s number=%x left=%s" % (name, text(key), text(given), text(output), code, text(left))


WAYS = [("encrypt", encrypted), ("decrypt", decrypted)]
LENGTHS = [0, 1, 7, 8, 9, 15, 16, 17, 24]


def cases():
    chance = random.Random(SEED)
    r = chance.randbytes
    yield "## GIFT-64, the designers' vectors"
    for key, plain, crypt in VECTORS:
        key, plain, crypt = bytes.fromhex(key), bytes.fromhex(plain), bytes.fromhex(crypt)
        yield case_one("encrypt", encrypted, key, plain)
        yield case_one("decrypt", decrypted, key, crypt)
    yield "## GIFT-64, one block"
    for name, way in WAYS:
        for _ in range(150):
            yield case_one(name, way, r(16), r(8))
        for i in range(128):
            yield case_one(name, way, (1 << i).to_bytes(16, "big"), bytes(8))
        for i in range(64):
            yield case_one(name, way, bytes(16), (1 << i).to_bytes(8, "big"))
        for key in 0, 8, 15, 16, 17:
            for block in LENGTHS:
                yield case_one(name, way, r(key), r(block))
    yield "## GIFT-64, many blocks"
    for name, way in WAYS:
        for n in range(0, 21):
            yield case_many(name, way, r(16), r(8 * n), r(8 * n))
        for key in 0, 15, 16, 17:
            for given in 0, 4, 8, 12, 16, 24:
                for output in 0, 4, 8, 16, 24:
                    yield case_many(name, way, r(key), r(given), r(output))


# ---- the library, through its C names

class Library:
    def __init__(self, file):
        self.c = ctypes.CDLL(file)

    @staticmethod
    def lent(b):
        return (ctypes.c_uint8 * max(1, len(b))).from_buffer_copy(b or b"\0"), ctypes.c_size_t(len(b))

    def one(self, name, key, block):
        lent = self.lent(block)
        return getattr(self.c, name)(*self.lent(key), *lent), bytes(lent[0])[:len(block)]

    def many(self, name, key, given, output):
        lent = self.lent(output)
        return getattr(self.c, name)(*self.lent(key), *self.lent(given), *lent), bytes(lent[0])[:len(output)]


def held_to_model(file):
    lib, chance = Library(file), random.Random(SEED + 1)
    r = chance.randbytes
    counts = dict.fromkeys(["blocks", "by the plain engine", "many blocks", "refusals"], 0)

    def count(what, ok):
        counts[what] += 1
        if not ok:
            sys.exit("gift64_model: different, %s %d" % (what, counts[what]))

    def both(name, way, key, block):
        """One block by each engine."""
        answer = one(way, key, block)
        what = "refusals" if answer[0] else None
        count(what or "blocks", lib.one("gift64_%s_by_key" % name, key, block) == answer)
        count(what or "by the plain engine", lib.one("gift64_plain_%s_by_key" % name, key, block) == answer)

    for name, way in WAYS:
        for key, plain, crypt in VECTORS:
            both(name, way, bytes.fromhex(key), bytes.fromhex(plain if name == "encrypt" else crypt))
        for _ in range(3000):
            both(name, way, r(16), r(8))
        for i in range(128):
            both(name, way, (1 << i).to_bytes(16, "big"), bytes(8))
        for i in range(64):
            both(name, way, bytes(16), (1 << i).to_bytes(8, "big"))
        for key in range(0, 34):
            for block in range(0, 34):
                if (key, block) != (16, 8):
                    both(name, way, r(key), r(block))
        for n in range(0, 34):
            for _ in range(4):
                key, given, output = r(16), r(8 * n), r(8 * n)
                count("many blocks", lib.many("gift64_%s_blocks" % name, key, given, output) == many(way, key, given, output))
        for key in 0, 15, 16, 17:
            for given in range(0, 34):
                for output in {0, 8, given, given + 1, given + 8, 16, 24}:
                    k, g, o = r(key), r(given), r(output)
                    answer = many(way, k, g, o)
                    count("refusals" if answer[0] else "many blocks", lib.many("gift64_%s_blocks" % name, k, g, o) == answer)
    print(", ".join("%s %d" % (what, n) for what, n in counts.items()))
    print("%d answers equal, 0 different" % sum(counts.values()))


def main():
    if sys.argv[1:] == ["--store"]:
        store(FIRST, cases())
    elif sys.argv[1:2] == ["--library"] and len(sys.argv) == 3:
        held_to_model(sys.argv[2])
    else:
        checked()
        print("GIFT-64: the designers' three vectors, both ways")


main()
