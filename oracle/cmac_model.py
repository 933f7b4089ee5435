#!/usr/bin/env python3
"""CMAC, written from NIST SP 800-38B alone; it shares nothing with the code. The cipher is a function from block to block.

    oracle/cmac_model.py                    checks the model: over AES-128 the standard's own vectors; over GIFT-128 every cutting of short messages
    oracle/cmac_model.py --store            writes its part of crates/replay/stdin, cases with their answers in the form that README.md beside this file
                                            describes, and crates/replay/stdout anew
    oracle/cmac_model.py --library FILE     holds a shared library that has the C names of include/gift_host.h to the model: thousands of messages of
                                            0 to 200 bytes, some of 64 KiB, cut anywhere, and every refusal
"""
import ctypes
import random
import sys

import cipher_model
from cipher_model import block, number
from ciphers import aes, gift, xor
from stored import store

SEED = 38
FIRST = "# Calls of CMAC, made by 'oracle/cmac_model.py --store' from NIST SP 800-38B."


# ---- SP 800-38B

def subkey(x):
    """6.1, steps 2 and 3: X << 1, with R if the first bit of X was 1."""
    n = number(x)
    return block(n << 1 & 2 ** 128 - 1 ^ (0x87 if n >> 127 else 0))


def cmac(cipher, message):
    k1 = subkey(cipher(bytes(16)))                                            # 6.2, step 1
    k2 = subkey(k1)
    n = max(1, -(-len(message) // 16))                                        # 2
    blocks = [message[16 * i:16 * i + 16] for i in range(n)]                  # 3
    last = blocks[-1]
    blocks[-1] = xor(k1, last) if len(last) == 16 else xor(k2, last + b"\x80" + bytes(15 - len(last)))  # 4
    c = bytes(16)                                                             # 5
    for m in blocks:                                                          # 6
        c = cipher(xor(c, m))
    return c                                                                  # 7


# ---- a message in pieces: what a state is, and becomes

class State:
    """Round words are told by the key that gives them; None stands for eighty zeros, those of the all-zero key."""

    def __init__(self, key=None, chain=bytes(16), held=bytes(16), count=0):
        self.key, self.chain, self.held, self.count = key, chain, held, count

    def cipher(self):
        return gift(self.key or bytes(16))

    def piece(self, bytes_):
        if self.count > 16:
            return 10, self
        rest, chain, cipher = self.held[:self.count] + bytes_, self.chain, self.cipher()
        while len(rest) > 16:
            chain, rest = cipher(xor(chain, rest[:16])), rest[16:]
        return 0, State(self.key, chain, rest + bytes(16 - len(rest)), len(rest))

    def tag(self):
        cipher = self.cipher()
        k1 = subkey(cipher(bytes(16)))
        last = self.held[:self.count]
        last = xor(k1, last) if self.count == 16 else xor(subkey(k1), last + b"\x80" + bytes(15 - len(last)))
        return cipher(xor(self.chain, last))

    def __eq__(self, other):
        return vars(self) == vars(other)


def started(key):
    return (0, State(key)) if len(key) == 16 else (1, State())


# ---- the model's own check

MESSAGE = bytes.fromhex("6bc1bee22e409f96e93d7e117393172aae2d8a571e03ac9c9eb76fac45af8e5130c81c46a35ce411e5fbc1191a0a52eff69f2445df4f9b17ad2b417be66c3710")


def checked():
    # SP 800-38B, D.1: AES-128
    cipher = aes(bytes.fromhex("2b7e151628aed2a6abf7158809cf4f3c"))
    assert cipher(bytes(16)).hex() == "7df76b0c1ab899b33e42f047b91b546f"
    assert subkey(cipher(bytes(16))).hex() == "fbeed618357133667c85e08f7236a8de"
    assert subkey(subkey(cipher(bytes(16)))).hex() == "f7ddac306ae266ccf90bc11ee46d513b"
    for length, tag in (0, "bb1d6929e95937287fa37d129b756746"), (16, "070a16b46b4d4144f79bdd9dd04a287c"), \
            (40, "dfa66747de9ae63030ca32611497c827"), (64, "51f0bebf7e3b9d92fc49741779363cfe"):
        assert cmac(cipher, MESSAGE[:length]).hex() == tag
    # the table, held to the cipher bit by bit
    chance = random.Random(SEED)
    for _ in range(20):
        key, plain = chance.randbytes(16), chance.randbytes(16)
        assert gift(key)(plain) == cipher_model.encrypted(key, plain)
    # every cutting of short messages, at every block's end and in its middle, in two and in three pieces
    key = chance.randbytes(16)
    cuttings = 0
    for length in [*range(0, 20), 31, 32, 33, 48]:
        message = chance.randbytes(length)
        tag = cmac(gift(key), message)
        for a in range(length + 1):
            for b in range(a, length + 1):
                s = State(key)
                for piece in (message[:a], message[a:b], message[b:]):
                    s = s.piece(piece)[1]
                assert s.tag() == tag
                cuttings += 1
    return cuttings


# ---- cases

def words_or_key(s):
    return "words=" + 80 * "00000000" if s.key is None else "key=" + s.key.hex()


def text(b):
    return b.hex() or "-"


def state_fields(s, after=""):
    return "chain%s=%s held%s=%s count%s=%x" % (after, s.chain.hex(), after, s.held.hex(), after, s.count)


def case_whole(key, message, lent):
    code = 1 if len(key) != 16 else 2 if len(lent) != 16 else 0
    return "cmac key=%s message=%s lent=%s number=%x left=%s" % (text(key), text(message), text(lent), code, text(cmac(gift(key), message) if code == 0 else lent))


def case_check(key, message, tag):
    code = 1 if len(key) != 16 else 2 if len(tag) != 16 else 0
    return "cmac_check key=%s message=%s tag=%s number=%x yes=%x" % (text(key), text(message), text(tag), code, code == 0 and cmac(gift(key), message) == tag)


def case_start(key):
    code, s = started(key)
    return "cmac_start key=%s number=%x %s %s" % (text(key), code, "words_after=" + 80 * "00000000" if s.key is None else "key_after=" + s.key.hex(), state_fields(s, "_after"))


def case_piece(s, piece):
    code, t = s.piece(piece)
    return "cmac_piece %s %s piece=%s number=%x %s" % (words_or_key(s), state_fields(s), text(piece), code, state_fields(t, "_after"))


def case_tag(s, lent):
    code = 10 if s.count > 16 else 2 if len(lent) != 16 else 0
    return "cmac_tag %s %s lent=%s number=%x left=%s" % (words_or_key(s), state_fields(s), text(lent), code, text(s.tag() if code == 0 else lent))


def cases():
    chance = random.Random(SEED)
    r = chance.randbytes
    yield "## CMAC of whole messages"
    for length in range(0, 201):
        yield case_whole(r(16), r(length), r(16))
    for key, tag in (0, 16), (15, 16), (17, 16), (16, 0), (16, 15), (16, 17), (15, 17):
        yield case_whole(r(key), r(20), r(tag))
    yield "## CMAC checked"
    for length in 0, 1, 15, 16, 17, 32, 200:
        key, message = r(16), r(length)
        tag = cmac(gift(key), message)
        yield case_check(key, message, tag)
        for i in range(16):
            yield case_check(key, message, tag[:i] + bytes([tag[i] ^ 1 << chance.randrange(8)]) + tag[i + 1:])
        for wrong in tag[:15], tag + b"\0", b"":
            yield case_check(key, message, wrong)
        yield case_check(key[:15], message, tag)
        yield case_check(key + b"\0", message, tag[:15])
    yield "## CMAC in pieces"
    for key in 16, 0, 15, 17:
        yield case_start(r(key))
    for _ in range(200):
        s = State(r(16), r(16), r(16), chance.choice([*range(17), 16, 16, 17, 255, 2 ** 32 - 1]))
        yield case_piece(s, r(chance.choice([0, 0, 1, 15, 16, 17, 31, 32, 33, chance.randrange(200)])))
        yield case_tag(s, r(chance.choice([16, 16, 16, 16, 0, 15, 17])))
    for length in 0, 1, 16, 17, 33, 64, 150:
        s, message = State(r(16)), r(length)
        while message:
            n = chance.randrange(len(message) + 1)
            yield case_piece(s, message[:n])
            s, message = s.piece(message[:n])[1], message[n:]
        yield case_tag(s, r(16))


# ---- the library, through its C names

class Mac(ctypes.Structure):
    _fields_ = [("words", ctypes.c_uint32 * 80), ("chain", ctypes.c_uint8 * 16), ("held", ctypes.c_uint8 * 16), ("count", ctypes.c_uint32)]


class Told(ctypes.Structure):
    _fields_ = [("code", ctypes.c_uint32), ("state", Mac)]


class Checked(ctypes.Structure):
    _fields_ = [("code", ctypes.c_uint32), ("yes", ctypes.c_uint8)]


class Library:
    def __init__(self, file):
        self.c = ctypes.CDLL(file)
        self.c.gift_mac_check.restype = Checked
        self.c.gift_mac_start.restype = self.c.gift_mac_piece.restype = Told

    @staticmethod
    def lent(b):
        return (ctypes.c_uint8 * max(1, len(b))).from_buffer_copy(b or b"\0"), ctypes.c_size_t(len(b))

    def whole(self, key, message, out):
        tag = self.lent(out)
        return self.c.gift_mac(*self.lent(key), *self.lent(message), *tag), bytes(tag[0])[:len(out)]

    def check(self, key, message, tag):
        told = self.c.gift_mac_check(*self.lent(key), *self.lent(message), *self.lent(tag))
        return told.code, told.yes

    def start(self, key):
        told = self.c.gift_mac_start(*self.lent(key))
        return told.code, told.state

    def piece(self, state, piece):
        told = self.c.gift_mac_piece(state, *self.lent(piece))
        return told.code, told.state

    def tag(self, state, out):
        tag = self.lent(out)
        return self.c.gift_mac_tag(state, *tag), bytes(tag[0])[:len(out)]


def same_state(c, s):
    return bytes(c.chain) == s.chain and bytes(c.held) == s.held and c.count == s.count


def held_to_model(file):
    lib, chance = Library(file), random.Random(SEED + 1)
    r = chance.randbytes
    counts = dict.fromkeys(["whole messages", "of 64 KiB", "checks", "pieces", "tags of states", "refusals"], 0)

    def count(what, ok):
        counts[what] += 1
        if not ok:
            sys.exit("cmac_model: different, %s %d" % (what, counts[what]))

    for n in range(4000):
        key, message = r(16), r(n % 201)
        tag = cmac(gift(key), message)
        count("whole messages", lib.whole(key, message, r(16)) == (0, tag))
        count("checks", lib.check(key, message, tag) == (0, 1))
        i = chance.randrange(16)
        count("checks", lib.check(key, message, tag[:i] + bytes([tag[i] ^ 1 << chance.randrange(8)]) + tag[i + 1:]) == (0, 0))
    for n in 65535, 65536, 65537:
        key, message = r(16), r(n)
        count("of 64 KiB", lib.whole(key, message, bytes(16)) == (0, cmac(gift(key), message)))
    # every cutting in two and three of short messages, and 64 KiB in pieces by chance; a tag in the middle ends nothing
    for length in [*range(0, 35), 48, 64, 65]:
        key, message = r(16), r(length)
        for a in range(length + 1):
            for b in {a, length, chance.randrange(a, length + 1)}:
                (code, c), s = lib.start(key), State(key)
                count("pieces", code == 0 and same_state(c, s))
                for piece in (message[:a], message[a:b], message[b:]):
                    code, c = lib.piece(c, piece)
                    s = s.piece(piece)[1]
                    count("pieces", code == 0 and same_state(c, s))
                    count("tags of states", lib.tag(c, bytes(16)) == (0, s.tag()))
    key, message = r(16), r(65536)
    c, at = lib.start(key)[1], 0
    while at < len(message):
        n = chance.randrange(3000)
        c, at = lib.piece(c, message[at:at + n])[1], at + n
    count("tags of states", lib.tag(c, bytes(16)) == (0, cmac(gift(key), message)))
    # states that no call made
    for _ in range(2000):
        s = State(None, r(16), r(16), chance.randrange(17))
        c = Mac((ctypes.c_uint32 * 80)(), (ctypes.c_uint8 * 16)(*s.chain), (ctypes.c_uint8 * 16)(*s.held), s.count)
        piece = r(chance.randrange(60))
        code, d = lib.piece(c, piece)
        count("pieces", code == 0 and same_state(d, s.piece(piece)[1]))
        count("tags of states", lib.tag(c, bytes(16)) == (0, s.tag()))
    # refusals, in their order, and nothing changed
    for key in 0, 15, 17, 16:
        for tag in 0, 15, 17, 16:
            k, t = r(key), r(tag)
            if (key, tag) != (16, 16):
                code = 1 if key != 16 else 2
                count("refusals", lib.whole(k, r(40), t) == (code, t) and lib.check(k, r(40), t) == (code, 0))
        if key != 16:
            code, c = lib.start(r(key))
            count("refusals", code == 1 and bytes(c) == bytes(356))
    for many in 17, 18, 256, 2 ** 32 - 1:
        for tag in 0, 15, 16, 17:
            t = r(tag)
            c = Mac.from_buffer_copy(r(352) + many.to_bytes(4, "little"))
            code, d = lib.piece(c, r(tag))
            count("refusals", code == 10 and bytes(d) == bytes(c) and lib.tag(c, t) == (10, t))
    for tag in 0, 15, 17:
        t = r(tag)
        count("refusals", lib.tag(lib.start(r(16))[1], t) == (2, t))
    print(", ".join("%s %d" % (what, n) for what, n in counts.items()))
    print("%d answers equal, 0 different" % sum(counts.values()))


def main():
    if sys.argv[1:] == ["--store"]:
        store(FIRST, cases())
    elif sys.argv[1:2] == ["--library"] and len(sys.argv) == 3:
        held_to_model(sys.argv[2])
    else:
        print("AES-128: SP 800-38B's vectors; GIFT-128: %d cuttings give the whole message's tag" % checked())


if __name__ == "__main__":
    main()
