#!/usr/bin/env python3
"""The counter mode of NIST SP 800-38A, 6.5, written from the standard and document 02 alone; it shares nothing with the code. The cipher is a function from block to block.

    oracle/counter_model.py            checks the model: over AES-128 the standard's own vectors; over GIFT-128 every cutting of short messages
    oracle/counter_model.py --store    checks it, and writes the stored cases of streams into crates/replay/stdin, and crates/replay/stdout
    oracle/counter_model.py --wrong    prints cases that are all wrong by one digit
"""
import random
import sys

import cipher_model
from ciphers import aes, gift, xor
from stored import store

SEED = 38
COUNTERS = 2 ** 32
FIRST = "# Calls of streams, made by 'oracle/counter_model.py --store' from NIST SP 800-38A and document 02."


# ---- SP 800-38A, 6.5, with document 02's counter blocks

def counter_block(nonce, c):
    return nonce + c.to_bytes(4, "big")


def counter_mode(cipher, nonce, first, message):
    """A whole message; a first counter that leaves too few is no argument."""
    pieces = [message[i:i + 16] for i in range(0, len(message), 16)]
    return b"".join(xor(p, cipher(counter_block(nonce, first + j))) for j, p in enumerate(pieces))


# ---- a stream: document 02's refusals, and the state for each position

class Stream:
    """Round words are told by the key that gives them; None stands for eighty zeros, those of the all-zero key."""

    def __init__(self, key, nonce, counter, block=bytes(16), unused=0, spent=0):
        self.key, self.nonce, self.counter, self.block, self.unused, self.spent = key, nonce, counter, block, unused, spent

    def __eq__(self, other):
        return vars(self) == vars(other)

    def piece(self, cipher, data, out):
        """The number, what stands in the output, and the stream afterwards."""
        n = len(data)
        if self.unused > 15:
            return 10, out, self
        if len(out) != n:
            return 3, out, self
        new = max(0, -(-(n - self.unused) // 16))
        if new > (0 if self.spent else COUNTERS - self.counter):
            return 12, out, self
        if n == 0:
            return 0, b"", self
        blocks = [self.block] + [cipher(counter_block(self.nonce, self.counter + j)) for j in range(new)]
        key_stream = blocks[0][16 - self.unused:] + b"".join(blocks[1:])
        unused = len(key_stream) - n
        end = self.counter + new
        return 0, xor(data, key_stream), Stream(self.key, self.nonce, end % COUNTERS, blocks[-1] if unused else bytes(16), unused, 1 if end == COUNTERS else self.spent)


def started(key, nonce, first):
    code = 1 if len(key) != 16 else 2 if len(nonce) != 12 else 0
    return code, Stream(None, bytes(12), 0, spent=1) if code else Stream(key, nonce, first)


def of(s):
    return gift(s.key or bytes(16))


# ---- the model's own check

def fed(cipher, s, pieces):
    """All pieces, each accepted; their bytes, and the stream after them."""
    written = b""
    for p in pieces:
        code, out, s = s.piece(cipher, p, bytes(len(p)))
        assert code == 0
        written += out
    return written, s


def checked():
    # SP 800-38A, F.5.1 and F.5.2: CTR-AES128, whole and byte by byte, both ways
    cipher = aes(bytes.fromhex("2b7e151628aed2a6abf7158809cf4f3c"))
    plain = bytes.fromhex("6bc1bee22e409f96e93d7e117393172aae2d8a571e03ac9c9eb76fac45af8e5130c81c46a35ce411e5fbc1191a0a52eff69f2445df4f9b17ad2b417be66c3710")
    secret = bytes.fromhex("874d6191b620e3261bef6864990db6ce9806f66b7970fdff8617187bb9fffdff5ae4df3edbd5d35e5b4f09020db03eab1e031dda2fbe03d1792170a0f3009cee")
    nonce, first = bytes.fromhex("f0f1f2f3f4f5f6f7f8f9fafb"), 0xFCFDFEFF
    for a, b in (plain, secret), (secret, plain):
        assert counter_mode(cipher, nonce, first, a) == b
        for pieces in [a], [a[i:i + 1] for i in range(64)], [a[:5], b"", a[5:37], a[37:]]:
            assert fed(cipher, Stream(None, nonce, first), pieces) == (b, Stream(None, nonce, first + 4))
    # the table, held to the cipher bit by bit
    chance = random.Random(SEED)
    for _ in range(20):
        key, plain = chance.randbytes(16), chance.randbytes(16)
        assert gift(key)(plain) == cipher_model.encrypted(key, plain)
    # over GIFT-128 every cutting of short messages in two and in three pieces, and the last counters
    key, nonce = chance.randbytes(16), chance.randbytes(12)
    cipher, cuttings = gift(key), 0
    for length in [*range(0, 20), 31, 32, 33, 48]:
        for first in 7, COUNTERS - (length + 15) // 16 if length else COUNTERS - 1:
            message = chance.randbytes(length)
            whole = fed(cipher, Stream(key, nonce, first), [message])
            assert whole[0] == counter_mode(cipher, nonce, first, message)
            for a in range(length + 1):
                for b in range(a, length + 1):
                    assert fed(cipher, Stream(key, nonce, first), [message[:a], message[a:b], message[b:]]) == whole
                    cuttings += 1
    return cuttings


# ---- cases

def line(call, fields):
    return " ".join([call] + ["%s=%s" % (name, value or "-") for name, value in fields.items()])


def state(s, after=""):
    """The fields of a stream: before a call, or, with `_after` behind their names, after it."""
    words = {"words": 80 * "00000000"} if s.key is None else {"key": s.key.hex()}
    fields = {**words, "nonce": s.nonce.hex(), "counter": "%x" % s.counter, "block": s.block.hex(), "unused": "%x" % s.unused, "spent": "%x" % s.spent}
    return {name + after: value for name, value in fields.items()}


class Script:
    def __init__(self):
        self.random = random.Random(SEED)
        self.lines, self.numbers, self.cases = [], {}, {}

    def some(self, n):
        return self.random.randbytes(n)

    def heading(self, text):
        self.lines.append("## Streams: " + text)

    def write(self, call, fields, gives):
        self.lines.append(line(call, {**fields, **gives}))
        self.numbers[call, gives["number"]] = self.numbers.get((call, gives["number"]), 0) + 1
        self.cases.setdefault((call, gives["number"]), (fields, gives))

    def start(self, key, nonce, first):
        code, s = started(key, nonce, first)
        self.write("start_stream", {"key": key.hex(), "nonce": nonce.hex(), "counter": "%x" % first}, {"number": "%x" % code, **state(s, "_after")})
        return s

    def piece(self, s, data, out=None):
        out = self.some(len(data)) if out is None else out
        code, left, t = s.piece(of(s), data, out)
        self.write("stream_piece", {**state(s), "input": data.hex(), "lent": out.hex()}, {"number": "%x" % code, "left": left.hex(), **state(t, "_after")})
        return code, left, t

    def starts(self):
        self.heading("starts, good ones and every refusal")
        for n, m in [(16, 12)] * 6 + [(0, 12), (15, 12), (17, 12), (32, 12), (16, 0), (16, 11), (16, 13), (16, 16), (15, 11), (0, 0)]:
            self.start(self.some(n), self.some(m), self.random.choice([0, 1, COUNTERS - 1, self.random.randrange(COUNTERS)]))

    def cuttings(self):
        self.heading("messages of any length, cut anywhere, one of them decrypted again")
        for n in range(40):
            first = self.random.randrange(COUNTERS - 100)
            s = self.start(self.some(16), self.some(12), first)
            again, message, written = s, b"", b""
            for _ in range(self.random.randrange(1, 8)):
                data = self.some(self.random.choice([0, 1, 2, 15, 16, 17, 31, 32, 33, self.random.randrange(80)]))
                code, left, s = self.piece(s, data)
                assert code == 0
                message, written = message + data, written + left
            assert written == counter_mode(of(s), s.nonce, first, message)
            if n % 8 == 0:
                assert self.piece(again, written[:250])[1] == message[:250]

    def last_counters(self):
        self.heading("the last counters: up to the end, inside its block, past it, and what is left then")
        for blocks in 1, 2, 3:
            for rest in 0, 1, 8, 15:
                s = self.start(self.some(16), self.some(12), COUNTERS - blocks)
                for extra in 1, 16, 17:
                    assert self.piece(s, self.some(16 * blocks + extra))[0] == 12
                cut = self.random.randrange(16 * blocks - rest + 1)
                for n in cut, 16 * blocks - rest - cut:
                    code, _, s = self.piece(s, self.some(n))
                    assert code == 0
                assert s.unused == rest and s.spent == (rest < 16) and s.counter == 0
                assert self.piece(s, self.some(rest + 1))[0] == 12 and self.piece(s, b"")[0] == 0
                if rest:
                    assert self.piece(s, self.some(rest - 1))[0] == 0
                code, _, s = self.piece(s, self.some(rest))
                assert code == 0 and s.unused == 0 and self.piece(s, b"")[0] == 0 and self.piece(s, b"a")[0] == 12
        s = self.start(self.some(15), self.some(12), 5)
        assert self.piece(s, b"")[0] == 0 and self.piece(s, b"a")[0] == 12

    def forged(self):
        self.heading("states that no call made, and outputs of another length")
        for n in range(120):
            unused = n % 20 if n < 80 else self.random.choice([0, 1, 15, 16, 17, 255, 256, 2 ** 16, COUNTERS - 1])
            counter = self.random.choice([0, 1, COUNTERS - 1, COUNTERS - 2, self.random.randrange(COUNTERS)])
            spent = self.random.choice([0, 0, 0, 1, 2, 256, COUNTERS - 1])
            s = Stream(self.random.choice([None, self.some(16)]), self.some(12), counter, self.some(16), unused, spent)
            length = self.random.choice([0, 1, 2, 15, 16, 17, 40])
            out = self.some(self.random.choice([length, length, length, length + 1, max(0, length - 1), 0]))
            code, _, t = self.piece(s, self.some(length), out)
            if code == 0 and unused <= 15:
                self.piece(t, self.some(5))


def damaged(digits):
    return ("1" if digits[:1] in ("0", "") else "0") + digits[1:]


def wrong_cases(cases):
    """Of every call and every number that it gives one case, again and again, each time with one digit of what it gives damaged."""
    for (call, _), (fields, gives) in cases.items():
        for name in gives:
            yield line(call, {**fields, **gives, name: damaged(gives[name])})


def main():
    print("%d cuttings of short messages" % checked(), file=sys.stderr)
    if not sys.argv[1:]:
        return
    script = Script()
    script.starts()
    script.cuttings()
    script.last_counters()
    script.forged()
    if sys.argv[1:] == ["--wrong"]:
        print("\n".join(wrong_cases(script.cases)))
        return
    wanted = [("start_stream", n) for n in "012"] + [("stream_piece", n) for n in ("0", "a", "3", "c")]
    assert all(script.numbers.get(k) for k in wanted)
    print(", ".join("%s number %s: %d" % (*k, script.numbers[k]) for k in wanted))
    store(FIRST, script.lines)


main()
