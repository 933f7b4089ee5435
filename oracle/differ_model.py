#!/usr/bin/env python3
"""Where two settings bundles differ, written from request 2026-13 alone, over the reader of bundle_model.py.

    oracle/differ_model.py                  checks the model against itself: sides exchanged, a bundle against itself, texts told apart
    oracle/differ_model.py --library FILE   holds gift_bundle_differ of a shared library to the model: made, damaged and forged pairs, largest ones, rows too few
    oracle/differ_model.py --program FILE.. holds the program, run as FILE.. in a folder that holds the three files, to the model's text
"""
import ctypes
import functools
import os
import random
import subprocess
import sys
import tempfile

import bundle_model as bundles
from bundle_model import ABSENT, UNKNOWN, VALUE

SEED = 2026
ROWS = 512


@functools.lru_cache(256)
def read(key, b):
    return bundles.read(2, key, b)


def answers(entries, b):
    """id -> how it stands, for a reader of edition 2: unknown, or a kind and a body."""
    return {e[0]: (e[3], b[e[1]:e[1] + e[2]]) if e[3] in bundles.KINDS[2] else "unknown" for e in entries}


def sides(key, first, second):
    """Both numbers, and the list of (id, first's answer, second's) if both are 0."""
    (f, one), (s, two) = read(key, first), read(key, second)
    if f or s:
        return f, s, []
    a, b = answers(one, first), answers(two, second)
    return f, s, [(i, a.get(i, "absent"), b.get(i, "absent")) for i in sorted(a.keys() | b.keys()) if a.get(i) != b.get(i)]


def rows(key, first, second):
    """What the call tells: both numbers, and nine numbers a line."""
    f, s, lines = sides(key, first, second)
    looked = [dict((e[0], e) for e in read(key, b)[1] or []) for b in (first, second)]
    out = []
    for id_, *both in lines:
        out.append(id_)
        for seen, side in zip(looked, both):
            e = seen.get(id_)
            out += [ABSENT, 0, 0, 0] if side == "absent" else [UNKNOWN, 0, 0, 0] if side == "unknown" else [VALUE, e[3], e[1], e[2]]
    return f, s, out


def word(side):
    if isinstance(side, str):
        return side
    kind, body = side
    if kind == 0:
        return f"flag {body[0]}"
    if kind == 1:
        return f"number {int.from_bytes(body, 'big')}"
    return 'text "' + "".join(chr(c) if 32 <= c <= 126 and c not in (34, 92) else f"\\x{c:02x}" for c in body) + '"'


def text(key, first, second):
    """What the program writes, of three files; None for one that is missing, a folder, or longer than 65,536 bytes (a key: than 16)."""
    f, s, lines = sides(b"" if key is None else key, b"" if first is None else first, b"" if second is None else second)
    if f or s:
        return "".join(f"{name}.bundle: refusal {n}\n" for name, n in (("first", f), ("second", s)) if n)
    return "".join(f"{i}: {word(a)} | {word(b)}\n" for i, a, b in lines) + f"differing settings: {len(lines)}\n"


# ---- pairs

class Pairs:
    def __init__(self, seed):
        self.random = random.Random(seed)

    def body(self, kind):
        r = self.random
        if kind == 0:
            return bytes([r.randrange(2)])
        if kind == 1:
            return r.choice([bytes(8), b"\xff" * 8, r.randbytes(8), r.randrange(2000).to_bytes(8, "big")])
        if kind == 2:
            return r.choice([b"", b'"', b"\\", b"\\x22", b"Pier 4", r.randbytes(r.randrange(20)), bytes(r.choice(b' "\\abc|\n') for _ in range(r.randrange(30))), r.randbytes(255)])
        return r.randbytes(r.randrange(12))

    def settings(self, edition, count):
        r = self.random
        ids = sorted(r.sample([0, 1, 2, 3, 4, 5, 6, 7, 8, 9, 1 << 16, 1 << 31, (1 << 32) - 2, (1 << 32) - 1], min(count, 14)))
        out = []
        for id_ in ids:
            kind = r.choice([0, 1, 2, 3, 200]) if edition > 2 else r.randrange(3 if edition == 2 else 2)
            out.append((id_, kind, r.randrange(2) if kind < 3 else r.randrange(10) == 0, self.body(kind)))
        return [(i, k, int(m), b) for i, k, m, b in out]

    def changed(self, settings, edition):
        """Some settings taken out, put in, changed in value or in must-know alone."""
        r, out = self.random, []
        for id_, kind, must, body in settings:
            how = r.randrange(8)
            if how == 0:
                continue
            if how == 1:
                body = self.body(kind)
            if how == 2:
                must = 1 - must if kind < 3 else must
            if how == 3 and edition >= 2 and kind in (0, 1, 2):
                kind = 2
            out.append((id_, kind, must, body))
        return out

    def key(self):
        return self.random.randbytes(16)

    def pair(self):
        r, key = self.random, self.key()
        editions = [r.choice([1, 2, 2, 2, 3, 3, 65535]) for _ in range(2)]
        one = self.settings(editions[0], r.randrange(9))
        two = self.changed(one, editions[0]) if r.randrange(4) else self.settings(editions[1], r.randrange(9))
        edition = editions[0] if r.randrange(4) else editions[1]
        first, second = bundles.bundle(key, editions[0], one), bundles.bundle(key, edition, two)
        how = r.randrange(12)
        if how == 0:
            first = damaged(r, first)
        elif how == 1:
            second = damaged(r, second)
        elif how == 2:
            first, second = damaged(r, first), damaged(r, second)
        elif how == 3:
            at = r.randrange(len(second) - 16)
            second = second[:at] + bytes([second[at] ^ 1 << r.randrange(8)]) + second[at + 1:-16]
            second += bundles.tag(key, second)
        elif how == 4:
            second = first
        elif how == 5:
            key = r.choice([key[:15], key + b"\0", b""])
        return key, first, second

    def large(self):
        """256 settings against 256 others, and 65,536 bytes of text against its like with one byte changed."""
        key = self.key()
        full = [(3 * i, 2, 0, self.random.randbytes(244 if i < 232 else 243)) for i in range(256)]
        other = [(i, k, m, bytes([b[0] ^ 1]) + b[1:]) for i, k, m, b in full]
        odd = [(3 * i + 1, 2, 0, self.random.randbytes(243)) for i in range(256)]
        last = [((1 << 32) - 256 + i, 1, 1, self.body(1)) for i in range(256)]
        lists = [full, other, odd, last, full[:255], [], full[255:]]
        made = [bundles.bundle(key, 2, s) for s in lists] + [bundles.bundle(key, 2, full + [(4000, 2, 0, b"")])]
        return [(key, a, b) for a in made for b in made]


def damaged(r, b):
    how = r.randrange(4)
    if how == 0:
        at = r.randrange(len(b))
        return b[:at] + bytes([b[at] ^ 1 << r.randrange(8)]) + b[at + 1:]
    if how == 1:
        return b[:r.randrange(len(b))]
    if how == 2:
        return b + b"\0"
    return b""


def checked():
    pairs = Pairs(SEED)
    for _ in range(3000):
        key, a, b = pairs.pair()
        f, s, lines = sides(key, a, b)
        assert sides(key, b, a) == (s, f, [(i, y, x) for i, x, y in lines])
        assert not sides(key, a, a)[2]
        assert [i for i, _, _ in lines] == sorted({i for i, _, _ in lines})
        assert all(word(x) != word(y) for _, x, y in lines)
    print("differ_model: 3,000 pairs: sides exchanged, against itself, ids rising, texts told apart")


# ---- the library

class Compared(ctypes.Structure):
    _fields_ = [(n, ctypes.c_uint32) for n in ("code", "first", "second", "count")]


def library(file):
    lib = ctypes.CDLL(file)
    call = lib.gift_bundle_differ
    size, pointer = ctypes.c_size_t, ctypes.POINTER
    call.argtypes = [ctypes.c_char_p, size] * 3 + [pointer(ctypes.c_uint32), size]
    call.restype = Compared
    pairs, calls, wrong, given, most = Pairs(SEED + 1), 0, 0, {}, 0
    todo = [pairs.pair() for _ in range(6000)] + pairs.large()
    for key, a, b in todo:
        f, s, wanted = rows(key, a, b)
        count = len(wanted) // 9
        most = max(most, count)
        for room in {9 * ROWS, 9 * count, max(9 * count - 1, 0), 9 * count + 5}:
            code = f or s or (25 if room < 9 * count else 0)
            held = [0xA5A5A5A5 ^ i for i in range(room + 8)]
            lent = (ctypes.c_uint32 * (room + 8))(*held)
            r = call(key, len(key), a, len(a), b, len(b), lent, room)
            calls += 1
            given[code] = given.get(code, 0) + 1
            after = wanted + held[len(wanted):] if code == 0 else held
            if (r.code, r.first, r.second, r.count) != (code, f, s, count) or list(lent) != after:
                wrong += 1
                if wrong < 5:
                    print("differs:", key.hex(), a.hex()[:200], b.hex()[:200], (r.code, r.first, r.second, r.count), (code, f, s, count))
    print(f"gift_bundle_differ: {calls:,} calls on {len(todo):,} pairs, {wrong} different; numbers given {dict(sorted(given.items()))}; {most} ids at most")
    return wrong


# ---- the program

def program(command):
    pairs, wrong, runs, lines = Pairs(SEED + 2), 0, 0, 0
    todo = [pairs.pair() for _ in range(1500)] + pairs.large()
    key, a, b = next(p for p in todo if sides(*p)[:2] == (0, 0))
    todo += [(None, a, b), (None, None, None), (key, None, b), (key, a, None), (key, None, None), (key, "folder", b), ("folder", a, b), (key, a + bytes(65537 - len(a)), b),
             (key, bytes(65536), b), (key, bytes(70000), bytes(200000)), (key + key, None, b)]
    with tempfile.TemporaryDirectory() as room:
        for files in todo:
            given = []
            for name, what in zip(("key", "first.bundle", "second.bundle"), files):
                path = os.path.join(room, name)
                if os.path.isdir(path):
                    os.rmdir(path)
                elif os.path.exists(path):
                    os.remove(path)
                if what == "folder":
                    os.mkdir(path)
                elif what is not None:
                    with open(path, "wb") as f:
                        f.write(what)
                most = 16 if name == "key" else 65536
                given.append(None if what is None or what == "folder" or len(what) > most else what)
            said = subprocess.run(command, cwd=room, capture_output=True).stdout
            wanted = text(*given).encode("ascii")
            runs, lines = runs + 1, lines + wanted.count(b"\n")
            if said != wanted:
                wrong += 1
                if wrong < 5:
                    print("differs:", [w if w in (None, "folder") else (len(w), w[:80].hex()) for w in files], said[:200], wanted[:200])
    print(f"gift_differ: {runs:,} runs, {lines:,} lines, {wrong} different")
    return wrong


def main():
    if len(sys.argv) == 3 and sys.argv[1] == "--library":
        sys.exit(1 if library(sys.argv[2]) else 0)
    if len(sys.argv) > 2 and sys.argv[1] == "--program":
        sys.exit(1 if program(sys.argv[2:]) else 0)
    if len(sys.argv) > 1:
        sys.exit(__doc__)
    checked()


if __name__ == "__main__":
    main()
