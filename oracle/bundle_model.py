#!/usr/bin/env python3
"""The settings bundle, written from request 2026-11 alone; it shares nothing with the code but the tag's cipher model (cmac_model.py).

    oracle/bundle_model.py                  checks the model against itself: what it writes it reads back; an old and a new reader never show two values
    oracle/bundle_model.py --store          writes its part of crates/replay/stdin, cases with their answers in the form that README.md beside this file
                                            describes, and crates/replay/stdout anew
    oracle/bundle_model.py --library FILE   holds a shared library that has the C names of include/gift_host.h to the model: both readers and both writers, over
                                            made, damaged and forged bundles, smallest and largest sizes, and every refusal
"""
import ctypes
import random
import struct
import sys

import cmac_model
from stored import store

SEED = 2026
FIRST = "# Settings bundles, made by 'oracle/bundle_model.py --store' from request 2026-11."
REFUSED, ABSENT, UNKNOWN, VALUE = range(4)
KINDS = {1: {0, 1}, 2: {0, 1, 2}}
NOTHING = (0, 0, 0, 0)


def tag(key, message):
    return cmac_model.cmac(cmac_model.gift(key), message)


def good(kind, body):
    return {0: body in (b"\0", b"\1"), 1: len(body) == 8, 2: len(body) <= 255}[kind]


# ---- reading: the request's sentences, one after another

def entries_of(b):
    """(id, offset, length, kind, must) of each entry, as far as the bytes go."""
    n = int.from_bytes(b[2:4], "big")
    return [struct.unpack_from(">IIHBB", b, 8 + 12 * i) for i in range(n)] if 8 + 12 * n <= len(b) else None


def malformed(reader, b):
    edition, n = struct.unpack(">HH", b[:4])
    if edition == 0 or n > 256:
        return True
    entries = entries_of(b[:-16])
    if entries is None:
        return True
    place, last = 8 + 12 * n, -1
    for id_, offset, length, kind, must in entries:
        if id_ <= last or offset != place or must > 1 or place + length > len(b) - 16:
            return True
        if edition <= reader and kind not in KINDS[edition]:
            return True
        if kind in KINDS[reader] and not good(kind, b[offset:offset + length]):
            return True
        place, last = place + length, id_
    return place != len(b) - 16


def read(reader, key, b):
    """The number, and the entries if it is 0."""
    if len(key) != 16:
        return 1, None
    if not 24 <= len(b) <= 65536 or int.from_bytes(b[4:8], "big") != len(b):
        return 20, None
    if b[-16:] != tag(key, b[:-16]):
        return 21, None
    if malformed(reader, b):
        return 22, None
    entries = entries_of(b)
    if any(must == 1 and kind not in KINDS[reader] for _, _, _, kind, must in entries):
        return 23, None
    return 0, entries


def told(reader, entry):
    id_, offset, length, kind, _ = entry
    return (VALUE, id_, kind, offset, length) if kind in KINDS[reader] else (UNKNOWN, id_, 0, 0, 0)


def look(reader, entries, id_):
    if entries is None:
        return (REFUSED, *NOTHING)
    return next((told(reader, e) for e in entries if e[0] == id_), (ABSENT, *NOTHING))


def entry(reader, entries, i):
    if entries is None:
        return (REFUSED, *NOTHING)
    return told(reader, entries[i]) if i < len(entries) else (ABSENT, *NOTHING)


def opened(reader, key, b):
    code, entries = read(reader, key, b)
    return (code, reader, len(entries), len(b)) if code == 0 else (code, reader, 0, 0)


# ---- writing

def bundle(key, edition, settings):
    """Whatever the settings are: (id, kind, must, body) each."""
    table, bodies, place = b"", b"", 8 + 12 * len(settings)
    for id_, kind, must, body in settings:
        table += struct.pack(">IIHBB", id_, place, len(body), kind, must)
        bodies += body
        place += len(body)
    message = struct.pack(">HHI", edition, len(settings), place + 16) + table + bodies
    return message + tag(key, message)


def settings_of(rows, pool):
    """None if the numbers are no whole rows, or the pool is not as long as they say."""
    if len(rows) % 4 or sum(rows[3::4]) != len(pool):
        return None
    settings, at = [], 0
    for i in range(0, len(rows), 4):
        settings.append((*rows[i:i + 3], pool[at:at + rows[i + 3]]))
        at += rows[i + 3]
    return settings


def listed(edition, settings):
    ids = [s[0] for s in settings]
    return (len(settings) <= 256 and all(a < b for a, b in zip(ids, ids[1:])) and 24 + 12 * len(settings) + sum(len(s[3]) for s in settings) <= 65536
            and all(kind in KINDS[edition] and good(kind, body) and must in (0, 1) for _, kind, must, body in settings))


def write(edition, key, rows, pool, out):
    """The number, the total, and what the output holds."""
    if len(key) != 16:
        return 1, 0, out
    settings = settings_of(rows, pool)
    if settings is None or not listed(edition, settings):
        return 24, 0, out
    total = 24 + 12 * len(settings) + len(pool)
    if len(out) < total:
        return 25, 0, out
    return 0, total, bundle(key, edition, settings) + out[total:]


def flat(settings):
    return [n for id_, kind, must, body in settings for n in (id_, kind, must, len(body))], b"".join(s[3] for s in settings)


# ---- bundles made, damaged and forged

class Maker:
    def __init__(self, seed):
        self.chance = random.Random(seed)
        self.r = self.chance.randbytes

    def body(self, kind):
        c = self.chance
        return {0: lambda: bytes([c.randrange(2)]), 1: lambda: self.r(8), 2: lambda: self.r(c.choice([0, 0, 1, 5, 20, 255]))}.get(kind, lambda: self.r(c.randrange(9)))()

    def settings(self, edition, most=6, strange=0.0):
        """A list of the edition; with `strange` some kinds that it does not have."""
        c = self.chance
        ids = sorted(c.sample(range(12), c.randrange(most + 1)))
        ids = [c.choice([i, i, i * 2 ** 28 + 5]) for i in ids]
        made = []
        for id_ in sorted(set(ids)):
            kind = c.choice([3, 7, 255]) if c.random() < strange else c.choice(sorted(KINDS[edition]))
            made.append((id_, kind, c.randrange(2), self.body(kind)))
        return made

    def forged(self, b, key):
        """One thing of the bytes changed, and the tag made good again: so 22 and 23 are reached."""
        c = self.chance
        m = bytearray(b[:-16])
        for _ in range(c.choice([1, 1, 1, 2])):
            how = c.randrange(6)
            if how == 0 and len(m) > 8:
                m[c.randrange(len(m))] ^= 1 << c.randrange(8)
            elif how == 1:
                m[c.randrange(8)] = c.choice([0, 1, 2, 3, 255])
            elif how == 2 and len(m) >= 20:
                i = 8 + 12 * c.randrange(max(1, min(int.from_bytes(m[2:4], "big"), (len(m) - 8) // 12)))
                m[min(i + c.choice([3, 7, 9, 10, 11]), len(m) - 1)] = c.choice([0, 1, 2, 3, 7, 8, 255])
            elif how == 3:
                m += self.r(c.randrange(1, 3))
            elif how == 4 and len(m) > 9:
                del m[-1]
            elif how == 5:
                struct.pack_into(">H", m, 0, c.choice([0, 1, 2, 3, 65535]))
        if c.random() < 0.9:
            struct.pack_into(">I", m, 4, len(m) + 16)
        return bytes(m) + tag(key, bytes(m))

    def ids(self, settings):
        return sorted({s[0] for s in settings} | {0, 2 ** 32 - 1, self.chance.randrange(14)})


def every_byte(b, key):
    """Every single byte before the tag changed, the tag made good again, and every byte of the tag changed."""
    for i in range(len(b)):
        for x in sorted({b[i] ^ 1, (b[i] + 1) % 256, 0, 255, 2, 3} - {b[i]}):
            changed = b[:i] + bytes([x]) + b[i + 1:]
            yield changed
            if i < len(b) - 16:
                yield changed[:-16] + tag(key, changed[:-16])


def one_thing_wrong(m, key):
    """Bundles with good tags that break one sentence of the request each, and some that break two, so that the order shows."""
    flag, number, text, nothing = (1, 0, 0, b"\1"), (4, 1, 1, m.r(8)), (6, 2, 1, b"hello"), (9, 2, 0, b"")

    def again(b, *changes):
        """Bytes put at places, the total made right, and the tag."""
        x = bytearray(b[:-16])
        for at, new in changes:
            x[at:at + len(new)] = new
        struct.pack_into(">I", x, 4, len(x) + 16)
        return bytes(x) + tag(key, bytes(x))

    lists = [flag, flag], [number, flag], [flag, number, (4, 0, 0, b"\0")], [(1, 0, 2, b"\1")], [(1, 0, 255, b"\0"), number], [(1, 0, 0, b"\2")], [(1, 0, 0, b"")], \
        [(1, 0, 1, b"\1\0")], [(1, 1, 0, m.r(7))], [(1, 1, 1, m.r(9))], [(1, 2, 0, m.r(256))], [(1, 3, 0, b"x")], [(1, 3, 1, b"x")], [flag, number, text, nothing], [text], [nothing]
    for settings in lists:
        for edition in 0, 1, 2, 3, 65535:
            yield bundle(key, edition, settings)
    b = bundle(key, 2, [flag, number, text, nothing])
    for i in range(4):
        for off in 1, -1, 256:
            at = 8 + 12 * i + 4
            yield again(b, (at, (int.from_bytes(b[at:at + 4], "big") + off).to_bytes(4, "big")))
        for off in 1, -1:
            at = 8 + 12 * i + 8
            yield again(b, (at, ((int.from_bytes(b[at:at + 2], "big") + off) % 65536).to_bytes(2, "big")))
    for extra in b"\0", b"\0\0":
        yield again(b[:-16] + extra + bytes(16))
    yield again(b[:-17] + bytes(16))
    for n in 0, 3, 5, 257, 65535:
        yield again(b, (2, n.to_bytes(2, "big")))
    # 22 with 23, 21 with 22, 20 with 21
    strange = bundle(key, 3, [(1, 9, 1, b"?"), (5, 0, 0, b"\2")])
    yield strange
    yield again(strange[:-16] + b"\0" + bytes(16))
    for c in b, strange:
        yield c[:-1] + bytes([c[-1] ^ 1])
        yield again(c, (0, b"\0\0"))[:-1] + b"\0"
        yield c[:-1]
        yield c + b"\0"


# ---- cases for replay

def text(b):
    return b.hex()


TOLD = "number=%x state=%x id_told=%x kind=%x at=%x len=%x"


def case_ask(reader, key, b, id_):
    code, entries = read(reader, key, b)
    return ("bundle_ask reader=%x key=%s bundle=%s id=%x " + TOLD) % (reader, text(key), text(b), id_, code, *look(reader, entries, id_))


def case_open(reader, key, b):
    code, _, count, size = opened(reader, key, b)
    return "bundle_open reader=%x key=%s bundle=%s number=%x count=%x size=%x" % (reader, text(key), text(b), code, count, size)


def usable(seen, b):
    code, _, count, size = seen
    return code == 0 and size == len(b) and 8 + 12 * count <= len(b)


def rows_seen(seen, b):
    return [struct.unpack_from(">IIHBB", b, 8 + 12 * i) for i in range(seen[2])] if usable(seen, b) else None


def case_look(seen, b, id_):
    t = look(seen[1], rows_seen(seen, b), id_)
    return ("bundle_look code=%x reader=%x count=%x size=%x bundle=%s id=%x " + TOLD) % (*seen, text(b), id_, 0, *t)


def case_entry(seen, b, i):
    t = entry(seen[1], rows_seen(seen, b), i)
    return ("bundle_entry code=%x reader=%x count=%x size=%x bundle=%s id=%x " + TOLD) % (*seen, text(b), i, 0, *t)


def case_write(edition, key, rows, pool, out):
    code, total, left = write(edition, key, rows, pool, out)
    return "bundle_write edition=%x key=%s rows=%s pool=%s lent=%s number=%x total=%x left=%s" % (
        edition, text(key), "".join("%08x" % n for n in rows), text(pool), text(out), code, total, text(left))


def wrong_rows(m, edition, settings):
    """Lists that are none of the edition: one thing wrong in each."""
    rows, pool = flat(settings)
    if rows:
        i = 4 * m.chance.randrange(len(settings))
        for at, n in (i, 2 ** 32 - 1), (i + 1, 2), (i + 1, 3), (i + 1, 256), (i + 2, 2), (i + 2, 2 ** 32 - 1), (i + 3, rows[i + 3] + 1), (i + 3, 2 ** 32 - 1):
            yield rows[:at] + [n] + rows[at + 1:], pool
        yield rows[:-1], pool
        yield rows + [1], pool
        yield rows, pool + b"\0"
        yield rows, pool[:-1]
        yield rows[:4] + rows, settings[0][3] + pool
        yield rows[4:] + rows[:4], pool[rows[3]:] + pool[:rows[3]]


def cases():
    m = Maker(SEED)
    r, c = m.r, m.chance
    yield "## Bundles written"
    for _ in range(60):
        for edition in 1, 2:
            key, settings = r(16), m.settings(edition, most=4)
            rows, pool = flat(settings)
            if len(pool) > 300:
                continue
            total = 24 + 12 * len(settings) + len(pool)
            for room in total, total + c.choice([0, 1, 7]), total - 1:
                yield case_write(edition, key, rows, pool, r(room))
            yield case_write(3 - edition, key, rows, pool, r(total))
    for edition in 1, 2:
        key, settings = r(16), [(1, 0, 1, b"\1"), (7, 1, 0, r(8)), (9, edition, 0, b"text" if edition == 2 else r(8))]
        for rows, pool in wrong_rows(m, edition, settings):
            yield case_write(edition, key, rows, pool, r(200))
        rows, pool = flat(settings)
        for n in 0, 15, 17:
            yield case_write(edition, r(n), rows[:-1], pool, r(10))
        yield case_write(edition, key, rows[:-1], pool, r(10))
    yield "## Bundles of both editions, asked by both readers"
    for _ in range(40):
        for edition in 1, 2:
            key, settings = r(16), m.settings(edition, most=4)
            b = bundle(key, edition, settings)
            if len(b) > 480:
                continue
            for reader in 1, 2:
                for id_ in m.ids(settings):
                    yield case_ask(reader, key, b, id_)
    yield "## Bundles of later editions"
    for edition in 3, 4, 65535:
        for _ in range(12):
            key, settings = r(16), m.settings(2, most=4, strange=0.4)
            b = bundle(key, edition, settings)
            if len(b) > 480:
                continue
            for reader in 1, 2:
                for id_ in m.ids(settings):
                    yield case_ask(reader, key, b, id_)
    yield "## Bundles forged: one thing changed, and the tag made good again"
    for _ in range(400):
        key, edition = r(16), c.choice([1, 2])
        b = m.forged(bundle(key, edition, m.settings(edition, most=3)), key)
        if len(b) > 480:
            continue
        for reader in 1, 2:
            yield case_ask(reader, key, b, c.choice([0, 1, 2, 5, 9]))
    yield "## One byte changed, each of a bundle of three settings"
    key = r(16)
    b = bundle(key, 2, [(1, 0, 0, b"\1"), (4, 2, 1, b"hi"), (6, 2, 0, b"")])
    for changed in every_byte(b, key):
        yield case_ask(c.choice([1, 2]), key, changed, c.choice([1, 4, 6]))
    yield "## Bundles that break one sentence of the request, or two"
    for wrong in one_thing_wrong(m, key):
        if len(wrong) <= 480:
            for reader in 1, 2:
                yield case_ask(reader, key, wrong, c.choice([1, 4, 6, 9]))
    yield "## Refusals in their order"
    for n in 0, 15, 16, 17:
        for size in 0, 1, 23, 24, len(b) - 1, len(b), len(b) + 1:
            for reader in 1, 2:
                yield case_ask(reader, r(n) if n != 16 else key, (b + bytes(10))[:size], 1)
    yield "## Bundles looked through once, and then asked"
    for _ in range(25):
        key, edition = r(16), c.choice([1, 2, 2, 3])
        settings = m.settings(min(edition, 2), most=4, strange=0.2 if edition > 2 else 0)
        b = bundle(key, edition, settings)
        if len(b) > 480:
            continue
        for reader in 1, 2:
            yield case_open(reader, key, b)
            yield case_open(reader, r(16), b)
            seen = opened(reader, key, b)
            for id_ in m.ids(settings):
                yield case_look(seen, b, id_)
            for i in range(len(settings) + 2):
                yield case_entry(seen, b, i)
            yield case_look(seen, b + b"\0", 1)
            for code in 1, 20, 21, 22, 23:
                yield case_look((code, reader, len(settings), len(b)), b, m.ids(settings)[0])
            yield case_look((0, reader, 2 ** 32 - 1, len(b)), b, 1)
            yield case_entry((0, reader, len(b) // 12, len(b)), b, 0)
            yield case_entry(seen, b, 2 ** 32 - 1)


# ---- the model, checked against itself

def checked():
    m, n = Maker(SEED + 1), 0
    for _ in range(600):
        key, edition = m.r(16), m.chance.choice([1, 2])
        settings = m.settings(edition)
        rows, pool = flat(settings)
        code, total, out = write(edition, key, rows, pool, b"\xaa" * 70000)
        assert code == 0 and out[total:] == b"\xaa" * (70000 - total)
        b = out[:total]
        for reader in range(edition, 3):
            code, entries = read(reader, key, b)
            assert code == 0 and [(e[0], e[3], e[4], b[e[1]:e[1] + e[2]]) for e in entries] == settings
            n += 1
        for b in b, m.forged(b, key), m.forged(bundle(key, 3, m.settings(2, strange=0.3)), key):
            (old, old_entries), (new, new_entries) = read(1, key, b), read(2, key, b)
            assert new != 0 or old in (0, 23)
            assert struct.unpack(">H", b[:2])[0] > 1 or old == new
            for id_ in range(14):
                one, two = look(1, old_entries, id_), look(2, new_entries, id_)
                assert VALUE not in (one[0], two[0]) or one == two or one[0] != two[0]
                assert REFUSED in (one[0], two[0]) or (one[0] == ABSENT) == (two[0] == ABSENT)
                n += 1
    return n


# ---- the library, through its C names

u32 = ctypes.c_uint32


class Told(ctypes.Structure):
    _fields_ = [(n, u32) for n in ("state", "id", "kind", "at", "len")]

    def all(self):
        return tuple(getattr(self, n) for n, _ in self._fields_)


class Opened(ctypes.Structure):
    _fields_ = [(n, u32) for n in ("code", "reader", "count", "size")]


class Asked(ctypes.Structure):
    _fields_ = [("code", u32), ("told", Told)]


class Written(ctypes.Structure):
    _fields_ = [("code", u32), ("total", u32)]


def lent(b):
    return (ctypes.c_uint8 * max(1, len(b))).from_buffer_copy(b or b"\0"), ctypes.c_size_t(len(b))


class Library:
    def __init__(self, file):
        self.c = ctypes.CDLL(file)
        for edition in 1, 2:
            getattr(self.c, "gift_bundle_ask_%d" % edition).restype = Asked
            getattr(self.c, "gift_bundle_open_%d" % edition).restype = Opened
            getattr(self.c, "gift_bundle_write_%d" % edition).restype = Written
        self.c.gift_bundle_look.restype = self.c.gift_bundle_entry.restype = Told

    def ask(self, reader, key, b, id_):
        a = getattr(self.c, "gift_bundle_ask_%d" % reader)(*lent(key), *lent(b), u32(id_))
        return a.code, a.told.all()

    def open(self, reader, key, b):
        return getattr(self.c, "gift_bundle_open_%d" % reader)(*lent(key), *lent(b))

    def look(self, seen, b, id_):
        return self.c.gift_bundle_look(seen, *lent(b), u32(id_)).all()

    def entry(self, seen, b, i):
        return self.c.gift_bundle_entry(seen, *lent(b), u32(i)).all()

    def write(self, edition, key, rows, pool, out):
        held = lent(out)
        w = getattr(self.c, "gift_bundle_write_%d" % edition)(*lent(key), (u32 * max(1, len(rows)))(*rows), ctypes.c_size_t(len(rows)), *lent(pool), *held)
        return w.code, w.total, bytes(held[0])[:len(out)]


def held_to_model(file):
    lib, m = Library(file), Maker(SEED + 2)
    r, c = m.r, m.chance
    counts, codes = {}, {}

    def count(what, given, wanted):
        counts[what] = counts.get(what, 0) + 1
        if given != wanted:
            sys.exit("bundle_model: different, %s %d: %s, not %s" % (what, counts[what], str(given)[:300], str(wanted)[:300]))

    def asked(what, key, b, ids):
        for reader in 1, 2:
            code, entries = read(reader, key, b)
            codes["read %d" % code] = codes.get("read %d" % code, 0) + 1
            seen = lib.open(reader, key, b)
            count(what, (seen.code, seen.reader, seen.count, seen.size), (code, reader, len(entries), len(b)) if code == 0 else (code, reader, 0, 0))
            for id_ in ids:
                count(what, lib.ask(reader, key, b, id_), (code, look(reader, entries, id_)))
                count(what, lib.look(seen, b, id_), look(reader, entries, id_))
            for i in range((len(entries) if entries else 0) + 2):
                count(what, lib.entry(seen, b, i), entry(reader, entries, i))

    def wrote(what, edition, key, rows, pool, out):
        wanted = write(edition, key, rows, pool, out)
        codes["write %d" % wanted[0]] = codes.get("write %d" % wanted[0], 0) + 1
        count(what, lib.write(edition, key, rows, pool, out), wanted)
        return wanted

    for _ in range(1500):
        edition = c.choice([1, 2])
        key, settings = r(16), m.settings(edition)
        rows, pool = flat(settings)
        total = 24 + 12 * len(settings) + len(pool)
        for room in total, total + c.randrange(40), total - 1, c.randrange(total):
            wrote("lists written", edition, key, rows, pool, r(room))
        wrote("lists written", 3 - edition, key, rows, pool, r(total))
        b = bundle(key, edition, settings)
        asked("bundles asked", key, b, m.ids(settings))
        asked("bundles forged", key, m.forged(b, key), m.ids(settings)[:3])
        later = m.settings(2, strange=0.3)
        b = bundle(key, c.choice([3, 3, 9, 65535]), later)
        asked("later editions", key, b, m.ids(later))
        asked("bundles forged", key, m.forged(b, key), m.ids(later)[:3])
    for edition in 1, 2, 3:
        for _ in range(3):
            key, settings = r(16), m.settings(min(edition, 2), most=4, strange=0.2 if edition > 2 else 0)
            for changed in every_byte(bundle(key, edition, settings), key):
                asked("one byte changed", key, changed, m.ids(settings)[:2])
    for edition in 1, 2:
        for _ in range(300):
            settings = m.settings(edition)
            for rows, pool in wrong_rows(m, edition, settings):
                wrote("wrong lists", edition, r(c.choice([16, 16, 15])), rows, pool, r(400))
    for _ in range(5):
        key = r(16)
        for wrong in one_thing_wrong(m, key):
            asked("one thing wrong", key, wrong, [1, 4, 6, 9])
    # sizes: 0, 255, 256 and 257 settings; edition 1's largest, 5,144 bytes; 65,536 bytes and one more
    key = r(16)
    for n in 0, 1, 255, 256, 257:
        for edition in 1, 2:
            settings = [(3 * i, 1, i % 2, r(8)) for i in range(n)]
            rows, pool = flat(settings)
            code, total, out = wrote("large lists", edition, key, rows, pool, bytes(6000))
            if n == 256:
                assert total == 5144
            if code == 0:
                asked("large bundles", key, out[:total], [0, 3, 4, 3 * 255, 3 * 256])
    for extra in 0, 1:
        # 256 texts: 256 * 12 + 24 = 3,096 bytes, and 62,440 of text, or one more
        sizes = [243] * 255
        sizes.append(62440 + extra - sum(sizes))
        settings = [(i * 16777215 + 1, 2, 0, r(n)) for i, n in enumerate(sizes)] if max(sizes) <= 255 else None
        if settings is None:
            sizes = [244] * 256
            short = sum(sizes) - 62440 - extra
            for i in range(abs(short)):
                sizes[i] += -1 if short > 0 else 1
            settings = [(i * 16777215 + 1, 2, 0, r(n)) for i, n in enumerate(sizes)]
        rows, pool = flat(settings)
        assert 3096 + len(pool) == 65536 + extra
        code, total, out = wrote("large lists", 2, key, rows, pool, r(65540))
        assert (code, total) == ((0, 65536) if extra == 0 else (24, 0))
        if extra == 0:
            wrote("large lists", 2, key, rows, pool, r(65535))
            asked("large bundles", key, out[:total], [1, 2, settings[-1][0]])
            asked("large bundles", key, out[:65535], [1])
            asked("large bundles", key, out[:65537], [1])
    # n = 65,535 in small bundles, and headers of every sort
    for n in 0, 1, 2, 255, 256, 257, 5461, 5462, 65535:
        for size in 0, 1, 12, 13, 24, 60:
            for edition in 0, 1, 2, 3, 65535:
                message = struct.pack(">HHI", edition, n, 24 + size) + r(size)
                asked("headers", key, message + tag(key, message), [0])
    for n in 0, 15, 17:
        for b in b"", r(23), r(24), bundle(key, 1, []):
            asked("keys refused", r(n), b, [0])
    # handles that no call made
    b = bundle(key, 2, [(1, 0, 0, b"\1"), (2, 2, 1, b"x")])
    for _ in range(2000):
        seen = (c.choice([0, 0, 0, 21]), c.choice([0, 1, 2, 3, 2 ** 32 - 1]), c.choice([0, 1, 2, 3, 4, 5, 6, 2 ** 32 - 1]), c.choice([len(b), len(b), len(b), 0, len(b) + 1]))
        reader = min(seen[1], 2)
        rows = rows_seen(seen, b)
        KINDS[0] = set()
        count("handles", lib.look(Opened(*seen), b, 1), look(reader, rows, 1))
        count("handles", lib.entry(Opened(*seen), b, 1), entry(reader, rows, 1))
    print(", ".join("%s %d" % item for item in counts.items()))
    print("numbers met: " + ", ".join("%s %d times" % item for item in sorted(codes.items())))
    print("%d answers equal, 0 different" % sum(counts.values()))


def main():
    if sys.argv[1:] == ["--store"]:
        store(FIRST, cases())
    elif sys.argv[1:2] == ["--library"] and len(sys.argv) == 3:
        held_to_model(sys.argv[2])
    else:
        print("%d answers of bundles that were written, forged or of a later edition are as the request wants them" % checked())


if __name__ == "__main__":
    main()
