#!/usr/bin/env python3
"""The bench of document 01, written from that page alone over the cipher of cipher_model.py; it makes the calls of the bench that replay replays.

    oracle/bench_model.py

writes its part of crates/replay/stdin, the calls with what must come of each, and crates/replay/stdout anew. A lane keeps the published state after 5t
rounds done or undone, and never a fixsliced word. The list of calls depends on fixed seeds alone, and on how many lanes a bench has.

    oracle/bench_model.py --wrong

prints cases that are all wrong, each by one digit: in each field of each record after each call, and in each field that the call gives.
README.md beside this file says how a case is written.
"""
import collections
import random
import sys

from cipher_model import block, number, packed, round_done, round_undone, rounds_of
from stored import store

LANES = 16
SEED = 128
CALLS = 3019
BIG = 2 ** 32 - 1
IDLE, RUNNING, FINISHED = range(3)
GUESTS = [1, 2, 7, 255, 256, 512, 519, 65535]  # 519 and 7 are alike in their low byte
ORDERS = {"open_lane": [0, 10, 5, 6, 11, 9, 13, 1, 2], "turn": [0, 10, 8], "take": [0, 10, 5, 11, 7, 2], "close": [0, 10, 5, 11]}
FIRST = "# Calls of the bench by value, made by 'oracle/bench_model.py' from document 01."


# ---- the bench

class Lane:
    """One record. Its words are those of a key, or, in a lane that is never served, any words at all."""

    def __init__(self):
        self.idle()

    def idle(self):
        """What a take or a close leaves: nothing (2026-01). The words of the key of zeros are zeros."""
        self.key, self.words = bytes(16), None
        self.phase = self.direction = self.owner = self.count = self.order = self.block = 0

    def sound(self):
        if self.phase == IDLE:
            return self.idle_sound()
        counts = {RUNNING: range(8), FINISHED: [8]}
        return self.count in counts.get(self.phase, []) and self.direction in (0, 1) and self.order in (0, 1) and self.owner != 0

    def idle_sound(self):
        """What document 02 asks of a record whose phase is idle (2026-01): that everything in it is zero. This is the one place that says it."""
        return not any([self.direction, self.owner, self.count, self.order, self.block, *(self.key if self.words is None else self.words)])

    def admits(self, caller):
        """Who may take from it and close it: anyone if it is idle, its owner if it is busy (2026-06)."""
        return self.phase == IDLE or self.owner == caller

    def serve(self):
        masks = rounds_of(self.key)
        for r in range(5 * self.count, 5 * self.count + 5):
            if self.direction == 0:
                self.block = round_done(self.block, masks[r])
            else:
                self.block = round_undone(self.block, masks[39 - r])
        self.count += 1
        if self.count == 8:
            self.phase = FINISHED

    def fields(self):
        """The record as a case tells it: what is zero is left out."""
        if self.words is not None:
            words = "words", "".join("%08x" % w for w in self.words)
        else:
            words = "key", self.key.hex()
        state = "".join("%08x" % w for w in packed(self.block))
        every = [("phase", "%x" % self.phase), ("direction", "%x" % self.direction), ("owner", "%x" % self.owner), ("count", "%x" % self.count), ("order", "%x" % self.order), words, ("state", state)]
        return {name: digits for name, digits in every if digits.strip("0")}


def first(lines):
    """The first number of an order whose line holds, and 0 if none does."""
    for code, holds in lines:
        if holds():
            return code
    return 0


class Bench:
    def __init__(self):
        self.lanes = [Lane() for _ in range(LANES)]
        self.last = LANES - 1

    def unsound(self):
        return self.last >= LANES or not all(l.sound() for l in self.lanes)

    def open(self, lane, owner, direction, order, key, block):
        code = first([
            (10, self.unsound),
            (5, lambda: lane >= LANES),
            (6, lambda: self.lanes[lane].phase != IDLE),
            (11, lambda: owner == 0),
            (9, lambda: direction not in (0, 1)),
            (13, lambda: order not in (0, 1)),
            (1, lambda: len(key) != 16),
            (2, lambda: len(block) != 16),
        ])
        if code == 0:
            l = self.lanes[lane]
            l.key, l.words, l.block = key, None, number(block, order)
            l.direction, l.owner, l.count, l.order, l.phase = direction, owner, 0, order, RUNNING
        return code

    def turn(self, asked):
        code = first([(10, self.unsound), (8, lambda: asked > 1024)])
        made = 0
        while code == 0 and made < asked:
            order = [(self.last + d) % LANES for d in range(1, LANES + 1)]
            running = [n for n in order if self.lanes[n].phase == RUNNING]
            if not running:
                break
            self.lanes[running[0]].serve()
            self.last = running[0]
            made += 1
        return code, made

    def take(self, lane, caller, buffer):
        code = first([
            (10, self.unsound),
            (5, lambda: lane >= LANES),
            (11, lambda: not self.lanes[lane].admits(caller)),
            (7, lambda: self.lanes[lane].phase != FINISHED),
            (2, lambda: len(buffer) != 16),
        ])
        if code == 0:
            buffer = block(self.lanes[lane].block, self.lanes[lane].order)
            self.lanes[lane].idle()
        return code, buffer

    def close(self, lane, caller):
        code = first([(10, self.unsound), (5, lambda: lane >= LANES), (11, lambda: not self.lanes[lane].admits(caller))])
        if code == 0:
            self.lanes[lane].idle()
        return code


# ---- the calls, written down

def line(call, fields):
    return " ".join([call, *("%s=%s" % (name, digits if digits else "-") for name, digits in fields.items())])


def record(n, fields):
    return line("record", {"lane": "%x" % n, **fields})


class Script:
    def __init__(self):
        self.random = random.Random(SEED)
        self.pool = [bytes(17), bytes([255] * 17), bytes(range(17))]
        while len(self.pool) < 64:
            self.pool.append(bytes(self.random.randrange(256) for _ in range(17)))
        self.lines = []
        self.cases = {}
        self.kinds = collections.Counter()
        self.both = collections.Counter()
        self.bench = Bench()
        self.told, self.last = [None] * LANES, None

    def heading(self, text):
        self.lines.append("## Bench: " + text)

    def write(self, call, fields, code=None, made=0, left=None):
        """A call with what it gives, after the records that are not as they were told before."""
        before, self.told = self.told, [l.fields() for l in self.bench.lanes]
        gives = {} if code is None else {"number": "%x" % code, "made": "%x" % made}
        gives["last"] = "%x" % self.bench.last
        if left is not None:
            gives["left"] = left.hex()
        for n in range(LANES):
            if before[n] != self.told[n]:
                self.lines.append(record(n, self.told[n]))
        self.lines.append(line(call, {**fields, **gives}))
        if code is not None and None not in before:
            plain = all("words" not in told for told in self.told)
            self.cases.setdefault((call, code, plain), (before, self.last, self.told, fields, gives))
        self.last = self.bench.last
        self.kinds[call] += 1
        self.both[call, code] += 1
        return code

    def calls(self):
        return sum(self.kinds.values()) - self.kinds["put"]

    def some(self, length):
        return self.pool[self.random.randrange(len(self.pool))][:length]

    def fresh(self):
        self.bench = Bench()
        self.write("fresh", {}, 0)

    def owner_of(self, lane):
        """The lane's owner, or where it has none some guest."""
        held = self.bench.lanes[lane].owner if lane < LANES else 0
        return held or self.random.choice(GUESTS)

    def open(self, lane, direction=0, key=16, block=16, owner=None, order=0):
        key, block, owner = self.some(key), self.some(block), self.random.choice(GUESTS) if owner is None else owner
        fields = {"lane": "%x" % lane, "owner": "%x" % owner, "direction": "%x" % direction, **({"order": "%x" % order} if order else {}), "key": key.hex(), "block": block.hex()}
        return self.write("open_lane", fields, self.bench.open(lane, owner, direction, order, key, block))

    def turn(self, asked):
        code, made = self.bench.turn(asked)
        self.write("turn", {"asked": "%x" % asked}, code, made)
        return code, made

    def take(self, lane, length=16, caller=None):
        buffer, caller = self.some(length), self.owner_of(lane) if caller is None else caller
        code, after = self.bench.take(lane, caller, buffer)
        return self.write("take", {"lane": "%x" % lane, "owner": "%x" % caller, "lent": buffer.hex()}, code, left=after)

    def close(self, lane, caller=None):
        caller = self.owner_of(lane) if caller is None else caller
        return self.write("close", {"lane": "%x" % lane, "owner": "%x" % caller}, self.bench.close(lane, caller))

    def put(self, records, last, lane, wrong=None):
        """The host's records, each with a phase, a direction and a count; every lane keeps its words, and all but one its state. A record that is to be
        sound, and is not, is an idle one in its place."""
        state = number(self.some(16))
        self.bench.last = last
        for n, (l, record) in enumerate(zip(self.bench.lanes, records)):
            l.phase, l.direction, l.count = record
            l.owner = 0 if l.phase == IDLE else self.random.choice(GUESTS)
            if n == lane:
                l.block = state
            if n != wrong and not l.sound():
                self.bench.lanes[n] = Lane()
        self.write("put", {})

    # ---- one call by chance: good ones mostly, and every limit now and then

    def any_lane(self, phase=None):
        r = self.random
        if r.random() < 0.08:
            return r.choice([LANES, LANES + 1, 255, 256, 257, 2 ** 31, BIG])
        wanted = [n for n in range(LANES) if self.bench.lanes[n].phase == phase]
        if wanted and r.random() < 0.75:
            return r.choice(wanted)
        return r.randrange(LANES)

    def any_length(self):
        return 16 if self.random.random() < 0.85 else self.random.choice([0, 15, 17])

    def any_call(self, orders=False):
        """Openings are in order 0, or in any."""
        r = self.random
        kind = r.choices(["open", "turn", "take", "close"], [35, 30, 27, 8])[0]
        stranger = r.choice([0, *GUESTS]) if r.random() < 0.12 else None
        if kind == "open":
            direction = r.choice([0, 1]) if r.random() < 0.88 else r.choice([2, 3, 256, 257, BIG])
            order = 0 if not orders else r.choice([0, 1, 1]) if r.random() < 0.88 else r.choice([2, 3, 256, 257, 65536, 65537, BIG])
            self.open(self.any_lane(IDLE), direction, self.any_length(), self.any_length(), stranger, order)
        elif kind == "turn":
            self.turn(r.choice([0, 1, 1, 2, 3, 3, 7, 7, 8, 8, 15, 31, 32, 8 * LANES - 1, 8 * LANES, 100, 1023, 1024, 1025, 1026, 65536, 2 ** 31, BIG]))
        elif kind == "take":
            length = 16 if r.random() < 0.8 else r.choice([0, 15, 17])
            self.take(self.any_lane(FINISHED), length, stranger)
        else:
            self.close(self.any_lane(), stranger)

    # ---- the parts of the list

    def small_facts(self):
        self.heading("document 01's small facts")
        phases = lambda: [l.phase for l in self.bench.lanes]
        whole = 8 * LANES
        self.fresh()
        assert [self.open(n, n % 2) for n in range(LANES)] == [0] * LANES
        assert self.turn(whole - 1) == (0, whole - 1) and phases() == [FINISHED] * (LANES - 1) + [RUNNING]
        assert self.turn(1) == (0, 1) and phases() == [FINISHED] * LANES
        assert [self.take(n) for n in range(LANES)] == [0] * LANES
        self.fresh()
        assert [self.open(n) for n in range(LANES)] == [0] * LANES
        assert self.turn(whole) == (0, whole) and phases() == [FINISHED] * LANES
        self.fresh()
        assert self.open(2) == 0
        assert self.turn(100) == (0, 8) and self.take(2) == 0
        self.fresh()
        assert self.turn(1024) == (0, 0) and self.turn(1025) == (8, 0)
        assert self.open(0, block=15) == 2 and self.open(0, block=17) == 2
        assert self.open(LANES - 1) == 0 and self.open(LANES) == 5 and self.take(LANES) == 5 and self.close(LANES) == 5 and self.close(LANES - 1) == 0
        for last, code in (LANES - 1, 0), (LANES, 10):
            self.bench.last = last
            self.write("put", {})
            assert self.turn(1)[0] == self.close(0) == code
        self.fresh()

    def any_record(self):
        r = self.random
        phase = r.choice([IDLE, RUNNING, FINISHED])
        return phase, r.randrange(2), {IDLE: 0, RUNNING: r.randrange(8), FINISHED: 8}[phase]

    def unsound_benches(self):
        """One thing wrong in a bench that is else sound, of every kind and in every lane: every call gives 10."""
        self.heading("a record or the lane last served not sound, put by the host")
        wrong = [(p, 0, c) for p in (3, 4, 255) for c in (0, 1, 8)]
        wrong += [(IDLE, 0, 1), (IDLE, 1, 8), (IDLE, 0, 255)]
        wrong += [(RUNNING, 0, 8), (RUNNING, 1, 9), (RUNNING, 0, 255)]
        wrong += [(FINISHED, 0, 0), (FINISHED, 1, 7), (FINISHED, 0, 9), (FINISHED, 0, 255)]
        wrong += [(p, d, {IDLE: 0, RUNNING: 4, FINISHED: 8}[p]) for p in (IDLE, RUNNING, FINISHED) for d in (2, 255)]
        benches = [(n, record, self.random.randrange(LANES)) for n, record in enumerate(wrong)]
        benches += [(None, None, last) for last in (LANES, LANES + 1, 255, 256, 2 ** 31, BIG)]
        for n, record, last in benches:
            records = [self.any_record() for _ in range(LANES)]
            if record:
                records[n % LANES] = record
            self.put(records, last, self.random.randrange(LANES), None if record is None else n % LANES)
            given = [self.open(self.any_lane(IDLE)), self.open(LANES + 5, 9, 15, 15)]
            given += [self.turn(self.random.choice([0, 1, 32]))[0], self.turn(1025)[0]]
            given += [self.take(self.any_lane(FINISHED)), self.take(BIG, 17), self.close(self.any_lane()), self.close(n or 0)]
            assert given == [10] * 8
        self.fresh()

    def sound_benches(self):
        """Sound records that no call made: idle, running at every count with any state, finished."""
        self.heading("sound records that no call made, put by the host")
        for n in range(40):
            if n % 4 == 0:
                self.fresh()
                for lane in range(LANES):
                    self.open(lane, self.random.randrange(2))
            records = [self.any_record() for _ in range(LANES)]
            records[n % LANES] = (RUNNING, n // 8 % 2, n % 8)
            self.put(records, self.random.randrange(LANES), n % LANES)
            for _ in range(6):
                self.any_call()
            self.turn(8 * LANES)
            self.take(n % LANES)
        self.fresh()

    def by_chance(self):
        self.heading("calls by chance, good ones and every refusal")
        left = 0
        while self.calls() < CALLS:
            if left == 0:
                self.fresh()
                left = self.random.choice([5, 20, 60, 120])
            self.any_call()
            left -= 1

    def wide_counts(self):
        """Counts that are sound but for their higher bytes: every call gives 10."""
        self.heading("a count of more than eight bits not sound, put by the host")
        for n, record in enumerate([(IDLE, 0, 256), (RUNNING, 0, 256), (RUNNING, 1, 263), (FINISHED, 0, 264), (FINISHED, 1, 8 << 8), (RUNNING, 0, 65535), (RUNNING, 0, 32771), (FINISHED, 0, 8 << 12), (RUNNING, 1, 65535)]):
            records = [self.any_record() for _ in range(LANES)]
            records[n % LANES] = record
            self.put(records, n % LANES, n % LANES, n % LANES)
            given = [self.open(self.any_lane(IDLE)), self.turn(1)[0], self.take(self.any_lane(FINISHED)), self.close(n % LANES)]
            assert given == [10] * 4
        self.fresh()

    def idle_records(self):
        """An idle record with one thing in it: one bit in its direction, its count, its order, a word of its state or one of the eighty, or words of no key. Every call gives 10."""
        self.heading("an idle record with one thing in it, put by the host")
        bit = lambda width: 1 << self.random.randrange(width)
        some = lambda places: [bit(32) if i in places else 0 for i in range(80)]
        changes = [("words", some([i])) for i in range(80)] + [("words", some(range(80))), ("key", self.some(16))]
        changes += [("block", 1 << 4 * self.random.randrange(32) + j) for j in range(4)] + [("direction", bit(8)), ("owner", bit(8)), ("owner", bit(8) << 8), ("count", bit(8)), ("count", bit(8) << 8), ("order", bit(16))]
        for k, change in enumerate(changes):
            n, other = k % LANES, (k + 1) % LANES
            calls = [lambda: self.turn(8)[0], lambda: self.open(n), lambda: self.close(n), lambda: self.take(other)]
            self.fresh()
            self.open(other)
            self.turn(8)
            setattr(self.bench.lanes[n], *change)
            self.write("put", {})
            assert calls[k // LANES % 4]() == 10
        self.fresh()

    def owners(self):
        """A lane idle, running and finished, and its owner, every other guest and number 0 at it; openings by number 0; a busy record whose owner is 0."""
        self.heading("lanes that belong to a guest")
        for k, owner in enumerate(GUESTS):
            n = k % LANES
            others = [g for g in [0, *GUESTS] if g != owner]
            for caller in [owner, *others]:
                assert (self.take(n, caller=caller), self.close(n, caller)) == (7, 0)
            assert self.open(n, 9, 15, 15, owner=0) == 11 and self.open(n, 9, 15, 15, owner=owner) == 9
            assert self.open(n, k % 2, owner=owner) == 0
            assert self.open(n, 9, 15, 15, owner=0) == 6
            for turns in (4, 4):
                for caller in others:
                    assert (self.take(n, 15, caller), self.take(n, caller=caller), self.close(n, caller)) == (11, 11, 11)
                assert self.take(n, 15, owner) == 7
                self.turn(turns)
            for caller in others:
                assert (self.take(n, 15, caller), self.take(n, caller=caller), self.close(n, caller)) == (11, 11, 11)
            assert self.take(n, 15, owner) == 2
            assert (self.take(n, caller=owner) if k % 2 else self.close(n, owner)) == 0
        for phase, count, owner in (IDLE, 0, 1), (IDLE, 0, 256), (RUNNING, 3, 0), (FINISHED, 8, 0):
            self.fresh()
            l = self.bench.lanes[3 % LANES]
            l.phase, l.count, l.owner = phase, count, owner
            self.write("put", {})
            assert [self.open(0), self.turn(1)[0], self.take(3 % LANES), self.close(3 % LANES)] == [10] * 4
        self.fresh()

    def wiped_lanes(self):
        """Every lane opened both ways, and taken from or closed after none, some and all of its turns: the bench is fresh again but for the lane last served."""
        self.heading("lanes wiped by a take and by a close, at every count")
        for n in range(LANES):
            for count in range(9):
                self.open(n, count % 2)
                self.turn(count)
                given = self.take(n) if count == 8 and n % 2 == 0 else self.close(n)
                assert given == 0 and all(l.sound() and l.phase == IDLE for l in self.bench.lanes)
        assert self.close(0) == 0
        self.fresh()

    def orders(self):
        """Lanes in either order side by side, each way: turns do not look at it, and a take writes by the lane's own. A number that is no order's refused after the
        direction's 9 and before the key's 1; records with one, and idle ones with order 1, not sound. Then calls by chance."""
        self.heading("lanes in both orders")
        for order in (2, 3, 255, 256, 257, 65536, 65537, 2 ** 31, BIG):
            assert [self.open(0, 2, 15, 15, order=order), self.open(0, 1, 15, 15, order=order), self.open(0, order=order)] == [9, 13, 13]
        assert [self.open(0, 1, 15, 15, order=1), self.open(0, 1, 16, 15, order=1), self.open(0, 1, 16, 15, 0, 2)] == [1, 2, 11]
        for first in (0, 1):
            assert [self.open(n, n // 2 % 2, order=(n + first) % 2) for n in range(LANES)] == [0] * LANES
            assert self.open(0, 2, 15, 15, order=2) == 6 and self.open(LANES, 2, 15, 15, 0, 2) == 5
            self.turn(8 * LANES)
            assert [self.take(n) for n in range(LANES)] == [0] * LANES
        for phase, count, order in (IDLE, 0, 1), (IDLE, 0, 256), (RUNNING, 3, 2), (RUNNING, 0, 256), (RUNNING, 7, 257), (FINISHED, 8, 2), (FINISHED, 8, 65535):
            self.fresh()
            l = self.bench.lanes[5 % LANES]
            l.phase, l.count, l.order, l.owner = phase, count, order, 0 if phase == IDLE else 7
            self.write("put", {})
            assert [self.open(0, order=order), self.turn(1)[0], self.take(5 % LANES), self.close(5 % LANES)] == [10] * 4
        for phase, count, order in (RUNNING, 0, 1), (RUNNING, 5, 1), (FINISHED, 8, 1):
            self.fresh()
            l = self.bench.lanes[5 % LANES]
            l.phase, l.count, l.order, l.owner, l.block, l.key = phase, count, order, 7, number(self.some(16)), self.some(16)
            self.write("put", {})
            assert self.turn(100) == (0, 8 - count) and self.take(5 % LANES) == 0
        self.fresh()
        self.heading("calls by chance, in both orders")
        until = self.calls() + 600
        while self.calls() < until:
            self.any_call(True)
        self.fresh()


# ---- cases that are wrong

def damaged(fields, name):
    digits = fields.get(name, "0" * {"key": 32, "words": 640, "state": 32}.get(name, 1))
    return {**fields, name: ("1" if digits[:1] in "0" else "0") + digits[1:]}


def wrong_cases(cases):
    """Of every call, every number that it gives and both ways to tell words, one case again and again, each time with one digit damaged."""
    for (call, _, plain), (before, last, after, fields, gives) in cases.items():
        tries = []
        for n, told in enumerate(after):
            words = "key" if plain or "key" in told else "words"
            tries += [(after[:n] + [damaged(told, name)] + after[n + 1:], gives) for name in ("phase", "direction", "owner", "count", "order", words, "state")]
        tries += [(after, damaged(gives, name)) for name in gives]
        for records, given in tries:
            yield from (record(n, r) for n, r in enumerate(before))
            yield "put last=%x" % last
            yield from (record(n, r) for n, r in enumerate(records))
            yield line(call, {**fields, **given})


def main():
    script = Script()
    script.small_facts()
    script.unsound_benches()
    script.sound_benches()
    script.by_chance()
    script.wide_counts()
    script.idle_records()
    script.wiped_lanes()
    script.owners()
    script.orders()
    if sys.argv[1:] == ["--wrong"]:
        print("\n".join(wrong_cases(script.cases)))
        return
    # every number of every call's order is met
    for call, order in ORDERS.items():
        print("%-9s %4d: " % (call, script.kinds[call]) + ", ".join("number %d: %d" % (n, script.both[call, n]) for n in order))
        assert all(script.both[call, n] for n in order)
    print("fresh     %4d" % script.kinds["fresh"])
    store(FIRST, script.lines)
    print("%d calls, records put by the host %d times, %d bytes" % (script.calls(), script.kinds["put"], sum(len(l.encode()) + 1 for l in script.lines)))


main()
