#!/usr/bin/env python3
"""generate.py KIND SEED CALLS: prints a random call list of about CALLS lines.

A kind is a way to draw lists; the same KIND, SEED and CALLS give the same list.
Plain random lists miss the edges of the windows and sums that differ by side,
so most kinds put one aimed scene after another, each with a state of its own.
The text is that of the program forecast; `lend` varies the number of records.

Kinds:
"""

import random
import sys

MS = 1_000_000
TOP = 2**62 - 1
WORDS = 8192
CLIENT, SERVER = "c", "s"


def other(side):
    return SERVER if side == CLIENT else CLIENT


class CallList:
    """A list of calls being written, and the random source it is drawn from."""

    def __init__(self, kind, seed):
        self.random = random.Random(f"{kind} {seed}")
        self.lines = []
        self.machines = {CLIENT: 0, SERVER: 0}
        self.lent = WORDS

    # ---- drawing

    def one_of(self, *values):
        return self.random.choice(values)

    def chance(self, share):
        return self.random.random() < share

    def below(self, n):
        return self.random.randrange(n)

    def near(self, n):
        """A number from -n to n."""
        return self.random.randrange(-n, n + 1)

    def side(self):
        return self.one_of(CLIENT, SERVER)

    def flag(self):
        return self.below(2)

    def flags(self):
        return self.flag(), self.flag(), self.flag()

    def machine(self, side):
        """A machine that the side has; 0 where it has none."""
        return self.below(self.machines[side]) if self.machines[side] else 0

    # ---- calls

    def call(self, *words):
        self.lines.append(" ".join(map(str, words)))

    def lend(self, small):
        """Lends words for the next opening: with chance `small` just a few records."""
        records = self.one_of(1, 2, 3, 5, 8, 13, 21, 34, 60) if self.chance(small) else (WORDS - 256) // 4
        words = 256 + 4 * records
        if words != self.lent:
            self.call("lend", words)
            self.lent = words

    def open(self, delay=0, rates=("-", "-"), window=10**9, actions=(0, 0), reports=(0, 0), machines=(1, 1), small=0.02):
        self.lend(small)
        self.machines = {CLIENT: machines[0], SERVER: machines[1]}
        self.call("open", delay, *rates, window, *actions, *reports, *machines)

    def push(self, kind, moment, side, flags=(0, 0, 0), delay=0, machine=0):
        self.call("push", kind, clamp(moment), delay, side, *flags, machine)

    def step(self, time, kind, moment, side, flags=(0, 0, 0), delay=0, machine=0):
        self.call("sim_network_stack", clamp(time), kind, clamp(moment), delay, side, *flags, machine)

    def pad(self, side, moment, bypass=0, replace=0, machine=0):
        self.call("set_action", side, machine, 1, clamp(moment), 0, bypass, replace)

    def block(self, side, moment, duration, bypass=0, replace=0, machine=0):
        self.call("set_action", side, machine, 2, clamp(moment), duration, bypass, replace)

    def timer(self, side, moment, machine=0):
        self.call("set_timer", side, machine, clamp(moment))

    def choose(self, now, times=1):
        for _ in range(times):
            self.call("pick_next", clamp(now))


def clamp(moment):
    return min(max(moment, 0), TOP)


# ---- plain random lists


def small(l, calls):
    """many ties, every call, few refusals"""
    offsets = [0, 0, 0, 1, 2, 3, 5, 10, 20, 50, MS - 1, MS, MS + 1, 100 * MS - 1, 100 * MS, 100 * MS + 1, 2 * MS, 300 * MS]
    narrow = l.chance(0.5)
    now = l.one_of(100, 1000, 10**9, 10**9, 10**9, TOP + 1 - 10**13)
    weights = l.one_of((30, 10, 10, 40, 20), (20, 5, 20, 40, 30), (40, 2, 4, 30, 10), (10, 10, 30, 30, 10))
    pushed = l.one_of([0, 0, 0, 1, 1, 3, 4, 5, 6, 7, 8, 9, 2], [0, 0, 0, 1, 1, 1], [0, 0, 1, 5, 2])

    def offset():
        if narrow and l.chance(0.9):
            return l.below(12)
        return l.one_of(*offsets) + (l.one_of(*offsets) if l.chance(0.3) else 0)

    def moment():
        return now + (offset() if l.chance(0.6) else -offset())

    def opening():
        rate = lambda: l.one_of("-", "-", 1, 1, 2, 3, 4, 10, 4294967295)
        plain = l.chance(0.5)
        delay = lambda: 0 if plain else l.one_of(0, 1, 5, 10, MS, 10 * MS)
        count = lambda: l.one_of(0, 1, 2, 3, 16)
        network = l.one_of(0, 0, 0, 1, 2, 5, 10, 20, MS, 10 * MS)
        window = l.one_of(0, 1, 10, 11, 100, MS, 10**9, 10**9)
        l.open(network, (rate(), rate()), window, (delay(), delay()), (delay(), delay()), (count(), count()), small=0.15)

    def slot():
        side = l.side()
        return side, l.machines[side] if l.chance(0.02) else l.machine(side)

    def event(kinds):
        side, machine = slot()
        kind = l.one_of(*kinds)
        padding, bypass, replace = l.flags()
        if kind in (0, 1) and l.chance(0.4):
            padding = 0
        return kind, moment(), side, (padding, bypass, replace), l.one_of(0, 0, 0, 1, 5, 10), machine

    opening()
    while len(l.lines) < calls:
        if l.chance(0.002):
            opening()
        which = l.random.choices(("push", "timer", "action", "choice", "step"), weights)[0]
        side, machine = slot()
        if which == "push":
            l.push(*event(pushed))
        elif which == "timer":
            if l.chance(0.85):
                l.timer(side, moment(), machine)
            else:
                l.call("clear_timer", side, machine)
        elif which == "action":
            duration = offset() if l.chance(0.8) else 0
            if l.chance(0.1):
                l.call("clear_action", side, machine)
            elif l.chance(0.33):
                l.pad(side, moment(), l.flag(), l.flag(), machine)
            else:
                l.block(side, moment(), duration, l.flag(), l.flag(), machine)
        elif which == "choice":
            if l.chance(0.3):
                now += offset()
            l.choose(now - offset() if l.chance(0.05) else now)
        else:
            kind, at, *rest = event([0, 0, 0, 0, 1, 2, 2, 2, 3, 3, 4, 7])
            l.step(at if l.chance(0.3) else moment(), kind, at, *rest)


def blocks(l, calls):
    """small lengths, bursts, blocks that end beside waiting packets"""
    wide = l.one_of(3, 6, 12)
    far = l.one_of([0], [0, 0, 0, MS], [0, 0, MS, 100 * MS], [0, 0, 0, 0, 100 * MS])
    now = 10**9
    ends = [now]

    def moment():
        start = l.one_of(now, now, l.one_of(*ends[-4:]))
        return start + l.one_of(*far) * l.one_of(1, 1, 1, -1) + l.near(wide)

    def opening():
        window = l.one_of(4, 10, 12, 20, MS, 200 * MS)
        rate = lambda: l.one_of("-", 1, 1, 2, 3) if window <= 20 else l.one_of("-", "-", 10**4, 1)
        plain = l.chance(0.7)
        delay = lambda: 0 if plain else l.one_of(0, 1, 2, 5)
        count = lambda: l.one_of(1, 2, 3)
        l.open(l.one_of(0, 1, 2, 3, 5), (rate(), rate()), window, (delay(), delay()), (delay(), delay()), (count(), count()), small=0.1)

    opening()
    while len(l.lines) < calls:
        if l.chance(0.004):
            opening()
        side = l.side()
        machine = l.machine(side)
        x = l.random.random()
        if x < 0.25:
            for _ in range(l.one_of(1, 1, 2, 3, 4)):
                l.push(0, moment(), side, l.flags(), l.one_of(0, 0, 1, 3))
        elif x < 0.35:
            l.push(1, moment(), side, l.flags(), l.one_of(0, 0, 1, 3))
        elif x < 0.40:
            l.push(l.one_of(2, 3, 4, 5, 6, 7, 8, 9), moment(), side, l.flags(), l.one_of(0, 0, 1, 3), machine)
        elif x < 0.52:
            start = now + l.below(wide)
            duration = l.below(2 * wide) if l.chance(0.8) else l.one_of(*far) + l.below(wide)
            ends.append(start + duration)
            if l.chance(0.25):
                l.pad(side, start, l.flag(), l.flag(), machine)
            else:
                l.block(side, start, duration, l.flag(), l.flag(), machine)
        elif x < 0.56:
            l.timer(side, moment(), machine)
        elif x < 0.84:
            for _ in range(l.one_of(1, 1, 2, 4)):
                l.choose(now)
                if l.chance(0.4):
                    now += l.below(wide)
            if l.chance(0.05):
                now += l.one_of(*far)
        elif x < 0.90:
            flags = (l.flag(), l.one_of(1, 1, 0), l.one_of(1, 1, 0))
            l.step(now + l.near(wide), 2, moment(), side, flags, l.one_of(0, 0, 1), machine)
        else:
            l.step(now + l.one_of(0, l.near(wide)), l.one_of(0, 0, 0, 1, 3), moment(), side, l.flags(), l.one_of(0, 0, 1, 5), machine)


# ---- aimed scenes


def raise_sums(l, first, both, **opening):
    """Sums of 2,000 for one side, or for both: the one of `first` is raised, that
    of the other waits as an aggregate. Answers the moment now."""
    start = 10**9
    l.open(1000, (1, "-"), 2000, **opening)
    # above the limit at the client: server at + 1,000, client at + 2,000; at the server: client at + 0, server at + 2,000
    for _ in range(2):
        l.step(start, 0, start, other(first), (1, 0, 0))
    now = start + 1500
    l.push(9, now, CLIENT)
    l.choose(now)
    if both:
        l.push(9, now, CLIENT)
        l.choose(now)
    return now


def windows(l, calls):
    """1 ms and 100 ms exactly and one off, sums that differ by side"""
    while len(l.lines) < calls:
        report = l.one_of(0, 0, 3)
        now = raise_sums(l, l.side(), l.chance(0.7), actions=(report, report), reports=(l.one_of(0, report), report))
        side = l.side()
        head = now + l.below(100)
        off = lambda: l.one_of(-1, 0, 0, 1)
        near = lambda: head + l.one_of(MS, 100 * MS, 100 * MS, 0) + off()
        base_edge = l.chance(0.5)  # else the edge is that of a waiting packet, and base is out of the way
        if l.chance(0.9 if base_edge else 0.15):
            l.push(1, head + MS - l.one_of(0, 2000, 2000) + off(), l.one_of(side, side, side, other(side)))
        for _ in range(l.one_of(0, 0, 1) if base_edge else l.one_of(1, 1, 2)):
            l.push(0, near(), side, (l.flag(), l.flag(), 0))
        which = l.below(3)
        if which == 0:
            bypass = l.flag()
            l.block(side, now, 100 + l.below(200), bypass, l.flag())
            l.choose(now)
            l.push(0, head, side, (l.flag(), l.one_of(0, 1 - bypass), 0))
            l.choose(now, 3)
        elif which == 1:
            l.push(0, head, side, (0, l.flag(), 0))
            l.step(head + l.random.randrange(-2, 50), 2, head, side, (1, 1, 1))
        else:
            time = now - 1000 + l.below(1400)
            for _ in range(2):
                l.step(time, 0, head, side, (l.flag(), 0, 0))
        l.choose(now, l.below(4))


def buffers(l, calls):
    """one to four packets wait for a block's end, the tail at 1 ms and one off, the length at D, 3D, 4D and one off"""
    while len(l.lines) < calls:
        unit = l.one_of(0, 20, 20, 300_000)
        report = l.one_of(0, 0, 3)
        l.open(unit, reports=(report, l.one_of(0, report)), small=0.1)
        side = l.side()
        start = 1000
        length = l.one_of(unit, 3 * unit, 4 * unit, 50) + l.near(1)
        duration = l.one_of(100, 2 * MS, MS + 50) + max(0, length)
        end = start + duration
        l.block(side, start, duration, l.one_of(0, 0, 1))
        l.choose(start)
        head = l.one_of(start, end - length, end - 1, end, start + 7)
        tail = l.one_of(head + MS + l.near(1), head + 3, end + l.near(1), end - length)
        waiting = [head] + [l.one_of(tail, head, head + 2) for _ in range(l.below(4))]
        for moment in waiting:
            l.push(0, moment, side, (l.flag(), l.one_of(0, 0, 0, 1), 0))
        if l.chance(0.4):
            l.push(1, l.one_of(head + MS + l.near(1), end + 5), l.one_of(side, side, other(side)))
        l.choose(l.one_of(start, start, start + 5, end + l.near(1)), 3)
        l.choose(end + l.below(5 * unit + 5), l.below(6))


def sums(l, calls):
    """base heads beside other events, with sums that differ by side"""
    while len(l.lines) < calls:
        first = l.side()
        now = raise_sums(l, first, l.chance(0.3))
        at = now + l.below(50)
        for _ in range(1 + l.below(3)):
            l.push(1, at + l.one_of(0, 0, -2000) + l.near(1), l.side())
        for _ in range(l.below(3)):
            l.push(l.one_of(0, 0, 3, 5), at + l.one_of(0, 2000, 2000) + l.near(1), l.side(), (0, l.flag(), 0))
        if l.chance(0.5):
            l.block(l.side(), now, l.one_of(100, 5000, 1), l.flag(), 1)
        l.choose(now, 1 + l.below(4))
        l.choose(at + 2000 + l.near(1), l.below(4))


def raw(l, calls):
    """blocked heads: bypassable beside base by the raw moment, blocking beside both, either flag"""
    while len(l.lines) < calls:
        l.open(0, (1, "-"), 1000, reports=l.one_of((0, 0), (0, 0), (4, 0)))
        raised = l.side()
        for _ in range(2):
            l.step(0, 0, 0, raised)
        l.choose(0, l.one_of(1, 2))
        l.choose(1000)
        flag = l.one_of(0, 1, 1)
        for side in l.one_of((CLIENT,), (SERVER,), (CLIENT, SERVER)):
            l.block(side, 0, l.one_of(2000, 1050, 60), flag, l.flag())
            l.choose(0)
        for side in (CLIENT, SERVER):
            if l.chance(0.9):
                l.push(0, l.one_of(10, 10, 50), side)
            if l.chance(0.7):
                l.push(0, l.one_of(49, 50, 51, 60, 1050), side, (0, 1, 0))
            if l.chance(0.7):
                l.push(1, l.one_of(50, 50, 1000, 1050), side)
            if l.chance(0.4):
                l.push(l.one_of(3, 5), l.one_of(50, 1050, 1060, 2000), side)
        if l.chance(0.3):
            l.timer(l.side(), l.one_of(50, 1050, 2000))
        l.choose(l.one_of(0, 0, 20, 50, 1000, 1050), 2 + l.below(5))


def uneven(l, calls):
    """blocked heads with sums that differ by side, each weighed at the same moment"""
    while len(l.lines) < calls:
        raised = l.side()
        now = raise_sums(l, raised, False)
        for side in l.one_of((CLIENT,), (SERVER,), (CLIENT, SERVER)):
            l.block(side, now, l.one_of(60, 100, 300), l.flag(), 1)
            l.choose(now)
        for side in (CLIENT, SERVER):
            shift = l.one_of(0, 0, 0, 2000) if side != raised else l.one_of(2000, 2000, 2000, 0)
            if l.chance(0.8):
                l.push(0, now + l.one_of(10, 10, 50), side)
            if l.chance(0.8):
                l.push(1, now + l.one_of(20, 50, 51) - shift, side)
            if l.chance(0.5):
                l.push(l.one_of(3, 5), now + l.one_of(20, 50, 51), side)
            if l.chance(0.3):
                l.push(0, now + l.one_of(20, 50, 51) - l.one_of(0, shift), side, (0, 1, 0))
        l.choose(now + l.one_of(0, 0, 0, 50), 1 + l.below(4))


def replace(l, calls):
    """padding that replaces waiting packets, with and without bypass, block and flag"""
    while len(l.lines) < calls:
        l.open(l.one_of(0, 5), window=10, machines=(2, 2), small=0.1)
        now = 1000
        side = l.side()
        if l.chance(0.7):
            l.block(l.one_of(side, side, other(side)), now, l.one_of(5, 100), l.flag(), l.flag())
            l.choose(now, l.one_of(1, 1, 2))
        for _ in range(1 + l.below(4)):
            moment = now + l.one_of(0, 0, 1, 5, 100 * MS, 100 * MS + 1)
            l.push(0, moment, l.one_of(side, side, side, other(side)), (l.one_of(0, 0, 1), l.flag(), l.flag()), l.one_of(0, 2, 7))
        if l.chance(0.3):
            l.push(1, now + MS + l.near(2), side)
        for _ in range(1 + l.below(2)):
            l.step(now + l.below(9), 2, now + l.below(9), side, (l.flag(), l.one_of(0, 1, 1), l.one_of(0, 1, 1)), l.one_of(0, 3), l.machine(side))
        l.choose(now + l.below(9), 1 + l.below(5))


def ties(l, calls):
    """everything at two or three moments: moments, ranks, sides, slots, arrival"""
    while len(l.lines) < calls:
        report = l.one_of(0, 0, 1)
        l.open(l.one_of(0, 1), (l.one_of("-", 1), "-"), l.one_of(0, 1), (0, l.one_of(0, 1)), (report, l.one_of(0, 1)), (3, 3), small=0.1)
        now = 100
        moments = [now, now + l.one_of(0, 1), now + l.one_of(1, 2, -1)]
        moment = lambda: l.one_of(*moments)
        for _ in range(3 + l.below(10)):
            side = l.side()
            machine = l.machine(side)
            which = l.below(10)
            if which < 5:
                l.push(l.one_of(0, 0, 1, 2, 3, 4, 5, 6, 7, 8, 9), moment(), side, l.flags(), l.one_of(0, 1), machine)
            elif which < 6:
                l.timer(side, moment(), machine)
            elif which < 7:
                l.pad(side, moment(), l.flag(), l.flag(), machine)
            elif which < 8:
                l.block(side, moment(), l.one_of(0, 0, 1, 2), l.flag(), l.flag(), machine)
            else:
                l.step(moment(), l.one_of(0, 0, 1, 2, 3), moment(), side, l.flags(), l.one_of(0, 1), machine)
            if l.chance(0.3):
                l.choose(l.one_of(now, moment()))
        l.choose(now, 2 + l.below(8))


def rates(l, calls):
    """packet limits: the window's edges, count p and p + 1, network rate and queue rate, full windows"""
    while len(l.lines) < calls:
        window = l.one_of(0, 1, 2, 3, 10, 12, 1000, 10**12)
        rate = lambda: l.one_of("-", 1, 2, 3, 4, 4294967295)
        l.open(l.one_of(0, 0, 3), (rate(), rate()), window, reports=(l.one_of(0, 2), l.one_of(0, 3)), small=0.2)
        time = 100
        main = l.side()
        for _ in range(4 + l.below(16)):
            side = l.one_of(main, main, main, other(main))
            time += l.one_of(0, 0, 0, 1, window // 2, window, window + 1, -1, -window) if window < 10**6 else l.one_of(0, 1)
            time = max(time, 20)
            l.step(time, 0, l.one_of(time, time + 1, time - 1), side, (l.flag(), 0, 0), l.one_of(0, 0, 1))
            if l.chance(0.15):
                l.push(l.one_of(0, 1), time + l.one_of(0, MS, 100 * MS) + l.near(2), side)
            if l.chance(0.15):
                l.choose(time)
        l.choose(time, l.below(6))


def tails(l, calls):
    """past block ends, past timers and actions, times that go back"""
    while len(l.lines) < calls:
        report = l.one_of(0, 0, 4)
        l.open(l.one_of(0, 7), reports=(report, l.one_of(0, report)), machines=(2, 2), small=0.1)
        now = 1000
        for side in l.one_of((CLIENT,), (SERVER,), (CLIENT, SERVER), (SERVER, CLIENT)):
            l.block(side, now, l.one_of(10, 10, 20, 30), l.flag(), l.flag())
            l.choose(now)
        for _ in range(l.below(5)):
            side = l.side()
            moment = now + l.one_of(0, 5, 9, 10, 11, 20, 29, 30, 31, 50)
            if l.chance(0.7):
                l.push(l.one_of(0, 0, 0, 1, 5), moment, side, (l.flag(), l.flag(), 0))
            elif l.chance(0.5):
                l.timer(side, moment, 1)
            else:
                l.pad(side, moment, l.flag(), l.flag(), 1)
        for _ in range(2 + l.below(6)):
            now = l.one_of(1000, 1009, 1010, 1011, 1020, 1030, 1031, 1050, now)
            l.choose(now)


def top(l, calls):
    """sums within a few ns of 2^62 - 1, each place of the Rust that forms one in turn"""
    while len(l.lines) < calls:
        unit = l.one_of(0, 2, 5)
        delay = lambda: l.one_of(0, 0, 3)
        l.open(unit, (1, "-"), 10, (delay(), delay()), (delay(), delay()))
        high = l.one_of(TOP // 2, TOP - 20, TOP - 1000, TOP - 200 * MS) + l.near(3)
        if l.chance(0.85):  # both sums become about `high`: a past block's end, with a packet of moment 1
            side = l.side()
            l.block(side, 0, 10)
            l.choose(0)
            l.push(0, 1, side, (1, 0, 0))
            l.choose(high, l.one_of(4, 5))
        top_scene(l, unit, high)
        l.choose(l.one_of(0, 100, high, TOP), 1 + l.below(3))


def top_scene(l, unit, high):
    """One of the places that form a sum; `high` - 1 may be the sum of both sides."""
    side = l.side()
    edge = lambda: max(0, TOP - high + 1 + l.near(3))
    which = l.below(5)
    head = l.one_of(100, edge(), max(0, edge() - MS), max(0, edge() - 100 * MS))
    near = lambda: max(0, head + l.one_of(0, MS, 100 * MS, -50) + l.near(3))
    at = lambda: l.one_of(side, side, other(side))
    if which == 0:  # a choice: base heads
        for _ in range(l.one_of(1, 1, 2)):
            l.push(1, edge(), l.side())
        if l.chance(0.5):
            l.push(l.one_of(0, 3, 5), edge(), l.side(), (0, l.flag(), 0))
        if l.chance(0.3):
            l.timer(l.side(), edge())
    elif which == 1:  # a step: padding that takes over a waiting packet
        l.push(0, head, side, (0, l.flag(), 0))
        if l.chance(0.5):
            l.push(0, near(), at(), (0, l.flag(), 0))
        if l.chance(0.8):
            l.push(1, edge(), at())
        l.step(l.one_of(near(), TOP, TOP - 4 * unit + l.near(3)), 2, near(), side, (1, 1, 1))
    elif which == 2:  # a step: a packet above the limit
        if l.chance(0.4):
            l.push(0, near(), at(), (0, l.flag(), 0))
        if l.chance(0.8):
            l.push(1, edge(), at())
        time = l.one_of(near(), TOP - 4 * unit + 10 + l.near(3), TOP - 3 * unit + 10 + l.near(3), TOP)
        for _ in range(l.one_of(1, 2, 2, 3)):
            l.step(time, 0, l.one_of(head, near(), TOP - 10 - unit + l.near(3)), side, (l.flag(), 0, 0), l.one_of(0, 3))
    elif which == 3:  # a short block that ends low or at the top; its aggregates
        end = clamp(l.one_of(200, TOP - 4 * unit + l.near(6), TOP - 3 * unit + l.near(6), TOP - 3 + l.near(3)))
        start = end - 1 - l.below(11)
        l.block(side, start, end - start, l.flag())
        l.choose(start)
        for _ in range(l.one_of(1, 1, 3)):
            l.push(0, start + l.below(9), side)
        if l.chance(0.3):
            l.push(1, edge(), at())
        l.choose(start, 2)
        for _ in range(4):
            l.choose(end + l.below(9))
    else:  # actions and steps beside the top
        moment = TOP - l.below(12)
        if l.chance(0.33):
            l.pad(side, moment, l.flag(), l.flag())
        else:
            l.block(side, moment, l.below(8), l.flag(), l.flag())
        l.choose(l.one_of(moment, moment - 3))
        l.choose(moment)
        l.step(moment, l.one_of(0, 0, 1, 2, 3), TOP - l.below(20), side, l.flags(), l.one_of(0, 3, 9))


def finished(l, calls):
    """number 10 after some finished rounds"""
    while len(l.lines) < calls:
        report = l.one_of(0, 3)
        l.open(10, (1, "-"), 10, (0, 0), (report, l.one_of(0, report)), (2, 2))
        for _ in range(2 + l.below(2)):
            l.step(30, 0, 0, l.side(), (1, 0, 0))
        l.choose(0, 2)
        for _ in range(l.below(3)):
            l.timer(l.side(), 100 + l.below(3), l.flag())
        if l.chance(0.5):
            l.block(l.side(), 90, 15, l.flag(), 0, 1)
        l.block(l.side(), l.one_of(TOP, TOP - 1, 101), l.one_of(0, 1, 2), 0, 0)
        for _ in range(6):
            l.choose(l.one_of(80, 100, 105))
        l.push(l.one_of(0, 1, 5), 10, l.side())
        l.choose(200)


def refusals(l, calls):
    """values at and past every limit, full blocks, wrong lengths, calls after a 10"""
    moments = [0, 1, 100, 100, 101, TOP - 1, TOP, TOP + 1, 2**64 - 1]
    lengths = [0, 0, 1, 5, 10**12, 10**12 + 1, 2 * 10**12, 2 * 10**12 + 1, 2**64 - 1]
    kinds = [0, 0, 1, 2, 3, 4, 5, 6, 7, 8, 9, 10, 2**64 - 1]

    def opening():
        delay = lambda: l.one_of(0, 0, 0, 5, 5, 10**12) if l.chance(0.98) else 10**12 + 1
        rate = lambda: l.one_of("-", 1, 2, 4294967295) if l.chance(0.97) else l.one_of(0, 4294967296)
        count = lambda: l.one_of(0, 1, 2, 16) if l.chance(0.98) else 17
        l.open(delay(), (rate(), rate()), l.one_of(0, 10, 10**12), (delay(), delay()), (delay(), delay()), (count(), count()), small=0.6)

    def event(side):
        moment = l.one_of(*moments) if l.chance(0.3) else 90 + l.below(20)
        delay = l.one_of(*lengths) if l.chance(0.3) else 0
        return l.one_of(*kinds), moment, delay, side, *l.flags(), l.one_of(0, 0, 1, 2, 15, 16, 17)

    opening()
    while len(l.lines) < calls:
        if l.chance(0.04):
            opening()
        side = l.side()
        machine = l.one_of(0, 0, 0, 1, 2, 15, 16)
        moment = l.one_of(*moments) if l.chance(0.3) else 90 + l.below(20)
        which = l.below(12)
        if which < 4:
            l.call("push", *event(side))
        elif which < 6:
            l.call("sim_network_stack", moment, *event(side))
        elif which == 6:
            l.call("set_timer", side, machine, moment)
        elif which == 7:
            l.call("set_action", side, machine, l.one_of(0, 1, 2, 2, 2, 3, 4), moment, l.one_of(*lengths), l.flag(), l.flag())
        elif which == 8:
            l.call(l.one_of("clear_timer", "clear_action"), side, machine)
        elif l.chance(0.05):  # a wrong length, then the right one again
            l.call("lend", l.one_of(0, 255, 256, 257, 259, 261))
            l.call("pick_next", 100)
            l.call("lend", l.lent)
        else:
            l.call("pick_next", moment)


def falls(l, calls):
    """when the packet count falls: steps at that moment and one off, times that go back, the moment at 2^62 - 1 and past it"""
    while len(l.lines) < calls:
        window = l.one_of(0, 1, 10, 1000, 10**12)
        l.open(l.one_of(0, 0, 0, 2), (l.one_of("-", "-", 1, 2), "-"), window, small=0.1)
        start = l.one_of(0, 100, window, TOP - window - 1, TOP - window - 1, TOP) + l.near(2)
        stamps = {CLIENT: [], SERVER: []}
        for _ in range(4 + l.below(9)):
            side = l.side()
            kept = stamps[side]
            old = l.one_of(kept[0], kept[0], kept[-1]) if kept else start
            time = clamp(l.one_of(start, old + window, old + window + 1, old + window + 1, old - 1, old) + l.one_of(0, 0, l.near(2)))
            kind = 0 if l.chance(0.85) else l.below(10)
            l.step(time, kind, l.below(9), side, (l.flag(), 0, 0))
            if kind == 0:
                while kept and time - kept[0] > window:
                    kept.pop(0)
                kept.append(time)
        l.choose(time, l.below(4))


KINDS = {f.__name__: f for f in (small, blocks, windows, buffers, sums, raw, uneven, replace, ties, rates, tails, top, finished, refusals, falls)}


def generate(kind, seed, calls):
    """The lines of the list."""
    l = CallList(kind, seed)
    KINDS[kind](l, calls)
    return l.lines


def usage():
    return __doc__ + "\n".join(f"  {name:10} {f.__doc__}" for name, f in KINDS.items())


def main():
    words = sys.argv[1:]
    if words in (["-h"], ["--help"]):
        print(usage())
    elif len(words) == 3 and words[0] in KINDS and all(word.isdigit() for word in words[1:]):
        print("\n".join(generate(words[0], int(words[1]), int(words[2]))))
    else:
        print(usage(), file=sys.stderr)
        sys.exit(2)


if __name__ == "__main__":
    main()
