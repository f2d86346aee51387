#!/usr/bin/env python3
"""packed.py FORECAST SEED STATES: packing, held to a second reading of document 02's M-100 and docs/LAYOUT.md, written here.

States are drawn, or left by random lists, and laid out in records in any order, with noise where nothing is meant. Of each:
its packed words are those of the reading here, and packing leaves its own words; laid out anew it packs alike; packed again it
stays; changed in one thing it packs otherwise; a list of calls answers on the packed words as on its own, `show` and all.
Damaged words are refused by the table. Then random lists, with the state packed and taken over at random places: the same
answers. What a step answers is reckoned from the stamps shown before it. Prints how many of each; exit status 1 where something
differs."""
import random, subprocess, sys
import generate
from damaged import KINDS_M, L12, LISTS, TOP, accepted, bases, damaged, show, size_ok, some_call, step_answer

EVENTS = (1, 2, 3, 4, 6, 7, 8, 9)
STAMPS = (5, 10)
AGGREGATES = 11


# ---- states, apart from records: header words, timers, action words, and of each chain (moment, length, tag) from its head

class State:
    def __init__(self, words=None, records=0):
        self.records = records
        self.head, self.slots = [0] * 18, [0] * 128
        self.chains = {k: [] for k in range(1, 12)}
        if words:
            self.records = (len(words) - 256) // 4
            self.head, self.slots = words[:18], words[64:192]
            self.chains = {k: list(self.chain(words, k)) for k in range(1, 12)}

    @staticmethod
    def chain(words, k):
        at = words[24 + 2 * k]
        while at:
            at, moment, length, tag = words[256 + 4 * (at - 1):][:4]
            yield moment, length, tag

    def copy(self):
        s = State(records=self.records)
        s.head, s.slots = list(self.head), list(self.slots)
        s.chains = {k: list(c) for k, c in self.chains.items()}
        return s

    def same(self, other):
        return (self.head, self.slots, self.chains) == (other.head, other.slots, other.chains)

    def words(self, places, free, noise):
        """The words with the chains in these records, in this order, the free chain in these; noise() stands where nothing is meant."""
        w = [0] * (256 + 4 * self.records)
        w[:18], w[64:192] = self.head, self.slots
        for i in (*range(18, 24), *range(48, 64), *range(192, 256)):
            w[i] = noise()
        places = iter(places)
        for k, held in [(0, [(noise(), noise(), noise() // 16 * 16) for _ in free]), *self.chains.items()]:
            at = list(free) if k == 0 else [next(places) for _ in held]
            w[24 + 2 * k], w[25 + 2 * k] = (at[0] if at else 0), len(at)
            for i, record in enumerate(held):
                w[256 + 4 * (at[i] - 1):256 + 4 * at[i]] = [at[i + 1] if i + 1 < len(at) else 0, *record]
        return w

    def used(self):
        return sum(map(len, self.chains.values()))

    def scattered(self, rnd):
        places = rnd.sample(range(1, self.records + 1), self.records)
        used = self.used()
        return self.words(places[:used], places[used:], lambda: rnd.getrandbits(rnd.choice((1, 8, 64))))

    def packed(self):
        """"chains in a fixed order, records numbered upward from 1, free records zeroed but for their links and chained upward"."""
        used = self.used()
        return self.words(range(1, used + 1), range(used + 1, self.records + 1), lambda: 0)


# ---- random states

def event(rnd, s, k):
    """An event that chain k may hold, with few moments, so that many are equal."""
    place, side = (k, 0) if k < 5 else (k - 5, 1)
    kind = 1 if place == 1 else 0 if place < 4 else rnd.randrange(2, 10)
    bypass = {2: 0, 3: 1}.get(place, rnd.randrange(2))
    machines = s.head[8 + side]
    if kind in KINDS_M and not machines:
        kind = 7
    machine = rnd.randrange(machines) if kind in KINDS_M else 0
    tag = k + 16 * kind + 256 * rnd.randrange(2) + 512 * bypass + 1024 * rnd.randrange(2) + 4096 * machine
    return rnd.choice((5, 6, 7, 100, TOP)), rnd.choice((0, 1, 2 * L12)), tag


def key(k, record):
    return (0, 0) if k in STAMPS else (record[0], record[2] // 16 % 16 if k != AGGREGATES else 0)


def added(rnd, s, k):
    """One record more in chain k, behind its equals; a stamp at the end."""
    record = event(rnd, s, k)
    if k in STAMPS:
        record = (rnd.choice((3, 4, 900, TOP)), 0, k)
    if k == AGGREGATES:
        record = (rnd.choice((5, 6, 7, TOP)), rnd.choice((0, 1, TOP)), 11 + 2048 * rnd.randrange(2))
    at = sum(key(k, r) <= key(k, record) for r in s.chains[k])
    s.chains[k].insert(at, record)


def set_slot(rnd, s):
    """A timer or an action for a machine, in the place of what it holds."""
    side = rnd.randrange(2)
    if not s.head[8 + side]:
        return
    j = 16 * side + rnd.randrange(s.head[8 + side])
    if rnd.randrange(2):
        s.slots[j] = 1 + rnd.choice((0, 9, TOP))
    else:
        kind = rnd.choice((1, 2))
        s.slots[32 + 3 * j:35 + 3 * j] = kind + 4 * rnd.randrange(4), rnd.choice((0, 8, TOP)), rnd.choice((0, 9, L12)) if kind == 2 else 0


def drawn(rnd):
    s = State(records=rnd.choice((1, 2, 3, 5, 8, 13, 21, 34, 60)))
    s.head[:8] = [rnd.choice((0, 5, 20, L12)) if i not in (1, 2) else rnd.choice((0, 1, 3, 2**32 - 1)) for i in range(8)]
    s.head[8:10] = rnd.choice((0, 1, 2, 16)), rnd.choice((0, 1, 2, 16))
    s.head[10:12] = rnd.choice((0, 7, TOP)), rnd.choice((0, 7, TOP))
    s.head[14:18] = rnd.randrange(2), rnd.randrange(2), rnd.random() < 0.1, rnd.choice((0, 3, TOP))
    s.head[16] = int(s.head[16])
    for _ in range(rnd.choice((0, 2, s.records, s.records, 2 * s.records))):
        t = s.copy()
        how = rnd.randrange(12)
        if how == 0:
            t.head[12 + rnd.randrange(2)] = 1 + rnd.choice((0, 50, TOP))
        elif how < 3:
            set_slot(rnd, t)
        else:
            added(rnd, t, rnd.randrange(1, 12))
        if t.used() <= t.records and accepted(t.packed()):
            s = t
    return s


# ---- one difference: each changes the state, or leaves it as it is where it finds nothing to change

def word(i, *values):
    def change(rnd, s):
        s.head[i] = rnd.choice((*values, s.head[i] + 1, max(s.head[i] - 1, 0)))
    return change


def slot(timers):
    def change(rnd, s):
        if timers:
            s.slots[rnd.randrange(32)] = rnd.choice((0, 1, 10, TOP + 1))
        else:
            set_slot(rnd, s) if rnd.randrange(2) else s.slots.__setitem__(slice(32 + 3 * (j := rnd.randrange(32)), 35 + 3 * j), [0] * 3)
    return change


def action_word(part):
    def change(rnd, s):
        held = [j for j in range(32) if s.slots[32 + 3 * j]]
        if held:
            j = 32 + 3 * rnd.choice(held)
            s.slots[j + part] = rnd.choice((0, 1, 8, L12)) if part else rnd.choice((1, 2, 5, 6, 9, 10, 13, 14))
    return change


def field(chains, change):
    """A change of one record of one of these chains."""
    def changes(rnd, s):
        held = [(k, i) for k in chains for i in range(len(s.chains[k]))]
        if held:
            k, i = rnd.choice(held)
            s.chains[k][i] = change(rnd, *s.chains[k][i])
    return changes


def flipped(unit, n):
    """The field of a tag that counts in units and has n values becomes another."""
    return lambda rnd, moment, length, tag: (moment, length, tag + unit * (rnd.randrange(n) - tag // unit % n))


def moved(rnd, moment, length, tag):
    return rnd.choice((moment + 1, max(moment - 1, 0), 5, 6, 7, TOP)), length, tag


def stretched(rnd, moment, length, tag):
    return moment, rnd.choice((length + 1, 0, 1)), tag


def exchanged(chains):
    """Two records of a chain that stand side by side, with equal keys."""
    def change(rnd, s):
        k = rnd.choice(chains)
        c = s.chains[k]
        at = [i for i in range(len(c) - 1) if c[i] != c[i + 1] and key(k, c[i]) == key(k, c[i + 1])]
        if at:
            i = rnd.choice(at)
            c[i], c[i + 1] = c[i + 1], c[i]
    return change


def more(chains):
    return lambda rnd, s: added(rnd, s, rnd.choice(chains))


def fewer(chains):
    def change(rnd, s):
        held = [k for k in chains if s.chains[k]]
        if held:
            c = s.chains[rnd.choice(held)]
            del c[rnd.randrange(len(c))]
    return change


def other_side(rnd, s):
    """An event that no side's machine made, on the other side."""
    held = [(k, i) for k in EVENTS for i, r in enumerate(s.chains[k]) if r[2] // 16 % 16 not in KINDS_M]
    if held:
        k, i = rnd.choice(held)
        moment, length, tag = s.chains[k].pop(i)
        to = k + 5 if k < 5 else k - 5
        at = sum(key(to, r) <= (moment, tag // 16 % 16) for r in s.chains[to])
        s.chains[to].insert(at, (moment, length, tag - k + to))


ONE = (AGGREGATES,)
DIFFERENCES = {
    "network delay": word(0), "network rate": word(1, 0, 1), "queue rate": word(2, 0, 1), "window": word(3), "client's action delay": word(4),
    "server's action delay": word(5), "client's reporting delay": word(6), "server's reporting delay": word(7), "client's machines": word(8), "server's machines": word(9),
    "client's sum": word(10), "server's sum": word(11), "client's block end": word(12, 0, 1, 51), "server's block end": word(13, 0, 1, 51), "client's flag": word(14, 0, 1),
    "server's flag": word(15, 0, 1), "ended mark": word(16, 0, 1), "round total": word(17), "timer": slot(True), "action": slot(False), "action's kind and flags": action_word(0),
    "action's moment": action_word(1), "action's duration": action_word(2), "event's moment": field(EVENTS, moved), "event's delay": field(EVENTS, stretched),
    "event's kind": field(EVENTS, flipped(16, 10)), "event's padding": field(EVENTS, flipped(256, 2)), "event's bypass": field(EVENTS, flipped(512, 2)),
    "event's replace": field(EVENTS, flipped(1024, 2)), "event's machine": field(EVENTS, flipped(4096, 16)), "event's side": other_side, "event more": more(EVENTS),
    "event fewer": fewer(EVENTS), "equal events exchanged": exchanged(EVENTS), "stamp's moment": field(STAMPS, moved), "stamps exchanged": exchanged(STAMPS),
    "stamp more": more(STAMPS), "stamp fewer": fewer(STAMPS), "aggregate's moment": field(ONE, moved), "aggregate's length": field(ONE, stretched),
    "aggregate's side": field(ONE, flipped(2048, 2)), "equal aggregates exchanged": exchanged(ONE), "aggregate more": more(ONE), "aggregate fewer": fewer(ONE)}


def changed(rnd, s, name):
    """An accepted state with this one difference, or None where none was found."""
    for _ in range(8):
        t = s.copy()
        DIFFERENCES[name](rnd, t)
        if not t.same(s) and t.used() <= t.records and accepted(t.packed()):
            return t
    return None


# ---- the program, one long list: what is asked of it, and what is held to the answers

class Held:
    """Lines for the program, and for each part of its output what must be so. Blocks are written word by word, where they differ from the last."""

    def __init__(self):
        self.lines, self.checks, self.counts = [], [], {}
        self.shadow, self.second = [0] * 8192, [0] * 8192

    def say(self, line, answer="ok"):
        self.lines.append(line)
        self.checks.append((1, [answer], line))

    def listed(self, line, n, due):
        self.lines.append(line)
        self.checks.append((n, [*map(str, due), "end"], line))

    def load(self, w):
        self.say(f"lend {len(w)}")
        for i, v in enumerate(w):
            if self.shadow[i] != v:
                self.say(f"word {i} {v}")
                self.shadow[i] = v

    def count(self, name):
        self.counts[name] = self.counts.get(name, 0) + 1


def packs(h, w, due, n=None):
    """The words are packed into as many, or n: what is due stands in the second block, all else is as it was."""
    h.load(w)
    h.say(f"lend_second {len(w) if n is None else n}")
    number = 1 if not size_ok(len(w)) or n not in (None, len(w)) else 0 if accepted(w) else 2
    h.say("pack", f"refused {number} 0" if number else "ok")
    if number:
        h.count(f"refused {number}")
        return
    h.second[:len(w)] = due
    h.listed("words_second", len(w) + 1, due)
    h.listed("words", len(w) + 1, w)


def a_state(rnd, h, s, names):
    """All that is asked of a state; of the differences the first of these that it can have."""
    w = s.scattered(rnd)
    due = s.packed()
    assert accepted(w) and accepted(due)
    packs(h, w, due)
    packs(h, s.scattered(rnd), due)
    h.count("laid out anew")
    # packed again, from the packed words, and shown
    h.say("take_second")
    h.shadow = list(h.second)
    packs(h, due, due)
    shown = show(w)
    h.listed("show", len(shown) + 1, shown)
    name, t = next(((name, t) for name in names if (t := changed(rnd, s, name))), (None, None))
    if t:
        other = t.packed()
        assert other != due, name
        packs(h, t.scattered(rnd), other)
        h.count(name)
    # second blocks of another length, and damaged words, which leave the second block
    packs(h, due, None, rnd.choice((0, 256, len(w) - 4, len(w) - 1, len(w) + 1, len(w) + 4)))
    h.say(f"lend_second {len(w)}")
    h.listed("words_second", len(w) + 1, t.packed() if t else due)
    v = damaged(rnd, w)
    if not accepted(v):
        packs(h, v, None, len(v) + 4)
        packs(h, v, None)
        h.listed("words_second", len(v) + 1, (t.packed() if t else due)[:len(v)])


def run(program, lines):
    done = subprocess.run([program], input="\n".join(lines) + "\n", capture_output=True, text=True)
    if done.returncode:
        sys.exit(f"{program}: status {done.returncode}: {done.stderr[-300:]}")
    return done.stdout.split("\n")[:-1]


def wrong(why, lines):
    with open("packed.failed", "w") as out:
        out.write("\n".join(lines) + "\n")
    sys.exit(f"DIFFERENCE: {why} (packed.failed has the list)")


def held_states(program, rnd, states):
    names = list(DIFFERENCES)
    counts = {}
    for start in range(0, states, 100):
        h = Held()
        for at in range(start, min(start + 100, states)):
            s = drawn(rnd) if at % 4 else State(bases(program, rnd, rnd.randrange(10**9)))
            if accepted(s.packed()):
                first = at % len(names)
                a_state(rnd, h, s, (names[first:] + names[:first])[:8])
        out, at = run(program, h.lines), 0
        for n, due, line in h.checks:
            if (got := out[at:at + n]) != due:
                i = next((i for i, (a, b) in enumerate(zip(got, due)) if a != b), min(len(got), len(due)))
                wrong(f"{line}, line {i} of its answer: {got[i:i + 1]}, due {due[i:i + 1]}", h.lines)
            at += n
        for name, n in h.counts.items():
            counts[name] = counts.get(name, 0) + n
    return counts


# ---- answers after packing

def answered(program, lines):
    """Each line with its answer, a list of lines; comments and empty lines have none."""
    out = iter(run(program, lines))
    for line in lines:
        answer = []
        if line.split() and not line.startswith("#"):
            answer.append(next(out))
            while line == "show" and answer[-1] != "end":
                answer.append(next(out))
        yield line, answer


def reckoned(pairs, lines):
    """How many steps of these pairs of line and answer, `show` before each, were not refused. They answer what damaged.py reckons."""
    steps, shown = 0, []
    for line, answer in pairs:
        if line == "show":
            shown = answer
        elif line.startswith("sim_network_stack") and not answer[0].startswith("refused"):
            steps += 1
            if answer != [step_answer(shown, line)]:
                wrong(f"{line} on {shown}: {answer}, due {step_answer(shown, line)}", lines)
    return steps


def on_both(program, rnd, states):
    """Calls on a state, `show` before and after each, then the same on its packed words."""
    lines, halves = [], []
    for _ in range(states):
        w = drawn(rnd).scattered(rnd)
        calls = [line for _ in range(12) for line in (some_call(rnd, w), "show")]
        lines += [f"lend {len(w)}", *(f"word {i} {v}" for i, v in enumerate(w)), f"lend_second {len(w)}", "pack", "# original", "show", *calls, "# taken over",
                  "take_second", "# packed", "show", *calls, "# next"]
    for line, answer in answered(program, lines):
        if line.startswith("#"):
            halves.append([])
        elif halves:
            halves[-1].append((line, answer))
    steps = 0
    for i in range(0, len(halves), 4):
        if halves[i] != halves[i + 2]:
            wrong(f"answers after packing: {halves[i]} {halves[i + 2]}", lines)
        steps += reckoned(halves[i], lines)
    return 12 * states, steps


def taken_over(program, rnd, lists):
    """Random lists as they are, and with the state packed and taken over at random places: the same answers."""
    packings = steps = 0
    for _ in range(lists):
        kind = rnd.choice(LISTS)
        lines = [line for line in generate.generate(kind, rnd.randrange(10**9), 300) if not line.startswith("word")]
        plain = list(answered(program, [text for line in lines for text in (line, "show")]))
        steps += reckoned(plain, lines)
        ours, lent = [], 8192
        for line, answer in plain:
            ours.append(line)
            if line.startswith("lend"):
                lent = int(line.split()[1])
            if line == "show" and answer != ["not accepted", "end"] and rnd.random() < 0.2:
                ours += [f"lend_second {lent}", "pack", "take_second"]
                packings += 1
        both = list(answered(program, ours))
        added_lines = ("lend_second", "pack", "take_second")
        refused = [pair for pair in both if pair[0].startswith(added_lines) and pair[1] != ["ok"]]
        if refused or [pair for pair in both if not pair[0].startswith(added_lines)] != plain:
            wrong(f"kind {kind}: other answers where the state was packed {refused}", ours)
    return packings, steps


def main():
    if len(sys.argv) != 4 or not sys.argv[3].isdigit():
        print(__doc__, file=sys.stderr)
        sys.exit(2)
    program, seed, states = sys.argv[1], sys.argv[2], int(sys.argv[3])
    rnd = random.Random(f"packed {seed}")
    counts = held_states(program, rnd, states)
    missing = [name for name in DIFFERENCES if name not in counts]
    if missing and states >= 40 * len(DIFFERENCES):
        sys.exit(f"no state was found with another {', '.join(missing)}")
    anew, refusals = counts.pop("laid out anew"), {n: counts.pop(n, 0) for n in ("refused 1", "refused 2")}
    calls, steps = on_both(program, rnd, states // 4)
    packings, others = taken_over(program, rnd, max(1, states // 40))
    print(f"seed {seed}: {anew} states packed, each laid out twice; {sum(counts.values())} with one difference, of {len(counts)} kinds; {calls} calls on both; "
          f"{packings} packings within lists; {steps + others} steps reckoned; "
          f"refusals {refusals['refused 1']} of 1, {refusals['refused 2']} of 2; 0 differences")


if __name__ == "__main__":
    main()
