#!/usr/bin/env python3
"""Damaged words: acceptance and refusals held against a second reading of
docs/LAYOUT.md and docs/DECISIONS.md, written here, and accepted states against the Rust.

  damaged.py FORECAST ORACLE SEED BLOCKS

Each block is one that a random list left, damaged in a few words, or zeros,
ones or noise. Then come `show`, a call, `show` and `words`. What a step answers
is reckoned here as well, from the stamps (document 02, M-120)."""
import random, subprocess, sys
import generate
from compare import for_rust

TOP = 2**62 - 1
MAX = 2**64 - 1
L12 = 10**12
KINDS_M = (2, 6, 8, 9)
LISTS = [kind for kind in generate.KINDS if kind != "falls"]  # without the kind that came with M-120, so that a seed draws the blocks that it always drew


def size_ok(n):
    return 260 <= n <= 256 + 4 * 65535 and n % 4 == 0


def accepted(w):
    if not size_ok(len(w)):
        return False
    R = (len(w) - 256) // 4
    lim = [L12, 2**32 - 1, 2**32 - 1, L12, L12, L12, L12, L12, 16, 16, TOP, TOP, TOP + 1, TOP + 1, 1, 1, 1, TOP]
    if any(w[i] > lim[i] for i in range(18)):
        return False
    reserved = 3 * (w[12] != 0) + 3 * (w[13] != 0)
    for side in (0, 1):
        for m in range(16):
            t = w[64 + 16 * side + m]
            a, mo, du = w[96 + 3 * (16 * side + m):][:3]
            if m >= w[8 + side] and (t or a or mo or du):
                return False
            if t > TOP + 1:
                return False
            if a == 0:
                if mo or du:
                    return False
            elif a in (1, 5, 9, 13):
                if mo > TOP or du:
                    return False
            elif a in (2, 6, 10, 14):
                if mo > TOP or du > L12:
                    return False
            else:
                return False
            reserved += (t != 0) + 4 * (a != 0)
    seen = set()
    total = 0
    for k in range(12):
        h, c = w[24 + 2 * k], w[25 + 2 * k]
        if c > R:
            return False
        total += c
        last = (-1, -1)
        for _ in range(c):
            if not 1 <= h <= R or h in seen:
                return False
            seen.add(h)
            nx, mo, le, tag = w[256 + 4 * (h - 1):][:4]
            if tag % 16 != k:
                return False
            if k:
                if mo > TOP:
                    return False
                if k in (5, 10):
                    if tag != k or le:
                        return False
                elif k == 11:
                    if tag not in (11, 2059) or le > TOP or (mo, 0) < last:
                        return False
                    last = (mo, 0)
                else:
                    place = k if k < 5 else k - 5
                    side = 0 if k < 5 else 1
                    kind, byp, ma = tag // 16 % 16, tag // 512 % 2, tag // 4096 % 16
                    if tag >= 65536 or tag // 2048 % 2 or kind > 9 or le > 2 * L12:
                        return False
                    if place == 1 and kind != 1 or place == 2 and (kind, byp) != (0, 0) or place == 3 and (kind, byp) != (0, 1) or place == 4 and kind < 2:
                        return False
                    if kind in KINDS_M and ma >= w[8 + side] or kind not in KINDS_M and ma:
                        return False
                    if (mo, kind) < last:
                        return False
                    last = (mo, kind)
            h = nx
        if h != 0:
            return False
    if total != R:
        return False
    return R - w[25] + reserved <= R


def reserved_of(w):
    return 3 * (w[12] != 0) + 3 * (w[13] != 0) + sum(x != 0 for x in w[64:96]) + 4 * sum(w[96 + 3 * j] != 0 for j in range(32))


def show(w):
    rate = lambda x: x or "-"
    held = lambda x: x - 1 if x else "-"
    out = [f"settings {w[0]} {rate(w[1])} {rate(w[2])} " + " ".join(map(str, w[3:10])), f"sums {w[10]} {w[11]}", f"block c {held(w[12])} {w[14]}", f"block s {held(w[13])} {w[15]}", f"ended {w[16]}", f"rounds {w[17]}", f"free {w[25]}"]
    for j in range(32):
        if w[64 + j]:
            out.append(f"timer {'cs'[j // 16]} {j % 16} {w[64 + j] - 1}")
    for j in range(32):
        a, mo, du = w[96 + 3 * j:][:3]
        if a:
            out.append(f"action {'cs'[j // 16]} {j % 16} {a % 4} {mo} {du} {a // 4 % 2} {a // 8 % 2}")
    def records(k):
        h = w[24 + 2 * k]
        while h:
            r = w[256 + 4 * (h - 1):][:4]
            yield r
            h = r[0]
    names = {1: "base", 2: "blocking", 3: "bypassable", 4: "internal"}
    for s in (0, 1):
        for c in (1, 2, 3, 4):
            for _, mo, le, t in records(c + 5 * s):
                out.append(f"event {names[c]} {t // 16 % 16} {mo} {le} {'cs'[s]} {t // 256 % 2} {t // 512 % 2} {t // 1024 % 2} {t // 4096 % 16}")
    for s in (0, 1):
        for _, mo, _, _ in records(5 + 5 * s):
            out.append(f"stamp {'cs'[s]} {mo}")
    for _, mo, le, t in records(11):
        out.append(f"aggregate {'cs'[t // 2048 % 2]} {mo} {le}")
    return out


def predicted(w, call):
    """The refusal 3 to 9 that document 01 gives to the call on accepted words;
    0 for none, None where 9 of a step is to be seen from the Rust."""
    c = call.split()
    n = lambda i: int(c[i])
    if c[0] == "open":
        ok = all(n(i) <= L12 for i in (1, 4, 5, 6, 7, 8)) and n(9) <= 16 and n(10) <= 16
        ok = ok and all(c[i] == "-" or 1 <= n(i) < 2**32 for i in (2, 3))
        return 0 if ok else 4
    if w[16]:
        return 3
    machines = {"c": w[8], "s": w[9]}
    room = w[25] - reserved_of(w)
    if c[0] == "pick_next":
        return 7 if n(1) > TOP else 0
    if c[0] in ("push", "sim_network_stack"):
        o = 1 if c[0] == "push" else 2
        kind, mo, de, side, pad, ma = n(o), n(o + 1), n(o + 2), c[o + 3], n(o + 4), n(o + 7)
        if kind in KINDS_M and ma >= machines[side]:
            return 5
        if kind > 9:
            return 6
        if mo > TOP or de > 2 * L12 or o == 2 and n(1) > TOP:
            return 7
        if o == 2 and kind == 0 and not pad and de > mo:
            return 8
        if o == 1:
            return 9 if room < 1 else 0
        return None
    side, ma = c[1], n(2)
    if ma >= machines[side]:
        return 5
    j = (0 if side == "c" else 16) + ma
    if c[0] == "set_timer":
        if n(3) > TOP:
            return 7
        return 9 if not w[64 + j] and room < 1 else 0
    if c[0] == "set_action":
        if n(3) not in (1, 2):
            return 6
        if n(4) > TOP or n(3) == 2 and n(5) > L12:
            return 7
        return 9 if not w[96 + 3 * j] and room < 4 else 0
    return 0


def step_answer(shown, call):
    """What a step that is not refused answers to a state that `show` lists so."""
    _, time, kind, _, _, side, *_ = call.split()
    if kind != "0":
        return "yes falls -" if kind == "3" else "no falls -"
    time, window = int(time), int(shown[0].split()[4])
    stamps = [int(line.split()[2]) for line in shown if line.startswith(f"stamp {side}")]
    oldest = next((t for t in stamps if time - t <= window), time)  # the first by arrival that is not too old; else the new one
    falls = oldest + window + 1
    return f"yes falls {falls if falls <= TOP else '-'}"


def spare(w):
    return [w[i] for i in [*range(18, 24), 48, 49, *range(50, 64), *range(192, 256)]]


# ---- blocks

def run(program, text):
    r = subprocess.run([program], input=text, capture_output=True, text=True)
    if r.returncode:
        open("damaged.failed", "w").write(text)
        sys.exit(f"{program}: status {r.returncode}: {r.stderr[-300:]} (damaged.failed)")
    return r.stdout.split("\n")


def bases(forecast, rnd, seed):
    kind = rnd.choice(LISTS)
    R = rnd.choice((1, 2, 3, 4, 6, 8, 13, 21))
    lines = [l for l in generate.generate(kind, seed, 120) if not l.startswith(("lend", "word"))]
    lines = [f"lend {256 + 4 * R}"] + lines
    cut = rnd.randrange(2, len(lines))
    out = run(forecast, "\n".join(lines[:cut] + ["words"]) + "\n")
    w = [int(x) for x in out[-(256 + 4 * R) - 2:-2]]
    assert len(w) == 256 + 4 * R and out[-2] == "end", out[-3:]
    return w


def damaged(rnd, w):
    w = list(w)
    R = (len(w) - 256) // 4
    how = rnd.random()
    if how < 0.01:
        return [0] * len(w)
    if how < 0.02:
        return [MAX] * len(w)
    if how < 0.03:
        return [rnd.getrandbits(rnd.choice((1, 2, 4, 64))) for _ in w]
    if how < 0.05:
        return w[:rnd.choice((0, 1, 255, 256, 257, 258, 259, len(w) - 1, len(w) - 2))]
    values = [0, 1, 2, 3, R, R + 1, R - 1, 15, 16, 17, 11, 2059, 2048, 4096, 65535, 65536, L12, L12 + 1, 2 * L12, 2 * L12 + 1, 2**32 - 1, 2**32, TOP, TOP + 1, TOP + 2, MAX]
    used = [*range(24), *range(24, 48), *range(64, 192)]
    for _ in range(rnd.choice((0, 1, 1, 1, 1, 2, 2, 3))):
        i = rnd.choice((rnd.randrange(len(w)), rnd.choice(used), rnd.randrange(24, 48), rnd.randrange(256, len(w)), rnd.randrange(256, len(w)), rnd.randrange(64, 192), rnd.randrange(8, 18)))
        v = rnd.choice((rnd.choice(values), w[i] + rnd.choice((-1, 1, 16, -16, 256, 512, 1024, 4096, 65536)), w[i] ^ (1 << rnd.randrange(64)), w[rnd.randrange(len(w))]))
        w[i] = v & MAX
    if rnd.random() < 0.1 and R > 1:
        a, b = rnd.sample(range(R), 2)
        x, y = 256 + 4 * a, 256 + 4 * b
        w[x:x + 4], w[y:y + 4] = w[y:y + 4], w[x:x + 4]
    return w


def some_call(rnd, w):
    num = lambda *v: rnd.choice(v)
    side = num("c", "s")
    mo = lambda: num(0, 5, 99, 100, 101, 10**6, 10**9, w[257] if len(w) > 260 else 7, TOP - 1, TOP, TOP + 1 if rnd.random() < .3 else 50)
    ma = num(0, 0, 0, 1, 2, 15, 16, MAX)
    fl = lambda: rnd.randrange(2)
    ev = f"{num(0,0,0,1,1,2,2,3,3,4,5,6,7,8,9,10,MAX)} {mo()} {num(0,0,0,1,6,L12,2*L12,2*L12+1)} {side} {fl()} {fl()} {fl()} {ma}"
    return rnd.choice((
        f"push {ev}", f"sim_network_stack {mo()} {ev}", f"sim_network_stack {mo()} {ev}", f"pick_next {mo()}", f"pick_next {mo()}", f"pick_next {mo()}",
        f"set_action {side} {ma} {num(0,1,1,2,2,2,3,MAX)} {mo()} {num(0,1,100,L12,L12+1)} {fl()} {fl()}", f"set_timer {side} {ma} {mo()}",
        f"clear_action {side} {ma}", f"clear_timer {side} {ma}", f"open {num(0,20,L12,L12+1)} {num('-',1,0,2**32)} {num('-',1,2**32-1)} 10 0 0 0 {num(0,L12+1)} {num(0,1,16,17)} 1"))


def listed(out):
    block = []
    for line in out:
        if line == "end":
            return block
        block.append(line)
    raise SystemExit("no end")


def main():
    forecast, oracle, seed, blocks = sys.argv[1], sys.argv[2], int(sys.argv[3]), int(sys.argv[4])
    rnd = random.Random(f"damaged {seed}")
    tests = []
    while len(tests) < blocks:
        base = bases(forecast, rnd, rnd.randrange(10**9))
        tests += [(w, some_call(rnd, w)) for w in (damaged(rnd, base) for _ in range(25))]
    counts, packets, absent = {}, 0, 0
    text = "".join(f"lend {len(w)}\n" + "".join(f"word {i} {v}\n" for i, v in enumerate(w)) + f"show\n{c}\nshow\nwords\n" for w, c in tests)
    out = iter(run(forecast, text))
    results, load = [], []
    for w, c in tests:
        for _ in range(len(w) + 1):
            assert next(out) == "ok"
        before, answer, after, left = listed(out), next(out), listed(out), [int(x) for x in listed(out)]
        results.append((before, answer, after, left))
        if accepted(w) and predicted(w, c) in (0, None):
            load += [("load " + line) for line in before if not line.startswith("free")] + [for_rust(c), "show"]
    rust = iter(run(oracle, "\n".join(load) + "\n"))
    bad = 0
    for (w, c), (before, answer, after, left) in zip(tests, results):
        name = c.split()[0]
        wrong = []
        key = None
        if not accepted(w):
            number = 1 if not size_ok(len(w)) else 2
            if name == "open":
                number = 1 if number == 1 else predicted(w, c)
            if before != ["not accepted"]:
                wrong.append("shown though not accepted")
            if number and (answer != f"refused {number} 0" or left != w):
                wrong.append(f"expected refused {number} 0, words untouched")
            if not number and (answer != "ok" or not accepted(left) or any(spare(left))):
                wrong.append("opening")
            key = f"refused {number}" if number else "opened"
        else:
            if before != show(w):
                wrong.append("show")
            number = predicted(w, c)
            if number:
                if answer != f"refused {number} 0" or left != w:
                    wrong.append(f"expected refused {number} 0, words untouched")
                key = f"accepted, refused {number}"
            else:
                for line in before:
                    if not line.startswith("free"):
                        got = next(rust)
                        assert got == "ok", (line, got)
                theirs, state = next(rust), listed(rust)
                nofree = lambda s: [x for x in s if not x.startswith("free")]
                if name == "sim_network_stack" and not answer.startswith("refused"):
                    due = step_answer(before, c)
                    if answer != due:
                        wrong.append(f"expected {due}")
                    packets += c.split()[2] == "0"
                    absent += (c.split()[2], due) == ("0", "yes falls -")
                if accepted(left) and spare(left) != (spare(w) if name != "open" else [0] * len(spare(w))):
                    wrong.append("words without a meaning")
                if not accepted(left) or show(left) != after:
                    wrong.append("state left")
                R = (len(w) - 256) // 4
                used = sum(x.startswith(("event", "stamp", "aggregate")) for x in state)
                need = used + 3 * sum(x.startswith("block") and x.split()[2] != "-" for x in state) + sum(x.startswith("timer") for x in state) + 4 * sum(x.startswith("action") for x in state)
                if number is None and theirs.startswith("refused 10") and answer == "refused 9 0":
                    key = "9 before 10"
                    if left != w:
                        wrong.append("9 changed words")
                elif number is None and need > R:
                    key = "accepted, refused 9 (step)"
                    if answer != "refused 9 0" or left != w:
                        wrong.append("expected refused 9 0")
                else:
                    key = "accepted, " + theirs.split()[0] + (" 10" if theirs.startswith("refused 10") else "")
                    if answer != theirs or nofree(after) != nofree(state):
                        wrong.append(f"the Rust: {theirs} {state}")
                    if answer.startswith("refused 10") and name != "pick_next" and left != w[:16] + [1] + w[17:]:
                        wrong.append("a step's 10")
        counts[key] = counts.get(key, 0) + 1
        if wrong:
            bad += 1
            if bad < 4:
                print("DIFFERENCE", wrong, "\n call", c, "\n answer", answer, "\n before", before, "\n after", after)
                print(f" block: lend {len(w)} " + " ".join(f"{i}:{v}" for i, v in enumerate(w) if v))
    print(f"seed {seed}: {len(tests)} blocks, {bad} differences:", ", ".join(f"{k}: {n}" for k, n in sorted(counts.items())))
    print(f"{packets} steps stamped a packet, {absent} of them without a moment at which the count falls")
    sys.exit(1 if bad else 0)


if __name__ == "__main__":
    main()
