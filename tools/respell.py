#!/usr/bin/env python3
"""Spells the names that this repository's own antt files declare as Rattle spells them now: words in snake case, types and modules as they are.

usage: respell.py [--list] [FOLDER]     FOLDER: the top of the repository (default: here)

Run once, after the kit's port.py. What turns: a name that a file of specs/ or proofs/ declares, and that has a capital within it or a dash, as
`actionDelay` and `falls-too-old`, which become `action_delay` and `falls_too_old`; in every .antt file, and in the clauses and `ghost use` lines of
every .rt file. What stays: types (`CallRan`), names that Rattle makes (`limit-requires`), names that a file imports from the library, strings,
functions of src/, fields of structs. A lemma whose new name would be a definition's gets `_lem`; where names fall together
otherwise a line `meets:` says so, and APART has what is done. `look:` lists functions with a parameter of the new name of something they cite.
--list writes nothing, and prints old and new.
"""
import collections
import glob
import os
import re
import sys

NAME = r'[^\s(){}.;,@"«»]+'
# A declaration at the head of a line: names, implicit variables, a colon.
DECLARED = re.compile(rf"(?m)^([ ]*)((?:(?:pub|unfoldable|abbrev|opaque|private|ruleset|record|data)\s+)*)({NAME}(?: +{NAME})*)((?: \{{[^{{}}\n]*\}})*) :(?=\s)")
MADE = re.compile(r"\s*(?:tie|goal|given)\.")
USE = re.compile(r"(?m)^[ ]*(?:ghost )?(?:unfoldable )?(?:pub )?use ([^\s;{]+?)\.?\{([^}]*)\}")
PATH = re.compile(r"(?<![\w.'-])[cwlg](?:\.[^\s(){};,@\"«»]+)")
COMMENT = re.compile(r"--[^\n]*")
CLAUSE = re.compile(r"(?:\brequires|\bensures|\bghost)\b[^{};\n]*\{")
# Names whose plain new spelling is another name's in some file, with the spelling that they get instead.
APART = {n: n + "_lem" for n in ("chain_head", "first_block", "free_in", "head_in", "last_row", "side_after")}
# Fields and cases whose name a definition has.
APART |= {
    "no-event": "no_events",
    "no-block": "no_blocks",
    "no-timer": "no_timers",
    "no-action": "no_actions",
    "wrong-length": "bad_length",
    "queue-rate": "queue_rate_fits",
    "network-rate": "network_rate_fits",
    "in_order": "met_in_order",
}
# Three definitions give way to the calls of the same name.
APART |= {"setTimer": "timer_set", "clearTimer": "timer_cleared", "clearAction": "action_cleared"}
# Names that stay.
KEPT = set()


def read(p):
    with open(p, encoding="utf-8") as f:
        return f.read()


def antt(root):
    for part in ("specs", "proofs"):
        yield from sorted(glob.glob(os.path.join(root, "crates/*", part, "**/*.antt"), recursive=True))


def sources(root):
    return sorted(glob.glob(os.path.join(root, "crates/*/src/**/*.rt"), recursive=True))


def snake(name):
    return re.sub(r"(?<=[a-z])[A-Z]+", lambda m: "_" + m[0].lower(), name).replace("-", "_").lower()


def declared(root):
    """The names that the files declare, but for those that answer a goal of Rattle's; and the names of such goals, by file."""
    names, made = set(), collections.defaultdict(set)
    for p in antt(root):
        t = read(p)
        for m in DECLARED.finditer(t):
            for n in m[3].split():
                (made[p].add if MADE.match(t[m.end():]) else names.add)(n)
    for p in list(antt(root)) + sources(root):
        names.update(a for _, items in USE.findall(read(p)) for a in re.findall(rf" as ({NAME})", items))
    return names, made


def foreign(t):
    """The names that a file imports from elsewhere than this repository's crates."""
    out = set()
    for path, names in USE.findall(t):
        if path.split(".")[0] == "Rattle" and path.split(".")[1] in OWN:
            continue
        for n in re.split(r",\s*", names.strip()):
            out |= set(n.split(" as "))
    return out


def tokens(t):
    """The words of a text, but for comments and for the modules that its `use` lines name."""
    t = re.sub(r"(?m)^[ ]*(?:unfoldable )?(?:pub )?use [^\s;{]+", "", COMMENT.sub("", t))
    return set(re.findall(NAME, t))


def turned(t, table, stays):
    """The text with the names of `table` in their new spelling, but for those in `stays`, and for a name with a dash on a path of Rattle's."""
    quiet = []

    def path(m):
        quiet.append((m.start(), m.end()))
        return m[0]

    PATH.sub(path, t)
    starts = sorted(quiet)
    at = 0

    def word(m):
        nonlocal at
        n = m[0]
        if n[0] == '"' or n not in table or n in stays:
            return n
        if "-" in n:
            while at < len(starts) and starts[at][1] <= m.start():
                at += 1
            if at < len(starts) and starts[at][0] <= m.start() < starts[at][1]:
                return n
        return table[n]

    return re.sub(r'"(?:[^"\\\n]|\\.)*"|' + NAME, word, t)


def clauses(t):
    """The stretches of a .rt file that are antt: `ghost use` lines and the clauses."""
    out = [(m.start(), m.end()) for m in re.finditer(r"ghost use [^;]*;", t)]
    for m in CLAUSE.finditer(t):
        depth, i = 1, m.end()
        while depth and i < len(t):
            depth += {"{": 1, "}": -1}.get(t[i], 0)
            i += 1
        out.append((m.end(), i))
    return sorted(out)


def main(argv):
    global OWN
    listing = "--list" in argv
    root = next((a for a in argv if not a.startswith("-")), ".")
    OWN = set(os.listdir(os.path.join(root, "crates")))
    names, made = declared(root)
    table = {}
    for n in sorted(names):
        if n[0].isupper() or n in KEPT or not re.fullmatch(r"[\w'?·-]+", n):
            continue
        if n in APART:
            table[n] = APART[n]
        elif re.search(r"[a-z0-9][A-Z]|-", n):
            table[n] = snake(n)
    # a lemma that would get the name of a definition
    both = collections.Counter(table.values())
    for n, b in table.items():
        if "-" in n and (both[b] > 1 or b in names):
            table[n] = b + "_lem"
    texts = {p: read(p) for p in antt(root)}
    used = collections.defaultdict(set)
    for p, t in texts.items():
        for n in tokens(t):
            used[n].add(p)
    back = collections.defaultdict(set)
    for a, b in table.items():
        back[b].add(a)
    for b, olds in sorted(back.items()):
        if len(olds) > 1 or b in used:
            print(f"meets: {b}: {', '.join(sorted(olds))}; {b} stands in {len(used[b])} files" + "".join(f"\n    {p}" for p in sorted(used[b])[:3]))
    if listing:
        for a, b in sorted(table.items()):
            print(a, b)
        return 0
    for p, t in texts.items():
        new = turned(t, table, foreign(t) | made[p])
        if new != t:
            with open(p, "w", encoding="utf-8") as f:
                f.write(new)
    for p in sources(root):
        t = read(p)
        out, last, stays = [], 0, foreign(t)
        for a, b in clauses(t):
            if a < last:
                continue
            out += [t[last:a], turned(t[a:b], table, stays)]
            last = b
        new = "".join(out) + t[last:]
        for m in re.finditer(r"fn (\w+)[^(]*\(([^)]*)\)", new):
            hidden = set(re.findall(r"(\w+):", m[2])) & (tokens(new[m.end():].split("\n    {\n")[0].split("\n{\n")[0]) & set(table.values()))
            if hidden:
                print(f"look: {p}: {m[1]}: {', '.join(sorted(hidden))}")
        if new != t:
            with open(p, "w", encoding="utf-8") as f:
                f.write(new)
    return 0


if __name__ == "__main__":
    raise SystemExit(main(sys.argv[1:]))
