#!/usr/bin/env python3
"""Turns the proof files of an older Rattle, `proofs/F/Proof.antt` over a tie, into `Answers.antt` and `Invariants.antt`.

usage: answers.py CRATE NAMES     CRATE: the crate's folder; NAMES: names.json, as `rt check --generated DIR --old-names` writes it there

An answer that is `search rules` goes, since the check tries that itself. A path as c.before.before.if1.true becomes c.if-a-b.true, by the names of steps.
What it cannot turn is left as it stands and named on a line that begins `left:`.
"""
import json
import os
import re
import sys

NAME = r"[^\s(){};,]+"
NEED = re.compile(rf"(?m)^(?:pub )?({NAME}) :\s+tie\.Need-(\S+)[^\n]*\n((?:unfolding [^\n]*\n)*)\1((?: +[^\s(){{}};,=]+)*) =(.*?)(?=\n\n|\Z)", re.S)
INVARIANT = re.compile(rf"(?m)^(abbrev |unfoldable )?({NAME}) :\s+tie\.((?:invariant|decreases)\S*)\n((?:unfolding [^\n]*\n)*)\2((?: +[^\s(){{}};,=]+)*) =(.*?)(?=\n\n|\Z)", re.S)
STEP = re.compile(r"(?<![\w.'-])(c)((?:\.before)*)\.([^\s(){};,.]+)((?:\.[^\s(){};,.]+)*)")
SPEC = re.compile(rf"(?m)^pub {NAME} : .*\Z", re.S)


def plain(n):
    return n.replace("_", "-").lower()


def steps_of(names, said):
    """The new name of each step by its old one."""
    out = {}
    for place in names["places"]:
        old, new = place[2]
        if old:
            out.setdefault(plain(old), new)
    return out


def contracts(root):
    """The clauses of each function of the repository, by its crate and its name: for `requires` and `ensures` a list of name and text."""
    out = {}
    for folder, _, files in os.walk(os.path.join(root, "crates")):
        for file in files:
            if not file.endswith(".rt") or f"{os.sep}src" not in folder:
                continue
            crate = os.path.relpath(folder, os.path.join(root, "crates")).split(os.sep)[0]
            text = open(os.path.join(folder, file), encoding="utf-8").read()
            module = "" if file in ("lib.rt", "main.rt") else file[:-3]
            for m in re.finditer(r"\bfn (\w+)", text):
                end = re.search(r"\n *\{\n|;\n", text[m.end():])
                head = text[m.end() : m.end() + (end.start() if end else 0)]
                got = {"requires": [], "ensures": []}
                for c in re.finditer(r"(?m)^ +(requires|ensures) ?(\w*) ?\{(.*)\}$", head):
                    got[c[1]].append((c[2], c[3].strip()))
                out[(crate, module, m[1])] = got
    return out


def callee_of(name):
    """The clauses of `crate::module::fn` or `crate::Type::fn`."""
    parts = name.split("::")
    for module in (parts[1] if len(parts) > 2 else "", ""):
        if (parts[0], module, parts[-1]) in CONTRACTS:
            return CONTRACTS[(parts[0], module, parts[-1])]
    return None


def width(text):
    """How many facts a clause joins by × at its top."""
    depth, n = 0, 1
    for ch in text:
        depth += (ch in "({[") - (ch in ")}]")
        n += ch == "×" and depth == 0
    return n


def fields_of(names):
    """For each step the new names of its fields, by the old ones."""
    out = {}
    for place in names["places"]:
        if place[2][0]:
            out.setdefault(plain(place[2][0]), {}).update(dict(place[4]))
    return out


def clause(path, fields, at):
    """`.0.1` and so on behind `.requires`, of right-nested pairs, as the clause's name; a pair of some of them as a tuple."""
    parts, first = path.split(".")[1:], 0
    while first < len(fields) - 1 and parts:
        if parts[0] == "0":
            return f"{at}.{fields[first]}" + "".join("." + p for p in parts[1:])
        if parts[0] != "1":
            return None
        parts, first = parts[1:], first + 1
    if first == len(fields) - 1:
        return f"{at}.{fields[first]}" + "".join("." + p for p in parts)
    return "(" + ", (".join(f"{at}.{f}" for f in fields[first:]) + ")" * (len(fields) - first)


def unaliased(body):
    """Names that stand for an earlier place, as `let stored = c.before.before in`, become `c`: all places have one record now."""
    heads = {"c"}
    while True:
        m = re.search(r"let ([^\s(){};,.]+) = ([^\s(){};,.]+)((?:\.before)+) in\s*", body)
        if not m or m[2] not in heads:
            break
        heads.add(m[1])
        body = body[: m.start()] + body[m.end() :]
        body = re.sub(rf"(?<![\w.'-]){re.escape(m[1])}(?=\.)", "c", body)
    return body


def turned(body, names, said):
    body = unaliased(body)
    steps, fields = steps_of(names, said), fields_of(names)
    callees = {plain(p[2][0]): p[3] for p in names["places"] if p[3]}
    parents = {p[0]: p for p in names["places"]}
    arms = {}
    for place in names["places"]:
        parent = parents.get(place[1])
        if parent and parent[2][1].startswith("in"):
            arms.setdefault(plain(place[2][0]), parent[2][1])

    def one(m):
        step, rest = m[3], m[4]
        if step in ("args", "ranges", "well-formed", "well_formed"):
            return f"{m[1]}.{step.replace('-', '_')}{rest}"
        if step == "requires":
            if names["pre"]:
                new = clause(rest, names["pre"]["fields"], f"{m[1]}.requires")
                if new is None:
                    said.append(f"requires {rest}")
                    return f"{m[1]}.requires{rest}"
                return new
            return f"{m[1]}.requires{rest}"
        if rest.startswith(".given.1") and plain(step) in arms:
            return f"{m[1]}.{arms[plain(step)]}.is{rest[len('.given.1'):]}"
        if plain(step) not in steps and plain(step.rstrip("0123456789")) in steps:
            step = step.rstrip("0123456789")
        if plain(step) in steps:
            given = re.match(r"\.new((?:\.1)*)\.0(?![0-9])", rest)
            if given and plain(step) in callees and callees[plain(step)] in names["params"]:
                params, i = names["params"][callees[plain(step)]], len(given[1]) // 2
                if i < len(params):
                    rest = f".new.{params[i]}" + rest[given.end():]
            callee = callees.get(plain(step)) and callee_of(callees[plain(step)])
            if callee and len(callee["ensures"]) > 1 and rest.startswith(".ensures"):
                new = clause(rest[len(".ensures"):], [n for n, _ in callee["ensures"]], f"{m[1]}.{steps[plain(step)]}.ensures")
                if new:
                    return new
            field = re.match(r"\.([^.]+)", rest)
            if field and field[1] in fields.get(plain(step), {}):
                rest = "." + fields[plain(step)][field[1]] + rest[field.end():]
            return f"{m[1]}.{steps[plain(step)]}{rest}"
        said.append(f"step {step}")
        return m[0]

    return STEP.sub(one, body)


def components(term):
    """The parts of a tuple `(a, b, ..)` at its top, or None."""
    term = term.strip()
    if not (term.startswith("(") and term.endswith(")")):
        return None
    depth, parts, last = 0, [], 1
    for i, ch in enumerate(term):
        depth += (ch in "({[") - (ch in ")}]")
        if depth == 0 and i < len(term) - 1:
            return None
        if ch == "," and depth == 1:
            parts.append(term[last:i].strip())
            last = i + 1
    parts.append(term[last:-1].strip())
    return parts if len(parts) > 1 else None


def clauses_of(term, n):
    """The n parts of right-nested pairs, or of one flat tuple."""
    parts = components(term)
    if parts is None:
        return None
    while len(parts) < n:
        inner = components(parts[-1])
        if inner is None:
            return None
        parts = parts[:-1] + inner
    return parts[: n - 1] + [", ".join(parts[n - 1 :]) if len(parts) == n else "(" + ", ".join(parts[n - 1 :]) + ")"]


def grouped(term, asked, names, goal):
    """The parts of a flat tuple, joined where a clause joins several facts."""
    called = [p for p in names["params"] if p.split("::")[-1] == re.split(r"-", goal)[0]]
    callee = callee_of(called[0]) if called else None
    if not callee or [n for n, _ in callee["requires"]] != asked:
        return None
    widths = [width(t) for _, t in callee["requires"]]
    if max(widths) == 1:
        return None
    parts = clauses_of(term, sum(widths))
    if parts is None:
        return None
    out = []
    for w in widths:
        out.append(parts[0] if w == 1 else "(" + ", ".join(parts[:w]) + ")")
        parts = parts[w:]
    return out


def invariant(m, loops, changed, said):
    """An invariant or a measure over the variables' record."""
    kind, old = m[3].split("-", 1)
    for (names, vars_), flags in zip(loops, changed):
        if plain(names[0]) == plain(old):
            break
    else:
        said.append(f"loop {m[3]}")
        return None
    given = m[5].split()
    moving = [v for v, f in zip(vars_, flags) if f]
    if len(given) != len(vars_) + len(moving):
        said.append(f"variables of {m[3]}: {given} for {vars_} and {moving}")
        return None
    table = {}
    for g, v, f in zip(given, vars_, flags):
        table[g] = f"l.initial.{v}" if f else f"l.{v}"
    for g, v in zip(given[len(vars_):], moving):
        table[g] = f"l.{v}"
    table.pop("_", None)
    body = re.sub(r"(?<![^\s(){};,])([^\s(){};,.]+)(?=[\s(){};,.]|$)", lambda t: table.get(t[1], t[1]), m[6])
    new = f"{kind}-{names[1]}"
    return f"{m[1] or 'abbrev '}pub {new} : goal.{new}\n{m[4]}{new} l ={body.rstrip()}\n"


def indented(body):
    return body.rstrip()


def turn(crate, name, folder, names):
    path = os.path.join(folder, "Proof.antt")
    text = open(path, encoding="utf-8").read()
    said = []
    needs = [(a, b) for a, b in names["needs"]]
    by_old = {plain(a): b for a, b in needs}
    by_new = {plain(b): b for a, b in needs}
    head, rest = [], []
    lines = text.split("\n")
    at = 0
    while at < len(lines) and (lines[at].startswith("--") or lines[at].startswith("use ") or not lines[at].strip()):
        if lines[at].strip():
            head.append(lines[at])
        at += 1
    body = SPEC.sub("", "\n".join(lines[at:])).strip() + "\n\n"
    written = [m for m in NEED.finditer(body)]
    same = len(written) == len(needs)
    answers, others, last = [], [], 0
    invariants = []
    for m in INVARIANT.finditer(body):
        invariants.append(m)
    for i, m in enumerate(written):
        old = plain(m[2])
        new = needs[i][1] if same else by_old.get(old) or by_new.get(old)
        if new is None:
            said.append(f"goal {m[2]}")
            new = m[1]
        term = turned(m[5], names, said).rstrip()
        asked = names["asked"].get(new) or names["asked"].get(needs[i][0] if same else "")
        if asked and len(asked) > 1:
            parts = grouped(term, asked, names, new) or clauses_of(term, len(asked))
            if parts is None and not term.strip().startswith("search"):
                # one term that gives a pair of all
                lets = re.match(r"\s*((?:let .* in\s+)*)(.*)", term, re.S)
                n, sets = len(asked), []
                for i, f in enumerate(asked):
                    sets.append(f"{f} = all" + ".1" * i + (".0" if i < n - 1 else ""))
                inner = clauses_of(lets[2], n)
                if inner:
                    term = f" {lets[1]}record {{ {'; '.join(f'{f} = {t}' for f, t in zip(asked, inner))} }}"
                else:
                    term = f" {lets[1]}let all = {lets[2].strip()} in record {{ {'; '.join(sets)} }}"
            if parts:
                for f, t in zip(asked, parts):
                    if t != "search rules":
                        answers.append(f"pub {new}-clause-{f} : goal.{new}-clause-{f}\n{m[3]}{new}-clause-{f} c = {t}\n")
                continue
        if term.strip() == "search rules" and not m[3]:
            continue
        answers.append(f"pub {new} : goal.{new}\n{m[3]}{new} c ={term}\n")
    spans = [(m.start(), m.end()) for m in written + invariants]
    keep, last = "", 0
    for a, b in sorted(spans):
        keep += body[last:a]
        last = b
    keep += body[last:]
    keep = re.sub(r"\n{3,}", "\n\n", keep).strip()
    uses = [l for l in head if l.startswith("use ") and ".Statement." not in l and not l.endswith(" as tie") and "Author.Rules.{rules}" not in l]
    comment = [l for l in head if l.startswith("--")]
    goal = "use Rattle." + crate + ".proofs." + name + "."
    made = []
    if invariants:
        out = "\n".join(comment + uses + [goal + "Given as goal", ""]) + "\n"
        loops = names["loops"]
        for m in invariants:
            out += (invariant(m, loops, names["changed"], said) or m[0]) + "\n"
        made.append(("Invariants.antt", out))
    if answers or keep:
        if any(re.search(r"\brules\b", a) for a in answers):
            uses = ["use borrow.Author.Rules.{rules}"] + uses
        out = "\n".join(comment + uses + [goal + "Goals as goal", ""]) + "\n" + (keep + "\n\n" if keep else "") + "\n".join(answers)
        made.append(("Answers.antt", out))
    for file, out in made:
        with open(os.path.join(folder, file), "w", encoding="utf-8") as f:
            f.write(out)
    os.remove(path)
    for it in said:
        print(f"left: {folder}: {it}")
    if not same:
        print(f"left: {folder}: {len(written)} needs of {len(needs)}")


def main(argv):
    global CONTRACTS
    crate, table = argv
    CONTRACTS = contracts(os.path.join(crate, "..", ".."))
    with open(table, encoding="utf-8") as f:
        table = json.load(f)
    label = os.path.basename(os.path.abspath(crate))
    for key, names in sorted(table.items()):
        m = re.fullmatch(rf"Rattle-{label}-proofs\.(.+)\.Lts", key)
        if not m:
            continue
        folder = os.path.join(crate, "proofs", *m[1].split("."))
        if os.path.exists(os.path.join(folder, "Proof.antt")):
            turn(label, m[1], folder, names)
    return 0


if __name__ == "__main__":
    raise SystemExit(main(sys.argv[1:]))
