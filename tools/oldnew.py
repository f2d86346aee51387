#!/usr/bin/env python3
"""oldnew.py OLD NEW [PAGE]: each public function, public type and definition that differs between two checkouts, old and new side by side, as docs/DESIGN-PASS.md has it.

What is gone is told by a note `now: TEXT`, which is taken from PAGE (default NEW/docs/DESIGN-PASS.md); names that lack one are listed on standard error."""
import difflib, glob, os, re, sys


def read(path):
    with open(path, encoding="utf-8") as f:
        return f.read().split("\n")


def joined(said):
    """A signature on one line, and each clause on one."""
    out = []
    for l in said:
        if not out or re.match(r"\s+(requires|ensures|decreases|measure)\b", l):
            out.append(l)
        else:
            out[-1] += " " + l.strip()
    return [re.sub(r",\)", ")", l.replace("( ", "(").replace(", )", ")")) if not i else l for i, l in enumerate(out)]


def rust_items(path):
    """name -> lines, of public functions (those of traits and of their impls too) and public types, bodies left out."""
    items, holder, at, lines = {}, None, 0, read(path)
    held, trait = "", False
    while at < len(lines):
        line = lines[at]
        top = re.match(r"(?:pub )?(?:ghost )?(struct|enum|trait)\b", line)
        if re.match(r"impl\b", line):
            head = line.split(" where ")[0].rstrip("{ ").strip()
            head = re.sub(r"^impl(<[^>]*(?:<[^>]*>)?[^>]*>)?\s*", "", head)
            held, trait = head, " for " in head
        elif line == "}":
            held, trait = "", False
        if top and line.startswith("pub "):
            name = re.match(r"pub (?:ghost )?(?:struct|enum|trait|type)\s+(\w+)", line)[1]
            begin = at
            while begin > 0 and lines[begin - 1].startswith("#["):
                begin -= 1
            end = at
            if not line.rstrip().endswith(";"):
                while lines[end] != "}":
                    end += 1
            kept = [l for l in lines[begin : end + 1] if not l.strip().startswith("//")]
            items[name] = kept
            at = end + 1
            continue
        f = re.match(r"(\s*)(pub(?:\(crate\))? )?(?:const )?(?:extern \"C\" )?fn\s+(\w+)", line)
        if f and (f[2] or (trait and held)):
            indent, end, said = len(f[1]), at, []
            while True:
                l = lines[end]
                if l.strip() == "{" and len(l) - len(l.lstrip()) == indent:
                    break
                if l.rstrip().endswith("{") and end == at:
                    said.append(l.rstrip()[:-1].rstrip())
                    break
                if l.strip() == "}" and len(l) - len(l.lstrip()) == indent:
                    break
                if len(l) - len(l.lstrip()) == indent and l.rstrip().endswith(" {") and not l.strip().startswith(("requires", "ensures", "decreases")):
                    said.append(l.rstrip()[:-1].rstrip())
                    break
                said.append(l.rstrip())
                end += 1
                if end >= len(lines):
                    break
            said = joined([l[indent:] for l in said if not l.strip().startswith("//")])
            name = f"{held}::{f[3]}" if held else f[3]
            items[name] = said
            at = end
        at += 1
    return items


def definitions(path):
    """name -> lines, of the definitions of a file of specs/."""
    items, name = {}, None
    for line in read(path):
        if not line.strip() or line.lstrip().startswith("--") or line.startswith(("use ", "module ", "ghost use")):
            if not line.strip() or line.startswith(("use ", "module ")):
                name = None
            continue
        if not line.startswith((" ", "|", "}", ")")):
            m = re.match(r"(?:pub )?(?:abbrev )?(?:unfoldable )?(?:pub )?(?:data |record |inductive |theorem |lemma |prop |instance )?(?:pub )?([^\s:=({]+)", line)
            name = m[1] if m else line
            if line.startswith("unfoldable"):
                name = "unfoldable"
        if name:
            items.setdefault(name, []).append(line)
    return items


def crate_items(folder):
    types, functions, defs = {}, {}, {}
    for path in sorted(glob.glob(folder + "/src/*.rt")):
        file = os.path.splitext(os.path.basename(path))[0]
        for name, lines in rust_items(path).items():
            (types if re.match(r"(#|pub (ghost )?(struct|enum|trait|type))", lines[0]) else functions)[f"{file}::{name}"] = lines
    for path in [p for p in sorted(glob.glob(folder + "/specs/*.antt")) if not p.endswith("/Lib.antt")]:
        file = os.path.splitext(os.path.basename(path))[0]
        for name, lines in definitions(path).items():
            defs[f"specs/{file} {name}"] = lines
    return types, functions, defs


def notes_of(page):
    """(crate, name) -> what stands behind `now:`."""
    found, crate = {}, None
    if os.path.isfile(page):
        for line in read(page):
            if line.startswith("### "):
                crate = line[4:]
            m = re.match(r"  (\S.*?)   now: (.*)", line)
            if m:
                found[(crate, m[1])] = m[2]
    return found


def main(old, new, page=None):
    notes = notes_of(page or new + "/docs/DESIGN-PASS.md")
    order = [l.split(":")[0].split()[0] for l in read(new + "/crates.txt") if l and not l.startswith("#")]
    counts = {k: [0, 0, 0, 0] for k in range(3)}
    out, missing = [], []
    for crate in order:
        a, b = crate_items(f"{old}/crates/{crate}"), crate_items(f"{new}/crates/{crate}")
        said = []
        for kind in range(3):
            for name in sorted(set(a[kind]) | set(b[kind]), key=lambda n: (n.count("::") > 1 or " for " in n, n)):
                x, y = a[kind].get(name), b[kind].get(name)
                if x == y:
                    counts[kind][0] += 1
                    continue
                counts[kind][1 if x and y else 2 if x else 3] += 1
                note = ""
                if not y:
                    note = notes.get((crate, name), "")
                    if not note:
                        missing.append(f"{crate} | {name}")
                    note = f"   now: {note}"
                said.append(f"  {name}{note}")
                parts = [op for op in difflib.SequenceMatcher(None, x or [], y or [], autojunk=False).get_opcodes() if op[0] != "equal"]
                said += ["- " + l for _, i, j, _, _ in parts for l in (x or [])[i:j]] + ["+ " + l for _, _, _, i, j in parts for l in (y or [])[i:j]]
        out.append(f"### {crate}\n")
        out += ["```diff"] + said + ["```", ""] if said else ["Nothing.", ""]
    t, f, d = counts[0], counts[1], counts[2]
    print("## Old and new\n")
    print("Public functions (also those of a trait's implementation) and their clauses, public types, and all definitions of specs/, crate by crate; a line that did not change is left out, and so is")
    print(f"what did not change at all: {f[0]} functions stand as they were, {f[1]} changed, {f[2]} are gone, {f[3]} new; of types {t[1]} changed, {t[2]} are gone, {t[3]} new;")
    print(f"of definitions {d[1]} changed, {d[2]} are gone, {d[3]} new. A definition that only names another type of the code says what it said. What a `requires` of old says and a")
    print("clause of today does not stands in the type of the parameter.\n")
    print("\n".join(out))
    for m in missing:
        print("no note:", m, file=sys.stderr)


main(*sys.argv[1:])
