#!/usr/bin/env python3
"""forms.py [ROOT [POINT..]]: the places in src/ that docs/DESIGN-PASS.md counts, by its points, one a line and a count below each list.

It goes by text, in the layout that `rt fmt` gives. 1: enums shaped as Option or Result, groups of numbers that stand for kinds, functions that answer the number of
a refusal. 2: functions whose bodies differ in names and numbers alone. 3: loops that count by hand. 4: order, copies, conversions and printing by hand. 5: a clause
that stands in three functions or more, two parameters that three functions or more take together. 6: a buffer with a length beside it, parallel arrays. 7: chains of
tests that choose the step to run. 8: lemmas that nothing cites, lines of answers."""
import collections, glob, os, re, sys

FUNCTION = re.compile(r"^( *)(?:pub(?:\(\w+\))? )?(?:extern \"C\" )?fn (\w+)")


class Fn:
    def __init__(self, crate, file, line, name):
        self.crate, self.file, self.line, self.name = crate, file, line, name
        self.head, self.body = [], []

    def __str__(self):
        return f"{self.crate}/src/{self.file}:{self.line}: {self.name}"

    @property
    def params(self):
        text = " ".join(self.head)
        text = text[text.index("(") + 1 :]
        depth, out, part = 0, [], ""
        for ch in text:
            if ch in "([{<":
                depth += 1
            if ch in ")]}>":
                depth -= 1
            if depth < 0:
                break
            if ch == "," and depth == 0:
                out.append(part.strip())
                part = ""
            else:
                part += ch
        return [re.sub(r"\s+", " ", p) for p in out + [part.strip()] if ":" in p]

    @property
    def clauses(self):
        text = "\n".join(self.head)
        found = []
        for m in re.finditer(r"^\s+(requires|ensures)\s*(\w*) \{(.*?)\}\s*$", text, re.M | re.S):
            for fact in re.split(r" × ", m[3]):
                found.append((m[1], re.sub(r"\s+", " ", fact.strip(" ()"))))
        return found


def sources(root):
    for path in sorted(glob.glob(os.path.join(root, "crates/*/src/**/*.rt"), recursive=True)):
        crate = os.path.relpath(path, os.path.join(root, "crates")).split(os.sep)[0]
        file = path.split("/src/")[1]
        with open(path, encoding="utf-8") as f:
            yield crate, file, f.read()


def functions(root):
    found = []
    for crate, file, text in sources(root):
        now = body = None
        for i, line in enumerate(text.split("\n"), 1):
            if now is None:
                m = FUNCTION.match(line)
                if m:
                    now, margin, body = Fn(crate, file, i, m[2]), m[1], False
            if now is not None:
                if body and line == margin + "}":
                    found.append(now)
                    now = None
                elif body:
                    now.body.append(line)
                else:
                    now.head.append(line)
                    code = line.split("//")[0].rstrip()
                    if code.endswith(";") and len(code) - len(code.lstrip()) >= len(margin) and not code.rstrip().endswith("{"):
                        now = None
                    elif code.endswith("{") and len(code) - len(code.lstrip()) == len(margin):
                        body = True
    return found


def enums(root):
    for crate, file, text in sources(root):
        for m in re.finditer(r"^(?:pub(?:\(\w+\))? )?enum (\w+) \{\n(.*?)^\}", text, re.M | re.S):
            lines = [l.strip().rstrip(",") for l in m[2].split("\n") if l.strip() and not l.strip().startswith("//")]
            yield crate, file, text.count("\n", 0, m.start()) + 1, m[1], lines


def point1(root):
    for crate, file, line, name, variants in enums(root):
        bare = [v for v in variants if "(" not in v]
        if (len(variants) == 2 and len(bare) == 1) or any(v.startswith("Refused") or v == "Bad" for v in variants):
            yield f"{crate}/src/{file}:{line}: enum {name} {{ {', '.join(variants[:4])}{', ..' if len(variants) > 4 else ''} }}"
    for crate, file, text in sources(root):
        run = []
        for m in list(re.finditer(r"^ *(?:pub(?:\(\w+\))? )?const (\w+): (?:u64|usize) = (\d+);$", text, re.M)) + [None]:
            if m and run and int(m[2]) == int(run[-1][2]) + 1:
                run.append(m)
                continue
            if len(run) > 2 or len(run) == 2 and run[0][2] == "0":
                yield f"{crate}/src/{file}:{text.count(chr(10), 0, run[0].start()) + 1}: {run[0][1]} to {run[-1][1]}, {len(run)} numbers"
            run = [m] if m else []
        for m in re.finditer(r"^pub struct (\w*Kind)\(pub u64\);", text, re.M):
            yield f"{crate}/src/{file}:{text.count(chr(10), 0, m.start()) + 1}: struct {m[1]}(u64)"
        for m in re.finditer(r"^    pub (number|chain|known): u64,", text, re.M):
            yield f"{crate}/src/{file}:{text.count(chr(10), 0, m.start()) + 1}: field {m[1]}: u64"
    for f in functions(root):
        if re.search(r"-> u64", " ".join(f.head)) and re.search(r"(_number|_refusal|^lent|^ended|^tested)$", f.name):
            yield f"{f}, which answers a refusal's number"


def shape(body):
    names, out = {}, []
    for token in re.findall(r"b?'.'|\w+|[^\w\s]", re.sub(r"//.*", "", "\n".join(body))):
        if re.match(r"(let|mut|if|else|while|for|in|return|match|true|false|as|self|Some|None|Ok|Err|loop|break)$", token):
            out.append(token)
        elif re.match(r"\w", token) or token[0] in "b'":
            out.append(names.setdefault(token, f"n{len(names)}"))
        else:
            out.append(token)
    return " ".join(t for t in out if t != ",")


def point2(root):
    groups = collections.defaultdict(list)
    for f in functions(root):
        if len([l for l in f.body if l.strip()]) > 2 and len(f.body) < 60:
            groups[shape(f.body)].append(f)
    for group in groups.values():
        if len(group) > 1:
            yield " = ".join(str(f) for f in group)


def point3(root):
    for crate, file, text in sources(root):
        for i, line in enumerate(text.split("\n"), 1):
            if re.match(r"\s*(while (?!let)|loop\b)", line):
                yield f"{crate}/src/{file}:{i}: {line.strip()}"


def point4(root):
    for f in functions(root):
        body = "\n".join(f.body)
        if re.fullmatch(r"\s*(?:self|l|other|window|a)\.0 <=? (?:self|l|other|window|b)\.0\s*", body) or f.name in ("later", "stays", "least"):
            yield f"{f}, order"
        copied = re.findall(r"\b(\w+): (\w+)\.\1\b", body)
        if len(copied) > 3 and len({c[1] for c in copied}) < 3:
            yield f"{f}, fields copied one by one"
        if re.search(r"if (\w+) \{\s*(return )?1;?\s*\}( else \{ 0 \}|\s*0)", body) or re.search(r"if \w+ == 0 \{ 0 \} else \{ 1 \}", body):
            yield f"{f}, a flag made a number"
        if re.search(r"if [^\n]* == 0 \{\s*return false;\s*\}\s*true", body):
            yield f"{f}, a number made a flag"
        if re.match(r"(put|told)", f.name) and re.search(r"out: &mut \[u8\]", " ".join(f.head)):
            yield f"{f}, printing"


def point5(root):
    clauses, pairs = collections.defaultdict(set), collections.defaultdict(set)
    for f in functions(root):
        for kind, fact in f.clauses:
            fact = re.sub(r"\b(block|state|second|words|view)\b", "block", fact)
            if kind == "requires":
                clauses[fact].add(str(f))
        for i, a in enumerate(f.params):
            for b in f.params[i + 1 :]:
                if "&" in a and "&" in b or "usize" in b and "&" in a:
                    pairs[a, b].add(str(f))
    for fact, where in sorted(clauses.items(), key=lambda x: -len(x[1])):
        if len(where) > 2:
            yield f"{len(where)} functions require {fact}"
    for (a, b), where in sorted(pairs.items(), key=lambda x: -len(x[1])):
        if len(where) > 2:
            yield f"{len(where)} functions take {a} and {b}"


def point6(root):
    for f in functions(root):
        text = ", ".join(f.params)
        for what, found in (("a buffer and what is used of it", r"out: &mut \[u8\].*used: usize|used: usize.*out: &mut \[u8\]"), ("an array and its length", r"(name|forms|letters): &(mut )?\[u\w+; \d+\].*\b(n|letters|arguments): usize"),
                            ("parallel arrays", r"(heads|forms): &(mut )?\[u64; 12\].*(counts|values): &(mut )?\[u64; 12\]"), ("a chain's first record and its count", r"(head|first): u64, count: u64")):
            if re.search(found, text):
                yield f"{f}, {what}"


def point7(root):
    for f in functions(root):
        body = "\n".join(f.body)
        if len(re.findall(r"if \w+(?:\.0)? == [\w:]+ \{\n\s+return [\w:]+\(", body)) > 1:
            yield f"{f}, tests that choose a call"


def point8(root):
    proofs = {p: open(p, encoding="utf-8").read() for p in glob.glob(os.path.join(root, "crates/*/proofs/**/*.antt"), recursive=True)}
    everything = "\n".join(list(proofs.values()) + [open(p, encoding="utf-8").read() for p in glob.glob(os.path.join(root, "crates/*/specs/**/*.antt"), recursive=True)] + [t for _, _, t in sources(root)])
    words = collections.Counter(re.findall(r"[\w'-]+", everything))
    for path, text in sorted(proofs.items()):
        if "/Answers" in path or "/Invariants" in path or "Theorems" in path or "/laws/" in path:
            continue
        for name in re.findall(r"^ *pub ([\w'-]+) :", text, re.M):
            if words[name] < 3:
                yield f"{os.path.relpath(path, root)}: {name} is cited by nothing"
    yield f"{sum(t.count(chr(10)) for p, t in proofs.items() if '/Answers' in p or '/Invariants' in p)} lines of answers and invariants"
    yield f"{sum(t.count(chr(10)) for p, t in proofs.items() if not ('/Answers' in p or '/Invariants' in p))} lines of lemmas"


def main():
    args = sys.argv[1:]
    root = args.pop(0) if args and not args[0].isdigit() else "."
    for n in args or "12345678":
        places = list(globals()[f"point{n}"](root))
        print(f"# {n}")
        print("\n".join(places))
        print(f"{len(places)} in all\n")


if __name__ == "__main__":
    main()
