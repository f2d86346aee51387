"""edits.py: the must-fail edits of a crate and what each of them changes, read as text; for refused.py and group_edits.py.

A file crates/NAME/must-fail/*.edit holds one or more edits:

    # what is wrong, in a sentence
    edit: NAME                 where the file holds several; one that stands alone has its file's name
    expects: FUNCTION          the function that it changes, whose proof must fail, as records::chain_ok or Moment::before;
                               of an edit of specs/: the case or the theorem that must fail, as Cases.both_blocks
    file: src/FILE.rt
    old: TEXT
    new: TEXT                  a pair or more

`rt` passes over the comment and the lines `edit:` and `expects:`, makes all changes of a file and proves the crate once."""
import glob, os, re


class Bad(Exception):
    """What is read is not as it has to be."""


def read(path):
    with open(path, encoding="utf-8", errors="replace") as f:
        return f.read()


def label(path):
    """A file's name without its ending."""
    return os.path.splitext(os.path.basename(path))[0]


# ---- edits


class Edit:
    def __init__(self, sentence):
        self.sentence, self.name, self.expects = [sentence], None, None
        self.changes = []  # (file, old, new)

    def __str__(self):
        return f"{self.name} ({self.sentence[0].lstrip('# ')})"

    def give(self, what, value):
        if not value or self.changes or getattr(self, what):
            raise Bad(f"its {what} is empty, doubled or behind its changes: {self.sentence[0]}")
        setattr(self, what, value)


def edits_in(path):
    """The edits of a file, in order. A comment behind a change begins the next edit."""
    edits, file, old = [], None, None
    for line in read(path).split("\n"):
        word, _, value = line.partition(":")
        value = value.removeprefix(" ")
        if line.startswith("#") and (not edits or edits[-1].changes):
            edits.append(Edit(line))
            file = old = None
        elif line.startswith("#"):
            edits[-1].sentence.append(line)
        elif not line.strip():
            continue
        elif not edits:
            raise Bad("it does not begin with a comment that says what is wrong")
        elif word == "edit":
            edits[-1].give("name", value)
        elif word == "expects":
            edits[-1].give("expects", value)
        elif word == "file":
            file = value
        elif word == "old" and file:
            old = value
        elif word == "new" and old:
            edits[-1].changes.append((file, old, value))
            old = None
        else:
            raise Bad(f"a line that is none of an edit's, or is out of its place: {line[:60]}")
    if len(edits) == 1 and not edits[0].name:
        edits[0].name = label(path)
    for e in edits:
        if not e.name or not e.changes:
            raise Bad(f"an edit among several without a name, or one without a change: {e.sentence[0]}")
    if not edits:
        raise Bad("it holds no edit")
    return edits


def written(edits):
    """The text of a file with these edits."""
    texts = []
    for e in edits:
        lines = list(e.sentence)
        lines += [f"edit: {e.name}"] if len(edits) > 1 else []
        lines += [f"expects: {e.expects}"] if e.expects else []
        before = None
        for file, old, new in e.changes:
            lines += [f"file: {file}"] if file != before else []
            lines += [f"old: {old}", f"new: {new}" if new else "new:"]
            before = file
        texts.append("\n".join(lines) + "\n")
    return "\n".join(texts)


# ---- what a crate's source holds, in the layout that `rt fmt` gives

FUNCTION = re.compile(r'( *)(?:pub(?:\(\w+\))? )?(?:extern "C" )?fn (\w+)')
IMPL = re.compile(r"impl(?:<[^>]*>)? (?:(?:\w+::)*(\w+)(?:<(.*)>)? for )?(?:\w+::)*(\w+)")
TYPE = re.compile(r"^(?:pub(?:\(\w+\))? )?(?:struct|enum) (\w+)", re.M)
CONSTANT = re.compile(r"^ *(?:pub(?:\(\w+\))? )?const (\w+):.*?;$", re.M | re.S)


class Part:
    """A function's body, or a constant: its name and file, and where in the file's text it lies."""

    def __init__(self, name, file, start, end, text):
        self.name, self.file, self.start, self.end = name, file, start, end
        self.words = set(re.findall(r"\w+", re.sub(r"//.*", "", text[start:end])))

    def holds(self, file, at, end):
        return self.file == file and self.start <= at and end <= self.end


def owned(impl):
    """Whose functions an impl block holds, as the prover says it: a type's, or those of a type and a trait, as MomentOrd, RefusalFromReason or CodeTryFromU64."""
    trait, arguments, name = impl.groups()
    return name + (trait or "") + "".join(word[0].upper() + word[1:] for word in re.findall(r"\w+", arguments or ""))


def module_of(file):
    return [m for m in file.removeprefix("src/").removesuffix(".rt").split("/") if m not in ("lib", "main", "mod")]


def functions_in(file, text, homes):
    """The bodies of a file's functions, each by its path within the crate. A type's own functions go by the module of the type (homes), wherever they stand."""
    here = module = module_of(file)
    found, owner, name, margin, body, place = [], [], None, "", None, 0
    for line in text.splitlines(keepends=True):
        start, place = place, place + len(line)
        code = line.split("//")[0].rstrip()
        if name is None:
            owns, begins = IMPL.match(code), FUNCTION.match(code)
            if owns:
                owner = [owned(owns)]
                module = here if owns[1] else homes.get(owns[3], here)
            elif code == "}":
                owner, module = [], here
            elif begins:
                margin, body = begins[1], None
                name = "::".join(module + owner + [begins[2]])
        # a trait's function without a body
        if name and body is None and code.endswith(";"):
            name = None
        # signature and clauses end with a brace on a line that is indented as the function is; so does the body
        if name and body is None and code.endswith("{") and len(code) - len(code.lstrip()) == len(margin):
            body = place
        elif name and body is not None and code == margin + "}":
            found.append(Part(name, file, body, start, text))
            name = None
    if name:
        raise Bad(f"{file}: the end of {name} is not found")
    return found


class Crate:
    def __init__(self, folder):
        self.folder, self.name = folder, os.path.basename(os.path.abspath(folder))
        self.texts = {}
        for path in sorted(glob.glob(os.path.join(folder, "src/**/*.rt"), recursive=True)):
            self.texts[os.path.relpath(path, folder)] = read(path)
        homes = {name: module_of(file) for file, text in self.texts.items() for name in TYPE.findall(text)}
        self.functions = [p for file, text in self.texts.items() for p in functions_in(file, text, homes)]
        self.constants = [Part(m[1], file, *m.span(), text) for file, text in self.texts.items() for m in CONSTANT.finditer(text)]
        self.names = {p.name for p in self.functions}
        if len(self.names) < len(self.functions):
            raise Bad(f"{self.name}: two functions of one name")

    def edit_files(self):
        return sorted(glob.glob(os.path.join(self.folder, "must-fail/*.edit")))

    def users(self, constant):
        """The functions whose bodies name a constant, or one that is made of it. None where a type or a signature does."""
        names = {constant.name}
        while more := {c.name for c in self.constants if c.words & names} - names:
            names |= more
        for file, text in self.texts.items():
            spans = [p for p in self.functions + self.constants if p.file == file]
            for p in sorted(spans, key=lambda p: -p.start):
                text = text[: p.start] + text[p.end :]
            if set(re.findall(r"\w+", re.sub(r"//.*|^ *(pub )?use .*", "", text, flags=re.M))) & names:
                return None
        return {f.name for f in self.functions if f.words & names}

    def changed_by(self, edit):
        """The functions that an edit changes, in their bodies or by a constant; None where it changes anything else."""
        changed = set()
        for file, old, _ in edit.changes:
            if file not in self.texts:
                return None
            text = self.texts[file]
            if text.count(old) != 1:
                raise Bad(f"an `old:` text is in {file} {text.count(old)} times: {old.strip()}")
            at = text.index(old)
            place = file, at, at + len(old)
            bodies = [f.name for f in self.functions if f.holds(*place)]
            of_constants = [self.users(c) for c in self.constants if c.holds(*place)]
            if not bodies and (not of_constants or of_constants[0] is None):
                return None
            changed |= set(bodies) or of_constants[0]
        return changed

    def amiss_in(self, edits):
        """What keeps the edits of a file from being judged by one log, each for itself."""
        amiss = [f"no line `expects:` with what must fail: {e}" for e in edits if not e.expects]
        expected = [e.expects for e in edits]
        for e in edits:
            changed = self.changed_by(e)
            if e.expects and expected.count(e.expects) > 1:
                amiss.append(f"another edit of the file expects {e.expects} too: {e}")
            if changed is None and len(edits) > 1:
                amiss.append(f"it changes more than the body of a function or a constant, so it stands alone: {e}")
            elif changed is not None and e.expects and {e.expects} != changed:
                amiss.append(f"it expects {e.expects} and changes {', '.join(sorted(changed)) or 'no function'}: {e}")
        return amiss

    def peeping(self):
        """Proofs that name what is made of the code of another function: an edit of that one could make them fail."""
        amiss = []
        for path in sorted(glob.glob(os.path.join(self.folder, "proofs/**/*.antt"), recursive=True)):
            file = os.path.relpath(path, os.path.join(self.folder, "proofs"))
            own = os.path.dirname(file).replace("/", ".")
            for m in re.finditer(rf"Rattle\.{self.name}\.proofs\.([\w.+]+)\.(?:Code|Lts|Goals|Given|Proof)\b", read(path)):
                if m[1] != own:
                    amiss.append(f"proofs/{file} names the code of {m[1].replace('.', '::')}")
        return amiss
