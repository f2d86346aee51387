#!/usr/bin/env python3
"""test_refused.py [ROOT [LOGS]]: sees that refused.py turns the gate red where it must, over the logs of tools/try_edits.py.

The file with the most edits, of those that leave a function unedited, is copied with its crate and its log, as it is and with one thing wrong at a time: first a harmless
edit among the others, whose log is that of the others, since it changes no proof. Then the same with an edit of definitions. Exit 1
where a copy that is as it was is found amiss, or one with something wrong is not found amiss for that reason."""
import glob, os, re, shutil, sys, tempfile

sys.dont_write_bytecode = True
from edits import Bad, Crate, Edit, edits_in, label, read, written
from refused import judged


class Trial:
    """A copy of a crate, of one file of its edits and of that file's log."""

    def __init__(self, room, path, logs):
        self.root = tempfile.mkdtemp(dir=room)
        of = os.path.dirname(os.path.dirname(path))
        self.folder = os.path.join(self.root, "crates", os.path.basename(of))
        for part in ("src", "specs", "proofs"):
            if os.path.isdir(os.path.join(of, part)):
                shutil.copytree(os.path.join(of, part), os.path.join(self.folder, part))
        os.mkdir(os.path.join(self.folder, "must-fail"))
        self.path = os.path.join(self.folder, "must-fail", os.path.basename(path))
        self.edits = edits_in(path)
        self.log = os.path.join(self.root, "logs", os.path.basename(of), label(path))
        shutil.copytree(os.path.join(logs, os.path.basename(of), label(path)), self.log)
        shutil.copy(os.path.join(logs, os.path.basename(of), label(path) + ".res"), self.log + ".res")
        self.crate = Crate(self.folder)

    def found(self):
        with open(self.path, "w", encoding="utf-8") as f:
            f.write(written(self.edits))
        return judged(self.root, os.path.join(self.root, "logs"))[0]

    def harmless(self, proved):
        """A comment put into a function that no edit expects: one that the log has as proved, or one that waits for a callee."""
        said = dict(re.findall(rf"^fn {self.crate.name}::(\S+): (.*)", read(self.log + "/.log"), re.M))
        for f in self.crate.functions:
            if f.name in {e.expects for e in self.edits} or (said[f.name] == "proved") != proved:
                continue
            text = self.crate.texts[f.file]
            for line in text[f.start : f.end].split("\n"):
                if len(line) > 8 and text.count(line) == 1:
                    e = Edit("# nothing is wrong")
                    e.name, e.expects, e.changes = "harmless", f.name, [(f.file, line, line + " // harmless")]
                    self.edits.append(e)
                    return
        raise Bad("no function for a harmless edit")


def misspelt(t):
    t.edits[0].expects += "s"


def doubled(t):
    t.edits[0].expects = t.edits[1].expects


def missing(t):
    t.edits[0].expects = None


def other(t):
    (name,) = sorted(t.crate.names - {e.expects for e in t.edits})[:1]
    t.edits[0].expects = name


def one_name(t):
    t.edits[0].name = t.edits[1].name


def in_a_contract(t):
    file, text = next((f, x) for f, x in t.crate.texts.items() if "    ensures {" in x)
    line = next(x for x in text.split("\n") if "    ensures {" in x and text.count(x) == 1)
    t.edits[0].changes = [(file, line, line + " ")]


def dropped(t):
    t.edits.pop()


def no_log(t):
    os.remove(t.log + "/.log")


def survived(t):
    with open(t.log + ".res", "w") as f:
        f.write("survived\n")


def not_admitted(t):
    """Each failed need of the first function reads as if only a callee had failed."""
    at = t.edits[0].expects.replace("::", "/")
    of = rf"(/proofs/{at}/(?:Answers|Invariants|Proof)\.antt:\d+:\d+: error: `[^`]+`: ).*"
    text = re.sub(of, r"\1 1 declaration that depends on `f`, which was rejected, was not checked: g", read(t.log + "/.log"))
    text = re.sub(rf"(?m)^(fn {t.crate.name}::{t.edits[0].expects}: ).*", r"\1no proof: it calls `f`, which is not proved", text)
    with open(t.log + "/.log", "w", encoding="utf-8") as f:
        f.write(text)


# what is wrong; how it is made wrong; what must be said
OF_FUNCTIONS = [
    ("as it is", lambda t: None, None),
    ("a harmless edit of a function that stays proved", lambda t: t.harmless(True), "NOT REFUSED: harmless"),
    ("a harmless edit of a function that waits for a callee", lambda t: t.harmless(False), "NOT REFUSED: harmless"),
    ("a misspelt function", misspelt, "it expects"),
    ("a function named twice", doubled, "another edit of the file expects"),
    ("no function named", missing, "no line `expects:`"),
    ("the name of another function", other, "it expects"),
    ("two edits of one name", one_name, "another edit"),
    ("an edit of a contract among others", in_a_contract, "so it stands alone"),
    ("a failure that no edit accounts for", dropped, "no edit expects that"),
    ("a function that only waits for a callee", not_admitted, "NOT REFUSED"),
    ("no log", no_log, "no log"),
    ("not refused by the prover", survived, "the prover did not refuse it"),
]
OF_DEFINITIONS = [
    ("as it is", lambda t: None, None),
    ("a misspelt case", misspelt, "NOT REFUSED"),
    ("no case named", missing, "no line `expects:`"),
    ("a file of edits of definitions", lambda t: t.edits.append(t.edits[0]), "so it stands alone"),
    ("no log", no_log, "no log"),
    ("not refused by the prover", survived, "the prover did not refuse it"),
]


def tried(room, path, logs, cases):
    """How many of the cases do not come out as they should."""
    wrong = 0
    for what, spoil, reason in cases:
        trial = Trial(room, path, logs)
        spoil(trial)
        found = trial.found()
        if (reason is None) != (not found) or (reason and not any(reason in f for f in found)):
            wrong += 1
            print(f"test_refused.py: {label(path)}: {what}: expected {reason or 'nothing amiss'}, found {found or 'nothing amiss'}")
    return wrong


def has_harmless(room, path, logs):
    """Whether a harmless edit can be put among those of the file: into a function that stays proved, and into one that waits for a callee."""
    try:
        for proved in (True, False):
            Trial(room, path, logs).harmless(proved)
    except Bad:
        return False
    return True


def main(root=".", logs=None):
    logs = logs or os.path.join(root, "target/must-fail")
    files = sorted(glob.glob(os.path.join(root, "crates/*/must-fail/*.edit")))
    definitions = next(path for path in files if edits_in(path)[0].changes[0][0].startswith("specs/"))
    with tempfile.TemporaryDirectory() as room:
        largest = next(path for path in sorted(files, key=lambda path: -len(edits_in(path))) if has_harmless(room, path, logs))
        wrong = tried(room, largest, logs, OF_FUNCTIONS) + tried(room, definitions, logs, OF_DEFINITIONS)
    if not wrong:
        print(f"{len(OF_FUNCTIONS + OF_DEFINITIONS)} trials of refused.py: red in each that has something wrong")
    return 1 if wrong else 0


if __name__ == "__main__":
    try:
        sys.exit(main(*sys.argv[1:]))
    except (Bad, OSError) as e:
        sys.exit(f"test_refused.py: {e}")
