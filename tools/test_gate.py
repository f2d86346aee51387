#!/usr/bin/env python3
"""test_gate.py: sees that `.ci/run` ends red and without its closing line for a failure in each of its parts, and that it says what it did not
run where something is missing.

Run it after a green `.ci/run`; it takes some minutes. The repository is cloned, with the target/ of the green run beside it. One thing at a time
is made wrong there and the gate run, with a stand-in for `rt ci` that proves nothing and leaves target/ as it is, and two seconds of random
lists for a minute. Exit 1 where a trial does not end as it should."""
import os, pathlib, re, shutil, subprocess, sys, tempfile

REPO = pathlib.Path(__file__).resolve().parent.parent
SOURCE = pathlib.Path(os.environ.get("MAYBENOT_SRC", REPO.parent / "shared/docs/src"))
SCOPE = pathlib.Path(os.environ.get("DOCUMENT_01", REPO.parent / "shared/docs/01-scope.md"))
REQUESTS = pathlib.Path(os.environ.get("DOCUMENT_02", REPO.parent / "shared/docs/02-change-requests.md"))
RT = shutil.which("rt")
TARGET = "bin runs rust staticlib must-fail".split()
# what `rt` builds, and where tools/build puts it
BUILT = {"crates/forecast/out/forecast": "target/bin/forecast", "crates/maybenot_core/out/libmaybenot_core.a": "target/staticlib/libmaybenot_core.a"}
CLOSING = re.compile(r"^\d+ passed, 0 failed$", re.M)
GROUP = "crates/accept/must-fail/together-1.edit"

STAND_IN = """#!/bin/sh
case $1 in
ci)
    case ${RT_CI:-} in
    fails) printf 'rt: FAILED: rules\\n1 passed, 1 failed\\n'; exit 1 ;;
    dies) echo 'COUNT passed, 0 failed'; kill -9 $$ ;;
    silent) exit 0 ;;
    bad) bad=', 1 bad' ;;
    esac
    echo "rt: ok; handles allowed: none; must-fail edits: FILES refused${bad:-}; every proof and must-fail edit was done in this run"
    echo 'COUNT passed, 0 failed' ;;
run | lib) ;;
*) exec RT "$@" ;;
esac
"""
# a forecast that loses its last line where compare.py was called with a certain word
LOSING = """#!/bin/sh
if tr '\\0' '\\n' < /proc/$PPID/cmdline | grep -qx -- WORD; then PROGRAM | sed '$d'; else exec PROGRAM; fi
"""
HARMLESS = """
# nothing is wrong
edit: harmless
expects: records::counted
file: src/records.rt
old:     let mut sum: u64 = 0;
new:     let mut sum: u64 = 0; // harmless
"""


class Trial:
    """The gate in a copy of the repository."""

    def __init__(self, work):
        self.work, self.repo = work, work / "repo"
        self.env = dict(os.environ, MAYBENOT_SRC=str(SOURCE), DOCUMENT_01=str(SCOPE), DOCUMENT_02=str(REQUESTS), PATH=f"{work}/bin:{os.environ['PATH']}")

    def __truediv__(self, file):
        return self.repo / file

    def edit(self, file, old, new):
        text = (self / file).read_text(encoding="utf-8")
        if old not in text:
            sys.exit(f"test_gate.py: {file} does not have: {old}")
        (self / file).write_text(text.replace(old, new, 1), encoding="utf-8")

    def losing(self, word):
        program, built = self.work / "forecast", self / "crates/forecast/out/forecast"
        shutil.copy(built, program)
        built.write_text(LOSING.replace("WORD", word).replace("PROGRAM", str(program)))

    def without(self, *tools):
        """A PATH that has all commands but these."""
        path = self.work / "path"
        path.mkdir()
        for folder in self.env["PATH"].split(":"):
            for tool in pathlib.Path(folder).glob("*"):
                if tool.name not in tools and not (path / tool.name).is_symlink():
                    (path / tool.name).symlink_to(tool)
        self.env["PATH"] = str(path)

    def other_source(self):
        shutil.copytree(SOURCE, self.work / "src")
        with open(self.work / "src/crates/maybenot-simulator/src/delay.rs", "a") as f:
            f.write("\n")
        self.env["MAYBENOT_SRC"] = str(self.work / "src")

    def run(self):
        """(status, what it said)"""
        gate = ["bash", ".ci/run"]
        done = subprocess.run(gate, cwd=self.repo, env=self.env, stdin=subprocess.DEVNULL, stdout=subprocess.PIPE, stderr=subprocess.STDOUT)
        return done.returncode, done.stdout.decode(errors="replace")


def prepared(work):
    """A trial with nothing wrong."""
    t = Trial(work)
    subprocess.run(["git", "clone", "-q", str(REPO), str(t.repo)], check=True)
    (t / "target").mkdir()
    for part in TARGET:
        if (REPO / "target" / part).exists():
            shutil.copytree(REPO / "target" / part, t / "target" / part)
    for out, target in BUILT.items():
        (t / out).parent.mkdir()
        shutil.copy(REPO / target, t / out)
    t.edit(".ci/run", "--seconds 60", "--seconds 2")
    t.edit(".ci/run", "--seconds 20", "--seconds 2")
    t.edit(".ci/run", "forecast 1 1500", "forecast 1 100")
    # the edits are not tried again: what the prover said of each in the green run lies in target/
    t.edit(".ci/run", "python3 tools/try_edits.py", "true")
    files = len(list(t.repo.glob("crates/*/must-fail/*.edit")))
    count = len(re.findall(r"^\w+( staticlib)?:", (t / "crates.txt").read_text(), re.M)) + files
    (work / "bin").mkdir()
    (work / "bin/rt").write_text(STAND_IN.replace("COUNT", str(count)).replace("FILES", str(files)).replace("exec RT", f"exec {RT}"))
    (work / "bin/rt").chmod(0o755)
    return t


RED, GREEN = False, True
# what is wrong; how the gate ends; what it says; how it is made wrong
TRIALS = [
    ("nothing", GREEN, "hostile blocks: passed", lambda t: None),
    ("a public function without a promise", RED, "no ensures", lambda t: t.edit("tools/promises.py", '"ensures" not in', '"ensurers" not in')),
    ("a misspelt function", RED, "it expects", lambda t: t.edit(GROUP, "expects: records::follows", "expects: records::folows")),
    ("a doubled function", RED, "expects records::chain_ok too", lambda t: t.edit(GROUP, "expects: records::follows", "expects: records::chain_ok")),
    ("a missing function", RED, "no line `expects:`", lambda t: t.edit(GROUP, "expects: records::follows\n", "")),
    ("a quote that stands nowhere", RED, "or in docs/: failed", lambda t: t.edit("crates/rules/specs/Basics.antt", "is later than all", "is later than none")),
    ("a crate that is not proved", RED, "1 passed, 1 failed", lambda t: t.env.update(RT_CI="fails")),
    ("rt ci dies after its count", RED, "", lambda t: t.env.update(RT_CI="dies")),
    ("rt ci says nothing", RED, "not that of its count", lambda t: t.env.update(RT_CI="silent")),
    ("an edit that is bad", RED, "a must-fail edit is bad", lambda t: t.env.update(RT_CI="bad")),
    ("a harmless edit in a group", RED, "NOT REFUSED: harmless", lambda t: (t / GROUP).open("a").write(HARMLESS)),
    ("an edit that the prover did not refuse", RED, "the prover did not refuse it", lambda t: (t / "target/must-fail/rules/own-sum.res").write_text("survived\n")),
    ("a refused.py that lets all pass", RED, "trials of refused.py: failed", lambda t: t.edit("tools/refused.py", "not needs", "False")),
    ("a packed word that is another", RED, "later answers: failed", lambda t: t.edit("runs/packed.py", "lambda: 0)", "lambda: 1)")),
    ("a source of another commit", RED, "the source is not", lambda t: t.other_source()),
    ("a definition that is not the original's", RED, "as equations: failed", lambda t: t.edit("crates/rules/specs/NetworkStep.antt", "on_delayed x s.client.sum", "on_delayed x x.sum")),
    ("a wrong answer to a stored list", RED, "the stored lists: failed", lambda t: t.losing("--lists")),
    ("a wrong answer to a random list", RED, "of every kind: failed", lambda t: t.losing("--seconds")),
    ("a wrong answer in C", RED, "line.answers differs", lambda t: t.edit("examples/c/line.answers", "1", "2")),
    ("a wrong answer of a list of calls in C", RED, "turns.answers differs", lambda t: t.edit("examples/c/turns.answers", "1", "2")),
    ("a wrong answer of packing in C", RED, "packed.answers differs", lambda t: t.edit("examples/c/packed.answers", "equal", "other")),
    ("a wrong answer through the list call", RED, "list call: the stored lists: failed", lambda t: t.edit("runs/listed/src/main.rs", "lines.join", "lines[1..].join")),
    ("a wrong answer on hostile blocks", RED, "hostile blocks: failed", lambda t: t.edit("runs/hostile/reading.h", "((1ull << 62) - 1)", "((1ull << 62) - 2)")),
    ("no cargo", GREEN, "not compared with the Rust: runs/build: no cargo", lambda t: t.without("cargo")),
    ("no gcc", GREEN, "not tested from C and Rust: bindings: gcc is not there", lambda t: t.without("gcc")),
    ("no source", GREEN, "not compared with the Rust: runs/build: no source", lambda t: t.env.update(MAYBENOT_SRC=str(t.work / "none"))),
    ("no document 01", GREEN, "quotes not held to documents 01 and 02", lambda t: t.env.update(DOCUMENT_01=str(t.work / "none"))),
    ("no document 02", GREEN, "quotes not held to documents 01 and 02", lambda t: t.env.update(DOCUMENT_02=str(t.work / "none"))),
    ("no python3", RED, "no python3", lambda t: t.without("python3")),
]


def main():
    if not (REPO / "target/bin/forecast").exists() or not (REPO / "target/must-fail").exists():
        sys.exit("test_gate.py: there is no green run of .ci/run to start from")
    amiss = 0
    for what, end, said, make in TRIALS:
        with tempfile.TemporaryDirectory() as room:
            t = prepared(pathlib.Path(room))
            make(t)
            status, text = t.run()
            closing = CLOSING.findall(text)
            lines = text.rstrip("\n").split("\n")
            as_it_should = said in text and (status == 0 and closing == lines[-1:] if end else status != 0 and not closing)
            print(f"{what}: {'green' if status == 0 else 'red'}: {lines[-1][:120]}", flush=True)
            if not as_it_should:
                amiss += 1
                print("  NOT AS IT SHOULD BE; the end of what the gate said:\n  " + "\n  ".join(lines[-8:]), flush=True)
    print(f"{len(TRIALS)} trials, {amiss} not as they should be")
    return 1 if amiss else 0


if __name__ == "__main__":
    sys.exit(main())
