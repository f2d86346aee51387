#!/usr/bin/env python3
"""Plants the changes of planted.txt in the original, one at a time, and shows
which lists see each one: that is how sharp the lists are.

  plant.py                    every change; prints a table and the counts
  plant.py --only TEXT        the changes whose file or description has TEXT
  plant.py --seeds 1-5        more lists of each kind (1-3)

A change is seen by a list if the changed oracle answers it otherwise than the
unchanged one, with `show` after every call; or panics, or does not end. Stored
lists (lists/*.txt) are tried as well. A change marked `same` must be seen by
none, any other by at least one kind of generate.py.

Exit status: 0 so it is; 1 it is not, or a change does not build; 2 bad usage;
3 the oracle cannot be built here.
"""

import argparse
import dataclasses
import os
import pathlib
import re
import shutil
import subprocess
import sys
import time

import compare
import generate

HERE = pathlib.Path(__file__).resolve().parent
CRATE = compare.OUT / "planted"
TARGET = compare.OUT / "cargo-planted"
CALLS = 1000
SECONDS = 20


@dataclasses.dataclass
class Change:
    file: str
    place: int
    what: str
    old: str
    new: str
    same: str = ""


# ---- planted.txt


def changes(text):
    """The entries of planted.txt."""
    for entry in re.split(r"\n\s*\n", text):
        lines = [line for line in entry.split("\n") if line and not line.startswith("#")]
        if lines:
            yield change(lines)


def change(lines):
    head = re.fullmatch(r"(\S+\.rs) (\d+): (.+)", lines[0])
    if not head or len(lines) not in (3, 4) or not lines[1].startswith("- ") or not lines[2].startswith("+ "):
        sys.exit(f"planted.txt: not an entry: {lines[0]}")
    same = lines[3].removeprefix("same: ") if len(lines) == 4 else ""
    return Change(head[1], int(head[2]), head[3], lines[1][2:], lines[2][2:], same)


def planted(text, c):
    """The file's text with the change made."""
    at = -1
    for _ in range(c.place):
        at = text.find(c.old, at + 1)
        if at < 0:
            sys.exit(f"{c.file}: {c.what}: the text to replace is not there")
    return text[:at] + c.new + text[at + len(c.old) :]


# ---- building


TRIAL = "    assert_eq!((count_at(last_kept), count_at(falls)), (2, 1));\n"


def copy_crate():
    """The oracle's crate, without the harness's trial of `add`: it would see a change there in every list that stamps a packet."""
    shutil.rmtree(CRATE, ignore_errors=True)
    shutil.copytree(compare.OUT / "fixed", CRATE)
    harness = CRATE / "src" / "harness.rs"
    text = harness.read_text()
    if TRIAL not in text:
        sys.exit("plant.py: the trial to leave out is not in harness.rs")
    harness.write_text(text.replace(TRIAL, ""))


def build(c):
    """The oracle with the change; None if it does not build."""
    source = CRATE / "src" / c.file
    before = source.read_text()
    source.write_text(planted(before, c))
    quick = {"CARGO_PROFILE_RELEASE_OPT_LEVEL": "0", "CARGO_INCREMENTAL": "1"}
    environment = dict(os.environ, CARGO_TARGET_DIR=str(TARGET), **quick)
    run = subprocess.run(["cargo", "build", "--offline", "--release", "--quiet"], cwd=CRATE, env=environment, capture_output=True, text=True)
    source.write_text(before)
    if run.returncode != 0:
        print(run.stderr)
        return None
    return TARGET / "release" / "oracle"


# ---- lists


def lists(seeds):
    """The name and the lines of each list, those of generate.py by kind."""
    for kind in generate.KINDS:
        for seed in seeds:
            lines = generate.generate(kind, seed, CALLS)
            yield kind, "\n".join(compare.with_shows(lines, 1)) + "\n"
    for path in sorted((HERE / "lists").glob("*.txt")):
        yield path.name, path.read_text()


def answered(program, text):
    """What the program writes; a text of its own where it fails."""
    environment = dict(os.environ, ORACLE_STACK_MIB="64")
    try:
        run = subprocess.run([program], input=text, capture_output=True, text=True, env=environment, timeout=SECONDS)
    except subprocess.TimeoutExpired:
        return "does not end"
    return run.stdout if run.returncode == 0 else f"status {run.returncode}"


def seen_by(program, expected):
    """The names of the lists that see the change."""
    names = []
    for name, text, answers in expected:
        if name not in names and answered(program, text) != answers:
            names.append(name)
    return names


# ---- the command


def arguments():
    parser = argparse.ArgumentParser(description=__doc__, formatter_class=argparse.RawDescriptionHelpFormatter)
    parser.add_argument("--only", metavar="TEXT", default="", help="only changes whose file or description has TEXT")
    parser.add_argument("--seeds", metavar="A-B", default="1-3", help="seeds of the lists (1-3)")
    return parser.parse_args()


def verdict(c, names):
    """What is wrong with the change, or nothing."""
    if c.same:
        return "SEEN, though marked same" if names else ""
    return "" if set(names) & set(generate.KINDS) else "SEEN BY NO KIND"


def main():
    args = arguments()
    oracle = compare.oracle()
    copy_crate()
    first, _, last = args.seeds.partition("-")
    seeds = range(int(first), int(last or first) + 1)
    expected = [(name, text, answered(oracle, text)) for name, text in lists(seeds)]
    started = time.time()
    wanted = [c for c in changes((HERE / "planted.txt").read_text()) if args.only in f"{c.file} {c.what}"]
    wrong, seen, same = [], 0, 0
    by_kind = {}
    for c in wanted:
        program = build(c)
        names = seen_by(program, expected) if program else []
        fault = verdict(c, names) if program else "DOES NOT BUILD"
        if fault:
            wrong.append(c)
        same += bool(c.same)
        seen += bool(names)
        for name in names:
            by_kind[name] = by_kind.get(name, 0) + 1
        result = fault or ("same: " + c.same if c.same else " ".join(names))
        print(f"{c.file:15} {c.what:75} {result}", flush=True)
    print_counts(wanted, wrong, seen, same, by_kind)
    print(f"seeds {args.seeds}, {CALLS} calls a list; {time.time() - started:.0f} s")
    sys.exit(1 if wrong else 0)


def print_counts(wanted, wrong, seen, same, by_kind):
    print(f"\n{len(wanted)} changes: {seen} seen, {same} marked same, {len(wrong)} wrong")
    print("seen by: " + ", ".join(f"{name} {count}" for name, count in sorted(by_kind.items(), key=lambda x: -x[1])))
    for c in wrong:
        print(f"WRONG: {c.file}: {c.what}")


if __name__ == "__main__":
    main()
