#!/usr/bin/env python3
"""The stored lists beside the original's answers.

  answers.py                check that lists/*.answers are what the oracle answers
  answers.py --write        write them anew
  answers.py --beside NAME  print lists/NAME.txt with the answer to each call

Exit status: 0 as stored; 1 another answer; 2 bad usage; 3 no oracle here.
"""

import difflib
import subprocess
import sys

import compare

LISTS = compare.HERE / "lists"


def answered(oracle, path):
    return subprocess.run([oracle], input=path.read_text(), capture_output=True, text=True, check=True).stdout


def check(oracle):
    """Prints where an answer is not the stored one; answers the exit status."""
    status = 0
    for path in sorted(LISTS.glob("*.txt")):
        stored = path.with_suffix(".answers").read_text().split("\n")
        now = answered(oracle, path).split("\n")
        for line in difflib.unified_diff(stored, now, "stored", "oracle", lineterm="", n=2):
            print(line)
            status = 1
    return status


def write(oracle):
    for path in sorted(LISTS.glob("*.txt")):
        path.with_suffix(".answers").write_text(answered(oracle, path))
    return 0


def beside(oracle, name):
    """Prints each call with its answer, and each comment."""
    lines = (LISTS / f"{name}.txt").read_text().rstrip("\n").split("\n")
    answers = iter(compare.answers([oracle], [line for line in lines if compare.name_of(line)]))
    for line in lines:
        if not compare.name_of(line):
            print(line)
        elif line == "show":
            print("    " + next(answers).replace("\n", "\n    "))
        else:
            print(f"{line:60} {next(answers)}")
    return 0


def main():
    words = sys.argv[1:]
    if words in (["-h"], ["--help"]):
        sys.exit(print(__doc__))
    if words == []:
        sys.exit(check(compare.oracle()))
    if words == ["--write"]:
        sys.exit(write(compare.oracle()))
    if len(words) == 2 and words[0] == "--beside" and (LISTS / f"{words[1]}.txt").exists():
        sys.exit(beside(compare.oracle(), words[1]))
    print(__doc__, file=sys.stderr)
    sys.exit(2)


if __name__ == "__main__":
    main()
