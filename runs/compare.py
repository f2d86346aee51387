#!/usr/bin/env python3
"""Compares two programs that answer call lists, call by call.

Ours answers each list as it is. A call that ours refuses, with any number but
10, has no counterpart in the Rust and is left out of theirs; so are `lend`,
`word` and `words`. All other answers must be the same, and so must what `show`
writes (apart from the free records, which the Rust does not have). The first
difference is cut down to a smallest list and printed with both answers.

  compare.py --ours target/bin/forecast           lists of every kind, seeds 1 to 3
  compare.py --ours CMD --seconds 60              as many seeds as fit in a minute
  compare.py --ours CMD --seeds 1-300 --show 10   show after every tenth call only
  compare.py --ours CMD --lists runs/lists/*.txt  stored lists
  compare.py --ours 'target/runs/listed 1' --through 'target/runs/listed --steps 1' --show 60
                                                  the list call, with steps behind choices

Exit status: 0 no difference; 1 a difference, or a program failed; 2 bad usage;
3 the oracle cannot be built here: nothing to compare with.
"""

import argparse
import concurrent.futures
import dataclasses
import itertools
import os
import pathlib
import shlex
import subprocess
import sys
import time
from collections import Counter

import generate

HERE = pathlib.Path(__file__).resolve().parent
OUT = pathlib.Path(os.environ.get("RUNS_OUT", HERE.parent / "target" / "runs"))
PASSED_OVER = ("lend", "word", "words")
SEVERAL_LINES = ("show", "words")


class Failed(Exception):
    """A program did not answer its list."""


# ---- running a list


def name_of(line):
    """The call's name; empty for a line that is passed over."""
    words = line.split(None, 1)
    return "" if not words or words[0].startswith("#") else words[0]


def written_by(program, lines):
    """What the program writes when it is handed a list."""
    try:
        run = subprocess.run(program, input="\n".join(lines) + "\n", capture_output=True, text=True)
    except OSError as error:
        raise Failed(f"{shlex.join(program)}: {error.strerror}")
    if run.returncode != 0:
        raise Failed(f"{shlex.join(program)}: status {run.returncode}: {run.stderr[-500:]}")
    return run.stdout


def answers(program, lines):
    """The program's answer to each line, none of which is empty or a comment."""
    written = iter(written_by(program, lines).split("\n"))
    result = []
    for line in lines:
        if name_of(line) in SEVERAL_LINES:
            block = list(itertools.takewhile(lambda text: text != "end", written))
            result.append("\n".join(block))
        else:
            result.append(next(written, "no answer"))
    rest = [text for text in written if text]
    if rest:
        raise Failed(f"{shlex.join(program)}: more answers than calls: {rest[0]}")
    return result


def left_out(line, answer):
    """Whether the call has no counterpart in the Rust."""
    if name_of(line) in PASSED_OVER or answer.startswith("not accepted"):
        return True
    return answer.startswith("refused ") and not answer.startswith("refused 10 ")


def for_rust(line):
    """The line with what document 01 ignores made 0: the Rust has no moment for
    a number above 2^62 - 1."""
    words = line.split()
    if words and words[0] in ("push", "sim_network_stack"):
        kind = words[1] if words[0] == "push" else words[2]
        if kind not in ("2", "6", "8", "9"):
            words[-1] = "0"
    if words and words[0] == "set_action" and words[3] == "1":
        words[5] = "0"
    return " ".join(words)


def comparable(answer):
    """An answer without the number of free records."""
    return "\n".join(text for text in answer.split("\n") if not text.startswith("free "))


@dataclasses.dataclass
class Difference:
    lines: list  # the list as ours read it, up to the call that differs
    call: str
    ours: str
    theirs: str


def compare_list(ours, theirs, lines):
    """The first difference, or None; and what was compared, as a Counter."""
    our_answers = answers(ours, lines)
    places = [i for i, line in enumerate(lines) if not left_out(line, our_answers[i])]
    their_answers = answers(theirs, [for_rust(lines[i]) for i in places])
    counts = Counter(lists=1)
    for i in set(range(len(lines))) - set(places):
        if our_answers[i].startswith("refused "):
            counts[f"refused {our_answers[i].split()[1]}"] += 1
    for i, their_answer in zip(places, their_answers):
        our_answer = our_answers[i]
        if comparable(our_answer) != comparable(their_answer):
            return Difference(lines[: i + 1], lines[i], our_answer, their_answer), counts
        count(counts, lines[i], our_answer)
    return None, counts


def count(counts, line, answer):
    if name_of(line) == "show":
        counts["states"] += 1
        return
    counts["calls"] += 1
    words = answer.split()
    if words[0] == "refused":
        counts["refused 10"] += 1
        counts["rounds"] += int(words[2])
    elif "rounds" in words:
        counts["rounds"] += int(words[-1])


# ---- the smallest list


def smallest(differs, lines):
    """A list that still differs and stops differing without any one of its
    lines (delta debugging)."""
    opening = max((i for i, line in enumerate(lines) if name_of(line) == "open"), default=0)
    for start in (opening, max(opening - 1, 0)):
        if differs(lines[start:]):
            lines = lines[start:]
            break
    size = max(len(lines) // 2, 1)
    while True:
        cut = False
        place = 0
        while place < len(lines):
            shorter = lines[:place] + lines[place + size :]
            if shorter and differs(shorter):
                lines, cut = shorter, True
            else:
                place += size
        if size == 1 and not cut:
            return lines
        size = max(size // 2, 1)


def report(ours, theirs, difference):
    """Prints the smallest list for a difference, with both answers."""

    def found(lines):
        try:
            return compare_list(ours, theirs, lines)[0]
        except Failed:
            return None

    lines = smallest(lambda some: found(some) is not None, difference.lines)
    last = found(lines) or difference
    print("---- the smallest list:")
    print("\n".join(last.lines))
    print(f"---- to {last.call}")
    print(f"ours:   {last.ours}")
    print(f"theirs: {last.theirs}")


# ---- lists


def with_shows(lines, every):
    """The list with `show` after every so many calls, and at the end."""
    result = []
    for i, line in enumerate(lines, 1):
        result.append(line)
        if i % every == 0 or i == len(lines):
            result.append("show")
    return result


def in_microseconds(line):
    """An opening with delays in whole microseconds, for oracle-bindist."""
    words = line.split()
    if words[0] == "open":
        words[5:9] = [str(min(int(w) * 1000, 10**12)) for w in words[5:9]]
    return " ".join(words)


@dataclasses.dataclass(frozen=True)
class Job:
    """A list to compare: drawn (kind, seed, calls) or read from a file."""

    kind: str
    seed: int
    calls: int
    every: int
    microseconds: bool
    through: tuple  # a command that rewrites the list, or nothing

    def lines(self):
        if self.kind in generate.KINDS:
            lines = generate.generate(self.kind, self.seed, self.calls)
        else:
            lines = [line for line in pathlib.Path(self.kind).read_text().split("\n") if name_of(line)]
        if self.microseconds:
            lines = [in_microseconds(line) for line in lines]
        if self.through:
            lines = written_by(self.through, lines).splitlines()
        return with_shows(lines, self.every)


def compare_job(ours, theirs, job):
    return compare_list(ours, theirs, job.lines())


# ---- the closing table


def version(*command):
    try:
        return subprocess.run(command, capture_output=True, text=True).stdout.strip()
    except FileNotFoundError:
        return "not there"


def closing_table(by_kind, seeds, started):
    columns = ("lists", "calls", "rounds", "refused 10", "states")
    total = Counter()
    print(f"\n{'kind':12}" + "".join(f"{name:>12}" for name in columns) + f"{'left out':>12}")
    for kind, counts in by_kind.items():
        total.update(counts)
        print(table_row(pathlib.Path(kind).name, counts, columns))
    print(table_row("all", total, columns))
    refused = sorted((int(k.split()[1]), n) for k, n in total.items() if k.startswith("refused "))
    print("refusals: " + ", ".join(f"{n} of number {k}" for k, n in refused if n))
    print(f"seeds: {seeds}; {time.time() - started:.0f} s")
    print(f"kit: {version('rt', 'version')}; {version('rustc', '--version')}")


def table_row(name, counts, columns):
    out = sum(n for k, n in counts.items() if k.startswith("refused ") and k != "refused 10")
    return f"{name:12}" + "".join(f"{counts[c]:12,}" for c in columns) + f"{out:12,}"


# ---- the command


def arguments():
    parser = argparse.ArgumentParser(description=__doc__, formatter_class=argparse.RawDescriptionHelpFormatter)
    parser.add_argument("--ours", metavar="CMD", default=str(HERE.parent / "target" / "bin" / "forecast"), help="default: target/bin/forecast")
    parser.add_argument("--theirs", metavar="CMD", help="default: the oracle, built first if need be")
    parser.add_argument("--kinds", metavar="K,K", default=",".join(generate.KINDS), help="default: every kind of generate.py")
    parser.add_argument("--seeds", metavar="A-B", default="1-3", help="default: 1-3")
    parser.add_argument("--seconds", type=float, help="go on from the first seed until this time has passed")
    parser.add_argument("--calls", type=int, default=1000, help="calls in a list (1000)")
    parser.add_argument("--show", type=int, default=1, metavar="N", help="show after every Nth call (1)")
    parser.add_argument("--lists", nargs="+", metavar="FILE", help="compare these files instead")
    parser.add_argument("--through", metavar="CMD", default="", help="a program that writes each list out again, changed, before it is compared")
    parser.add_argument("--microseconds", action="store_true", help="delays in whole microseconds, for oracle-bindist")
    parser.add_argument("--jobs", type=int, default=1, help="lists compared at a time (1)")
    parser.add_argument("--quiet", action="store_true", help="no progress, only the closing table")
    return parser.parse_args()


def oracle():
    """The oracle, built if need be."""
    status = subprocess.run([HERE / "build"]).returncode
    if status != 0:
        sys.exit(status)
    return str(OUT / "oracle")


def jobs_of(args):
    """The lists to compare, seed by seed."""
    through = tuple(shlex.split(args.through))
    if args.lists:
        for path in args.lists:
            yield Job(path, 0, 0, args.show, args.microseconds, through)
        return
    first, _, last = args.seeds.partition("-")
    seeds = itertools.count(int(first)) if args.seconds else range(int(first), int(last or first) + 1)
    for seed in seeds:
        for kind in args.kinds.split(","):
            yield Job(kind, seed, args.calls, args.show, args.microseconds, through)


def in_order(pool, work, jobs, ahead):
    """The jobs with their futures, in order, at most `ahead` under way."""
    waiting = []
    for job in jobs:
        waiting.append((job, pool.submit(work, job)))
        if len(waiting) >= ahead:
            yield waiting.pop(0)
    yield from waiting


class Work:
    """compare_job on two given programs; a class, so that it can be sent to a
    worker process."""

    def __init__(self, ours, theirs):
        self.ours, self.theirs = ours, theirs

    def __call__(self, job):
        return compare_job(self.ours, self.theirs, job)


def main():
    args = arguments()
    unknown = set(args.kinds.split(",")) - set(generate.KINDS)
    if unknown:
        sys.exit(f"compare.py: no such kind: {', '.join(sorted(unknown))}")
    work = Work(shlex.split(args.ours), shlex.split(args.theirs or oracle()))
    started = time.time()
    by_kind = {}
    seeds = set()
    with concurrent.futures.ProcessPoolExecutor(args.jobs) as pool:
        for job, future in in_order(pool, work, jobs_of(args), 2 * args.jobs):
            try:
                difference, counts = future.result()
            except Failed as failed:
                sys.exit(f"{job.kind} {job.seed}: {failed}")
            by_kind.setdefault(job.kind, Counter()).update(counts)
            seeds.add(job.seed)
            if difference:
                print(f"{job.kind} {job.seed}: a difference")
                report(work.ours, work.theirs, difference)
                pool.shutdown(cancel_futures=True)
                sys.exit(1)
            if not args.quiet:
                print(f"{job.kind} {job.seed}: {counts['calls']} calls, {counts['states']} states, no difference", flush=True)
            if args.seconds and time.time() - started > args.seconds:
                pool.shutdown(cancel_futures=True)
                break
    closing_table(by_kind, f"{min(seeds)} to {max(seeds)}", started)


if __name__ == "__main__":
    main()
