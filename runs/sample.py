#!/usr/bin/env python3
"""sample.py ORACLE CALLS: prints a list with CALLS calls of each kind of generate.py but `refusals`, `show` after every tenth.

What only a refusal can answer is left out: the Rust (ORACLE) says `unsupported` to it. So are `lend` and `word`: the stored
lists of forecast lend 8,192 words, on which these calls are never refused for want of room. runs/lists/sample.txt is what
`sample.py target/runs/oracle 60` prints."""
import pathlib, subprocess, sys

here = pathlib.Path(__file__).resolve().parent
KINDS = "small blocks windows buffers sums raw uneven replace ties rates tails top finished falls".split()


def run(*command, text=None):
    return subprocess.run(command, input=text, capture_output=True, text=True, check=True).stdout


def drawn(kind, calls):
    lines = run(sys.executable, str(here / "generate.py"), kind, "1", str(calls)).split("\n")
    return [line for line in lines if line.split() and line.split()[0] not in ("lend", "word", "words", "show") and not line.startswith("#")]


def with_machine(lines):
    """Without the events of kinds 2, 6, 8 and 9 whose machine their side lacks: number 5, though the Rust never looks."""
    kept = []
    for line in lines:
        word, *values = line.split()
        if word == "open":
            machines = {"c": int(values[-2]), "s": int(values[-1])}
        if word in ("push", "sim_network_stack"):
            kind, _, _, side, *_, machine = values[-8:]
            if int(kind) in (2, 6, 8, 9) and int(machine) >= machines[side]:
                continue
        kept.append(line)
    return kept


def supported(oracle, lines):
    """The calls that the Rust answers; after a 10 it answers `refused 3 0`, as forecast does."""
    answers = run(oracle, text="\n".join(lines) + "\n").split("\n")
    return [line for line, answer in zip(lines, answers) if answer != "unsupported"]


def main():
    oracle, calls = sys.argv[1], int(sys.argv[2])
    print("# A sample of the random lists: the first calls of each kind, seed 1 (runs/sample.py).")
    for kind in KINDS:
        print(f"\n# ==== {kind}")
        for n, line in enumerate(supported(oracle, with_machine(drawn(kind, calls))), 1):
            print(line)
            if n % 10 == 0:
                print("show")


main()
