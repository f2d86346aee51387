#!/usr/bin/env python3
"""equations.py SEED COUNT [--out DIR] [--rules DIR]: runs the definitions of the
crate `rules` beside the original Rust.

COUNT calls of the original, most of them choices and network steps, the edges of
lists/edges.txt first and then calls of random lists, are printed as equations
`bare (call STATE CALL) ≡ RESULT` in antt, which the proof checker accepts by
`refl` exactly if the definitions compute what the original did: the answer, the
rounds and the whole state left. `bare` drops the numbers of records, which the
original does not have, and counts the free ones.

The equations stand in a temporary folder outside the repository, beside a copy
of the crate; --out DIR writes them there and keeps them, --rules DIR takes
another copy of the crate (its folder with specs/). Calls that the table refuses
with 3 to 9 have no counterpart in the original and are not printed.

Each failed equation is reported with the call list that leads to it, what the
original gave and what the checker says. Exit status: 0 all hold; 1 one does
not; 2 the definitions do not check or a name is not found; 3 no oracle here.
"""

import argparse
import dataclasses
import pathlib
import random
import re
import shutil
import subprocess
import sys
import tempfile
import time

import compare
import generate

HERE = pathlib.Path(__file__).resolve().parent
TOP = generate.TOP
PER_FILE = 200
MOST_RECORDS = 20
CALLS_IN_A_LIST = 60
FROM_A_LIST = 8
MOST_OF_A_STEP = 4
MOST_FAILURES = 5

# how a `use` line names a module of the crate
RULES = "Rattle.rules.specs."

# every name of the crate that the equations use; where it is defined is found by reading specs/
TYPES = """Event EventIn Action ActionIn Aggregate Held Queues Fixed SideState Settings State Called Answer Slot Side Kind
    ActionKind""".split()
VALUES = """client server TunnelSent NormalSent PaddingSent TunnelRecv NormalRecv PaddingRecv BlockingBegin BlockingEnd TimerBegin
    TimerEnd SendPadding BlockOutgoing done event nothing_left step_made refused push set_action clear_action set_timer
    clear_timer pick_next sim_network_stack call""".split()

KINDS = "TunnelSent NormalSent PaddingSent TunnelRecv NormalRecv PaddingRecv BlockingBegin BlockingEnd TimerBegin TimerEnd".split()
WITH_MACHINE = (2, 6, 8, 9)
CHAINS = ("base", "blocking", "bypassable", "internal")


# ---- states as the oracle shows them


@dataclasses.dataclass
class Side:
    action_delay: int
    reporting_delay: int
    machines: int
    sum: int = 0
    block_end: str = "-"
    bypassable: str = "0"
    timers: dict = dataclasses.field(default_factory=dict)
    actions: dict = dataclasses.field(default_factory=dict)
    chains: dict = dataclasses.field(default_factory=lambda: {name: [] for name in CHAINS})
    stamps: list = dataclasses.field(default_factory=list)


class State:
    """A block of `show`."""

    def __init__(self, text):
        self.aggregates = []
        for line in text.split("\n"):
            word, *rest = line.split()
            getattr(self, "read_" + word)(*rest)

    def read_settings(self, delay, network_rate, queue_rate, window, *rest):
        self.network = (delay, network_rate, queue_rate, window)
        ca, sa, cr, sr, cm, sm = map(int, rest)
        self.sides = {"c": Side(ca, cr, cm), "s": Side(sa, sr, sm)}

    def read_sums(self, client, server):
        self.sides["c"].sum, self.sides["s"].sum = int(client), int(server)

    def read_block(self, side, end, flag):
        self.sides[side].block_end, self.sides[side].bypassable = end, flag

    def read_ended(self, flag):
        self.ended = flag

    def read_rounds(self, rounds):
        self.rounds = int(rounds)

    def read_free(self, _):
        pass  # the original has no records

    def read_timer(self, side, machine, moment):
        self.sides[side].timers[int(machine)] = moment

    def read_action(self, side, machine, *action):
        self.sides[side].actions[int(machine)] = action

    def read_event(self, chain, *event):
        self.sides[event[3]].chains[chain].append(event)

    def read_stamp(self, side, moment):
        self.sides[side].stamps.append(moment)

    def read_aggregate(self, *aggregate):
        self.aggregates.append(aggregate)

    def used(self):
        """Records in use: events, stamps and aggregates."""
        events = sum(len(chain) for side in self.sides.values() for chain in side.chains.values())
        return events + sum(len(side.stamps) for side in self.sides.values()) + len(self.aggregates)

    def reserved(self):
        """Records kept for blocks, timers and actions."""
        return sum(3 * (s.block_end != "-") + len(s.timers) + 4 * len(s.actions) for s in self.sides.values())


# ---- antt


def listed(items):
    return " ∷ ".join([*items, "[]"])


def boolean(flag):
    return "true" if flag == "1" else "false"


def optional(number):
    return "none" if number == "-" else f"(some {number})"


def side_name(side):
    return "client" if side == "c" else "server"


def event_words(event):
    """The words of an event after its kind."""
    _, moment, delay, side, padding, bypass, replace, machine = event
    return f"{moment} {delay} {side_name(side)} {boolean(padding)} {boolean(bypass)} {boolean(replace)} {machine}"


def an_event(event):
    return f"(an_event {KINDS[int(event[0])]} {event_words(event)})"


def an_action(action):
    kind, moment, duration, bypass, replace = action
    return f"(an_action {('SendPadding', 'BlockOutgoing')[int(kind) - 1]} {moment} {duration} {boolean(bypass)} {boolean(replace)})"


def slots(held, text):
    """Sixteen slots, those in `held` filled."""
    result = "empty"
    for machine in sorted(held):
        result = f"(set {result} {machine} (some {text(held[machine])}))"
    return result


class Places:
    """Numbers records from 1 on, or answers 0 for each."""

    def __init__(self, numbered):
        self.numbered, self.last = numbered, 0

    def held(self, text):
        self.last += self.numbered
        return f"in_record {self.last} {text}"


def state_text(state, room, free, numbered):
    """A state, its records numbered in the order of the chains or not at all."""
    places = Places(numbered)
    sides = []
    for side in (state.sides["c"], state.sides["s"]):
        chains = " ".join(f"({listed(places.held(an_event(e)) for e in side.chains[name])})" for name in CHAINS)
        stamps = listed(places.held(t) for t in side.stamps)
        sides.append(
            f"(a_side {side.action_delay} {side.reporting_delay} {side.machines} {side.sum} {optional(side.block_end)} {boolean(side.bypassable)}"
            f" {chains} ({stamps}) {slots(side.timers, str)} {slots(side.actions, an_action)})"
        )
    aggregates = listed(places.held(f"(an_aggregate {t} {length} {side_name(x)})") for x, t, length in state.aggregates)
    delay, network_rate, queue_rate, window = state.network
    network = f"(a_network {delay} {optional(network_rate)} {optional(queue_rate)} {window})"
    return f"(a_state {network} {sides[0]} {sides[1]} ({aggregates}) ({free}) {boolean(state.ended)} {state.rounds} {room})"


def call_text(line):
    name, *words = line.split()
    if name == "pick_next":
        return f"(pick_next {words[0]})"
    if name == "push":
        return f"(push (event_in {words[0]} {event_words(words)}))"
    if name == "sim_network_stack":
        return f"(sim_network_stack {words[0]} (event_in {words[1]} {event_words(words[1:])}))"
    slot = f"(slot {side_name(words[0])} {words[1]})"
    if name == "set_action":
        kind, moment, duration, bypass, replace = words[2:]
        return f"(set_action {slot} (action_in {kind} {moment} {duration} {boolean(bypass)} {boolean(replace)}))"
    if name == "set_timer":
        return f"(set_timer {slot} {words[2]})"
    return f"({name} {slot})"


def answer_text(answer):
    word, *rest = answer.split()
    if word == "event":
        return f"(event {an_event(rest[:8])} {rest[9]})"
    if word == "nothing":
        return f"(nothing_left {rest[1]})"
    if word == "refused":
        return f"(refused {rest[0]} {rest[1]})"
    if word in ("yes", "no"):
        return f"(step_made {'true' if word == 'yes' else 'false'} {optional(rest[1])})"
    return {"ok": "done"}[word]


# ---- equations


@dataclasses.dataclass
class Equation:
    lines: list  # the calls that lead to it; the last one is the equation's
    answer: str
    after: str
    kind: str
    text: str
    aimed: bool


def refused_by_the_table(line, state):
    """Numbers 5 to 8: the original answers such a call, or the harness does not."""
    name, *words = line.split()
    if name in ("push", "sim_network_stack"):
        kind, moment, delay, side, padding, _, _, machine = words[-8:]
        if int(kind) > 9 or int(moment) > TOP or int(delay) > 2 * 10**12:
            return True
        late = int(kind) == 0 and padding == "0" and int(delay) > int(moment)
        return int(kind) in WITH_MACHINE and int(machine) >= state.sides[side].machines or name != "push" and late
    if name == "set_action":
        return words[2] == "2" and int(words[4]) > 10**12
    return False


def tests_for_aggregates(line, state, answer):
    """Whether the call comes to one of the tests of delay.rs, where the windows are."""
    name, *words = line.split()
    waiting = lambda side: state.sides[side].chains["blocking"] + state.sides[side].chains["bypassable"]
    if name == "pick_next":
        return answer.startswith("event 7 ") and bool(waiting(answer.split()[4]))
    if name != "sim_network_stack":
        return False
    kind, side, bypass, replace = words[1], words[4], words[6], words[7]
    rate = min([int(r) for r in state.network[1:3] if r != "-"], default=TOP)
    over = kind == "0" and len(state.sides[side].stamps) >= rate
    return over or (kind, bypass, replace) == ("2", "1", "1") and bool(waiting(side))


def equation(kind, lines, before, answer, after, source):
    """The equation for the last of the lines, or None where it has none."""
    if not re.match(r"event|nothing|(yes|no) falls|ok|refused 10", answer) or before.startswith("not accepted"):
        return None
    first, left = State(before), State(after)
    if first.ended == "1" or refused_by_the_table(lines[-1], first) or max(first.used(), left.used()) > MOST_RECORDS:
        return None
    room = max(1, *(s.used() + s.reserved() for s in (first, left))) + source.choice((0, 0, 1, 3))
    if answer.startswith("refused"):
        room += MOST_OF_A_STEP  # number 9 goes before 10, and is worked out as if the step were made
    free = listed(str(place) for place in range(first.used() + 1, room + 1))
    start = state_text(first, room, free, True)
    result = state_text(left, room, "[]", False)
    text = f"bare (call {start} {call_text(lines[-1])})\n    ≡ ({answer_text(answer)}, {result}, {room - left.used()})"
    aimed = answer.startswith("refused") or tests_for_aggregates(lines[-1], first, answer)
    return Equation(lines, answer, after, kind, text, aimed)


def with_states(kind, lines, oracle, source):
    """An equation for each call of the list that has one."""
    answers = compare.answers(oracle, [text for line in lines for text in (line, "show")])
    start = 0
    for i, line in enumerate(lines):
        if line.startswith("open"):
            start = i
        elif not line.startswith("load"):
            found = equation(kind, lines[start : i + 1], answers[2 * i - 1], answers[2 * i], answers[2 * i + 1], source)
            if found:
                yield found


def is_choice_or_step(line):
    return line.startswith(("pick_next", "sim_network_stack"))


def draw(kind, seed, oracle):
    """The equations of one random list, few of them for pushing, setting and clearing."""
    source = random.Random(f"equations {kind} {seed}")
    lines = []
    for line in generate.generate(kind, seed, CALLS_IN_A_LIST):
        if line.startswith("lend"):
            continue
        if line.startswith("pick_next") and source.random() < 0.004:
            lines.append(f"load rounds {TOP - source.randrange(4)}")
        lines.append(line)
    for found in with_states(kind, lines, oracle, source):
        if is_choice_or_step(found.lines[-1]) or source.random() < 0.1:
            yield found


def stored(oracle):
    """An equation for the last choice or step of each part of the list of edges; a part opens a state."""
    text = (HERE / "lists" / "edges.txt").read_text().split("\n")
    lines = [line for line in text if compare.name_of(line) not in ("", "show")]
    parts, last = 0, {}
    for found in with_states("edges", lines, oracle, random.Random(0)):
        parts += len(found.lines) == 2  # the first call after an opening
        if is_choice_or_step(found.lines[-1]):
            last[parts] = found
    return list(last.values())


def equations(seed, count, oracle):
    """COUNT equations, at most half of them the stored edges, the others from random lists: a few from each list,
    of every kind in turn, none twice, half of them aimed. Of the kind `refusals` hardly a call has a counterpart."""
    kinds = [kind for kind in generate.KINDS if kind != "refusals"]
    edges = {found.text: found for found in stored(oracle)}
    result = list(edges.values())[: count // 2]
    seen = set(edges)
    turn = 0
    while len(result) < count:
        kind = kinds[turn % len(kinds)]
        drawn = list(draw(kind, seed * 100_000 + turn // len(kinds), oracle))
        random.Random(f"{seed} {turn}").shuffle(drawn)
        drawn.sort(key=lambda found: not found.aimed)
        for found in drawn[: FROM_A_LIST // 2] + drawn[-FROM_A_LIST // 2 :]:
            if found.text not in seen and len(result) < count:
                seen.add(found.text)
                result.append(found)
        turn += 1
    return result


# ---- the crate of equations


def index(specs):
    """Where each name of the crate is defined (its module), and the names that have to be opened."""
    where, opened = {}, []
    for path in sorted(specs.rglob("*.antt")):
        module = ".".join(path.relative_to(specs).with_suffix("").parts)
        data = False
        for line in path.read_text().split("\n"):
            top = re.match(r"(?:(abbrev|unfoldable|opaque|def) )?pub (?:(record|data) )?(\S+)(.*)", line)
            if top:
                data = top[2] == "data"
                where.setdefault(top[3], module)
                if top[1] == "unfoldable" and " : Unit" not in line:
                    opened.append(top[3])
            elif data and (constructors := re.match(r"  ([^:]+) : ", line)):
                for name in constructors[1].split():
                    where.setdefault(name, module)
            elif line and not line.startswith(" "):
                data = False
    return where, opened


def uses(names, where):
    """The `use` lines for names of the crate."""
    missing = sorted(set(names) - set(where))
    if missing:
        raise LookupError("not defined in the crate rules: " + ", ".join(missing))
    modules = {}
    for name in sorted(set(names)):
        modules.setdefault(where[name], []).append(name)
    return "\n".join(f"use {RULES}{module}.{{{', '.join(found)}}}" for module, found in sorted(modules.items()))


COMMON_USES = """use Rattle.std.specs.Prelude.{ℕ, Bool, true, false, List, [], ◌∷◌, length, set, replicate, ◌≡◌, refl}
use Rattle.std.proofs.Math.Option.{Option, none, some}
"""

FORM = """-- The form of the equations: values written by their parts in order, and a call's outcome without the numbers of records.

abbrev pub an_event : Kind → ℕ → ℕ → Side → Bool → Bool → Bool → ℕ → Event
an_event k t d z p b r m = record { kind = k; moment = t; delay = d; side = z; padding = p; bypass = b; replace = r; machine = m }

abbrev pub event_in : ℕ → ℕ → ℕ → Side → Bool → Bool → Bool → ℕ → EventIn
event_in k t d z p b r m = record { kind = k; moment = t; delay = d; side = z; padding = p; bypass = b; replace = r; machine = m }

abbrev pub an_action : ActionKind → ℕ → ℕ → Bool → Bool → Action
an_action k t d b r = record { kind = k; moment = t; duration = d; bypass = b; replace = r }

abbrev pub action_in : ℕ → ℕ → ℕ → Bool → Bool → ActionIn
action_in k t d b r = record { kind = k; moment = t; duration = d; bypass = b; replace = r }

abbrev pub slot : Side → ℕ → Slot
slot z m = record { side = z; machine = m }

abbrev pub an_aggregate : ℕ → ℕ → Side → Aggregate
an_aggregate t n z = record { moment = t; length = n; side = z }

abbrev pub in_record : {A : Type 0} → ℕ → A → Held A
in_record p a = record { place = p; value = a }

abbrev pub empty : {A : Type 0} → List (Option A)
empty = replicate 16 none

abbrev pub a_network : ℕ → Option ℕ → Option ℕ → ℕ → Settings
a_network d n q w = record { network_delay = d; network_rate = n; queue_rate = q; window = w }

abbrev pub a_side :
    ℕ → ℕ → ℕ → ℕ → Option ℕ → Bool → List (Held Event) → List (Held Event) → List (Held Event) → List (Held Event)
    → List (Held ℕ) → List (Option ℕ) → List (Option Action) → SideState
a_side a r m n end flag base blocking bypassable internal stamps timers actions =
    record {
      fixed = record { action_delay = a; reporting_delay = r; machines = m };
      sum = n;
      block_end = end;
      block_bypassable = flag;
      queues = record { base = base; blocking = blocking; bypassable = bypassable; internal = internal };
      stamps = stamps;
      timers = timers;
      actions = actions;
    }

abbrev pub a_state : Settings → SideState → SideState → List (Held Aggregate) → List ℕ → Bool → ℕ → ℕ → State
a_state x c s l f e k r =
    record { settings = x; client = c; server = s; aggregates = l; free = f; ended = e; rounds = k; room = r }

-- what a chain holds, in records without a number
abbrev pub bare_chain : {A : Type 0} → List (Held A) → List (Held A)
bare_chain [] = []
bare_chain (h ∷ l) = in_record 0 h.value ∷ bare_chain l

abbrev pub bare_side : SideState → SideState
bare_side x =
    a_side x.fixed.action_delay x.fixed.reporting_delay x.fixed.machines x.sum x.block_end x.block_bypassable
    (bare_chain x.queues.base) (bare_chain x.queues.blocking) (bare_chain x.queues.bypassable) (bare_chain x.queues.internal)
    (bare_chain x.stamps) x.timers x.actions

abbrev pub bare_state : State → State
bare_state s =
    a_state s.settings (bare_side s.client) (bare_side s.server) (bare_chain s.aggregates) [] s.ended s.rounds s.room

-- the answer, the state without numbers of records, and how many records are free
abbrev pub bare : Called → Answer × State × ℕ
bare c = (c.answer, bare_state c.state, length c.state.free)
"""

FORM_NAMES = "an_event event_in an_action action_in slot an_aggregate in_record empty a_network a_side a_state bare".split()


def form_file(where, opened):
    opening = f"\n-- what an equation opens\nunfoldable pub opened_rules : Unit {{0}}\nunfolding {' '.join(opened)}\nopened_rules = tt\n"
    head, _, rest = FORM.partition("\n")
    return head + "\n" + COMMON_USES + uses(TYPES + opened, where) + "\n" + rest + opening


def equations_file(some, where):
    text = COMMON_USES + uses(VALUES, where) + f"\nuse Rattle.equations.specs.Form.{{{', '.join(FORM_NAMES)}, opened_rules}}\n"
    for number, found in some:
        text += f"\neq{number} :\n    {found.text}\nunfolding opened_rules\neq{number} = refl\n"
    return text


def copy_definitions(rules, folder):
    """Copies the modules of the crate that `call` stands on, and no others."""
    specs = rules / "specs"
    needed, waiting = set(), [index(specs)[0]["call"]]
    while waiting:
        module = waiting.pop()
        if module not in needed:
            needed.add(module)
            text = (specs / (module.replace(".", "/") + ".antt")).read_text()
            waiting += re.findall(r"^use " + re.escape(RULES) + r"([\w.]+)\.\{", text, re.MULTILINE)
    tops = {module.split(".")[0] for module in needed}
    shutil.rmtree(folder, ignore_errors=True)
    (folder / "specs").mkdir(parents=True)
    shutil.copytree(rules / "src", folder / "src")
    for top in tops:
        shutil.copy(specs / f"{top}.antt", folder / "specs")
        if (specs / top).is_dir():
            shutil.copytree(specs / top, folder / "specs" / top)
    listed_there = (specs / "Lib.antt").read_text().rstrip("\n").split("\n")
    kept = [line for line in listed_there if line.removeprefix("pub mod ") in tops]
    (folder / "specs" / "Lib.antt").write_text("\n".join(kept) + "\n")


def write_crate(folder, rules, numbered):
    """A repository of two crates: the definitions of rules, and the equations."""
    crate = folder / "crates" / "equations"
    copy_definitions(rules, folder / "crates" / "rules")
    (folder / "crates.txt").write_text("rules:\nequations: rules\n")
    shutil.rmtree(crate, ignore_errors=True)
    (crate / "specs").mkdir(parents=True)
    (crate / "src").mkdir()
    (crate / "src" / "lib.rt").write_text("// A crate needs a function; this one is the equations of specs/.\n#![tactic(auto)]\n\npub fn none() -> u64 {\n    0\n}\n")
    where, opened = index(folder / "crates" / "rules" / "specs")
    (crate / "specs" / "Form.antt").write_text(form_file(where, opened))
    modules = ["Form"]
    for start in range(0, len(numbered), PER_FILE):
        modules.append(f"Equations{start // PER_FILE}")
        (crate / "specs" / f"{modules[-1]}.antt").write_text(equations_file(numbered[start : start + PER_FILE], where))
    (crate / "specs" / "Lib.antt").write_text("".join(f"pub mod {name}\n" for name in modules))


def check(folder):
    """The checker's verdict and what it writes."""
    run = subprocess.run(["rt", "check"], cwd=folder / "crates" / "equations", capture_output=True, text=True)
    return run.returncode, run.stdout + run.stderr


# ---- the command


def failed_equations(message, numbered):
    """The equations that the checker's message names."""
    numbers = {int(n) for n in re.findall(r"error: `eq(\d+)`", message)}
    return [(n, e) for n, e in numbered if n in numbers]


def report(number, found, message):
    print(f"---- equation {number} ({found.kind}) does not hold. The call list:")
    print("\n".join(found.lines))
    print(f"---- the original's answer: {found.answer}\n---- and the state left:\n{found.after}")
    print(f"---- the equation:\n{found.text}\n---- the checker:\n{message[:3000]}")


def arguments():
    parser = argparse.ArgumentParser(description=__doc__, formatter_class=argparse.RawDescriptionHelpFormatter)
    parser.add_argument("seed", type=int)
    parser.add_argument("count", type=int)
    parser.add_argument("--out", type=pathlib.Path, metavar="DIR", help="write the equations there and keep them")
    parser.add_argument("--rules", type=pathlib.Path, metavar="DIR", default=HERE.parent / "crates" / "rules", help="default: crates/rules")
    return parser.parse_args()


def main():
    args = arguments()
    if not shutil.which("rt"):
        sys.exit("equations.py: no rt: the checker is not installed")
    oracle = [compare.oracle()]
    started = time.time()
    numbered = list(enumerate(equations(args.seed, args.count, oracle)))
    folder = args.out or pathlib.Path(tempfile.mkdtemp(prefix="equations-"))
    folder.mkdir(parents=True, exist_ok=True)
    try:
        sys.exit(run(args, folder, numbered, started))
    finally:
        if not args.out:
            shutil.rmtree(folder)


def run(args, folder, numbered, started):
    """Checks, takes out what fails and checks again; answers the exit status."""
    failures = 0
    while True:
        try:
            write_crate(folder, args.rules, numbered)
        except LookupError as missing:
            print(f"equations.py: {missing}", file=sys.stderr)
            return 2
        status, message = check(folder)
        if status == 0:
            break
        failed = failed_equations(message, numbered)
        if not failed:
            print(message)
            return 2
        for number, found in failed:
            report(number, found, message)
        failures += len(failed)
        if failures >= MOST_FAILURES:
            break
        numbered = [(n, e) for n, e in numbered if (n, e) not in failed]
    kinds = sorted({e.kind for _, e in numbered})
    tens = sum(e.answer.startswith("refused 10") for _, e in numbered)
    print(f"{args.count} equations, seed {args.seed}, {tens} of number 10, kinds {' '.join(kinds)}: {failures} do not hold; {time.time() - started:.0f} s")
    return 1 if failures else 0


if __name__ == "__main__":
    main()
