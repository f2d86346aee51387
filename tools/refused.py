#!/usr/bin/env python3
"""refused.py [--text] [ROOT [LOGS]]: holds every must-fail edit to the fact that must fail (edits.py says how edits are written).

With --text, before anything is proved:
- each edit names what must fail, and no two edits of a crate share a name;
- an edit of src/ changes the function that it expects and no other: in its body, or by a constant that it alone names. So
  edits of several functions may share a file: a proof reads the contracts of other functions, never their bodies;
- an edit of anything else, as of specs/, has a file of its own;
- no proof names what is made of another function's code.
After tools/try_edits.py, in LOGS/CRATE/FILE/.log (default ROOT/target/must-fail):
- the prover refused the file;
- each function that an edit expects is not proved, by a failed need of its own: not because a callee "was not admitted", nor
  because a proof no longer fits the changed function;
- no other function fails by a need of its own: the edits account for every failure;
- of an edit of specs/, the case or theorem that it expects fails.

Exit 1 with a line for each thing amiss; else 0 and one line, which begins with the number of edits."""
import glob, os, re, sys

sys.dont_write_bytecode = True
from edits import Bad, Crate, edits_in, label, read

ERROR = re.compile(r"^(?P<path>[^\n`:]+\.antt):(?P<line>\d+):\d+: error: (?P<said>`(?P<name>[^`]+)`: .*)", re.M)
# what antt says where a fact fails. Anything else is none: that a callee was not admitted, or that a proof no longer fits the changed code
FACT = re.compile(
    r"`[^`]+`: (?:`\w+`: )?(?:no proof of `|the (?:part `[^`]*` of the )?goal does not follow"
    r"|(?:as printed|computed as far as they go), the two (?:types|sides|values) |expected type `(?!goal\.)|list the missing equation)"
)
# the files that hold a function's proof
PROOFS = ("Answers.antt", "Invariants.antt", "Proof.antt")


def needs_failed(log, crate):
    """FUNCTION -> what fails in its own proof: the needs, and what else is said that is not the callees' fault."""
    found = {name: ([], []) for name in crate.names}
    for m in ERROR.finditer(log):
        function = re.search(r"/proofs/(.+)/(?:Answers|Invariants|Proof)\.antt$", m["path"])
        if not function or function[1].replace("/", "::") not in found:
            continue
        needs, others = found[function[1].replace("/", "::")]
        files = [os.path.join(crate.folder, "proofs", function[1], f) for f in PROOFS]
        proof = "\n".join(read(f) for f in files if os.path.isfile(f))
        if FACT.match(m["said"]) and re.search(rf"^(?:pub )?{re.escape(m['name'])} :\s+goal\.", proof, re.M):
            needs.append(m["said"])
        elif "was rejected, was not checked" not in m["said"] and "were not checked" not in m["said"]:
            others.append(m["said"])
    # needs that have no answer, which rattle leaves to its tactics
    for m in re.finditer(rf"^fn {crate.name}::(\S+): no proof: .*`search` did not prove ([^;\n]+)", log, re.M):
        if m[1] in found:
            found[m[1]][0].append(m[2])
    return found


def facts_failed(log, folder):
    """The cases and theorems that fail, as FILE.NAME: what is declared and, in a record of cases, the field of the failing line: an edit moves no line."""
    found = set()
    for m in ERROR.finditer(log):
        if not FACT.match(m["said"]):
            continue
        path = os.path.join(folder, re.sub(r".*/(?=(?:specs|proofs)/)", "", m["path"]))
        file = label(path)
        found.add(f"{file}.{m['name']}")
        for line in reversed(read(path).split("\n")[: int(m["line"])] if os.path.isfile(path) else []):
            field = re.match(r"\s+[;{]?\s*([\w'-]+)\s*=", line)
            if field:
                found.add(f"{file}.{field[1]}")
            if field or not line.startswith(" "):
                break
    return found


def amiss_in_log(edits, crate, where):
    if not os.path.isfile(where + ".res") or read(where + ".res").strip() != "refused":
        return ["the prover did not refuse it"]
    if not os.path.isfile(where + "/.log"):
        return ["there is no log of it"]
    log = read(where + "/.log")
    if crate.changed_by(edits[0]) is None:
        facts = facts_failed(log, crate.folder)
        return [] if edits[0].expects in facts else [f"NOT REFUSED: {edits[0]}: {edits[0].expects} holds; what fails: {', '.join(sorted(facts)) or 'no fact'}"]
    amiss, failed = [], needs_failed(log, crate)
    for e in edits:
        verdict = re.search(rf"^fn {re.escape(crate.name + '::' + e.expects)}: (.*)", log, re.M)
        needs, others = failed[e.expects]
        if not verdict or verdict[1] == "proved" or not needs:
            said = others[0] if others else verdict[1] if verdict else "the log has no line of it"
            amiss.append(f"NOT REFUSED: {e}: no need of {e.expects} fails ({said[:120]})")
    for name in sorted(crate.names - {e.expects for e in edits}):
        for said in (failed[name][0] + failed[name][1])[:1]:
            amiss.append(f"the proof of {name} fails by itself too, and no edit expects that: {said[:120]}")
    return amiss


def judged(root, logs=None):
    """(what is amiss, number of edits, number of files); as text alone where no logs are named."""
    amiss, names, files = [], [], 0
    for folder in sorted(glob.glob(os.path.join(root, "crates/*/must-fail"))):
        crate = Crate(os.path.dirname(folder))
        amiss += [f"{crate.name}: {p}" for p in crate.peeping()]
        for path in sorted(set(glob.glob(folder + "/*")) - set(crate.edit_files())):
            amiss.append(f"{crate.name}: rt reads no file {os.path.basename(path)}")
        for path in crate.edit_files():
            files += 1
            try:
                edits = edits_in(path)
                found = crate.amiss_in(edits)
                for e in edits:
                    found += [f"the crate has another edit {e.name}"] if (crate.name, e.name) in names else []
                    names.append((crate.name, e.name))
                if logs and not found:
                    found = amiss_in_log(edits, crate, os.path.join(logs, crate.name, label(path)))
            except Bad as e:
                found = [str(e)]
            amiss += [f"{crate.name}/{label(path)}: {f}" for f in found]
    if not files:
        amiss.append("no edit files")
    return amiss, len(names), files


def main(*given):
    text = "--text" in given
    root, logs = ([g for g in given if g != "--text"] + [None, None])[:2]
    root = root or "."
    amiss, edits, files = judged(root, None if text else logs or os.path.join(root, "target/must-fail"))
    for a in amiss:
        print(a)
    if amiss:
        print(f"refused.py: {len(amiss)} amiss")
        return 1
    print(f"{edits} edits in {files} files " + ("name what must fail" if text else "are refused, each by the fact that it names"))
    return 0


if __name__ == "__main__":
    try:
        sys.exit(main(*sys.argv[1:]))
    except Bad as e:
        sys.exit(f"refused.py: {e}")
