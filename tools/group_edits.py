#!/usr/bin/env python3
"""group_edits.py [ROOT]: puts the must-fail edits of ROOT/crates into as few files as can be judged by one log each.

`rt` proves a crate once for each edit file. Edits that each change another function share a file (`together-N.edit`); refused.py
says what may stand together. Files that hold several are taken apart first, so a new edit comes as a file of its own,
with or without its `expects:` line, and is joined by this script. An edit of anything but a function's body or a constant, and one
that no file takes, keeps a file of its own name. Nothing is written where a file cannot be read or two edits share a name."""
import glob, os, re, sys

sys.dont_write_bytecode = True
from edits import Bad, Crate, edits_in, label, written


def place(path):
    """Files that hold several come first, in their order, so that edits keep their places."""
    number = re.fullmatch(r"together-(\d+)", label(path))
    return (0, int(number[1]), "") if number else (1, 0, label(path))


def edits_of(crate):
    for path in sorted(crate.edit_files(), key=place):
        try:
            yield from edits_in(path)
        except Bad as e:
            raise Bad(f"{crate.name}/{label(path)}: {e}")


def grouped(crate):
    """FILE -> its edits."""
    groups, files = [], {}
    for e in edits_of(crate):
        changed = crate.changed_by(e)
        if changed and len(changed) == 1 and not e.expects:
            (e.expects,) = changed
        fitting = [] if changed is None else [g for g in groups if not crate.amiss_in(g + [e])]
        if fitting:
            fitting[0].append(e)
        elif changed is None:
            files[e.name] = [e]
        else:
            groups.append([e])
    for n, g in enumerate([g for g in groups if len(g) > 1], 1):
        files[f"together-{n}"] = g
    files |= {g[0].name: g for g in groups if len(g) == 1}
    names = [e.name for g in files.values() for e in g]
    if len(set(names)) < len(names):
        raise Bad(f"{crate.name}: two edits of one name")
    return files


def main(root="."):
    crates = [Crate(os.path.dirname(folder)) for folder in sorted(glob.glob(os.path.join(root, "crates/*/must-fail")))]
    plans = [(crate, grouped(crate)) for crate in crates]
    for crate, files in plans:
        for path in crate.edit_files():
            os.remove(path)
        for name, edits in files.items():
            with open(os.path.join(crate.folder, "must-fail", name + ".edit"), "w", encoding="utf-8") as f:
                f.write(written(edits))
        print(f"{crate.name}: {sum(map(len, files.values()))} edits in {len(files)} files")


if __name__ == "__main__":
    try:
        main(*sys.argv[1:])
    except Bad as e:
        sys.exit(f"group_edits.py: {e}")
