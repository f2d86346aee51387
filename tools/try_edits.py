#!/usr/bin/env python3
"""try_edits.py [ROOT [LOGS [CRATE..]]]: proves each crate once for each of its files of must-fail edits, with that file's changes made, and keeps what the
prover says, for refused.py: LOGS/CRATE/FILE/.log, and `refused` or `survived` in LOGS/CRATE/FILE.res (default LOGS: ROOT/target/must-fail).

`rt ci` tries the same edits, but says one line of each file alone, and a file may hold edits of several functions. Each try is made in a copy of the
repository, as many at a time as RT_JOBS says, else as there are processors."""
import glob, os, queue, re, shutil, subprocess, sys, tempfile, threading

sys.dont_write_bytecode = True
from edits import edits_in, label, read


def copied(root, to):
    """A copy of the repository for the prover: sources, and what was proved by links, which the prover replaces and never changes."""
    shutil.copy(os.path.join(root, "crates.txt"), os.path.join(to, "crates.txt"))
    subprocess.run(["cp", "-al", os.path.join(root, "crates"), os.path.join(to, "crates")], check=True)


def changed(folder, path):
    """The texts of the files that the edits of a file change, made; each text before and after."""
    before, after = {}, {}
    for e in edits_in(path):
        for file, old, new in e.changes:
            if file not in after:
                before[file] = after[file] = read(os.path.join(folder, file))
            if after[file].count(old) != 1:
                raise ValueError(f"{path}: an old text stands {after[file].count(old)} times in {file}: {old[:60]}")
            after[file] = after[file].replace(old, new)
    return before, after


def put(folder, texts):
    for file, text in texts.items():
        path = os.path.join(folder, file)
        os.remove(path)  # a link: the repository's own file stays
        with open(path, "w", encoding="utf-8") as f:
            f.write(text)


def tried(tree, root, crate, path, logs):
    folder = os.path.join(tree, "crates", crate)
    before, after = changed(folder, os.path.join(root, path))
    put(folder, after)
    done = subprocess.run(["rt", "check"], cwd=folder, stdin=subprocess.DEVNULL, stdout=subprocess.PIPE, stderr=subprocess.STDOUT, text=True, errors="replace")
    put(folder, before)
    where = os.path.join(logs, crate, label(path))
    os.makedirs(where, exist_ok=True)
    with open(where + "/.log", "w", encoding="utf-8") as f:
        f.write(done.stdout)
    last = [l for l in done.stdout.split("\n") if l.startswith("logic=")][-1:]
    refused = done.returncode == 1 and last and last[0].startswith("logic=not-proved")
    with open(where + ".res", "w", encoding="utf-8") as f:
        f.write("refused\n" if refused else "survived\n")
    return refused


def main(*given):
    root, logs, *names = [*given, None, None][:2] + list(given[2:])
    root = os.path.abspath(root or ".")
    logs = logs or os.path.join(root, "target/must-fail")
    files = []
    for path in sorted(glob.glob(os.path.join(root, "crates/*/must-fail/*.edit"))):
        crate = path.split(os.sep)[-3]
        if not names or crate in names:
            files.append((crate, os.path.relpath(path, root)))
    for crate in {c for c, _ in files}:
        shutil.rmtree(os.path.join(logs, crate), ignore_errors=True)
    os.makedirs(os.path.join(root, "target"), exist_ok=True)
    waiting, amiss = queue.Queue(), []
    for it in files:
        waiting.put(it)

    def work():
        with tempfile.TemporaryDirectory(prefix="edits-", dir=os.path.join(root, "target")) as tree:
            try:
                copied(root, tree)
                while True:
                    crate, path = waiting.get_nowait()
                    if not tried(tree, root, crate, path, logs):
                        amiss.append(path)
            except queue.Empty:
                pass
            except (OSError, ValueError, subprocess.SubprocessError) as e:
                amiss.append(str(e))

    jobs = int(os.environ.get("RT_JOBS") or len(os.sched_getaffinity(0)))
    workers = [threading.Thread(target=work) for _ in range(min(jobs, len(files)))]
    for w in workers:
        w.start()
    for w in workers:
        w.join()
    for it in sorted(amiss):
        print(f"not refused: {it}")
    print(f"{len(files)} files of edits tried, {len(amiss)} not refused")
    return 1 if amiss or not files else 0


if __name__ == "__main__":
    sys.exit(main(*sys.argv[1:]))
