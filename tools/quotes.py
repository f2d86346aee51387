#!/usr/bin/env python3
"""quotes.py DOCUMENT..: the quotes in the comments of crates/*/specs that stand neither in a DOCUMENT (01 and 02) nor in a page of docs/.

A quote is what stands between two double quotes in a comment, over its lines, in three words or more. `[..]`, ` .. ` and a ` ..` at its end leave something
out. White space, capital letters and the bars of a table are passed over. Exit 1 where one is found nowhere."""
import glob, os, re, sys


def plain(text):
    return " ".join(text.replace("|", " ").lower().split())


def comments(path):
    """(line, text) of each run of comment lines."""
    run, start = [], 0
    for number, line in enumerate(open(path, encoding="utf-8").read().split("\n") + [""], 1):
        said = re.match(r"\s*--[\s-]*(.*)", line)
        if said:
            start = start if run else number
            run.append(said[1])
        elif run:
            yield start, " ".join(run)
            run = []


def stands(quote, texts):
    """Whether the parts of the quote stand in one text, in their order."""
    parts = [p for p in (plain(p).strip(" .,;:") for p in re.split(r"\[\.\.\]| \.\.(?= |$)", quote)) if p]
    for text in texts:
        at = 0
        for part in parts:
            at = text.find(part, at)
            if at < 0:
                break
        else:
            return True
    return False


def main(documents):
    root = os.path.join(os.path.dirname(os.path.abspath(__file__)), "..")
    pages = documents + sorted(glob.glob(os.path.join(root, "docs/*.md")))
    texts = [plain(open(p, encoding="utf-8").read()) for p in pages]
    amiss = count = 0
    for path in sorted(glob.glob(os.path.join(root, "crates/*/specs/**/*.antt"), recursive=True)):
        for line, text in comments(path):
            for quote in re.findall(r'"([^"]*)"', text):
                if len(quote.split()) < 3:
                    continue
                count += 1
                if not stands(quote, texts):
                    amiss += 1
                    print(f"{os.path.relpath(path, root)}:{line}: {quote}")
    print(f"{count} quotes, {amiss} that stand nowhere")
    return 1 if amiss else 0


if __name__ == "__main__":
    if len(sys.argv) < 2:
        sys.exit(__doc__)
    sys.exit(main(sys.argv[1:]))
