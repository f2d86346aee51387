#!/usr/bin/env python3
"""edges.py: prints crates/rules/specs/Edges.antt from lists/edges.txt and the original's answers in lists/edges.answers: for each constant of
the rules a case at its edge and one past it, and one for each misreading of document 01. CASES names the parts of the list that are taken."""
import os, re

HERE = os.path.dirname(os.path.abspath(__file__))
KINDS = 'TunnelSent NormalSent PaddingSent TunnelRecv NormalRecv PaddingRecv BlockingBegin BlockingEnd TimerBegin TimerEnd'.split()
# (name, heading of the list, comment of the part)
CASES = [line.strip().split(' | ') for line in open(os.path.join(HERE, 'lists/edges.cases')) if line.strip() and not line.startswith('#')]


def parts():
    """(heading, comment) -> list of (call line, answer line or lines)."""
    answers = open(os.path.join(HERE, 'lists/edges.answers')).read().split('\n')
    at, heading, comment, out = 0, '', '', {}
    for line in open(os.path.join(HERE, 'lists/edges.txt')):
        line = line.strip()
        if line.startswith('# ===='): heading = line[7:]
        elif line.startswith('#'): comment = line[2:]
        elif line:
            got = [answers[at]]; at += 1
            if line == 'show':
                while got[-1] != 'end': got.append(answers[at]); at += 1
            out.setdefault((heading, comment), []).append((line, got))
    return out


def number(n):
    n = str(int(n))
    return n if len(n) < 5 else re.sub(r'(?<=\d)(?=(\d{3})+$)', '_', n)


def side(c): return 'client' if c == 'c' else 'server'
def flag(b): return 'true' if b == '1' else 'false'


def handed(w):
    k, t, d, z, p, b, r, m = w
    assert d == '0' and m == '0', w
    if (p, b, r) == ('0', '0', '0'): return f'handed_in {k} {number(t)} {side(z)}'
    return f'flagged {k} {number(t)} {side(z)} {flag(p)} {flag(b)} {flag(r)}'


def opening(w):
    d, nr, qr, window = w[:4]
    assert qr == '-' and w[4:8] == ['0'] * 4, w
    rate = 'none' if nr == '-' else f'(some {nr})'
    return f'open_with {number(d)} {rate} {number(window)}'


def call(line):
    w = line.split()
    if w[0] == 'push': return f'push ({handed(w[1:])})'
    if w[0] == 'sim_network_stack': return f'sim_network_stack {number(w[1])} ({handed(w[2:])})'
    if w[0] == 'pick_next': return f'pick_next {number(w[1])}'
    if w[0] == 'set_action':
        assert w[2] == '0' and w[3] == '2' and w[7] == '0', line
        return f'{"set_bypassable_block" if w[6] == "1" else "set_block"} {side(w[1])} {number(w[4])} {number(w[5])}'
    raise SystemExit(f'no form for {line}')


def answer(line):
    w = line.split()
    if w[0] == 'ok': return 'done'
    if w[0] == 'yes': return 'yes_step' if w[2] == '-' else f'yes_falls {number(w[2])}'
    if w[0] == 'no': return 'no_step'
    if w[0] == 'nothing': return f'nothing_left {w[2]}'
    if w[0] == 'refused': return f'refused {w[1]} {w[2]}'
    k, t, d, z, p, b, r, m = w[1:9]
    assert d == '0', line
    kind = KINDS[int(k)]
    if (p, b, r) == ('0', '0', '0'): event = f'plain {kind} {number(t)} {side(z)} {m}'
    else: event = f'packet {kind} {number(t)} {d} {side(z)} {flag(p)} {flag(b)} {flag(r)}'
    return f'event ({event}) {w[10]}'


def items(values): return ' ∷ '.join(values + ['[]'])
def group(values): return f'({items(values)})' if values else '[]'


def main():
    all_parts = parts()
    print("-- Each constant of the rules at its edge and one past it, and the plausible misreadings of document 01. The values are the original's:\n-- runs/edges.py prints this file from runs/lists/edges.txt and the answers that the Rust gave.")
    print('\npub record Edges : Type 0 where')
    heading = None
    for name, where, comment in CASES:
        lines = all_parts[where, comment]
        assert lines[0][0].startswith('open')
        if where != heading: print(f'  -- ---- {where}\n'); heading = where
        calls = [call(l) for l, _ in lines[1:] if l != 'show']
        answers = [answer(a[0]) for l, a in lines[1:] if l != 'show']
        last = ([a for l, a in lines if l == 'show'])[-1]
        pending = [f'aggregate {number(x[2])} {number(x[3])} {side(x[1])}' for x in (l.split() for l in last) if x[0] == 'aggregate']
        print(f'  -- {comment}')
        print(f'  pub {name} :\n      ran ({opening(lines[0][0].split()[1:])})')
        print(f'      ({items(calls)})')
        stamps = [number(x[2]) for x in (l.split() for l in last) if x[:2] == ['stamp', 'c']]
        bypassable = next(flag(x[3]) for x in (l.split() for l in last) if x[:2] == ['block', 'c'])
        print(f'      ≡ seen ({items(answers)}) {group(pending)} {group(stamps)} {bypassable}')
    print('\n-- each holds by computation\npub edges : Edges\nunfolding rules\nedges = record {')
    for name, _, _ in CASES: print(f'  {name} = refl;')
    print('}')


main()
