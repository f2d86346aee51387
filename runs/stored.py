#!/usr/bin/env python3
"""stored.py LISTS ORACLE OUT: writes OUT/stdin and OUT/stdout, the stored lists of the program forecast.

No answer comes from forecast: each is written here by hand from documents 01 and 02, docs/LAYOUT.md and docs/CALLS.md,
or printed by the Rust (ORACLE) on the lists of LISTS (starred.txt, edges.txt, sample.txt). What the Rust cannot say of a
state, the number of free records, is R less the records that it shows. A comment before each group says which."""
import pathlib, subprocess, sys

calls, answers = [], []
L = 2**62 - 1
TEN12 = 10**12
MAX = 2**64 - 1


def note(text):
    calls.extend(["", "# " + text])


def say(call, answer):
    calls.append(call)
    answers.append(answer)


def bad(text):
    """A bad line: the number is that of the line itself."""
    calls.append(text)
    answers.append(f"bad line {len(calls)}")


def ok(*lines):
    for line in lines:
        say(line, "ok")


def refused(number, *lines):
    for line in lines:
        say(line, f"refused {number} 0")


def records(n):
    """Lends n records."""
    ok(f"lend {256 + 4 * n}")


def opened(n, settings="0 - - 0 0 0 0 0 2 2"):
    records(n)
    ok("open " + settings)


# Machine 16 is never below a side's count, so this call changes nothing and tells how the words are taken:
# 2 not accepted, 3 accepted and ended, 5 accepted.
PROBE = "set_timer c 16 0"


def taken(*words):
    for i, v in words:
        ok(f"word {i} {v}")
    refused(5, PROBE)


def not_taken(*words):
    for i, v in words:
        ok(f"word {i} {v}")
    refused(2, PROBE)


# ---- by hand

def text():
    note("==== By hand from docs/CALLS.md: the text")
    say("pick_next 0", "refused 2 0")
    say("pack", "refused 2 0")
    ok("lend 0260", "open\t0 - -  0 0 0 0   0 00016 1  ", "  push 1 5 0 c 0 0 0 0\r")
    calls.extend(["", "   ", "\r", "#", "#push 9", "  # a comment after spaces", "\t#x\r"])
    say("pick_next 0000000000000000000000000000000000000000000000000000005", "event 1 5 0 c 0 0 0 0 rounds 1")
    say("pick_next\t5\t", "nothing rounds 1")
    note("By hand: bad lines. The number of a line counts empty lines and comments.")
    for line in ("pick_next", "pick_next 1 1", "pick_next -", "pick_next +1", "pick_next -1", "pick_next 1x", "pick_next x1", "pick_next 0x1",
                 "pick_next 1.0", "pick_next c", "pick_next 18446744073709551616", "pick_next 99999999999999999999", "pick_next 184467440737095516150",
                 "Pick_next 0", "pick_nex 0", "pick_nextt 0", "pick next 0", "0", "-", "c", "end", "pick_next #", "pick_next 0 # now",
                 "pick_next 5\r\r", "pick_next 5\rx", "pick_next 5\r ", "\rpick_next 5", "pick\r_next 5", "\r\r", "pick_next \x0b5", "pick_next \u00a05",
                 "lend", "lend 8193", "lend 18446744073709551615", "lend -", "lend 1 1", "word 1", "word 8192 0", "word 0 -", "word 0 18446744073709551616", "word 0 1 2",
                 "open 0 - - 0 0 0 0 0 0", "open 0 - - 0 0 0 0 0 0 0 0", "open - - - 0 0 0 0 0 0 0", "open 0 c - 0 0 0 0 0 0 0", "open 0 -- - 0 0 0 0 0 0 0", "open 0 - - - 0 0 0 0 0 0",
                 "push 0 0 0 c 0 0 0", "push 0 0 0 c 0 0 0 0 0", "push 0 0 0 C 0 0 0 0", "push 0 0 0 cs 0 0 0 0", "push 0 0 0 0 0 0 0 0", "push 0 0 0 c 2 0 0 0", "push 0 0 0 c 00 0 0 0",
                 "push 0 0 0 c 0 01 0 0", "push 0 0 0 c 0 0 - 0", "push - 0 0 c 0 0 0 0", "push 0 0 0 c 0 0 0 c",
                 "set_action 0 0 1 0 0 0 0", "set_action c 0 1 0 0 0", "set_action c 0 1 0 0 0 2", "clear_action c", "clear_action 0 c", "set_timer c 0", "set_timer c 0 0 0", "clear_timer s", "clear_timer",
                 "sim_network_stack 0 0 0 c 0 0 0 0", "sim_network_stack 0 0 0 0 s 0 0 0 0 0", "sim_network_stack 0 0 0 0 - 0 0 0 0", "sim_network_stac 0 0 0 0 s 0 0 0 0",
                 "sim_network_stack_and_a_long_tail_of_letters 0", "aaaaaaaaaaaaaaaaaaaaaaaa", "aaaaaaaaaaaaaaaaaaaaaaaaa", "show 0", "show c", "words 1", "wordss", "load ended 1",
                 "push " + "0 " * 40, "push" + " " * 300 + "0", "pick_next " + "0" * 300 + "18446744073709551616"):
        bad(line)
    note("By hand: none of them changed anything, and 2^64 - 1 is a number. The lent words are 260: one record.")
    say("pick_next 18446744073709551615", "refused 7 0")
    say("show", state(2, 1, settings="0 - - 0 0 0 0 0 16 1"))
    note("By hand: what the words hold stays, whatever is lent. Opening writes 0 to every word that means nothing.")
    ok("lend 8192", "word 8191 7", "word 255 9", "word 1 5", "lend 258")
    say("show", "not accepted\nend")
    ok("lend 260")
    say("show", state(2, 1, settings="0 5 - 0 0 0 0 0 16 1"))
    ok("open 3 4 - 5 6 7 8 9 1 0")
    header = [3, 4, 0, 5, 6, 7, 8, 9, 1, 0] + [0] * 14 + [1, 1] + [0] * 230
    say("words", "\n".join(map(str, header + [0, 0, 0, 0])) + "\nend")
    ok("lend 3")
    say("words", "3\n4\n0\nend")
    ok("lend 0")
    say("words", "end")


def state(rounds, free, settings, rest=(), sums="0 0", blocks=("- 0", "- 0"), ended=0):
    return "\n".join(["settings " + settings, "sums " + sums, "block c " + blocks[0], "block s " + blocks[1], f"ended {ended}", f"rounds {rounds}", f"free {free}", *rest, "end"])


EVERY = ["push 0 0 0 c 0 0 0 0", "set_action c 0 1 0 0 0 0", "clear_action c 0", "set_timer c 0 0", "clear_timer c 0", "pick_next 0", "sim_network_stack 0 0 0 0 c 0 0 0 0"]


def numbers():
    note("==== By hand from document 01: the numbers of refusals, each with a small input")
    note("1: a length that is not 256 + 4R. 0 words, 256, 257, 258, 259, 261; 260 and 8,192 are lengths.")
    ok("lend 0")
    refused(1, "open 0 - - 0 0 0 0 0 0 0", *EVERY)
    for n in (1, 255, 256, 257, 258, 259, 261, 262, 263, 8191):
        ok(f"lend {n}")
        refused(1, "open 0 - - 0 0 0 0 0 0 0", "pick_next 0", "push 0 0 0 c 0 0 0 0")
    ok("lend 8192", "open 0 - - 0 0 0 0 0 0 0")
    note("2: 260 words, each 2^64 - 1. Opening does not look at them.")
    ok("lend 260", *(f"word {i} {MAX}" for i in range(260)))
    refused(2, *EVERY)
    say("show", "not accepted\nend")
    refused(4, "open 0 0 - 0 0 0 0 0 0 0")
    say("words", f"{MAX}\n" * 260 + "end")
    note("2: zeros, since the free count is not R")
    ok(*(f"word {i} 0" for i in range(260)))
    refused(2, *EVERY)
    note("3: a choice after a 10 (block action at 2^62 - 1, duration 1), then every call but opening")
    opened(8, "0 - - 0 0 0 0 0 1 0")
    ok(f"set_action c 0 2 {L} 1 0 0")
    refused(10, f"pick_next {L}")
    refused(3, f"pick_next {L}", *EVERY)
    say("show", state(0, 8, "0 - - 0 0 0 0 0 1 0", [f"action c 0 2 {L} 1 0 0"], ended=1))
    note("Opening over an ended block and over a broken one")
    ok("open 0 - - 0 0 0 0 0 1 0")
    say("pick_next 0", "nothing rounds 1")
    ok("word 24 0")
    refused(2, "pick_next 0")
    ok("open 0 - - 0 0 0 0 0 1 0")
    say("pick_next 0", "nothing rounds 1")
    note("4: each opening value at its limit and one above; a rate of 0; the queue rate too where a network rate stands")
    low = ["0", "-", "-", "0", "0", "0", "0", "0", "0", "0"]
    limits = [TEN12, 2**32 - 1, 2**32 - 1, TEN12, TEN12, TEN12, TEN12, TEN12, 16, 16]
    for i, limit in enumerate(limits):
        at, above = list(low), list(low)
        at[i], above[i] = str(limit), str(limit + 1)
        ok("open " + " ".join(at))
        refused(4, "open " + " ".join(above))
    refused(4, "open 0 0 - 0 0 0 0 0 0 0", "open 0 - 0 0 0 0 0 0 0 0", "open 0 1 0 0 0 0 0 0 0 0", f"open 0 1 {2**32} 0 0 0 0 0 0 0", f"open {MAX} - - 0 0 0 0 0 0 0", f"open 0 - - 0 0 0 0 0 0 {MAX}")
    ok("open 0 1 1 0 0 0 0 0 0 0")
    note("5: machine 0 of 0, for an action, a timer, and events of kind 2, 6, 8 and 9; clearing too; the step too")
    opened(8, "0 - - 0 0 0 0 0 0 1")
    refused(5, "set_action c 0 1 0 0 0 0", "clear_action c 0", "set_timer c 0 0", "clear_timer c 0")
    for kind in (2, 6, 8, 9):
        refused(5, f"push {kind} 0 0 c 0 0 0 0", f"sim_network_stack 0 {kind} 0 0 c 0 0 0 0", f"push {kind} 0 0 s 0 0 0 1", f"push {kind} 0 0 s 0 0 0 {MAX}")
    ok("set_action s 0 1 9 0 0 0", "set_timer s 0 9", "clear_action s 0", "clear_timer s 0")
    refused(5, "set_action s 1 1 0 0 0 0", "set_timer s 1 0", "clear_action s 1", f"clear_timer s {MAX}")
    note("Kinds 0, 1, 3, 4, 5 and 7 have no machine: the one handed in is ignored and 0 is kept")
    for kind in (0, 1, 3, 4, 5, 7):
        ok(f"push {kind} 7 0 c 0 0 0 {MAX}")
    say("show", state(0, 2, "0 - - 0 0 0 0 0 0 1", ["event base 1 7 0 c 0 0 0 0", "event blocking 0 7 0 c 0 0 0 0"] + [f"event internal {k} 7 0 c 0 0 0 0" for k in (3, 4, 5, 7)]))
    note("6: an event kind above 9, an action that is neither `SendPadding` nor `BlockOutgoing`")
    opened(8)
    refused(6, "push 10 0 0 c 0 0 0 0", f"push {MAX} 0 0 c 0 0 0 0", "sim_network_stack 0 10 0 0 c 0 0 0 0", "push 10 0 0 c 0 0 0 99")
    refused(6, "set_action c 0 0 0 0 0 0", "set_action c 0 3 0 0 0 0", "set_action s 1 4 0 0 0 0", f"set_action c 0 {MAX} 0 0 0 0")
    ok("push 9 0 0 c 0 0 0 1", "set_action c 0 1 0 0 0 0", "clear_action c 0")
    note("7: moments and lengths at their limits and one above. A `SendPadding`'s duration is ignored.")
    opened(20)
    refused(7, f"push 1 {L + 1} 0 c 0 0 0 0", f"push 1 0 {2 * TEN12 + 1} c 0 0 0 0", f"push 4 {MAX} 0 c 0 0 0 0", f"set_timer c 0 {L + 1}", f"set_action c 0 1 {L + 1} 0 0 0")
    refused(7, f"set_action c 0 2 {L + 1} 0 0 0", f"set_action c 0 2 0 {TEN12 + 1} 0 0", f"pick_next {L + 1}", f"sim_network_stack {L + 1} 4 0 0 c 0 0 0 0")
    refused(7, f"sim_network_stack 0 4 {L + 1} 0 c 0 0 0 0", f"sim_network_stack 0 4 0 {2 * TEN12 + 1} c 0 0 0 0")
    ok(f"push 1 {L} {2 * TEN12} c 0 0 0 0", f"set_timer c 0 {L}", f"set_action c 0 1 {L} {MAX} 0 0", f"set_action c 1 2 {L} {TEN12} 0 0")
    say(f"sim_network_stack {L} 4 {L} {2 * TEN12} c 0 0 0 0", "no falls -")
    say("show", state(0, 19, "0 - - 0 0 0 0 0 2 2", [f"timer c 0 {L}", f"action c 0 1 {L} 0 0 0", f"action c 1 2 {L} {TEN12} 0 0", f"event base 1 {L} {2 * TEN12} c 0 0 0 0"]))
    note("Moment 2^62 - 1 pushed: taken. 2^62: 7. (document 01's case)")
    opened(2)
    ok(f"push 0 {L} 0 c 0 0 0 0")
    refused(7, f"push 0 {L + 1} 0 c 0 0 0 0")
    note("8: a step of an unpadded `TunnelSent`, moment 5, delay 6. It may be pushed; padded, or of another kind, it is stepped; delay 5 is fine.")
    opened(9)
    refused(8, "sim_network_stack 0 0 5 6 c 0 0 0 0", "sim_network_stack 0 0 0 1 s 0 1 1 0")
    ok("push 0 5 6 c 0 0 0 0")
    say("sim_network_stack 0 0 5 6 c 1 0 0 0", "yes falls 1")
    say("sim_network_stack 0 0 5 5 c 0 0 0 0", "yes falls 1")
    say("sim_network_stack 0 3 5 6 c 0 0 0 0", "yes falls -")
    say("sim_network_stack 0 1 5 6 c 0 0 0 0", "no falls -")
    note("9: R = 1, second push. What a slot holds is reserved; setting over a held slot adds nothing.")
    opened(1)
    ok("push 0 0 0 c 0 0 0 0")
    refused(9, "push 0 0 0 c 0 0 0 0", "set_timer c 0 0", "set_action c 0 1 0 0 0 0", "sim_network_stack 0 1 0 0 c 0 0 0 0", "sim_network_stack 0 0 0 0 c 0 0 0 0")
    ok("clear_timer c 0", "clear_action c 1")
    opened(1)
    ok("set_timer c 0 1", "set_timer c 0 2")
    refused(9, "push 0 0 0 c 0 0 0 0", "set_timer s 0 0")
    ok("clear_timer c 0", "push 0 0 0 c 0 0 0 0")
    opened(3)
    refused(9, "set_action c 0 1 0 0 0 0")
    opened(4)
    ok("set_action c 0 1 3 0 0 0", "set_action c 0 2 4 5 1 1")
    refused(9, "set_timer c 0 0", "set_action c 1 1 0 0 0 0", "push 4 0 0 c 0 0 0 0")
    say("show", state(0, 4, "0 - - 0 0 0 0 0 2 2", ["action c 0 2 4 5 1 1"]))
    note("9 counts after the call: a stamp older than the window is evicted before records are taken; one as old as it stays.")
    opened(2, "0 - - 10 0 0 0 0 0 0")
    say("sim_network_stack 100 0 100 0 c 0 0 0 0", "yes falls 111")
    say("pick_next 100", "event 3 100 0 s 0 0 0 0 rounds 1")
    refused(9, "sim_network_stack 110 0 110 0 c 0 0 0 0")
    say("sim_network_stack 111 0 111 0 c 0 0 0 0", "yes falls 122")
    say("show", state(1, 0, "0 - - 10 0 0 0 0 0 0", ["event internal 3 111 0 s 0 0 0 0", "stamp c 111"]))
    note("Clearing an empty slot changes nothing; setting replaces")
    opened(8)
    ok("clear_action s 1", "clear_timer s 1", "set_timer s 1 5", "set_timer s 1 6", "set_action s 1 2 7 8 0 1", "set_action s 1 1 9 8 1 0")
    say("show", state(0, 8, "0 - - 0 0 0 0 0 2 2", ["timer s 1 6", "action s 1 1 9 0 1 0"]))
    ok("clear_action s 1", "clear_timer s 1", "clear_action s 1", "clear_timer s 1")
    say("show", state(0, 8, "0 - - 0 0 0 0 0 2 2"))


def ended():
    """An ended state, of one machine a side and 8 records."""
    opened(8, "0 - - 0 0 0 0 0 1 1")
    ok("word 16 1")


def pairs():
    note("==== By hand from document 01: two numbers that hold together; the one tested first is given")
    note("1 before 4, 1 before 2, 2 before 3")
    ok("lend 256")
    refused(1, "open 0 0 - 0 0 0 0 0 0 0")
    ok("lend 261", *(f"word {i} {MAX}" for i in range(24, 50)))
    refused(1, *EVERY)
    ended()
    ok("word 8 17")
    refused(2, *EVERY)
    ok("word 8 1", "word 16 2")
    refused(2, *EVERY)
    note("2 before 5, 6 and 7")
    opened(8, "0 - - 0 0 0 0 0 0 0")
    ok("word 14 2")
    refused(2, "set_timer c 0 0", "push 10 0 0 c 0 0 0 0", f"push 0 {L + 1} 0 c 0 0 0 0", f"pick_next {L + 1}", "sim_network_stack 0 0 5 6 c 0 0 0 0")
    note("3 before 5, 6, 7, 8 and 9; a choice: 3 before 7")
    ended()
    refused(3, "set_timer c 1 0", "set_action c 1 1 0 0 0 0", "clear_timer c 1", "clear_action s 1", "push 2 0 0 c 0 0 0 1", "sim_network_stack 0 2 0 0 c 0 0 0 1")
    refused(3, "push 10 0 0 c 0 0 0 0", "set_action c 0 0 0 0 0 0", f"push 0 {L + 1} 0 c 0 0 0 0", f"pick_next {L + 1}", "sim_network_stack 0 0 5 6 c 0 0 0 0")
    opened(1)
    ok("push 0 0 0 c 0 0 0 0", "word 16 1")
    refused(3, "push 0 0 0 c 0 0 0 0")
    note("5 before 6 (`Cancel` for machine 0 of 0), 5 before 7, 5 before 9. An event kind above 9 has no machine: 6.")
    opened(1, "0 - - 0 0 0 0 0 0 1")
    refused(5, "set_action c 0 0 0 0 0 0", f"set_action c 0 1 {L + 1} 0 0 0", f"set_timer c 0 {L + 1}", f"push 2 {L + 1} 0 c 0 0 0 0", f"sim_network_stack {L + 1} 9 0 0 c 0 0 0 0")
    refused(6, f"push 10 0 0 c 0 0 0 {MAX}")
    ok("push 0 0 0 c 0 0 0 0")
    refused(5, "set_action c 0 1 0 0 0 0", "set_timer c 0 0", "push 2 0 0 c 0 0 0 0", "sim_network_stack 0 2 0 0 c 0 0 0 0")
    note("6 before 7, 6 before 9")
    refused(6, f"push 10 {L + 1} 0 c 0 0 0 0", f"sim_network_stack {L + 1} 10 0 0 c 0 0 0 0", f"set_action s 0 0 {L + 1} 0 0 0", "push 10 0 0 c 0 0 0 0", "set_action s 0 3 0 0 0 0")
    note("7 before 9, 7 before 8")
    refused(7, f"push 0 {L + 1} 0 c 0 0 0 0", f"set_action s 0 2 0 {TEN12 + 1} 0 0", f"set_timer s 0 {L + 1}", f"sim_network_stack {L + 1} 1 0 0 c 0 0 0 0")
    refused(7, f"sim_network_stack 0 0 5 {2 * TEN12 + 1} c 0 0 0 0", f"sim_network_stack {L + 1} 0 5 6 c 0 0 0 0")
    note("8 before 9: the block is full")
    refused(8, "sim_network_stack 0 0 5 6 c 0 0 0 0")
    note("9 before 10: the receipt's moment would pass 2^62 - 1, but there is no room. No ended mark. With room: 10, which changes word 16 alone; then 3.")
    opened(1, "1 - - 0 0 0 0 0 0 0")
    refused(9, f"sim_network_stack 0 0 {L} 0 c 0 0 0 0")
    say("pick_next 0", "nothing rounds 1")
    opened(2, "1 - - 0 0 0 0 0 0 0")
    refused(10, f"sim_network_stack 0 0 {L} 0 c 0 0 0 0")
    refused(3, f"sim_network_stack 0 0 {L} 0 c 0 0 0 0")
    say("show", state(0, 2, "1 - - 0 0 0 0 0 0 0", ended=1))
    note("7 before 10: a choice whose time is too large, and whose round total would pass")
    opened(2)
    ok(f"word 17 {L}")
    refused(7, f"pick_next {L + 1}")
    refused(10, f"pick_next {L}")


def acceptance():
    note("==== By hand from docs/LAYOUT.md: what an accepted state may hold, sentence by sentence. Machine 16 gives 5 where the words are accepted, 2 where not.")
    opened(4)
    taken()
    note("The limits of words 0 to 17; a block end reserves three records")
    limits = [TEN12, 2**32 - 1, 2**32 - 1] + [TEN12] * 5 + [16, 16, L, L, L + 1, L + 1, 1, 1]
    for i, limit in enumerate(limits):
        taken((i, limit))
        not_taken((i, limit + 1))
        not_taken((i, MAX))
        ok(f"word {i} {2 if i in (8, 9) else 0}")
    ok("word 16 1")
    refused(3, PROBE)
    not_taken((16, 2))
    taken((16, 0), (17, L))
    not_taken((17, L + 1))
    taken((17, 0))
    note("Words without a meaning may hold anything")
    for i in (18, 19, 20, 21, 22, 23, 48, 49, 50, 63, 192, 223, 224, 255):
        taken((i, MAX))
    note("Timers: at most 2^62 - 1, held as one more; none at or above the side's count")
    opened(4, "0 - - 0 0 0 0 0 2 1")
    for i in (64, 65, 80):
        taken((i, L + 1))
        not_taken((i, L + 2))
        ok(f"word {i} 0")
    for i in (66, 79, 81, 95):
        not_taken((i, 1))
        ok(f"word {i} 0")
    note("Actions: the first word is 0, 1, 2, 5, 6, 9, 10, 13 or 14")
    for v in range(1, 18):
        (taken if v in (1, 2, 5, 6, 9, 10, 13, 14) else not_taken)((96, v))
    not_taken((96, MAX))
    note("An empty slot is three zero words")
    not_taken((96, 0), (97, 1))
    not_taken((97, 0), (98, 1))
    taken((98, 0))
    note("A moment to 2^62 - 1, a `BlockOutgoing`'s duration to 10^12, a `SendPadding`'s 0")
    taken((96, 2), (97, L), (98, TEN12))
    not_taken((97, L + 1))
    not_taken((97, 0), (98, TEN12 + 1))
    not_taken((96, 1), (98, 1))
    taken((98, 0))
    ok("word 96 0")
    note("A slot at or above the side's count is zero in all its words")
    for i in (102, 103, 104, 147, 148, 149):
        not_taken((i, 1))
        ok(f"word {i} 0")
    not_taken((102, 2), (103, 1), (104, 1))
    ok("word 102 0", "word 103 0", "word 104 0")
    taken((144, 13))
    not_taken((144, 0), (147, 1))
    note("A chain of count 0 has head 0; a head or a next is 0 or one of 1 to R")
    opened(4)
    for k in range(1, 12):
        not_taken((24 + 2 * k, 1))
        ok(f"word {24 + 2 * k} 0")
    for v in (0, 2, 5, MAX):
        not_taken((24, v))
    ok("word 24 1")
    for v in (0, 1, 3, 5, MAX):
        not_taken((256, v))
    ok("word 256 2")
    not_taken((268, 1))
    ok("word 268 0")
    note("A chain ends after its count, and the counts add up to R; twelve counts that overflow")
    for v in (0, 3, 5, 2**63, MAX):
        not_taken((25, v))
    ok("word 25 4")
    not_taken(*((25 + 2 * k, 2**62) for k in range(12)))
    not_taken(*((25 + 2 * k, MAX) for k in range(12)))
    note("R = 4, three records chained: one record stands in no chain")
    opened(4)
    not_taken((25, 3), (264, 0))
    note("Of a free record only next and chain number 0 are held to anything")
    opened(4)
    taken((257, MAX), (258, MAX), (259, MAX - 15))
    for v in (1, 11, 12, 15, MAX):
        not_taken((259, v))
    note("A record that two chains share: it has one number only")
    opened(4)
    not_taken((26, 4), (27, 1))
    not_taken((271, 17))
    note("An event of base: kind 1, moment to 2^62 - 1, delay to 2 * 10^12; padding, bypass and replace are free; nothing else in the tag")
    opened(4, "0 - - 0 0 0 0 0 2 1")
    ok("push 1 100 0 c 0 0 0 0")
    taken((259, 17))
    taken((257, L), (258, 2 * TEN12))
    not_taken((257, L + 1))
    not_taken((257, 0), (258, 2 * TEN12 + 1))
    ok("word 258 0")
    for v in (17 + 256, 17 + 512, 17 + 1024, 17 + 1792):
        taken((259, v))
    for v in (1, 17 + 16, 17 + 32, 1 + 160, 1 + 240, 17 + 2048, 17 + 4096, 17 + 65536, 17 + 2**32, 17 + 2**63, 18, 16, 22):
        not_taken((259, v))
    note("The server's base is chain 6")
    opened(4, "0 - - 0 0 0 0 0 2 1")
    ok("push 1 100 0 s 0 0 0 0")
    taken((259, 22))
    for v in (17, 6, 22 + 2048):
        not_taken((259, v))
    note("Blocking: kind 0 without, bypassable: kind 0 with the bypass flag")
    opened(4)
    ok("push 0 100 0 c 0 0 0 0")
    for v in (2, 2 + 256, 2 + 1024):
        taken((259, v))
    for v in (2 + 512, 18, 34, 2 + 2048, 2 + 4096, 2 + 65536):
        not_taken((259, v))
    opened(4)
    ok("push 0 100 0 s 0 1 0 0")
    for v in (8 + 512, 8 + 512 + 256, 8 + 512 + 1024):
        taken((259, v))
    for v in (8, 8 + 512 + 16, 8 + 512 + 4096):
        not_taken((259, v))
    note("Internal: kinds 2 to 9. The machine of kinds 2, 6, 8 and 9 is below its side's count, that of others 0.")
    opened(4, "0 - - 0 0 0 0 0 2 1")
    ok("push 3 100 0 c 0 0 0 0")
    for kind in range(2, 10):
        taken((259, 4 + 16 * kind))
        (taken if kind in (2, 6, 8, 9) else not_taken)((259, 4 + 16 * kind + 4096))
        not_taken((259, 4 + 16 * kind + 8192))
    for kind in (0, 1, 10, 11, 15):
        not_taken((259, 4 + 16 * kind))
    opened(4, "0 - - 0 0 0 0 0 2 1")
    ok("push 3 100 0 s 0 0 0 0")
    for kind in (2, 6, 8, 9):
        taken((259, 9 + 16 * kind))
        not_taken((259, 9 + 16 * kind + 4096))
    note("Fewer machines than an event names")
    opened(4)
    ok("push 9 100 0 c 0 0 0 1")
    taken((8, 2))
    not_taken((8, 1))
    note("Event chains do not fall in moment, then rank")
    opened(4)
    ok("push 1 100 0 c 0 0 0 0", "push 1 101 0 c 0 0 0 0")
    taken((257, 101))
    not_taken((257, 102))
    opened(4)
    ok("push 4 100 0 c 0 0 0 0", "push 5 100 0 c 0 0 0 0")
    taken((259, 4 + 16 * 5))
    not_taken((259, 4 + 16 * 7))
    taken((257, 99))
    note("Aggregates: tag 11 or 2,059, moment and length to 2^62 - 1, moments that do not fall. Record 1, then 1 and 2, are made aggregates.")
    opened(4)
    ok("word 24 2", "word 25 3", "word 46 1", "word 47 1", "word 256 0", "word 257 50", "word 258 7")
    for v in (11, 2059):
        taken((259, v))
    for v in (11 + 16, 11 + 256, 11 + 512, 11 + 1024, 11 + 4096, 2059 + 16, 2059 + 2048, 11 + 65536, 5, 0):
        not_taken((259, v))
    ok("word 259 11")
    taken((257, L), (258, L))
    not_taken((258, L + 1))
    not_taken((258, 0), (257, L + 1))
    ok("word 257 50", "word 24 3", "word 25 2", "word 47 2", "word 256 2", "word 260 0", "word 261 50", "word 262 0", "word 263 2059")
    taken()
    say("show", state(0, 2, "0 - - 0 0 0 0 0 2 2", ["aggregate c 50 0", "aggregate s 50 0"]))
    not_taken((261, 49))
    note("Stamps: tag 5 or 10, length word 0; their moments have no order and nothing to do with the window")
    opened(6, "0 - - 10 0 0 0 0 0 0")
    say("sim_network_stack 100 0 100 0 c 0 0 0 0", "yes falls 111")
    say("sim_network_stack 101 0 100 0 c 0 0 0 0", "yes falls 111")
    say("sim_network_stack 102 0 100 0 s 0 0 0 0", "yes falls 113")
    taken((257, L), (259, 5))
    not_taken((257, L + 1))
    taken((257, 5000))
    not_taken((258, 1))
    ok("word 258 0")
    for v in (5 + 16, 5 + 256, 5 + 2048, 5 + 4096, 5 + 65536, 10):
        not_taken((259, v))
    ok("word 259 5")
    taken((275, 10))
    not_taken((275, 26))
    note("The room rule: used and reserved are at most R, 3 for a block, 1 for a timer, 4 for an action")
    opened(4)
    ok("push 1 100 0 c 0 0 0 0")
    taken((12, 1))
    not_taken((64, 1))
    ok("word 64 0")
    not_taken((13, 1))
    taken((12, 0))
    ok("word 13 0")
    not_taken((96, 1))
    ok("word 96 0")
    taken((64, 1), (65, 1), (80, 1))
    not_taken((81, 1))
    note("A past block end, past timers, a flag without a block, the ended mark and any round total are accepted")
    opened(8)
    ok("word 12 1", "word 64 1", "word 15 1", f"word 17 {L}", "word 16 1")
    refused(3, PROBE)
    say("show", state(L, 8, "0 - - 0 0 0 0 0 2 2", ["timer c 0 0"], blocks=("0 0", "- 1"), ended=1))


def sums():
    note("==== By hand from document 01: sums at the limit and one past it")
    note("The round total: at 2^62 - 2 one more round, at 2^62 - 1 none")
    opened(2)
    ok(f"word 17 {L - 1}")
    say("pick_next 0", "nothing rounds 1")
    refused(10, "pick_next 0")
    refused(3, "pick_next 0")
    note("Every round: base head plus sum, of each side, whatever goes first")
    opened(4)
    ok(f"push 1 {L} 0 s 0 0 0 0", "push 4 5 0 c 0 0 0 0")
    say("pick_next 0", "event 4 5 0 c 0 0 0 0 rounds 1")
    ok("push 4 5 0 c 0 0 0 0", "word 11 1")
    refused(10, "pick_next 0")
    note("The other side's sum is not in it, and a side without a base head forms no sum")
    opened(4)
    ok(f"push 1 {L} 0 s 0 0 0 0", f"word 10 {L}")
    say("pick_next 0", f"event 1 {L} 0 s 0 0 0 0 rounds 1")
    note("An aggregate's length added to its side's sum: record 1 is made an aggregate of 7 at 50")
    for sum_, answer in ((L - 7, "nothing rounds 2"), (L - 6, "refused 10 0")):
        opened(4)
        ok("word 24 2", "word 25 3", "word 46 1", "word 47 1", "word 256 0", "word 257 50", "word 258 7", "word 259 11", f"word 10 {sum_}")
        say("pick_next 100", answer)
    say("show", state(0, 3, "0 - - 0 0 0 0 0 2 2", ["aggregate c 50 7"], sums=f"{L - 6} 0", ended=1))
    note("10 after a finished round, which stays: the aggregate raises the sum, then base head plus sum passes")
    opened(4)
    ok("word 24 2", "word 25 3", "word 46 1", "word 47 1", "word 256 0", "word 257 50", "word 258 7", "word 259 11", f"push 1 {L} 0 c 0 0 0 0")
    say("pick_next 100", "refused 10 1")
    say("show", state(1, 3, "0 - - 0 0 0 0 0 2 2", [f"event base 1 {L} 0 c 0 0 0 0"], sums="7 0", ended=1))
    refused(3, "pick_next 100")
    note("The end of a block plus the reporting delay")
    opened(4)
    ok(f"word 12 {L + 1}")
    say("pick_next 0", f"event 7 {L} 0 c 0 0 0 0 rounds 1")
    opened(4, "0 - - 0 0 0 1 0 0 0")
    ok(f"word 12 {L}")
    say("pick_next 0", f"event 7 {L} 1 c 0 0 0 0 rounds 2")
    opened(4, "0 - - 0 0 0 1 0 0 0")
    ok(f"word 12 {L + 1}")
    refused(10, "pick_next 0")
    note("A block action: moment + duration, and moment + action and reporting delay, even where the block is not changed. `SendPadding`: none.")
    opened(4)
    ok(f"set_action c 0 2 {L - 1} 1 0 0")
    say(f"pick_next {L - 1}", f"event 6 {L - 1} 0 c 0 0 0 0 rounds 2")
    say("show", state(2, 4, "0 - - 0 0 0 0 0 2 2", blocks=(f"{L} 0", "- 0")))
    opened(4)
    ok(f"set_action c 0 2 {L} 1 0 0")
    refused(10, f"pick_next {L}")
    opened(4, "0 - - 0 1 0 0 0 1 0")
    ok(f"set_action c 0 2 {L} 0 0 0")
    refused(10, f"pick_next {L}")
    opened(4, "0 - - 0 1 0 1 0 1 0")
    ok(f"set_action c 0 2 {L - 1} 0 0 0")
    refused(10, f"pick_next {L - 1}")
    opened(4, "0 - - 0 1 0 1 0 1 0")
    ok(f"set_action c 0 1 {L} 0 0 0")
    say(f"pick_next {L}", f"event 2 {L} 1 c 1 0 0 0 rounds 2")
    note("A step of `TunnelSent`: moment - delay + network delay + the recipient's reporting delay; padded: moment + delay + the same")
    opened(9, "1 - - 0 0 0 0 1 0 0")
    say(f"sim_network_stack 0 0 {L} 2 c 0 0 0 0", "yes falls 1")
    say("show", state(0, 7, "1 - - 0 0 0 0 1 0 0", [f"event internal 3 {L} 1 s 0 0 0 0", "stamp c 0"]))
    refused(10, f"sim_network_stack 0 0 {L} 1 c 0 0 0 0")
    opened(9, "1 - - 0 0 0 0 1 0 0")
    say(f"sim_network_stack 0 0 {L - 3} 1 c 1 0 0 0", "yes falls 1")
    say("show", state(0, 7, "1 - - 0 0 0 0 1 0 0", [f"event internal 3 {L} 1 s 1 0 0 0", "stamp c 0"]))
    refused(10, f"sim_network_stack 0 0 {L - 2} 1 c 1 0 0 0")
    note("The step's time is in no sum: the receipt is lifted to it. Window 0: a stamp of age 0 is as old as the window and stays.")
    opened(9, "1 - - 0 0 0 0 1 0 0")
    say(f"sim_network_stack {L} 0 {L} 2 c 0 0 0 0", "yes falls -")
    say(f"sim_network_stack {L} 0 5 5 c 0 0 0 0", "yes falls -")
    say("show", state(0, 5, "1 - - 0 0 0 0 1 0 0", [f"event internal 3 {L} 1 s 0 0 0 0"] * 2 + [f"stamp c {L}"] * 2))


def known():
    """The program keeps what a call has found of the words; nothing of that may outlive a change of them."""
    settings = "0 - - 0 0 0 0 0 1 1"
    held = ["timer c 0 9", "event base 1 5 0 c 0 0 0 0", "event base 1 6 0 c 0 0 0 0"]
    note("==== By hand from document 01: words that change between two calls, where the call before found them accepted")
    note("A word that damages them, a call of every kind, and the word as it was")
    opened(8, settings)
    ok("push 1 5 0 c 0 0 0 0", "word 14 2")
    refused(2, "push 1 6 0 c 0 0 0 0")
    ok("word 14 0", "push 1 6 0 c 0 0 0 0")
    for call in EVERY:
        ok("set_timer c 0 9", "word 14 2")
        refused(2, call)
        ok("word 14 0")
    ok("set_timer c 0 9", "word 25 7")
    refused(2, "set_timer c 0 9", "set_timer c 0 9")
    ok("word 25 6", "set_timer c 0 9")
    note("A word behind those lent, and words that mean nothing: the calls go on")
    for word in ("word 288 7", "word 8191 7", "word 18 7", "word 255 7"):
        ok(word, "set_timer c 0 9")
    note("Lines that change no word: the calls go on")
    say("show", state(0, 6, settings, held))
    bad("set_timer c 0")
    bad("word 8192 0")
    bad("lend 8193")
    refused(4, "open 0 0 - 0 0 0 0 0 1 1")
    ok("set_timer c 0 9")
    note("Fewer words lent and more, a call of every kind, and as many as before")
    for n, number in ((284, 2), (260, 2), (292, 2), (8192, 2), (287, 1), (256, 1), (0, 1)):
        for call in EVERY:
            ok("set_timer c 0 9", f"lend {n}")
            refused(number, call)
            ok("lend 288")
    ok("set_timer c 0 9", "lend 288", "set_timer c 0 9")
    say("show", state(0, 6, settings, held))
    note("The ended mark written, and taken away; the mark that a 10 sets; opening over it; opening a part, then the whole as it was left")
    ok("set_timer c 0 9", "word 16 1")
    refused(3, *EVERY)
    ok("word 16 0", "set_timer c 0 9")
    ok(f"push 1 {L} 0 s 0 0 0 0", "word 11 1")
    refused(10, "pick_next 0")
    refused(3, *EVERY)
    ok("word 16 2")
    refused(2, *EVERY)
    ok("open " + settings)
    say("pick_next 0", "nothing rounds 1")
    ok("lend 284", "open " + settings, "push 1 5 0 c 0 0 0 0", "lend 288")
    refused(2, *EVERY)
    ok("open " + settings, "push 1 5 0 c 0 0 0 0")
    say("pick_next 5", "event 1 5 0 c 0 0 0 0 rounds 1")
    say("show", state(1, 8, settings))


def block(n, words):
    """n words, of which these are not 0, as `words` and `words_second` list them."""
    return "\n".join(str(words.get(i, 0)) for i in range(n)) + "\nend"


# a record of each chain but the free one, by docs/LAYOUT.md: length and tag; the moment is 100 and the chain's number
HELD = {1: (3, 1 + 16 * 1 + 256), 2: (4, 2), 3: (5, 3 + 512), 4: (6, 4 + 16 * 6 + 4096), 5: (0, 5),
        6: (3, 6 + 16 * 1), 7: (4, 7 + 256), 8: (5, 8 + 512 + 1024), 9: (6, 9 + 16 * 9), 10: (0, 10), 11: (7, 11 + 2048)}


def held(record, next_one, chain, moment):
    at = 256 + 4 * (record - 1)
    return {at: next_one, at + 1: moment, at + 2: HELD[chain][0], at + 3: HELD[chain][1]}


def packing():
    """The second block: what packing writes, what refuses, and what the lines about it leave."""
    settings = "0 - - 10 0 0 0 0 1 1"
    one, other = "push 9 50 0 s 0 0 0 0", "push 1 100 0 c 0 0 0 0"
    header = {3: 10, 8: 1, 9: 1}
    packed = {**header, 24: 3, 25: 1, 26: 1, 27: 1, 42: 2, 43: 1, 257: 100, 259: 17, 261: 50, 263: 153}
    choices = [("pick_next 0", "event 9 50 0 s 0 0 0 0 rounds 1"), ("pick_next 50", "event 1 100 0 c 0 0 0 0 rounds 1"), ("pick_next 100", "nothing rounds 1")]

    def packs(words=packed, n=268):
        ok("pack")
        say("words_second", block(n, words))

    note("==== By hand from document 02, M-100: packing. Two events pushed in one order, then in the other: the same packed words")
    ok("lend 268", "lend_second 268", "open " + settings, one, other)
    packs()
    note("The first block is as it was: the events stand in the order in which they were pushed")
    say("words", block(268, {**header, 24: 3, 25: 1, 26: 2, 27: 1, 42: 1, 43: 1, 257: 50, 259: 153, 261: 100, 263: 17}))
    ok("word_second 0 7", "word_second 258 7", f"word_second 267 {MAX}", "open " + settings, other, one)
    packs()
    note("Words without a meaning, and what a free record holds beside its link, change nothing")
    ok(*(f"word {i} 7" for i in (18, 23, 48, 49, 63, 192, 223, 255)), "word 265 7", f"word 266 {MAX}", "word 267 16")
    packs()
    note("Packed twice: the same words. Both blocks give the same answers")
    ok("take_second")
    packs()
    ok("open " + settings, one, other, "pack")
    for call, answer in choices:
        say(call, answer)
    ok("take_second")
    for call, answer in choices:
        say(call, answer)
    note("An ended state packs, and its mark and round total are kept; the other calls refuse it with 3, from the packed words too")
    ok("open " + settings, one, other, "word 16 1", "word 17 5")
    packs({**packed, 16: 1, 17: 5})
    refused(3, *EVERY)
    ok("take_second")
    refused(3, *EVERY)
    ok("word 16 0", "word 17 0")
    note("1: the length of the first, whatever the second has; then a second of another length, also where the words are not accepted; then 2. None writes")
    ok("pack")
    for n in (0, 4, 256, 260, 264, 267, 269, 272, 8192):
        ok(f"lend_second {n}")
        refused(1, "pack")
    ok("lend_second 264", "word 25 9")
    refused(1, "pack")
    ok("lend_second 268")
    refused(2, "pack")
    for n in (0, 256, 267, 269):
        ok(f"lend {n}", f"lend_second {n}")
        refused(1, "pack")
        ok("lend_second 268")
        refused(1, "pack")
    say("words_second", block(268, packed))
    note("Words after those lent stay, of the second block as of the first")
    ok("lend 268", "lend_second 268", "word 25 1", "word_second 268 9", "word_second 8191 9", "pack", "lend_second 272")
    say("words_second", block(272, {**packed, 268: 9}))
    note("A full block has no free record: words 24 and 25 are 0. An empty one is as opened")
    ok("lend_second 268", "push 9 50 0 s 0 0 0 0")
    packs({**header, 26: 1, 27: 1, 42: 2, 43: 2, 257: 100, 259: 17, 260: 3, 261: 50, 263: 153, 265: 50, 267: 153})
    ok("open " + settings)
    packs({**header, 24: 1, 25: 3, 256: 2, 260: 3})
    note("Every chain, the highest number in the lowest records: packed they stand by number, two records of the last chain by its links")
    ok("lend 308", "lend_second 308", "open 1 2 3 4 5 6 7 8 2 3")
    first = {24: 1, 25: 1, 46: 3, 47: 2, **held(3, 2, 11, 111), **held(2, 0, 11, 112), 256: 0}
    second = {24: 13, 25: 1, 46: 11, 47: 2, **held(11, 12, 11, 111), **held(12, 0, 11, 112)}
    for k in range(1, 11):
        first.update({24 + 2 * k: 14 - k, 25 + 2 * k: 1, **held(14 - k, 0, k, 100 + k)})
        second.update({24 + 2 * k: k, 25 + 2 * k: 1, **held(k, 0, k, 100 + k)})
    fixed = {i: i + 1 for i in range(8)} | {8: 2, 9: 3, 10: 21, 11: 22, 15: 1, 17: 9}
    ok(*(f"word {i} {v}" for i, v in sorted({**first, 10: 21, 11: 22, 15: 1, 17: 9}.items())))
    packs({**fixed, **second}, 308)
    note("`take_second` copies every word, and lends as many: fewer, more, and a length that is none. Nothing is known of the words any more")
    ok("lend 268", "lend_second 268", "open " + settings, one, other, "pack", "set_timer c 0 9", "word_second 268 9", *(f"word_second {i} 0" for i in (269, 270, 271)))
    for n, number in ((264, 2), (272, 2), (8192, 2), (267, 1), (0, 1)):
        ok("set_timer c 0 9", f"lend_second {n}", "take_second")
        refused(number, *EVERY)
        ok("lend_second 268", "take_second")
    ok("lend 272")
    say("words", block(272, {**packed, 268: 9}))
    ok("lend 268", "set_timer c 0 9", "word_second 14 2")
    say("show", state(0, 1, settings, ["timer c 0 9", "event base 1 100 0 c 0 0 0 0", "event internal 9 50 0 s 0 0 0 0"]))
    ok("set_timer c 0 9", "take_second")
    refused(2, *EVERY)
    say("show", "not accepted\nend")
    ok("word_second 14 0", "take_second", "set_timer c 0 9")
    note("Lines about the second block leave the first, and what is known of it")
    for line in ("pack", "word_second 25 7", "lend_second 3", "lend_second 268", "words_second"):
        if line == "words_second":
            say(line, block(268, {**packed, 25: 7, 64: 10}))
        else:
            ok(line)
        ok("set_timer c 0 9")
    note("Bad lines, which change nothing")
    for line in ("pack 1", "pack c", "pack -", "Pack", "packs", "pac", "lend_second", "lend_second 8193", "lend_second 18446744073709551616", "lend_second -", "lend_second 1 1",
                 "lend_second c", "lend_secon 1", "lend_seconds 1", "word_second 1", "word_second 8192 0", "word_second 0 -", "word_second 0 18446744073709551616", "word_second 0 1 2",
                 "word_secon 0 0", "word_seconds 0 0", "words_second 1", "words_secon", "words_seconds", "take_second 0", "take_second c", "take_secon", "take_seconds", "take second", "lend second 5"):
        bad(line)
    say("words_second", block(268, {**packed, 25: 7, 64: 10}))
    say("show", state(0, 1, settings, ["timer c 0 9", "event base 1 100 0 c 0 0 0 0", "event internal 9 50 0 s 0 0 0 0"]))
    note("The longest blocks that the program has, and one record")
    ok("lend 8192", "lend_second 8192", "open " + settings, "pack", "take_second")
    say("show", state(0, 1984, settings))
    ok("lend 260", "lend_second 260", "open " + settings, other)
    packs({**header, 26: 1, 27: 1, 257: 100, 259: 17}, 260)


def sent(*steps):
    """Steps of a `TunnelSent` of moment 5: the step's time, the side, when the count falls."""
    for time, side, falls in steps:
        say(f"sim_network_stack {time} 0 5 0 {side} 0 0 0 0", f"yes falls {falls}")


def falls():
    """When the packet count falls: the side's oldest stamp by arrival, plus the window, plus 1."""
    ten = "0 - - 10 0 0 0 0 1 1"
    note("==== By hand from document 02, M-120: when the packet count falls. It is the step's time that is stamped, not the event's moment")
    note("Window 10: a stamp of age 10 stays, at the moment told it goes. Each side has its own stamps, and padding is stamped too")
    opened(40, ten)
    sent((100, "c", 111), (50, "s", 61), (110, "c", 111), (111, "c", 121))
    say("sim_network_stack 60 0 5 0 s 1 0 0 0", "yes falls 61")
    say("sim_network_stack 61 0 5 0 s 1 1 1 0", "yes falls 71")
    sent((105, "c", 121))
    note("Times that go backwards: the oldest by arrival, which need not be the least; those behind it that are too old go with it")
    opened(40, ten)
    sent((110, "c", 121), (50, "c", 121), (0, "c", 121), (120, "c", 121))
    ok("lend_second 416", "pack")
    sent((121, "c", 131), (5, "c", 131))
    note("The packed words tell the same")
    ok("take_second")
    sent((121, "c", 131), (5, "c", 131))
    note("All stamps go: the new one itself")
    opened(40, ten)
    sent((100, "c", 111), (101, "c", 111), (50, "c", 111), (1000, "c", 1011), (999, "c", 1011))
    note("Window 0: one nanosecond later")
    opened(40)
    sent((0, "c", 1), (0, "c", 1), (7, "s", 8), (7, "s", 8), (8, "s", 9), (7, "s", 9), (9, "s", 10), (1, "c", 2))
    note("A count above the limit: the stamps of delayed packets are stamps too")
    opened(40, "0 1 - 10 0 0 0 0 1 1")
    sent((100, "c", 111), (104, "c", 111), (104, "s", 115), (111, "c", 115))
    note("The edge of 2^62 - 1: exactly; there it goes, and what is told of the next would be past the edge")
    opened(40, ten)
    sent((L - 11, "c", L), (L - 1, "c", L), (L, "c", "-"))
    note("One past is absent. Nothing is refused and the stamp stands, so it is absent for earlier times behind it too; the other side has its own")
    opened(40, ten)
    sent((L - 10, "c", "-"))
    say("show", state(0, 38, ten, [f"event internal 3 {L - 10} 0 s 0 0 0 0", f"stamp c {L - 10}"]))
    sent((5, "c", "-"), (5, "s", 16), (L, "s", "-"), (L, "c", "-"))
    note("The edge with window 0, with the longest one, and a stamp written into the words")
    opened(40)
    sent((L - 1, "c", L), (L, "c", "-"), (L, "s", "-"))
    opened(40, f"0 - - {TEN12} 0 0 0 0 1 1")
    sent((L - TEN12 - 1, "c", L), (L - TEN12, "s", "-"), (0, "c", L), (L, "c", "-"))
    opened(40, ten)
    sent((100, "c", 111))
    ok(f"word 257 {L}")
    sent((100, "c", "-"))
    ok(f"word 257 {L - 11}")
    sent((100, "c", L))
    note("Other kinds tell none, whatever is stamped; padding that takes over a waiting packet neither")
    opened(40, ten)
    sent((100, "c", 111), (100, "s", 111))
    for side in ("c", "s"):
        for kind in range(1, 10):
            say(f"sim_network_stack 100 {kind} 5 0 {side} 0 0 0 0", "yes falls -" if kind == 3 else "no falls -")
    say("sim_network_stack 100 3 5 0 c 1 0 0 0", "yes falls -")
    say("sim_network_stack 100 2 5 0 c 1 1 1 0", "no falls -")
    sent((100, "c", 111))
    note("A refused step tells none, and no stamp goes: 8; 9, also where the old stamp would go; 10, and 3 after it")
    opened(2, ten)
    sent((100, "c", 111))
    refused(8, "sim_network_stack 500 0 5 6 c 0 0 0 0")
    refused(9, "sim_network_stack 110 0 5 0 c 0 0 0 0", "sim_network_stack 111 0 5 0 c 0 0 0 0", "sim_network_stack 110 0 5 0 s 0 0 0 0")
    say("pick_next 100", "event 3 100 0 s 0 0 0 0 rounds 1")
    sent((111, "c", 122))
    opened(4, "1 - - 10 0 0 0 0 1 1")
    sent((100, "c", 111))
    refused(10, f"sim_network_stack 500 0 {L} 0 c 0 0 0 0")
    refused(3, "sim_network_stack 105 0 5 0 c 0 0 0 0", "sim_network_stack 105 3 5 0 c 0 0 0 0")
    ok("word 16 0")
    sent((105, "c", 111))


# ---- printed by the Rust

def rust(lists, oracle, name, title):
    """The list whole, on 8,192 lent words: R is 1,984."""
    note(f"==== Printed by the Rust: {title}")
    ok("lend 8192")
    lines = [line for line in (lists / name).read_text().split("\n")]
    out = iter(subprocess.run([oracle], input="\n".join(lines) + "\n", capture_output=True, text=True, check=True).stdout.split("\n"))
    for line in lines:
        word = line.split(None, 1)[0] if line.split() else ""
        if not word or word.startswith("#"):
            calls.append(line)
        elif word == "show":
            shown = []
            while not shown or shown[-1] != "end":
                shown.append(next(out))
            held = sum(text.startswith(("event ", "stamp ", "aggregate ")) for text in shown)
            say(line, "\n".join(f"free {1984 - held}" if text == "free -" else text for text in shown))
        else:
            assert word not in ("lend", "word", "words"), line
            say(line, next(out))


def main():
    lists, oracle, out = pathlib.Path(sys.argv[1]), sys.argv[2], pathlib.Path(sys.argv[3])
    calls.append("# The stored lists of forecast, made by runs/stored.py. No answer was taken from forecast itself.")
    text()
    rust(lists, oracle, "starred.txt", "document 01's starred cases")
    numbers()
    pairs()
    acceptance()
    sums()
    known()
    packing()
    falls()
    rust(lists, oracle, "edges.txt", "the edges of the rules, behaviour that looks odd, the misreadings")
    rust(lists, oracle, "sample.txt", "a sample of the random lists of every kind")
    note("By hand: a last line without a newline, with a CR, is a line too")
    opened(1)
    say("pick_next 7\r", "nothing rounds 1")
    (out / "stdin").write_text("\n".join(calls), newline="")
    (out / "stdout").write_text("".join(a + "\n" for a in answers), newline="")


main()
