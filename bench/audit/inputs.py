"""Writes inputs of `audit`, and of `script` with a front of the same journal.

The journal's first entries are what a call needs; the others are labels of all 64 principals. `plain` is a proof of four lines, two of
them labels that the caller holds; `worst` one of 256 lines with five references each.
"""
import random

CALLER = "bob"
NAMES = ["fs", CALLER, *(f"p{k}" for k in range(62))]
MOST_ENTRIES = 4096
HEAD = "nexus 2\n" + "".join(f"principal {name} s\n" for name in NAMES)


def plain():
    """The entries that a call with a short proof needs, each with its principal."""
    return [
        ("fs", "object f"),
        ("fs", "goal read f : fs says may(?subject) and fs says member(?subject)"),
        ("fs", "say fs : member(bob) => may(bob)"),
        ("fs", "say fs : member(bob)"),
        ("fs", "transfer 3 bob"),
        ("fs", "transfer 4 bob"),
        (
            "bob",
            "proof read f : proof 2 ; 1 label : fs says (member(bob) => may(bob)) ; 2 label : fs says member(bob) ; "
            "3 deduce 1 2 : fs says may(bob) ; 4 and_i 3 2 : fs says may(bob) and fs says member(bob) ; end",
        ),
    ]


def worst():
    """The same of a proof at the limits."""
    half = "p" + " and p" * 15
    lines = [f"1 hyp : {half} or {half}", f"2 hyp : {half}", f"3 or_e 1 2 2 2 2 : {half}"]
    lines += [f"{k} or_e 1 2 {k - 1} 2 {k - 1} : {half}" for k in range(4, 256)]
    lines.append(f"256 imp_i 1 255 : {half} or {half} => {half}")
    return [("fs", "object f"), ("fs", f"goal read f : {half} or {half} => {half}"), ("bob", f"proof read f : proof 2 ; {' ; '.join(lines)} ; end")]


NEEDED = {"plain": plain, "worst": worst}


def entries(kind, count):
    """The lines of the journal, and how many of them a call needs."""
    needed = NEEDED[kind]()
    made = {name: 0 for name in NAMES}
    for name, _ in needed:
        made[name] += 1
    lines = [f"1 {name} {event}\n" for name, event in needed]
    turn = 0
    while len(lines) < count:
        name = NAMES[turn % len(NAMES)]
        if made[name] < MOST_ENTRIES:
            lines.append(f"1 {name} say {name} : note({turn})\n")
            made[name] += 1
        turn += 1
    return lines, len(needed)


def policy(lines):
    """The text of a policy with this journal."""
    return HEAD + "".join(lines) + "end\n"


def points(needed, count, number):
    """So many lengths of the journal, spread over it, in an order that is drawn from a seed."""
    made = [needed + place * (count - needed) // number for place in range(number)]
    random.Random(1).shuffle(made)
    return made


def audit(lines, made):
    """An input of `audit`: at each of these points the caller was allowed."""
    return "nexus audit 1\n" + policy(lines) + "".join(f"{at} {CALLER} read f - : allowed\n" for at in made) + "end\n"


def script(lines, at):
    """An input of `script` that asks at this point."""
    return policy(lines[:at]) + f"2 hello {CALLER} s\n2 call read f 0\n"
