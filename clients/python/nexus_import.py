#!/usr/bin/env python3
"""Says the labels of a bundle at a service in the name of a peer, as `nexus import` does, and can leave out those that stand there already.

    { echo 'peer siteA siteA-secret'; cat bundle; } | clients/python/nexus_import.py ADDRESS [--known POLICY]

ADDRESS is that of the service, as 127.0.0.1:4000. POLICY is a file with what this service has written of its policy so far, or the policy
that it was started with: a label that the peer said there, and that nobody has deleted, is not said again, and named on standard error as
`known FORMULA`. Two labels are the same where their texts are; `nexus export` writes canonical texts, and so does a service.

Prints the line of each reply: `welcome`, and then one for each label that was sent. Ends with 0; with 2 where the words are others; with 3
and `refused line K` where line K of the input is not one of a peer and a bundle (what its formulas spell is left to the service); with 7
where no connection can be made, and with 9 where the service ends it.
"""
from __future__ import annotations

import sys
from collections.abc import Iterable
from pathlib import Path

from nexus_client import Ended, SystemFault, connect, line_of


class Wrong(Exception):
    """This line is not as it has to be."""


def known(policy: Iterable[str], peer: str) -> set[str]:
    """The formulas that the peer has said in a policy text, and whose labels nobody has deleted."""
    said: dict[int, str] = {}
    number = 0
    for line in policy:
        # A last line without its line feed was cut off.
        words = line.removesuffix("\n").split(" ", 3) if line.endswith("\n") else []
        if len(words) < 3 or not words[0].isdigit():
            continue
        number += 1
        if words[1:3] == [peer, "say"]:
            term, _, formula = words[3].partition(" : ")
            if term == peer:
                said[number] = formula
        elif words[2] == "delete":
            said.pop(int(words[3]), None)
    return set(said.values())


def read(text: str) -> tuple[str, str, list[str]]:
    """The peer's name, its secret and the formulas of its bundle."""
    lines = text.split("\n")
    if lines[-1] == "":
        lines.pop()
    words = lines[0].split(" ") if lines else []
    if len(words) != 3 or words[0] != "peer":
        raise Wrong(1)
    if lines[1:2] != ["nexus bundle 1"]:
        raise Wrong(2)
    labels: list[str] = []
    for number, line in enumerate(lines[2:], 3):
        if line == "end":
            if number < len(lines):
                raise Wrong(number + 1)
            return words[1], words[2], labels
        word, _, formula = line.partition(" ")
        if word != "label" or not formula:
            raise Wrong(number)
        labels.append(formula)
    raise Wrong(len(lines) + 1)


def say(address: str, name: str, secret: str, labels: Iterable[str]) -> int:
    """Says the labels one by one, and prints each reply. The status to end with."""
    try:
        with connect(address) as client:
            print(line_of(client.hello(name, secret)), flush=True)
            for label in labels:
                print(line_of(client.say(name, label)), flush=True)
    except SystemFault:
        return 7
    except Ended:
        return 9
    return 0


def main(words: list[str]) -> int:
    if len(words) not in (1, 3) or words[1:2] not in ([], ["--known"]):
        print(__doc__, file=sys.stderr)
        return 2
    try:
        name, secret, labels = read(sys.stdin.read())
    except Wrong as wrong:
        print(f"refused line {wrong}")
        return 3
    there: set[str] = set()
    if len(words) == 3:
        with Path(words[2]).open() as policy:
            there = known(policy, name)
    for label in labels:
        if label in there:
            print(f"known {label}", file=sys.stderr)
    return say(words[0], name, secret, (label for label in labels if label not in there))


if __name__ == "__main__":
    sys.exit(main(sys.argv[1:]))
