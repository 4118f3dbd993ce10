"""Writes inputs of `prove` with 256 labels into a folder: inputs.py FOLDER.

chain      85 delegations one behind the other, the longest for which there is a proof, among labels of others
fan        255 delegations to the goal's principal, and what the last one says
parts      the longest chain of subprincipals, 127 steps
no_chain   16 principals each of whom lets each other speak, some on other names, and nobody says it
long_names 128 delegations to the goal's principal, and 128 others, all between principals of 160 parts that differ in the first
stars      255 delegations to the goal's principal from principals of 500 parts each
sizes      128 delegations to the goal's principal from principals of 491 parts each, and 128 others of 364 to 491 parts
pairs      the same, but each two of the 128 others have as many parts, 427 to 490
statements 128 delegations of one principal, which says 128 statements of 1,000 bytes that differ in the last atom from the goal's
"""
import pathlib
import sys

folder = pathlib.Path(sys.argv[1])


def write(name, labels, goal):
    assert len(labels) <= 256 and all(len(label) <= 1024 for label in [*labels, goal]), name
    lines = ["nexus prove 1", "subject bob", *(f"label {label}" for label in labels), f"goal {goal}", "end"]
    (folder / name).write_text("".join(line + "\n" for line in lines))


def lets(owner, speaker, on=""):
    return f"{owner} says {speaker} speaksfor {owner}{on}"


def parts(first, count):
    return first + ".b" * count


others = [f"other{k} says ok" for k in range(256)]
links = [lets(f"p{k + 1}", f"p{k}", " on ok" if k % 2 else "") for k in range(85)]
write("chain", (["p0 says ok", *links, *others])[:256], "p85 says ok")
write("fan", [*(lets("g", f"p{k}") for k in range(255)), "p254 says ok"], "g says ok")
write("parts", (["g says ok", *others])[:256], f"{parts('g', 127)} says ok")
names = [f"p{k}" for k in range(16)]
write("no_chain", [lets(a, b, " on (load, TimeNow)" if len(a + b) % 2 else "") for a in names for b in names if a != b] + others[:16], "p0 says ok")
long = [parts(f"p{k}", 160) for k in range(257)]
write("long_names", [lets(long[0], x) for x in long[1:129]] + [lets(x, "q") for x in long[129:257]], f"{long[0]} says ok")
write("stars", [lets("g", parts(f"p{k}", 490)) for k in range(255)] + ["other says ok"], "g says ok")
deep = [lets("g", parts(f"p{k}", 490)) for k in range(128)]
write("sizes", deep + [f"{parts(f'q{k}', 363 + k)} says ok" for k in range(128)], "g says ok")
write("pairs", deep + [f"{parts(f'q{k}', 426 + k // 2)} says ok" for k in range(128)], "g says ok")
statement = "q" + " or q" * 195
write("statements", [lets("g", "a")] * 128 + [f"a says ({statement} or s{k})" for k in range(128)], f"g says ({statement} or s)")
