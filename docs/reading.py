#!/usr/bin/env python3
"""What one theorem makes a reader believe: the files of definitions that it rests on, with their lines, by closure over imports.

    docs/reading.py             prints a row for the commands of the program, as they stand in docs/GUARANTEES.md
    docs/reading.py --check     fails where the document has other rows
    docs/reading.py NAME        prints the files of one command, or of any definition, as RunsCheck or IsTold
    docs/reading.py CRATE/FILE  prints those of one file, as session_core/Told

A file is taken whole, so the list is an upper bound. Lines without code are left out.
"""

import re
import sys
from pathlib import Path

TOP = Path(__file__).resolve().parents[1]
CRATES = TOP / "crates"

# The files by whose definitions the contract of the program says what each command does.
COMMANDS = {
    "check": ["answer_commands/Checks"],
    "trust": ["answer_commands/Trusts"],
    "prove": ["answer_commands/Proves"],
    "audit": ["answer_commands/Audits"],
    "explain": ["answer_commands/Explains"],
    "recover": ["answer_commands/Recovers"],
    "export": ["answer_commands/Exports"],
    "compact": ["answer_commands/Compacts"],
    "script": ["script_command/Scripts"],
    "serve": ["service_commands/Services", "service_commands/Logged", "nexus_serve/TrueReports", "told_records/Audited", "line_log/LineLogs"],
    "client": ["service_commands/Clients"],
    "import": ["service_commands/Clients"],
    "core": ["nexus_run/LoadRuns"],
    "drill": ["nexus_run/LoadRuns"],
}


def path_of(name):
    crate, _, rest = name.partition("/")
    return CRATES / crate / "specs" / f"{rest}.antt"


def imports(name):
    """Returns the files of definitions that a file names, those of the tool and of its libraries left out."""
    found = set()
    for crate, words in re.findall(r"^use Rattle\.(\w+)\.specs\.([\w.]+?)(?:\.\{| as )", path_of(name).read_text(), re.M):
        if words.startswith(("declared", "contracts")) or not (CRATES / crate).is_dir():
            continue
        found.add(f"{crate}/{words.replace('.', '/')}")
    return {it for it in found if path_of(it).exists()}


def closure(names):
    found, waiting = set(), list(names)
    while waiting:
        next_one = waiting.pop()
        if next_one not in found:
            found.add(next_one)
            waiting += imports(next_one)
    return found


def lines_of(name):
    """Returns the lines of a file that define something: no imports, no comments."""
    lines = path_of(name).read_text().splitlines()
    return sum(1 for it in lines if it.strip() and not it.lstrip().startswith(("--", "use ", "pub use ")))


def row(roots):
    """Returns the row of the commands that are said by these files."""
    commands = ", ".join(f"`{it}`" for it in COMMANDS if COMMANDS[it] == roots)
    files = closure(roots)
    return f"| {commands} | {', '.join(f'`{it}`' for it in roots)} | {len(files)} | {sum(map(lines_of, files))} |"


def table():
    rows = dict.fromkeys(row(roots) for roots in COMMANDS.values())
    return ["| Command | Definitions | Files | Lines |", "|---|---|---|---|", *rows]


def find(word):
    """Returns the files of a command, or the one of a definition, or of that name."""
    if word in COMMANDS:
        return COMMANDS[word]
    if "/" in word and path_of(word).exists():
        return [word]
    for path in sorted(CRATES.glob("*/specs/**/*.antt")):
        name = f"{path.relative_to(CRATES).parts[0]}/{'/'.join(path.relative_to(CRATES).with_suffix('').parts[2:])}"
        if path.stem == word or re.search(rf"^\s*(?:abbrev |unfoldable )?pub (?:data |record )?{re.escape(word)}\b", path.read_text(), re.M):
            return [name]
    sys.exit(f"no definition has the name {word}")


def main():
    words = sys.argv[1:]
    if words == ["--check"]:
        text = (TOP / "docs/GUARANTEES.md").read_text()
        if "\n".join(table()) not in text:
            print("docs/GUARANTEES.md has another table of what a theorem makes a reader believe than docs/reading.py prints")
            return 1
    elif words:
        files = sorted(closure(find(words[0])))
        for name in files:
            print(f"{lines_of(name):5} {name}")
        print(f"{sum(map(lines_of, files)):5} in {len(files)} files")
    else:
        print("\n".join(table()))
    return 0


if __name__ == "__main__":
    sys.exit(main())
