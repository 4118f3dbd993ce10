#!/usr/bin/env python3
"""Looks through the sources, crates of tests aside, for what no contract can refuse: a call that waits for ever or for a message; a lock
that is taken anywhere but where sessions reach the book, or twice in one function, or, of the journal, for more than one call; a panel
or a door of the outside that is made anywhere but in `main`; and a socket or a file that is opened anywhere but in the files that are to
be read for it. Prints each such line, and ends with 1 where there is one.

    tools/outside.py [FOLDER]

A function that waits for ever meets any contract, each function over a network has a bound that lets it open a socket, and each one
that listens has one that lets it open files. The READMEs of the three crates below say what is to be read there.
"""

import re
import sys
from pathlib import Path

from clauses import closing

# The files that open sockets.
ADAPTERS = {"nx_io/src/system_streams.rt", "nx_io/src/local_sockets.rt"}

# The files that open files.
FILERS = {"nx_io/src/local_sockets.rt", "nx_io/src/file_sinks.rt", "nexus_main/src/standard_error.rt"}

# What waits without an end, or for somebody else.
WAITS = re.compile(r"\b(forever|park|park_timeout|Condvar|Barrier|recv|recv_timeout|sleep)\b")

# What takes a lock, and the one file that does.
LOCKS = re.compile(r"\b(lock|try_lock)\b\s*(::\s*<[^;{}()]*>\s*)?\(|::\s*(lock|try_lock)\b")
LOCKER = "policy_book/src/access.rt"

# How the lock of the journal may be taken: for one call on what is behind it, which is a statement or the value of a body by itself. So it
# is held while nothing else is done.
JOURNAL = re.compile(r"\bshelf\b\s*\.\s*lock\s*\([^()]*\)")
ONE_CALL = re.compile(r"\s*\.\s*\w+\s*\(")
ALONE = re.compile(r"[{;]\s*self\s*\.\s*book\s*\.\s*$")

# The one line by which any other file names the network, and the bounds that it serves.
IMPORT = "use std::net::{Net, TcpListener, TcpStream};"
BOUND = re.compile(r"\bNet<Listener = TcpListener, Stream = TcpStream>")

# The one line by which any other file names the file system, the calls that open, change or remove what is there, and its module.
FILES_IMPORT = "use std::fs::Files;"
FILE_CALLS = "open_file|open_dir|remove_file|remove_dir|remove_dir_all|create_dir|rename|copy|hard_link|symlink|set_permissions|chown|lchown"
FILES = re.compile(rf"\b(File|OpenFile|OpenOptions|DirBuilder)\b|\bfs\b\s*(::|\bas\b)|\brt\s*\.\s*({FILE_CALLS})\s*\(")

# The types of sockets, and their module.
SOCKETS = re.compile(r"\b(TcpStream|TcpListener|UdpSocket|UnixStream|UnixListener|UnixDatagram|SocketAddr|ToSocketAddrs)\b|\bnet\b\s*(::|\bas\b)")

# The calls that open one, or find an address.
CALLS = "connect|connect_timeout|connect_unix|bind|bind_udp|bind_unix|accept|incoming|lookup_host|unix_pair|unix_socket|to_socket_addrs"
OPENS = re.compile(rf"\b({CALLS})\s*(?:::\s*<[^;{{}}()]*>\s*)?\(|::\s*({CALLS})\b")

# The objects that reach outside by themselves, and the files that make them or are made of them: whoever makes one in any other place
# has authorities or peers of its own, of which no history tells.
OBJECTS = re.compile(r"\b(HostPanel|HostClock|AuthorityPanel|TcpWires|SocketDoor|SocketWire|SystemStream|SystemListener|FileSink)\b")
MAKERS = {"authority_ask/src/clocks.rt", "authority_ask/src/hosts.rt", "authority_ask/src/tcp_wires.rt", "authority_ask/src/connections.rt", "line_log/src/sockets.rt", "nexus_main/src/main.rt", "nx_io/src/sockets.rt", "nx_io/src/timed_streams.rt",
    "nx_io/src/system_streams.rt", "nx_io/src/file_sinks.rt"}
NAMED = re.compile(r"^pub use [a-z_]+::[^;]*;$")

# A clause of a contract begins so, and a line of ghosts is this: both say something and do nothing.
CLAUSE = re.compile(r"^[ \t]*(?:requires|ensures)\*?(?:[ \t]+\w+)?[ \t]*\{", re.MULTILINE)
GHOST = re.compile(r"\s*ghost\b[^;]*;?$")

# Functions of the sources that have the name of such a call and open nothing: the file, and how it is called or declared there.
NAMESAKES = {
    ("authority_ask/src/hosts.rt", "connect(rt, &mut self.wires, "),
    ("authority_ask/src/hosts.rt", "wires.connect("),
    ("goal_store/src/goals.rt", "pub fn bind("),
    ("journal_text/src/policy_printer.rt", "self.bind("),
    ("journal_text/src/policy_printer.rt", "fn bind("),
    ("line_log/src/keepers.rt", "self.wire.connect("),
    ("line_log/src/line_logs.rt", "self.keeper.connect("),
    ("nx_io/src/sockets.rt", "SystemListener::bind("),
    ("nx_io/src/sockets.rt", "SystemStream::connect("),
    ("nx_io/src/sockets.rt", "listener.accept("),
    ("policy_book/src/visits.rt", "self.accept("),
    ("policy_book/src/visits.rt", "fn accept("),
    ("policy_history/src/changes.rt", "self.bind("),
    ("policy_history/src/changes.rt", "self.goals.bind("),
    ("policy_history/src/changes.rt", "fn bind("),
}


# Comments and literals, whatever they hold: of these, and of nothing else, a quotation mark begins or ends one.
LITERALS = re.compile(
    r"""//[^\n]*|/\*.*?\*/|b?r(?P<marks>\#*)".*?"(?P=marks)|b?"(?:\\.|[^"\\])*"|b?'(?:\\x..|\\u\{[^}]*\}|\\.|[^\\'\n])'""",
    re.DOTALL,
)


def code_of(text):
    """Returns a text without its comments and literals, in as many lines."""
    return LITERALS.sub(lambda it: '""' + "\n" * it[0].count("\n"), text)


def without_clauses(code):
    """Returns a code without the clauses of its contracts, in as many lines."""
    parts, place = [], 0
    for clause in CLAUSE.finditer(code):
        if clause.start() >= place:
            end = closing(code, clause.end() - 1) + 1
            parts += [code[place : clause.start()], "\n" * code.count("\n", clause.start(), end)]
            place = end
    return "".join(parts) + code[place:]


def opens_in(name, code):
    """Whether a line opens a socket or finds an address."""
    for file, call in NAMESAKES:
        if file == name:
            code = code.replace(call, "")
    return OPENS.search(code)


def wrong_in(name, text):
    """Yields the number of each line that waits, takes a lock, or names or opens what is of the outside, and what it does."""
    locked = False
    for number, (code, line) in enumerate(zip(without_clauses(code_of(text)).splitlines(), text.splitlines()), 1):
        if re.match(r"\s*(pub(\([^)]*\))?\s+)?fn\b", code):
            locked = False
        if WAITS.search(code):
            yield number, "waits", line
        if LOCKS.search(code):
            if name != LOCKER or locked:
                yield number, "takes a lock", line
            locked = True
        if name not in FILERS and code.strip() != FILES_IMPORT and FILES.search(code):
            yield number, "names a file", line
        if name not in MAKERS and OBJECTS.search(code) and not NAMED.search(code):
            yield number, "names an object of the outside", line
        if name in ADAPTERS or code.strip() == IMPORT or GHOST.match(code):
            continue
        if SOCKETS.search(BOUND.sub("", code)):
            yield number, "names a socket", line
        if opens_in(name, code):
            yield number, "opens a socket", line


def held_on(text):
    """Yields the number of each line that takes the journal's lock, and may hold it for more than one call."""
    code = code_of(text)
    for taken in JOURNAL.finditer(code):
        if not ONE_CALL.match(code, taken.end()) or not ALONE.search(code, 0, taken.start()):
            yield code.count("\n", 0, taken.start()) + 1


def main():
    crates = Path(sys.argv[1] if len(sys.argv) > 1 else Path(__file__).resolve().parents[1]) / "crates"
    found = False
    for path in sorted(crates.glob("*/src/**/*.rt")):
        name = path.relative_to(crates).as_posix()
        crate = name.partition("/src/")[0]
        if crate.endswith("_rows"):
            continue
        text = path.read_text()
        if name == LOCKER:
            for number in held_on(text):
                found = True
                print(f"crates/{name}:{number}: may hold the lock of the journal for more than one call")
        for number, what, line in wrong_in(name, text):
            found = True
            print(f"crates/{name}:{number}: {what}: {line.strip()}")
    return 1 if found else 0


if __name__ == "__main__":
    sys.exit(main())
