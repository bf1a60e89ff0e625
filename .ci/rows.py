#!/usr/bin/env python3
"""The rows of `crates/transcripts/data` as scripts of `h2replay`.

    .ci/rows.py     prints the scripts that `crates/refused_memory` goes through: `crates/refused_memory/data/rows.scripts` is just this

How rows are written is said in `crates/transcript_reader/src/lib.rt`, and how their octets are in
`notation.rt` beside it.
"""
import os
import re
import sys

DATA = os.path.join(os.path.dirname(os.path.abspath(__file__)), "../crates/transcripts/data")
REST = "8684410f7777772e6578616d706c652e636f6d"
WORDS = {
    "P": b"PRI * HTTP/2.0\r\n\r\nSM\r\n\r\n".hex(),
    "S": "000000040000000000",
    "K": "000000040100000000",
    "G": "00000c040000000000000300000064000600004000",
    "A": "82" + REST,
    "B": "83" + REST,
    "GET": b"GET / HTTP/1.1\r\nhost: www.example.com\r\nvia: 2.0 h2gw\r\nconnection: close\r\n\r\n".hex(),
    "GETKEPT": b"GET / HTTP/1.1\r\nhost: www.example.com\r\nvia: 2.0 h2gw\r\n\r\n".hex(),
    "POST": b"POST / HTTP/1.1\r\nhost: www.example.com\r\nvia: 2.0 h2gw\r\n".hex(),
    "CLOSE": b"\r\nconnection: close\r\n\r\n".hex(),
}
# The older rows where connections are kept: no growth is refused in their scripts, since they make
# hardly another than the older rows and `kept.rows`.
OLDER = "kept_older.rows"
# Of a script with more events, or of more characters, no growth is refused: there would be too
# many.
MOST_EVENTS, MOST_CHARACTERS = 1_000, 150_000


class Row:
    """A row: its name, its events as lines of a script, and what it is judged by, as (configuration, words)."""

    def __init__(self, name, events, judged):
        self.name, self.events, self.judged = name, events, judged


def meaning(words):
    """The hex that stands for what was written in braces."""
    if "x" in words:
        octets, count = words.split("x", 1)
        return octets * int(count)
    return WORDS[words]


def octets(written):
    """The hex of octets as a row has them."""
    hex_of_text = lambda found: found[1].replace(r"\r", "\r").replace(r"\n", "\n").encode("latin-1").hex()
    written = re.sub(r"'([^']*)'", hex_of_text, written).replace(" ", "")
    while "{" in written:
        written = re.sub(r"\{([^{}]*)\}", lambda found: meaning(found[1]), written)
    return written


def event(line):
    """An event as a line of a script."""
    found = re.fullmatch(r"(C|U \d+) (.*)", line)
    return f"{found[1]} {octets(found[2])}" if found else line


def unrolled(lines):
    """The lines, those between `repeat` and `end` as often as it says."""
    repeated = None
    for line in lines:
        if line.startswith("repeat "):
            count, first, k = map(int, re.fullmatch(r"repeat (\d+) \{id\} (\d+) \{k\} (\d+)", line).groups())
            repeated = []
        elif line == "end":
            for place in range(count):
                for each in repeated:
                    yield each.replace("{id}", f"{first + 2 * place:08x}").replace("{k}", str(k + place))
            repeated = None
        elif repeated is None:
            yield line
        else:
            repeated.append(line)


def rows_of(text, known):
    """The rows of a file. What others begin with is known by its name."""
    for paragraph in text.split("\n\n"):
        lines = [line for line in paragraph.splitlines() if line and not line.startswith("#")]
        if not lines:
            continue
        kind, name = lines[0].split(" ", 1)
        before = [known[line[len("begins "):]] for line in lines if line.startswith("begins ")]
        events = list(before[0].events) if before else []
        events += [event(line[2:]) for line in unrolled(lines) if line.startswith("> ")]
        judged = [tuple(line[len("by "):].split(": ", 1)) for line in lines if line.startswith("by ")]
        known[name] = Row(name, events, judged)
        if kind == "row":
            yield known[name]


def rows_in(files):
    """The rows of files, in their order."""
    known = {}
    for file in files:
        with open(os.path.join(DATA, file)) as text:
            yield from rows_of(text.read(), known)


def rows(but=None):
    """All rows, file by file as `crates/transcripts/args` has them, but those of one file."""
    with open(os.path.join(DATA, "../args")) as files:
        yield from rows_in(file for file in files.read().split() if file != but)


def config_of(row):
    """The text of the configuration by which a row is judged first; none of the default."""
    config = row.judged[0][0]
    if config == "default":
        return ""
    with open(os.path.join(DATA, config)) as text:
        return text.read()


def script_of(row):
    """The script of a row. It begins with `keep` where its configuration keeps connections, and
    then with the authority of its route, where that has one route alone and that has one."""
    config = config_of(row)
    keep = ["keep"] if "keep = true" in config else []
    authorities = re.findall(r'^authority = "(.*)"$', config, re.MULTILINE)
    route = [f"route {authority}" for authority in authorities if config.count("prefix") == 1]
    return "\n".join(keep + route + row.events)


def says_more(row):
    """Whether the configuration of a row says how many connections may be idle, or how large
    windows are. A script can't say that, and neither makes a list grow that doesn't grow else."""
    return re.search("^(idle|window) = ", config_of(row), re.MULTILINE) is not None


def scripts():
    """The scripts in which growths are refused, each once, in the order of the rows."""
    found = (script_of(row) for row in rows(OLDER) if len(row.events) <= MOST_EVENTS and not says_more(row))
    return list(dict.fromkeys(script for script in found if len(script) <= MOST_CHARACTERS))


if __name__ == "__main__":
    sys.stdout.write("0 whole\n" + "".join(f"\n{script}\n" for script in scripts()))
