#!/usr/bin/env python3
"""The older rows of `crates/transcripts/data` as they are where upstream connections are kept (RFC
9112, section 9.3).

    .ci/kept_rows.py [FOLDER]   writes `kept_older.rows` and the configurations `keep_*.toml` into
                                the folder, by default that of the rows
    .ci/kept_rows.py --check    says which of them aren't as it would write them, and exits 1 if
                                there is one; `.ci/run` does so

What becomes of a row is worked out here from its old text and from these rules alone, and not from
what a gateway prints:

- A request has no line `connection: close`.
- Behind a response that is whole, with no octet behind it, its connection is idle in place of
  closed, where the request was sent whole, the response is of HTTP/1.1, its final head's Connection
  doesn't say `close`, its end isn't that of the connection, and fewer than eight others are idle.
- A request goes out on the least idle connection of its route, and opens one only where there is
  none. So connections have other numbers in what follows.
- Where the client's connection ends, idle ones are closed with the others, by rising number.

A row with a repetition is judged by what it prints alone: its other judgements take long, and say
of connections nothing that those of others don't. Each row that is made is to be read beside the
old one before it is committed.
"""
import copy
import filecmp
import os
import re
import sys
import tempfile

sys.dont_write_bytecode = True
HERE = os.path.dirname(os.path.abspath(__file__))
sys.path.insert(0, HERE)
import rows  # noqa: E402

FILES = "beginnings requests responses connections windows streaming request_trailers response_trailers configurations streams floods drains".split()
CLOSE = b"\r\nconnection: close\r\n"
# The gateway's reply 502, plain and inserted as Huffman text, and a reset by INTERNAL_ERROR.
FAILED = re.compile(r"0803353032|48826c02|00000403000000[0-9a-f]{4}00000002")
TOMLS = "streaming indexing indexing_streaming small one_authority three_routes no_routes".split()


def config_of(name):
    """The configuration beside the old one under which connections are kept."""
    return "keep.toml" if name == "default" else f"keep_{name}"


def head_of(text):
    """The status line, the fields, and what stands behind a head."""
    head, end, rest = text.partition(b"\r\n\r\n")
    if not end:
        return None
    lines = head.split(b"\r\n")
    fields = [(name.strip().lower(), value.strip()) for name, _, value in (line.partition(b":") for line in lines[1:])]
    return lines[0], fields, rest


def chunks_end(body):
    """The place behind the last chunk's trailers, if it stands in the body."""
    place = 0
    while True:
        line = re.match(rb"([0-9a-fA-F]+)\r\n", body[place:])
        if not line:
            return None
        place += line.end()
        size = int(line[1], 16)
        if size == 0:
            break
        place += size + 2
    while True:
        end = body.find(b"\r\n", place)
        if end < 0:
            return None
        if end == place:
            return place + 2
        place = end + 2


def body_end(fields, body, to_head, status):
    """The place behind a message's body, if all of it stands there; -1 where only the connection's end ends it."""
    if to_head or status in (b"204", b"304"):
        return 0
    lengths = {value for name, value in fields if name == b"content-length"}
    if any(name == b"transfer-encoding" for name, _ in fields):
        return chunks_end(body)
    if lengths:
        length = int(lengths.pop())
        return length if len(body) >= length else None
    return -1 if status else 0


def leaves_open(text, to_head):
    """Whether a text is a whole response and no octet more, which leaves its connection open."""
    while text.startswith(b"HTTP/1.1 1") and head_of(text):
        text = head_of(text)[2]
    head = head_of(text)
    if not head:
        return False
    line, fields, body = head
    end = body_end(fields, body, to_head, line.split()[1])
    options = [option.strip().lower() for name, value in fields if name == b"connection" for option in value.split(b",")]
    return end == len(body) and line.startswith(b"HTTP/1.1 ") and b"close" not in options


def is_whole_request(text):
    """Whether a text is a whole request."""
    head = head_of(text)
    return bool(head) and body_end(head[1], head[2], False, b"") == len(head[2])


class Connection:
    """A connection that is kept: its number, its route, whether it is idle, and of its last exchange the texts, that by the old row, and what was taken."""

    def __init__(self, number, route):
        self.number, self.route = number, route
        self.begin()

    def begin(self):
        self.is_idle, self.sent, self.old, self.heard, self.taken = False, b"", b"", b"", 0

    def taken_by(self, count):
        """How many octets were taken where so many were by the old row."""
        closes = [found.end() for found in re.finditer(re.escape(CLOSE), self.old)]
        return count - sum(len(CLOSE) - 2 for end in closes if end <= count)


class Course:
    """What has become of a row: open connections by their numbers, and the connection of each by the old row."""

    def __init__(self):
        self.open, self.by_old, self.count = {}, {}, 0

    def begin(self, old, route):
        """A connection is taken for a request; the line that opens it, if one does."""
        idle = [c for c in self.open.values() if c.is_idle and c.route == route]
        if idle:
            self.by_old[old] = min(idle, key=lambda c: c.number)
            self.by_old[old].begin()
            return []
        self.count += 1
        self.by_old[old] = self.open[self.count] = Connection(self.count, route)
        return [f"O {self.count} {route}"]

    def close_all(self):
        lines = [f"X {number}" for number in sorted(self.open)]
        self.open = {}
        return lines + ["XC"]

    def close(self, old):
        del self.open[self.by_old[old].number]
        return [f"X {self.by_old[old].number}"]

    def put(self, old, written):
        """A text for an upstream."""
        connection = self.by_old[old]
        connection.old += bytes.fromhex(rows.octets(written))
        written = written.replace("{GET}", "{GETKEPT}").replace("{CLOSE}", r"'\r\n\r\n'").replace(r"\r\nconnection: close\r\n", r"\r\n")
        written = written.replace("' '", "")
        connection.sent += bytes.fromhex(rows.octets(written))
        return [f"U {connection.number} {written}"]

    def hear(self, old, written, failed):
        """Octets of an upstream; whether its connection is idle behind them."""
        connection = self.by_old[old]
        connection.heard += bytes.fromhex(rows.octets(written))
        whole = leaves_open(connection.heard, connection.sent.startswith(b"HEAD "))
        few = sum(c.is_idle for c in self.open.values()) < 8
        connection.is_idle = whole and few and not failed and is_whole_request(connection.sent)
        return connection.is_idle

    def take(self, old, count):
        """What an upstream's side took."""
        connection = self.by_old[old]
        before = connection.taken_by(connection.taken)
        connection.taken += count
        return f"UT {connection.number} {connection.taken_by(connection.taken) - before}"

    def came(self, event, lines):
        """An event, and whether its own connection isn't closed any more."""
        word, _, rest = event.partition(" ")
        old, _, octets = rest.partition(" ")
        if word == "U":
            number = self.by_old[int(old)].number
            failed = FAILED.search("".join(rows.octets(line[2:]) for line in lines if line.startswith("C ")))
            kept = self.hear(int(old), octets, failed)
            return f"U {number} {octets}", int(old) if kept else 0
        if word in ("UE", "UF"):
            number = self.by_old[int(old)].number
            if word == "UF":
                del self.open[number]
            return f"{word} {number}", 0
        if word == "UT":
            return self.take(int(old), int(octets)), 0
        return event, 0

    def step(self, event, lines):
        """What stands in place of an event and of what it puts out."""
        event, kept = self.came(event, lines)
        made = []
        while lines:
            line = lines.pop(0)
            word, _, rest = line.partition(" ")
            if word == "O":
                made += self.begin(*map(int, rest.split()))
            elif word == "U":
                old, _, written = rest.partition(" ")
                made += self.put(int(old), written)
            elif word == "XC" or (word == "X" and lines and re.fullmatch(r"(X \d+\n)*XC", "\n".join(lines)) and int(rest) != kept):
                made += self.close_all()
                lines = []
            elif word == "X" and int(rest) == kept:
                kept = 0
            elif word == "X":
                made += self.close(int(rest))
            else:
                made.append(line)
        if kept:
            raise ValueError(f"{event}: the old row leaves its connection open")
        return [f"> {event}"] + made


def steps_of(lines):
    """Events, each with the lines under it."""
    steps = []
    for line in lines:
        if line.startswith("> "):
            steps.append((line[2:], []))
        else:
            steps[-1][1].append(line)
    return steps


def translated(course, lines):
    """Lines of a row, translated."""
    return [line for event, below in steps_of(lines) for line in course.step(event, below)]


def numbered(lines, place, first, k):
    """Lines of a repetition, once."""
    return [line.replace("{id}", f"{first + 2 * place:08x}").replace("{k}", str(k + place)) for line in lines]


def repeated(course, lines, count, first, k):
    """A repetition, translated: as one again, with other numbers of connections."""
    start = course.count + 1
    made = []
    for place in range(count):
        made.append(translated(course, numbered(lines, place, first, k)))
        course.by_old = {old: c for old, c in course.by_old.items() if c.number in course.open}
    last = count - 1
    pattern = [line.replace(f"{first + 2 * last:08x}", "{id}") for line in made[last]]
    pattern = [re.sub(rf"^((?:> )?(?:O|U|X|UT|UE|UF)) {start + last}\b", r"\1 {k}", line) for line in pattern]
    for place in range(count):
        if numbered(pattern, place, first, start) != made[place]:
            raise ValueError(f"iteration {place} is another: {made[place]}")
    return [f"repeat {count} {{id}} {first} {{k}} {start if any('{k}' in line for line in pattern) else k}"] + pattern + ["end"]


def row_of(lines, courses):
    """A row's lines, translated, with its name and what it begins with."""
    kind, name = lines[0].split(" ", 1)
    begins = [line[len("begins "):] for line in lines if line.startswith("begins ")]
    course = copy.deepcopy(courses[begins[0]]) if begins else Course()
    made = [f"{kind} {name}, connections kept"] + [f"begins {begin}, connections kept" for begin in begins]
    is_long = any(line.startswith("repeat ") for line in lines)
    for line in lines:
        if line.startswith("by "):
            config, words = line[len("by "):].split(": ", 1)
            made.append(f"by {config_of(config)}: {'prints' if is_long else words}")
    body = [line for line in lines[1:] if not line.startswith(("begins ", "by "))]
    part = []
    while body:
        line = body.pop(0)
        found = re.fullmatch(r"repeat (\d+) \{id\} (\d+) \{k\} (\d+)", line)
        if not found:
            part.append(line)
            continue
        made += translated(course, part)
        end = body.index("end")
        made += repeated(course, body[:end], *map(int, found.groups()))
        body, part = body[end + 1:], []
    made += translated(course, part)
    courses[name] = course
    return made


def paragraphs():
    """The paragraphs of the older rows, without comments."""
    for file in FILES:
        with open(os.path.join(rows.DATA, f"{file}.rows")) as text:
            for paragraph in text.read().split("\n\n"):
                lines = [line for line in paragraph.splitlines() if line and not line.startswith("#")]
                if lines:
                    yield lines


def write(folder):
    """Writes the rows and the configurations into the folder."""
    courses = {}
    made = ["# The older rows where upstream connections are kept. `.ci/kept_rows.py` makes this file."]
    made += ["\n".join(row_of(lines, courses)) for lines in paragraphs()]
    with open(os.path.join(folder, "kept_older.rows"), "w") as file:
        file.write("\n\n".join(made) + "\n")
    for name in TOMLS:
        with open(os.path.join(rows.DATA, f"{name}.toml")) as text:
            comment, _, rest = text.read().partition("\n")
        with open(os.path.join(folder, f"keep_{name}.toml"), "w") as file:
            file.write(f"{comment[:-1]}; upstream connections are kept.\nkeep = true\n{rest}")


def check():
    """Says which files don't stand as they would be written. Returns how many."""
    with tempfile.TemporaryDirectory() as folder:
        write(folder)
        made = sorted(os.listdir(folder))
        others = filecmp.cmpfiles(folder, rows.DATA, made, shallow=False)
    for name in others[1] + others[2]:
        print(f"{name} isn't as .ci/kept_rows.py makes it")
    print(f"{len(others[0])} of {len(made)} files are as .ci/kept_rows.py makes them")
    return len(made) - len(others[0])


def main():
    if sys.argv[1:] == ["--check"]:
        sys.exit(check() > 0)
    write(sys.argv[1] if len(sys.argv) > 1 else rows.DATA)


if __name__ == "__main__":
    main()
