"""The grammars of docs/FORMATS.md, written here once more: what is a script, a stream of requests and an image, and where the
first thing is that is none. So it is known of any bytes what the program has to report of them."""

import collections
import re

# ---- scripts

NUMBER = rb"(0|[1-9][0-9]{0,9})"
WRITTEN = rb"(?:[^\\\n]|\\[n\\]|\\x[0-9a-fA-F]{2})*"
LINE = re.compile(
    rb"(0|[1-9][0-9]{0,4}) (?:attach|detach|receive|open (?:r?w?c?t?)(?<=[rwct]) [^\n]*|(?:unlink|mkdir|list) [^\n]*"
    rb"|write " + NUMBER + rb"(?: " + WRITTEN + rb")?|close " + NUMBER + rb"|read " + NUMBER + rb" " + NUMBER
    + rb"|notify " + NUMBER + rb" (?:poll|pollarm|tranarm) (0|[1-9][0-9]{0,2}) " + NUMBER + rb")"
)


def is_line(line):
    found = LINE.fullmatch(line)
    if not found:
        return False
    conn, code = int(found[1]), int(found[7] or 0)
    numbers = [int(number) for at, number in enumerate(found.groups(), 1) if number and at not in (1, 7)]
    return conn <= 65_535 and code <= 255 and all(number <= 4_294_967_295 for number in numbers)


def judge_script(script):
    """The lines that are commands, what is reported, and the status."""
    commands = []
    for number, line in enumerate(script.split(b"\n"), 1):
        if line == b"" or line.startswith(b"#"):
            continue
        if not is_line(line):
            return commands, f"pps: line {number}: bad script line\n".encode(), 1
        commands.append(line)
    return commands, b"", 0


# ---- streams

FIXED = {1: 0, 2: 0, 4: 8, 6: 4, 10: 10, 11: 0}
LEAST = {3: 1, 5: 4, 7: 0, 8: 0, 9: 0}


def is_request(body):
    kind, fields = body[0], body[3:]
    if kind in FIXED:
        return len(fields) == FIXED[kind] and (kind != 10 or fields[4] in (1, 2, 3))
    return kind in LEAST and len(fields) >= LEAST[kind] and (kind != 3 or fields[0] <= 15)


def judge_stream(stream):
    """The frames that are requests, what is reported, and the status."""
    requests = []
    while stream:
        length = int.from_bytes(stream[:4], "big")
        if len(stream) >= 4 and not 3 <= length <= 131_072:
            return requests, b"pps: malformed frame\n", 3
        if len(stream) < 4 + length or len(stream) < 4:
            return requests, b"pps: the last frame is cut short\n", 3
        if not is_request(stream[4 : 4 + length]):
            return requests, b"pps: malformed frame\n", 3
        requests.append(stream[: 4 + length])
        stream = stream[4 + length :]
    return requests, b"", 0


# What is written where a stream does not go on with a request.
BAD_FRAME = bytes.fromhex("00000008 0000 00 02 00000000")

# ---- images

HEAD = re.compile(rb"PPSIMAGE (?:1|2 ([1-9][0-9]{0,4}))")
PATH = rb"((?:/(?!\.)[!-.0->@-~]{1,255}){1,32})"
DIRECTORY, OBJECT = re.compile(rb"D " + PATH), re.compile(rb"O " + PATH + rb" (0|[1-9][0-9]{0,3})")
ATTRIBUTE = re.compile(rb"([A-Za-z_][A-Za-z0-9_.-]{0,254}):[!-9;-~]{0,32}:[^\n]*")
PATH_MOST, MEMBERS_MOST, ATTRIBUTES_MOST = 1_024, 256, 1_024


class BadLine(Exception):
    """No image begins so."""


class Reader:
    """What has been read of an image, line by line."""

    def __init__(self):
        self.take, self.entries, self.last = self.head, 0, ()
        self.directories, self.members = {()}, collections.Counter()
        self.text_most = self.text = self.left = 0
        self.names = set()

    def head(self, line):
        found = HEAD.fullmatch(line)
        if not found or int(found[1] or 1) > 65_535:
            raise BadLine
        self.text_most = 65_536 if found[1] else 32_768
        self.take = self.entry

    def entry(self, line):
        if line == b"E %d" % self.entries:
            self.take = self.nothing
            return
        found = DIRECTORY.fullmatch(line) or OBJECT.fullmatch(line)
        if not found or len(found[1]) > PATH_MOST:
            raise BadLine
        names = tuple(found[1][1:].split(b"/"))
        of_kind = (line[:1], names[:-1])
        self.members[of_kind] += 1
        if names <= self.last or names[:-1] not in self.directories or self.members[of_kind] > MEMBERS_MOST:
            raise BadLine
        self.entries, self.last = self.entries + 1, names
        if line[:1] == b"D":
            self.directories.add(names)
        elif int(found[2]) > ATTRIBUTES_MOST:
            raise BadLine
        elif int(found[2]):
            self.take, self.left, self.text, self.names = self.attribute, int(found[2]), 0, set()

    def attribute(self, line):
        found = ATTRIBUTE.fullmatch(line)
        self.text += len(line) + 1
        if not found or found[1] in self.names or self.text > self.text_most:
            raise BadLine
        self.names.add(found[1])
        self.left -= 1
        if not self.left:
            self.take = self.entry

    def nothing(self, _):
        raise BadLine


def bad_line(image):
    """The number of the line at which it is no image; None if it is one."""
    reader = Reader()
    *lines, rest = image.split(b"\n")
    for number, line in enumerate(lines, 1):
        try:
            reader.take(line)
        except BadLine:
            return number
    return None if reader.take == reader.nothing and not rest else len(lines) + 1
