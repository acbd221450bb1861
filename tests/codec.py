"""The lines of scripts and the frames of streams, each made from the other, as docs/FORMATS.md says: by code of its own, so that
the program's two ways in and out can be compared."""

import re
import struct

REFUSALS = (
    "OutOfMemory BadFrame NotAttached AlreadyAttached BadPath BadOption NotFound Exists NotDirectory IsDirectory NotEmpty Busy "
    "BadHandle BadMode BadText TooLarge Gone ReadPending TooSmall OutboxFull Backlogged NoClient BadArgument TableFull"
).split()
WITH_ARGUMENT = ("BadText", "TooSmall", "Backlogged", "NoClient")

KINDS = "attach detach open read write close unlink mkdir list notify receive".split()
ACTIONS = ("poll", "pollarm", "tranarm")
LONGEST = 131_072

# ---- bytes

def unescaped(text):
    """The bytes that are written so in a script."""
    plain = {b"n": b"\n", b"\\": b"\\"}
    return re.sub(rb"\\(n|\\|x..)", lambda it: plain.get(it[1]) or bytes([int(it[1][1:], 16)]), text, flags=re.DOTALL)


def escaped(content):
    """How answers show these bytes."""
    shown = {10: b"\\n", 92: b"\\\\"}
    return b"".join(shown.get(byte) or (bytes([byte]) if 32 <= byte <= 126 else b"\\x%02x" % byte) for byte in content)


def framed(body):
    return struct.pack(">I", len(body)) + body


def frames(stream):
    """The frames of a stream, as far as they are whole."""
    while len(stream) >= 4 and len(stream) >= 4 + int.from_bytes(stream[:4], "big"):
        end = 4 + int.from_bytes(stream[:4], "big")
        yield stream[:end]
        stream = stream[end:]


# ---- requests

def frame_of(line):
    """The frame of a line that is a command; None if it would be too long."""
    conn, command, *rest = line.split(b" ", 2)
    text = rest[0] if rest else b""
    words, kind = text.split(b" "), KINDS.index(command.decode())
    if command == b"open":
        mode, path = text.split(b" ", 1)
        fields = bytes([sum(1 << b"rwct".index(letter) for letter in mode)]) + path
    elif command == b"read":
        fields = struct.pack(">II", int(words[0]), int(words[1]))
    elif command == b"write":
        handle, _, content = text.partition(b" ")
        fields = struct.pack(">I", int(handle)) + unescaped(content)
    elif command == b"close":
        fields = struct.pack(">I", int(words[0]))
    elif command == b"notify":
        fields = struct.pack(">IBBI", int(words[0]), ACTIONS.index(words[1].decode()) + 1, int(words[2]), int(words[3]))
    else:
        fields = text
    body = struct.pack(">BH", kind + 1, int(conn)) + fields
    return framed(body) if len(body) <= LONGEST else None


def line_of(frame):
    """The line that asks for what a request frame asks for; None if no line does."""
    kind, conn, fields = frame[4], int.from_bytes(frame[5:7], "big"), frame[7:]
    command = KINDS[kind - 1]
    if command == "open":
        mode, words = fields[0], [fields[1:]]
        words.insert(0, bytes(letter for at, letter in enumerate(b"rwct") if mode >> at & 1))
        if not mode or b"\n" in fields[1:]:
            return None
    elif command == "read":
        words = [b"%d" % number for number in struct.unpack(">II", fields)]
    elif command == "write":
        words = [b"%d" % int.from_bytes(fields[:4], "big"), *([escaped(fields[4:])] if fields[4:] else [])]
    elif command == "close":
        words = [b"%d" % int.from_bytes(fields, "big")]
    elif command == "notify":
        handle, action, code, value = struct.unpack(">IBBI", fields)
        words = [b"%d" % handle, ACTIONS[action - 1].encode(), b"%d" % code, b"%d" % value]
    elif command in ("unlink", "mkdir", "list"):
        words = [fields]
        if b"\n" in fields:
            return None
    else:
        words = []
    return b" ".join([b"%d" % conn, command.encode(), *words])


# ---- answers

def refused(number, argument):
    name = REFUSALS[number - 1]
    return f"refused {number} {name}".encode() + (b" %d" % argument if name in WITH_ARGUMENT else b"")


def data(content):
    return b"data %d %b" % (len(content), escaped(content)) if content else b"data 0"


def answer_of(frame):
    """The line that is printed for what an outcome frame says."""
    conn, tag, fields = int.from_bytes(frame[4:6], "big"), frame[6], frame[7:]
    number = int.from_bytes(fields[:4], "big")
    said = {
        0: lambda: refused(fields[0], int.from_bytes(fields[1:5], "big")),
        1: lambda: b"ok",
        2: lambda: b"handle %d" % number,
        3: lambda: data(fields),
        4: lambda: b"wrote %d" % number,
        5: lambda: b"parked",
        6: lambda: b"input %d" % fields[0],
        7: lambda: b"pulse %d %d" % (fields[0], int.from_bytes(fields[1:5], "big")),
        8: lambda: b"done %d " % number + data(fields[4:]),
        9: lambda: b"done %d " % number + refused(fields[4], int.from_bytes(fields[5:9], "big")),
        10: lambda: b"empty",
    }
    return b"%d " % conn + said[tag]()
