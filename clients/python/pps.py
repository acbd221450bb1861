"""A client of a Persistent Publish/Subscribe service, with nothing but Python's standard library (3.10 or later).

A publisher writes attributes into objects, a subscriber reads them, now or as they change. The daemon `ppsd` serves
both on a Unix socket:

    import pps

    with pps.object("/gps") as gps:           # an object's attributes, as a mapping
        gps["speed"] = 70                     # speed:n:70
        gps["city"] = "Ottawa"                # city::Ottawa
        gps["fixed"] = True                   # fixed:b:true
        gps["raw"] = b"\\x00\\xff"              # raw:b64:AP8=
        print(gps["speed"] + 1, dict(gps))

    for change in pps.watch("/gps?delta"):    # waits for each change
        print(change.name, change.attributes, change.removed)

Each of these has a connection of its own. Whoever has more to do makes one connection, and uses it for all:

    with pps.connect() as service:            # or pps.connect("/run/pps.sock")
        service.mkdir("/home")
        with service.object("/home/lamp") as lamp:
            lamp["on"] = True
        print(service.list("/home"))

Without a daemon, `pps.start()` starts `pps frames` and connects to it through its pipes; `pps.Service` does the same
for several connections. All calls of the service are there: `open`, `read`, `write`, `close`, `unlink`, `mkdir`,
`list`, `notify`, `receive`, `attach` and `detach`. A refused call raises the refusal by its name:

    >>> service = start(PROGRAM)
    >>> service.open("/none", "r")
    Traceback (most recent call last):
    pps.NotFound: NotFound

    >>> lamp = service.open("/lamp", "rwc")
    >>> lamp.write("on:b:true\\nlumen:n:40\\n")
    21
    >>> lamp.read(8)
    Traceback (most recent call last):
    pps.TooSmall: TooSmall 27
    >>> lamp.read()
    b'@lamp\\non:b:true\\nlumen:n:40\\n'

A read through a handle that was opened with `wait` is parked if there is nothing new: it gives None, and its
result is received later. `receive` takes what is queued for the connection, and waits for it if it is asked to:

    >>> view = service.open("/lamp?wait,delta", "r")
    >>> view.read()
    b'@lamp\\non:b:true\\nlumen:n:40\\n'
    >>> view.read() is None
    True
    >>> lamp.write("lumen:n:60\\n")
    11
    >>> service.receive(wait=True)
    LateReply(handle=2, data=b'@lamp\\nlumen:n:60\\n', refusal=None)
    >>> service.receive() is None
    True

What is read can be taken apart:

    >>> for change in changes(b'@lamp\\nlumen:n:60\\n-on\\n'):
    ...     print(repr(change.mark), change.name, change.attributes, change.removed)
    '' lamp {'lumen': 60} ('on',)

Texts are str; bytes of values that are not UTF-8 are kept as Python's surrogate escapes. A connection may be used by
several threads.

    >>> service.disconnect()
"""

from __future__ import annotations

import base64
import binascii
import math
import os
import re
import select
import socket
import struct
import subprocess
import threading
import time
from collections import deque
from collections.abc import Callable, ItemsView, Iterator, MutableMapping, Sequence, ValuesView
from dataclasses import dataclass
from types import TracebackType
from typing import IO, Any, ClassVar, List, NamedTuple, Optional, Protocol, Tuple, Type, Union

__all__ = [
    "AlreadyAttached", "Attribute", "Backlogged", "BadArgument", "BadFrame", "BadHandle", "BadMode", "BadOption",
    "BadPath", "BadText", "Busy", "Change", "Coded", "Connection", "Exists", "Gone", "Handle", "IsDirectory", "Item",
    "LateReply", "NoClient", "NotAttached", "NotDirectory", "NotEmpty", "NotFound", "Object", "OutOfMemory",
    "OutboxFull", "POLL", "POLLARM", "Pulse", "ReadPending", "Refusal", "Removal", "Service", "ServiceEnded",
    "TRANARM", "TableFull", "TooLarge", "TooSmall", "Value", "Watch", "changes", "connect", "decode", "default_socket",
    "encode", "object", "start", "watch",
]  # fmt: skip

POLL, POLLARM, TRANARM = 1, 2, 3

READ_MAX = 17_000_000
READ_USUAL = 65_536

_ATTACH, _DETACH, _OPEN, _READ, _WRITE, _CLOSE, _UNLINK, _MKDIR, _LIST, _NOTIFY, _RECEIVE = range(1, 12)
_WAIT = 12  # the daemon's waiting Receive, which `pps frames` doesn't have
_REFUSED, _DONE, _OPENED, _DATA, _WROTE, _PARKED, _INPUT, _PULSE, _LATE_DATA, _LATE_REFUSED, _EMPTY = range(11)
_MODES = {"r": 1, "w": 2, "c": 4, "t": 8}


# ---- what goes wrong


class ServiceEnded(ConnectionError):
    """The service, or the daemon before it, has ended, or it has closed the connection."""


class Refusal(Exception):
    """The service refuses a request, and nothing has changed. There is a subclass for each name."""

    number: ClassVar[int] = 0
    has_argument: ClassVar[bool] = False

    def __init__(self, argument: int = 0) -> None:
        super().__init__(argument)
        self.argument = argument

    @property
    def name(self) -> str:
        return type(self).__name__

    def __str__(self) -> str:
        return f"{self.name} {self.argument}" if self.has_argument else self.name

    def __eq__(self, other: Any) -> bool:
        return isinstance(other, Refusal) and (self.number, self.argument) == (other.number, other.argument)

    def __hash__(self) -> int:
        return hash((self.number, self.argument))


class OutOfMemory(Refusal):
    """A request for memory was refused."""

    number = 1


class BadFrame(Refusal):
    """The stream of requests is malformed."""

    number = 2


class NotAttached(Refusal):
    """The connection has not attached."""

    number = 3


class AlreadyAttached(Refusal):
    """The connection has attached already."""

    number = 4


class BadPath(Refusal):
    """The path has not the form of one."""

    number = 5


class BadOption(Refusal):
    """There is no such option, or no such combination."""

    number = 6


class NotFound(Refusal):
    """A name of the path is absent."""

    number = 7


class Exists(Refusal):
    """The name is taken."""

    number = 8


class NotDirectory(Refusal):
    """An object is there, and a directory is needed."""

    number = 9


class IsDirectory(Refusal):
    """A directory is there, and an object is needed."""

    number = 10


class NotEmpty(Refusal):
    """The directory holds something."""

    number = 11


class Busy(Refusal):
    """The root, a server object, or something that is open and must not be."""

    number = 12


class BadHandle(Refusal):
    """The connection has no such handle."""

    number = 13


class BadMode(Refusal):
    """Letters that do not go together, or a handle that was not opened for this."""

    number = 14


class BadText(Refusal):
    """A line of the write is not in order: the argument is its number."""

    number = 15
    has_argument = True


class TooLarge(Refusal):
    """Too many bytes, or too many attributes."""

    number = 16


class Gone(Refusal):
    """The object has been deleted."""

    number = 17


class ReadPending(Refusal):
    """A read is parked on this handle."""

    number = 18


class TooSmall(Refusal):
    """The read needs more room: the argument says how much."""

    number = 19
    has_argument = True


class OutboxFull(Refusal):
    """The connection has 1,024 queued, armed and parked things."""

    number = 20


class Backlogged(Refusal):
    """The handle that the argument names is owed as many messages as its limit."""

    number = 21
    has_argument = True


class NoClient(Refusal):
    """The identifier in the argument belongs to no open client of this object."""

    number = 22
    has_argument = True


class BadArgument(Refusal):
    """A connection number, a size or a code is out of its range."""

    number = 23


class TableFull(Refusal):
    """A table is full, or numbers are used up."""

    number = 24


_REFUSALS: dict[int, Type[Refusal]] = {kind.number: kind for kind in Refusal.__subclasses__()}


def _refusal(fields: bytes) -> Refusal:
    number, argument = struct.unpack(">BI", fields)
    return _REFUSALS[number](argument)


# ---- attributes and their values


class Coded(NamedTuple):
    """A value with an encoding that Python has no type for, or with a text that its encoding doesn't allow."""

    encoding: str
    text: str


Value = Union[bool, int, float, bytes, str, Coded]

_NAME = re.compile(r"[A-Za-z_][A-Za-z0-9_.-]{0,254}", re.ASCII)
_ENCODING = re.compile(r"[!-9;-~]{0,32}", re.ASCII)
_WHOLE = re.compile(r"-?[0-9]{1,4000}", re.ASCII)
_DECIMAL = re.compile(r"-?[0-9]{1,4000}(\.[0-9]{1,4000})?([eE][+-]?[0-9]{1,5})?", re.ASCII)


def decode(encoding: str, text: str) -> Value:
    """The value of an attribute: `n` gives int or float, `b` bool, `b64` bytes, no encoding str, all else Coded."""
    if encoding == "":
        return text
    if encoding == "b" and text in ("true", "false"):
        return text == "true"
    if encoding == "n" and _WHOLE.fullmatch(text):
        return int(text)
    if encoding == "n" and _DECIMAL.fullmatch(text) and math.isfinite(number := float(text)):
        return number
    if encoding == "b64":
        try:
            known = base64.b64decode(text, validate=True)
        except (binascii.Error, ValueError):
            return Coded(encoding, text)
        if base64.b64encode(known).decode() == text:
            return known
    return Coded(encoding, text)


def encode(value: Value) -> Coded:
    """The encoding and the text of a value. What cannot be one raises TypeError or ValueError."""
    if isinstance(value, Coded):
        coded = value
    elif isinstance(value, bool):
        coded = Coded("b", "true" if value else "false")
    elif isinstance(value, int):
        coded = Coded("n", str(value))
    elif isinstance(value, float):
        if not math.isfinite(value):
            raise ValueError("a number that is not finite")
        coded = Coded("n", repr(value))
    elif isinstance(value, (bytes, bytearray)):
        coded = Coded("b64", base64.b64encode(value).decode())
    elif isinstance(value, str):
        coded = Coded("", value)
    else:
        raise TypeError(f"no value of an attribute: {value!r}")
    if not _ENCODING.fullmatch(coded.encoding):
        raise ValueError(f"no encoding: {coded.encoding!r}")
    if "\n" in coded.text:
        raise ValueError("a line feed in a value")
    return coded


def _to_bytes(text: str) -> bytes:
    return text.encode("utf-8", "surrogateescape")


def _to_text(data: bytes) -> str:
    return data.decode("utf-8", "surrogateescape")


@dataclass(frozen=True)
class Attribute:
    """A line that sets an attribute: `name:encoding:text`, after `[n]` if it is not persistent."""

    name: str
    encoding: str
    text: str
    persistent: bool = True

    @property
    def value(self) -> Value:
        return decode(self.encoding, self.text)

    def __str__(self) -> str:
        return f"{'' if self.persistent else '[n]'}{self.name}:{self.encoding}:{self.text}"


@dataclass(frozen=True)
class Removal:
    """A line that removes an attribute: `-name`."""

    name: str

    def __str__(self) -> str:
        return f"-{self.name}"


@dataclass(frozen=True)
class Change:
    """A block of what is read: a header, which is a mark, `@` and a name, and its lines.

    The mark is empty for a change and for everything, `!` for everything after the limit was passed, `+` for created or
    opened, `-` for deleted or closed, `#` for truncated, and `*` if a critical publisher has gone.
    """

    mark: str
    name: str
    lines: Tuple[Union[Attribute, Removal], ...] = ()

    @property
    def attributes(self) -> dict[str, Value]:
        """What the lines leave set, in order."""
        return {name: line.value for name, line in self._left().items() if isinstance(line, Attribute)}

    @property
    def removed(self) -> Tuple[str, ...]:
        """The attributes that the lines leave removed."""
        return tuple(name for name, line in self._left().items() if isinstance(line, Removal))

    def _left(self) -> dict[str, Union[Attribute, Removal]]:
        left: dict[str, Union[Attribute, Removal]] = {}
        for line in self.lines:
            if isinstance(left.get(line.name), Removal) or isinstance(line, Removal):
                left.pop(line.name, None)  # what is set after its removal comes at the end
            left[line.name] = line
        return left

    def __str__(self) -> str:
        return "".join(f"{line}\n" for line in (f"{self.mark}@{self.name}", *self.lines))


_HEADER = re.compile(rb"([!+\-#*]?)@(.*)", re.DOTALL)
_SET = re.compile(rb"(\[n\])?([^:]*):([^:]*):(.*)", re.DOTALL)


def changes(data: bytes) -> List[Change]:
    """The blocks of what was read."""
    found: List[Change] = []
    header: Optional[Tuple[str, str]] = None
    lines: List[Union[Attribute, Removal]] = []
    for line in data.split(b"\n")[:-1]:
        if head := _HEADER.fullmatch(line):
            if header is not None:
                found.append(Change(*header, tuple(lines)))
            header, lines = (head[1].decode(), _to_text(head[2])), []
        elif line.startswith(b"-"):
            lines.append(Removal(_to_text(line[1:])))
        elif parts := _SET.fullmatch(line):
            lines.append(Attribute(_to_text(parts[2]), _to_text(parts[3]), _to_text(parts[4]), parts[1] is None))
        else:
            raise ValueError(f"no line of what is read: {line!r}")
    if header is not None:
        found.append(Change(*header, tuple(lines)))
    return found


# ---- what is queued for a connection


class Pulse(NamedTuple):
    """A handle on which a pulse was armed has news."""

    code: int
    value: int


class LateReply(NamedTuple):
    """The answer to a read that was parked: data, or a refusal."""

    handle: int
    data: Optional[bytes]
    refusal: Optional[Refusal] = None

    def result(self) -> bytes:
        """The data; a refusal is raised."""
        if self.refusal is not None:
            raise self.refusal
        return self.data or b""


Item = Union[Pulse, LateReply]


def _item(tag: int, fields: bytes) -> Optional[Item]:
    if tag == _PULSE:
        return Pulse(*struct.unpack(">BI", fields))
    if tag == _LATE_DATA:
        return LateReply(int.from_bytes(fields[:4], "big"), fields[4:])
    if tag == _LATE_REFUSED:
        return LateReply(int.from_bytes(fields[:4], "big"), None, _refusal(fields[4:]))
    return None


# ---- the ways to a service

_Answer = Tuple[int, bytes]  # a tag and its fields


def _frame(kind: int, number: int, fields: bytes) -> bytes:
    return struct.pack(">IBH", len(fields) + 3, kind, number) + fields


class _Line(Protocol):
    """A way to a service for one connection."""

    def ask(self, kind: int, fields: bytes) -> _Answer:
        """The answer to a request."""

    def wait(self, deadline: Optional[float]) -> Optional[_Answer]:
        """What is queued, once there is something; None at the deadline."""

    def take(self) -> Optional[_Answer]:
        """What is queued now."""

    def end(self) -> None:
        """Ends the way."""


def _left_of(deadline: Optional[float]) -> Optional[float]:
    return None if deadline is None else max(0.0, deadline - time.monotonic())


class _Slot:
    """The place for an answer that has not come."""

    def __init__(self) -> None:
        self.answer: Optional[_Answer] = None


class _Socket:
    """A Unix socket of the daemon.

    Answers come in the order of the requests, but for that of a waiting Receive. Whichever thread needs an answer reads
    for all, until it has its own.
    """

    def __init__(self, path: str) -> None:
        self._socket = socket.socket(socket.AF_UNIX, socket.SOCK_STREAM)
        try:
            self._socket.connect(path)
        except OSError:
            self._socket.close()
            raise
        self._sending = threading.Lock()
        self._state = threading.Condition()
        self._asked: deque[_Slot] = deque()
        self._waiting: Optional[_Slot] = None
        self._is_read = False
        self._fault: Optional[Exception] = None
        self._bytes = bytearray()

    def _send(self, kind: int, fields: bytes, slot: _Slot) -> None:
        with self._sending:
            with self._state:
                if self._fault is not None:
                    raise self._fault
                if kind == _WAIT:
                    self._waiting = slot
                else:
                    self._asked.append(slot)
            try:
                self._socket.sendall(_frame(kind, 0, fields))
            except (BrokenPipeError, ConnectionResetError):
                pass  # what the daemon had to say, and its end, are read
            except BaseException as fault:  # a part of it may have been sent
                self._fault = ServiceEnded(f"a request was cut short: {fault!r}")
                raise

    def ask(self, kind: int, fields: bytes) -> _Answer:
        slot = _Slot()
        self._send(kind, fields, slot)
        answer = self._answer_of(slot, None)
        assert answer is not None
        return answer

    def wait(self, deadline: Optional[float]) -> Optional[_Answer]:
        with self._state:
            slot = self._waiting
        if slot is None or slot.answer == (_EMPTY, b""):  # there is none, or a Detach cancelled it
            slot = _Slot()
            self._send(_WAIT, b"", slot)
        answer = self._answer_of(slot, deadline)
        if answer is not None:
            with self._state:
                self._waiting = None
        return answer

    def take(self) -> Optional[_Answer]:
        with self._state:
            waits = self._waiting is not None
        # If a Receive waits already, what is queued is its answer.
        return self.wait(time.monotonic()) if waits else self.ask(_RECEIVE, b"")

    def _answer_of(self, slot: _Slot, deadline: Optional[float]) -> Optional[_Answer]:
        is_last = False
        with self._state:
            while slot.answer is None:
                if self._fault is not None:
                    raise self._fault
                if is_last:
                    return None
                is_last = deadline is not None and deadline <= time.monotonic()
                if self._is_read:
                    self._state.wait(_left_of(deadline))
                else:
                    self._read(deadline)
        return slot.answer

    def _read(self, deadline: Optional[float]) -> None:
        """Reads what comes, and gives each answer to the slot that it is for. The state is free meanwhile."""
        self._is_read = True
        self._state.release()
        piece: Optional[bytes] = None
        try:
            if select.select([self._socket], [], [], _left_of(deadline))[0]:
                piece = self._socket.recv(1 << 20)
        except ConnectionResetError:
            piece = b""
        except (OSError, ValueError) as fault:
            self._fault = ServiceEnded(f"the connection is closed: {fault}")
        finally:
            self._state.acquire()
            self._is_read = False
            self._state.notify_all()
        if piece == b"":
            self._fault = self._fault or ServiceEnded("the daemon has closed the connection")
        self._bytes += piece or b""
        while len(self._bytes) >= 4 and len(self._bytes) >= 4 + (length := int.from_bytes(self._bytes[:4], "big")):
            body = bytes(self._bytes[4 : 4 + length])
            del self._bytes[: 4 + length]
            self._give(body[2], body[3:])

    def _give(self, tag: int, fields: bytes) -> None:
        waits = self._waiting is not None and self._waiting.answer is None
        if waits and (tag in (_PULSE, _LATE_DATA, _LATE_REFUSED, _EMPTY) or not self._asked):
            assert self._waiting is not None
            self._waiting.answer = (tag, fields)
        elif self._asked:
            self._asked.popleft().answer = (tag, fields)
        elif tag == _REFUSED:
            self._fault = _refusal(fields)  # the daemon's last word
        else:
            self._fault = ServiceEnded("an answer that nobody asked for")

    def end(self) -> None:
        try:
            self._socket.shutdown(socket.SHUT_RDWR)
        except OSError:
            pass
        self._socket.close()


class Service:
    """A service of its own: it starts `pps frames`, and each connection is one of its numbers. A context manager.

    `image` is the file that it begins with, `save` the file that it is saved to at its end, and `limit` the limit of
    handles that name none.
    """

    def __init__(
        self,
        program: Union[str, Sequence[str]] = "pps",
        *,
        image: Optional[str] = None,
        save: Optional[str] = None,
        limit: Optional[int] = None,
    ) -> None:
        words = [program] if isinstance(program, str) else [*program]
        words.append("frames")
        for option, word in (("--image", image), ("--save", save), ("--limit", limit)):
            if word is not None:
                words += [option, str(word)]
        self._program = subprocess.Popen(words, stdin=subprocess.PIPE, stdout=subprocess.PIPE)
        assert self._program.stdin is not None and self._program.stdout is not None
        self._requests: IO[bytes] = self._program.stdin
        self._answers: IO[bytes] = self._program.stdout
        self._changed = threading.Condition()
        self._is_whole = True  # no exchange was interrupted
        self._numbers: set[int] = set()

    def connect(self, number: Optional[int] = None, *, attach: bool = True) -> Connection:
        """A connection with this number, 1 to 1,024, or with the lowest that is free."""
        with self._changed:
            if number is None:
                number = next(free for free in range(1, 65_536) if free not in self._numbers)
            self._numbers.add(number)
        return Connection(_Pipes(self, number), attach=attach)

    def _exchange(self, kind: int, number: int, fields: bytes) -> _Answer:
        """Asks, and reads the answer. Who calls has the lock."""
        if not self._is_whole:
            raise ServiceEnded("a request was interrupted, so answers can't be matched any more")
        self._is_whole = False
        try:
            self._requests.write(_frame(kind, number, fields))
            self._requests.flush()
        except (OSError, ValueError) as fault:
            raise ServiceEnded(f"the service has ended: {fault}") from fault
        length = int.from_bytes(self._exactly(4), "big")
        body = self._exactly(length)
        self._is_whole = True
        if kind != _RECEIVE:
            self._changed.notify_all()
        return body[2], body[3:]

    def _exactly(self, count: int) -> bytes:
        data = self._answers.read(count)
        if len(data) < count:
            raise ServiceEnded(f"the service has ended with status {self._program.wait()}")
        return data

    def _free(self, number: int) -> None:
        with self._changed:
            self._numbers.discard(number)

    def end(self) -> int:
        """Ends the service, which is saved if that was asked for. It gives the program's status: 0 if all went well."""
        with self._changed:
            if not self._requests.closed:
                try:
                    self._requests.close()
                except BrokenPipeError:
                    pass
                self._answers.close()
        return self._program.wait()

    def __enter__(self) -> Service:
        return self

    def __exit__(
        self, kind: Optional[Type[BaseException]], fault: Optional[BaseException], trace: Optional[TracebackType]
    ) -> None:
        status = self.end()
        if status != 0 and kind is None:
            raise ServiceEnded(f"the service has ended with status {status}")


class _Pipes:
    """One number of a service that was started here."""

    def __init__(self, service: Service, number: int, *, is_alone: bool = False) -> None:
        self._service = service
        self._number = number
        self._is_alone = is_alone

    def ask(self, kind: int, fields: bytes) -> _Answer:
        with self._service._changed:
            return self._service._exchange(kind, self._number, fields)

    def take(self) -> Optional[_Answer]:
        return self.ask(_RECEIVE, b"")

    def wait(self, deadline: Optional[float]) -> Optional[_Answer]:
        has_waited = False
        with self._service._changed:
            while True:
                tag, fields = self._service._exchange(_RECEIVE, self._number, b"")
                if has_waited and tag == _REFUSED and isinstance(_refusal(fields), NotAttached):
                    return _EMPTY, b""  # it was detached meanwhile
                if tag != _EMPTY:
                    return tag, fields
                left = _left_of(deadline)
                if left == 0:
                    return None
                self._service._changed.wait(left)
                has_waited = True

    def end(self) -> None:
        self._service._free(self._number)
        if self._is_alone:
            self._service.end()


# ---- connections


class Handle(int):
    """The number of an open, with the calls of its connection. As a context manager it is closed at the end."""

    _connection: Connection

    def __new__(cls, number: int, connection: Connection) -> Handle:
        handle = super().__new__(cls, number)
        handle._connection = connection
        return handle

    def read(self, size: Optional[int] = None) -> Optional[bytes]:
        return self._connection.read(self, size)

    def write(self, text: Union[str, bytes]) -> int:
        return self._connection.write(self, text)

    def notify(self, action: int = POLL, code: int = 0, value: int = 0) -> bool:
        return self._connection.notify(self, action, code, value)

    def close(self) -> None:
        self._connection.close(self)

    def __enter__(self) -> Handle:
        return self

    def __exit__(self, *_: Any) -> None:
        self.close()


class Connection:
    """A connection to a service. `connect`, `start` and `Service.connect` make one. A context manager."""

    def __init__(self, line: _Line, *, attach: bool = True) -> None:
        self._line = line
        self._mail = threading.Condition()
        self._kept: deque[Item] = deque()
        self._watched: set[int] = set()
        self._is_received = False
        self._is_ended = False
        if attach:
            try:
                self.attach()
            except BaseException:
                line.end()
                raise

    def _ask(self, kind: int, fields: bytes = b"") -> _Answer:
        tag, answer = self._line.ask(kind, fields)
        if tag == _REFUSED:
            raise _refusal(answer)
        return tag, answer

    def attach(self) -> None:
        """Attaches. `connect`, `start` and `Service.connect` have done so, unless they were asked not to."""
        self._ask(_ATTACH)

    def detach(self) -> None:
        """Closes all handles, and drops what is queued. A Receive that waits gives None."""
        self._ask(_DETACH)
        with self._mail:
            self._kept.clear()
            self._watched.clear()

    def open(self, text: str, mode: str = "r") -> Handle:
        """Opens an object, `/gps`, or a directory, `/d/.all`, with options after `?`: `/gps?delta,wait`.

        The mode is letters of `r` (read), `w` (write), `c` (create it if it is absent) and `t` (truncate it).
        """
        letters = 0
        for letter in mode:
            if letter not in _MODES or letters & _MODES[letter]:
                raise ValueError(f"no mode: {mode!r}")
            letters |= _MODES[letter]
        _, answer = self._ask(_OPEN, bytes([letters]) + _to_bytes(text))
        return Handle(int.from_bytes(answer, "big"), self)

    def read(self, handle: int, size: Optional[int] = None) -> Optional[bytes]:
        """Reads at most so many bytes. Without a size, it takes as much room as is needed.

        None says that the read is parked: its result will be received as a LateReply.
        """
        try:
            tag, answer = self._ask(_READ, struct.pack(">II", handle, READ_USUAL if size is None else size))
        except TooSmall as refusal:
            if size is not None:
                raise
            return self.read(handle, refusal.argument)
        return None if tag == _PARKED else answer

    def write(self, handle: int, text: Union[str, bytes]) -> int:
        """Writes lines, and gives the number of bytes."""
        data = _to_bytes(text) if isinstance(text, str) else text
        return int.from_bytes(self._ask(_WRITE, struct.pack(">I", handle) + data)[1], "big")

    def close(self, handle: int) -> None:
        """Closes a handle. A read that is parked on it is answered BadHandle."""
        self._ask(_CLOSE, struct.pack(">I", handle))

    def unlink(self, path: str) -> None:
        """Deletes an object, or removes an empty directory."""
        self._ask(_UNLINK, _to_bytes(path))

    def mkdir(self, path: str) -> None:
        """Makes a directory."""
        self._ask(_MKDIR, _to_bytes(path))

    def list(self, path: str = "/") -> List[str]:
        """The names of a directory, in order; those of directories have a `/` at the end."""
        return _to_text(self._ask(_LIST, _to_bytes(path))[1]).split("\n")[:-1]

    def notify(self, handle: int, action: int = POLL, code: int = 0, value: int = 0) -> bool:
        """Whether the handle has news. POLLARM arms a pulse if it has none, TRANARM in any case."""
        return self._ask(_NOTIFY, struct.pack(">IBBI", handle, action, code, value))[1] == b"\x01"

    def receive(self, wait: bool = False, timeout: Optional[float] = None) -> Optional[Item]:
        """The first item that is queued: a Pulse or a LateReply.

        Without `wait`, None says that there is none. With it, it waits, at most `timeout` seconds; None says that
        they are over, or that the connection has detached. What `watch` waits for is not given here.
        """

        def is_wanted(item: Item) -> bool:
            return not (isinstance(item, LateReply) and item.handle in self._watched)

        return self._take(is_wanted, wait, timeout)

    def _take(
        self, is_wanted: Callable[[Item], bool], wait: bool, timeout: Optional[float] = None
    ) -> Optional[Item]:
        """The first item that is wanted. One thread at a time receives, and keeps what is for others."""
        deadline = None if timeout is None else time.monotonic() + timeout
        while True:
            with self._mail:
                for place, item in enumerate(self._kept):
                    if is_wanted(item):
                        del self._kept[place]
                        return item
                if self._is_received:
                    if not wait or not self._mail.wait(_left_of(deadline)):
                        return None
                    continue
                self._is_received = True
            found: Optional[Item] = None
            try:
                answer = self._line.wait(deadline) if wait else self._line.take()
                if answer is not None and answer[0] == _REFUSED:
                    raise _refusal(answer[1])
                found = None if answer is None else _item(*answer)
            finally:
                with self._mail:
                    self._is_received = False
                    if found is not None:
                        self._kept.append(found)
                    self._mail.notify_all()
            if found is None:
                return None

    def watch(self, text: str) -> Watch:
        """Iterates over the changes of an object or a directory: the first is of everything. See Watch."""
        return Watch(self, text)

    def object(self, path: str, options: str = "", *, write: bool = True, create: bool = True) -> Object:
        """The attributes of an object, as a mapping. See Object."""
        return Object(self, path, options, write=write, create=create)

    def disconnect(self) -> None:
        """Detaches, and ends the connection."""
        if self._is_ended:
            return
        self._is_ended = True
        try:
            self.detach()
        except (ServiceEnded, Refusal):
            pass  # it was detached before, or the service has ended
        finally:
            self._line.end()

    def __enter__(self) -> Connection:
        return self

    def __exit__(self, *_: Any) -> None:
        self.disconnect()


class Watch:
    """An iterator over the changes of an object or a directory, which waits for each.

    It opens the text with `wait`, and reads. With `delta` each change comes, in order; without it, everything after
    each change. After a directory's first members, and if more came than the limit allows, the blocks are those
    that are read. It ends if the object has been deleted, and after `close`, also by another thread.
    """

    def __init__(self, connection: Connection, text: str, *, is_alone: bool = False) -> None:
        path, _, options = text.partition("?")
        self._connection = connection
        self._is_alone = is_alone  # its connection ends with it
        self._handle = connection.open(f"{path}?wait,{options}", "r")
        self._read: deque[Change] = deque()
        self._is_over = False
        with connection._mail:
            connection._watched.add(self._handle)

    def __iter__(self) -> Watch:
        return self

    def __next__(self) -> Change:
        while not self._read:
            if self._is_over:
                raise StopIteration
            try:
                self._read.extend(changes(self._next_data()))
            except (Gone, BadHandle, NotAttached):
                self.close()
        return self._read.popleft()

    def _next_data(self) -> bytes:
        size = READ_USUAL
        while True:
            try:
                data = self._connection.read(self._handle, size)
            except TooSmall as refusal:
                size = refusal.argument
                continue
            except ReadPending:
                data = None  # an interrupt ended the wait before
            if data is not None:
                return data
            late = self._connection._take(self._is_mine, wait=True)
            if not isinstance(late, LateReply):
                raise NotAttached()
            if not isinstance(late.refusal, TooSmall):
                return late.result()
            size = late.refusal.argument

    def _is_mine(self, item: Item) -> bool:
        return isinstance(item, LateReply) and item.handle == self._handle

    def close(self) -> None:
        """Closes the handle: a thread that waits for the next change ends its iteration."""
        if self._is_over:
            return
        self._is_over = True
        try:
            self._connection.close(self._handle)
        except (BadHandle, NotAttached, ServiceEnded):
            pass
        if self._is_alone:
            self._connection.disconnect()

    def __enter__(self) -> Watch:
        return self

    def __exit__(self, *_: Any) -> None:
        self.close()


class Object(MutableMapping[str, Value]):
    """The attributes of an object, as a mapping in the object's order.

    Each look asks the service whether something is new, so it shows what the object is now; `attributes()` gives all
    at once. Each assignment is a write; `update`, with several, is one. Values are those of `decode` and `encode`.
    If the object has been deleted, Gone is raised.

        >>> service = start(PROGRAM)
        >>> with service.object("/gps") as gps:
        ...     gps["speed"] = 70
        ...     gps.update(city="Ottawa", fixed=True, raw=b"\\x00", track=Coded("json", "[1]"))
        ...     gps.set("age", 0.5, persistent=False)
        ...     del gps["fixed"]
        ...     gps.attributes()
        {'speed': 70, 'city': 'Ottawa', 'raw': b'\\x00', 'track': Coded(encoding='json', text='[1]'), 'age': 0.5}
        >>> service.open("/gps", "r").read()
        b'@gps\\nspeed:n:70\\ncity::Ottawa\\nraw:b64:AA==\\ntrack:json:[1]\\n[n]age:n:0.5\\n'
        >>> service.disconnect()
    """

    def __init__(
        self,
        connection: Connection,
        path: str,
        options: str = "",
        *,
        write: bool = True,
        create: bool = True,
        is_alone: bool = False,
    ) -> None:
        mode = ("rwc" if create else "rw") if write else "r"
        self._connection = connection
        self._is_alone = is_alone  # its connection ends with it
        self._handle = connection.open(f"{path}?reflect,{options}", mode)
        self._lines: dict[str, Attribute] = {}

    def lines(self) -> dict[str, Attribute]:
        """All attributes by their names, with encodings and whether they are persistent."""
        while data := self._connection.read(self._handle):
            (change,) = changes(data)
            if change.mark == "-":
                raise Gone()
            self._lines = {line.name: line for line in change.lines if isinstance(line, Attribute)}
        return self._lines

    def attributes(self) -> dict[str, Value]:
        """All attributes at once."""
        return {name: line.value for name, line in self.lines().items()}

    def __getitem__(self, name: str) -> Value:
        return self.lines()[name].value

    def __iter__(self) -> Iterator[str]:
        return iter([*self.lines()])

    def __len__(self) -> int:
        return len(self.lines())

    def __contains__(self, name: Any) -> bool:
        return name in self.lines()

    def items(self) -> ItemsView[str, Value]:
        return self.attributes().items()

    def values(self) -> ValuesView[Value]:
        return self.attributes().values()

    def __setitem__(self, name: str, value: Value) -> None:
        self.set(name, value)

    def set(self, name: str, value: Value, persistent: Optional[bool] = None) -> None:
        """Sets an attribute, and whether it is persistent, if that is said."""
        self._connection.write(self._handle, self._set_line(name, value, persistent))

    def update(self, *given: Any, **named: Value) -> None:
        """Sets several attributes by one write."""
        lines = [self._set_line(name, value) for name, value in dict(*given, **named).items()]
        if lines:
            self._connection.write(self._handle, "".join(lines))

    def __delitem__(self, name: str) -> None:
        if name not in self.lines():
            raise KeyError(name)
        self._connection.write(self._handle, f"-{name}\n")

    def clear(self) -> None:
        """Removes all attributes by one write."""
        if names := [*self.lines()]:
            self._connection.write(self._handle, "".join(f"-{name}\n" for name in names))

    @staticmethod
    def _set_line(name: str, value: Value, persistent: Optional[bool] = None) -> str:
        if not _NAME.fullmatch(name):
            raise ValueError(f"no name of an attribute: {name!r}")
        coded = encode(value)
        mark = {None: "", True: "[-n]", False: "[n]"}[persistent]
        return f"{mark}{name}:{coded.encoding}:{coded.text}\n"

    def close(self) -> None:
        try:
            self._connection.close(self._handle)
        except (BadHandle, NotAttached, ServiceEnded):
            pass
        if self._is_alone:
            self._connection.disconnect()

    def __enter__(self) -> Object:
        return self

    def __exit__(self, *_: Any) -> None:
        self.close()


# ---- how it begins


def default_socket() -> str:
    """Where the daemon listens if nothing else was asked for: `$XDG_RUNTIME_DIR/pps.sock`, or `/run/pps.sock`."""
    folder = os.environ.get("XDG_RUNTIME_DIR")
    return f"{folder}/pps.sock" if folder else "/run/pps.sock"


def connect(path: Optional[str] = None, *, attach: bool = True) -> Connection:
    """A connection to the daemon that listens on this Unix socket."""
    return Connection(_Socket(default_socket() if path is None else path), attach=attach)


def start(
    program: Union[str, Sequence[str]] = "pps",
    *,
    image: Optional[str] = None,
    save: Optional[str] = None,
    limit: Optional[int] = None,
) -> Connection:
    """A connection to a service of its own, which ends with it. See Service."""
    service = Service(program, image=image, save=save, limit=limit)
    return Connection(_Pipes(service, 1, is_alone=True))


def watch(text: str, *, socket: Optional[str] = None) -> Watch:
    """Iterates over the changes of an object or a directory, by a connection of its own. See Watch."""
    connection = connect(socket)
    try:
        return Watch(connection, text, is_alone=True)
    except BaseException:
        connection.disconnect()
        raise


def object(
    path: str, options: str = "", *, write: bool = True, create: bool = True, socket: Optional[str] = None
) -> Object:
    """The attributes of an object, as a mapping, by a connection of its own. See Object."""
    connection = connect(socket)
    try:
        return Object(connection, path, options, write=write, create=create, is_alone=True)
    except BaseException:
        connection.disconnect()
        raise
