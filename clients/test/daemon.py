"""A ppsd that is tried, and a client of it that has nothing of the C client in it."""

import os
import resource
import socket
import struct
import subprocess
import threading
import time
from pathlib import Path

CLIENTS = Path(__file__).resolve().parent.parent
OUT = Path(os.environ.get("OUT", CLIENTS / "out"))
TOP = CLIENTS.parent
PPS = Path(os.environ.get("PPS", TOP / "crates" / "pps_cli" / "out" / "pps_cli"))

ATTACH, DETACH, OPEN, READ, WRITE, CLOSE, UNLINK, MKDIR, LIST, NOTIFY, RECEIVE, WAIT = range(1, 13)
REFUSED, DONE, OPENED, DATA, WROTE, PARKED, INPUT, PULSE, LATE, LATE_REFUSED, EMPTY = range(11)
NOT_ATTACHED, BAD_HANDLE, READ_PENDING, TABLE_FULL = 3, 13, 18, 24
R, W, C, T = 1, 2, 4, 8
POLLARM = 2
BAD_FRAME = bytes.fromhex("00000008 0000 00 02 00000000")
PATIENCE = int(os.environ.get("PATIENCE", 30))


class Daemon:
    """A ppsd in a folder of its own."""

    def __init__(self, folder, *words, environment=None, wait=True, limit=None):
        self.folder = Path(folder)
        self.socket = self.folder / "socket"
        self.errors = self.folder / "errors"
        with open(self.errors, "ab") as errors:
            command = [OUT / "ppsd", "--socket", self.socket, "--pps", PPS, *words]
            self.process = subprocess.Popen(
                command, stderr=errors, env={**os.environ, **(environment or {})},
                preexec_fn=limit and (lambda: resource.setrlimit(resource.RLIMIT_FSIZE, (limit, limit))))
        if wait:
            self.client().close()

    def __enter__(self):
        return self

    def __exit__(self, *_):
        if self.process.poll() is None:
            self.process.kill()
            self.process.wait()

    def client(self):
        """A client, as soon as the daemon listens."""
        end = time.monotonic() + PATIENCE
        while True:
            try:
                return Client(self.socket)
            except (FileNotFoundError, ConnectionRefusedError):
                if self.process.poll() is not None or time.monotonic() > end:
                    raise ConnectionError(f"the daemon does not listen: {self.errors.read_text()}") from None
                time.sleep(0.002)

    def attached(self):
        client = self.client()
        assert client.ask(ATTACH) == (DONE, b"")
        return client

    def end(self):
        """SIGTERM; its status."""
        self.process.terminate()
        return self.process.wait(PATIENCE)

    def check_idle(self):
        """Whether it does nothing while nothing happens."""

        def ticks():
            return sum(int(word) for word in Path(f"/proc/{self.process.pid}/stat").read_text().split()[13:15])

        time.sleep(0.1)
        before = ticks()
        time.sleep(0.2)
        assert ticks() - before < 5, "the daemon is busy although nothing happens"

    def service(self):
        """The process of the service."""
        number = self.process.pid
        return int(Path(f"/proc/{number}/task/{number}/children").read_text().split()[0])


class Client:
    """A socket that speaks frames, with nothing of the C client in it."""

    def __init__(self, path):
        self.socket = socket.socket(socket.AF_UNIX)
        self.socket.connect(str(path))
        self.socket.settimeout(PATIENCE)
        self.number = None
        self.held = b""

    def close(self):
        self.socket.close()

    def send(self, kind, fields=b""):
        self.socket.sendall(frame(kind, fields))

    def take(self, length):
        while len(self.held) < length:
            try:
                piece = self.socket.recv(1 << 20)
            except ConnectionResetError:
                piece = b""
            if not piece:
                raise EOFError
            self.held += piece
        taken, self.held = self.held[:length], self.held[length:]
        return taken

    def answer(self):
        (length,) = struct.unpack(">I", self.take(4))
        body = self.take(length)
        number, tag = struct.unpack(">HB", body[:3])
        if self.number is None:
            self.number = number
        assert number == self.number, f"an answer for {number} at {self.number}"
        return tag, body[3:]

    def ask(self, kind, fields=b""):
        self.send(kind, fields)
        return self.answer()

    def rest(self):
        """All that comes until the daemon closes."""
        rest = self.held
        while True:
            try:
                piece = self.socket.recv(1 << 20)
            except ConnectionResetError:
                return rest
            if not piece:
                return rest
            rest += piece

    def open(self, mode, text):
        tag, fields = self.ask(OPEN, bytes([mode]) + text.encode())
        assert tag == OPENED, (text, tag, fields)
        return struct.unpack(">I", fields)[0]

    def read(self, handle, size=17_000_000):
        return self.ask(READ, struct.pack(">II", handle, size))

    def whole(self, path):
        """What is at a path now."""
        handle = self.open(R, path)
        answer = self.read(handle)
        same(self.ask(CLOSE, struct.pack(">I", handle)), (DONE, b""))
        return answer

    def write(self, handle, text):
        return self.ask(WRITE, struct.pack(">I", handle) + text)


def frame(kind, fields=b"", number=0):
    return struct.pack(">IBH", 3 + len(fields), kind, number) + fields


def refusal(number, argument=0):
    return REFUSED, struct.pack(">BI", number, argument)


def until(condition, words):
    end = time.monotonic() + PATIENCE
    while not condition():
        assert time.monotonic() < end, words
        time.sleep(0.005)


def same(given, expected):
    assert given == expected, f"{given!r:.500}, not {expected!r:.500}"


def together(count, work):
    """Runs work(0), work(1), .. in threads; the first fault is raised."""
    faults = []

    def run(number):
        try:
            work(number)
        except BaseException as fault:  # pylint: disable=broad-except
            faults.append(fault)

    threads = [threading.Thread(target=run, args=(number,)) for number in range(count)]
    for thread in threads:
        thread.start()
    for thread in threads:
        thread.join()
    if faults:
        raise faults[0]
