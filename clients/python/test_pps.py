#!/usr/bin/env python3
"""Tries the module `pps`: every worked row and every example that a client can say is said through it, and the answers
are compared; and it is tried by itself, with several threads, over pipes and over sockets.

    clients/python/test_pps.py

The program is crates/pps_cli/out/pps_cli of this checkout, or what the variable PPS names. The daemon is what the
variable PPSD names, or clients/out/ppsd; if it is not there, a stand-in in this file takes its place, and that is
reported.
"""

from __future__ import annotations

import contextlib
import doctest
import os
import re
import signal
import socket
import struct
import subprocess
import sys
import tempfile
import threading
import time
import unittest
from collections.abc import Callable, Iterator
from pathlib import Path
from typing import Optional

HERE = Path(__file__).resolve().parent
TOP = HERE.parent.parent
sys.path.insert(0, str(HERE))

import pps  # noqa: E402

PROGRAM = os.environ.get("PPS", str(TOP / "crates/pps_cli/out/pps_cli"))
PPSD = os.environ.get("PPSD", str(HERE.parent / "out/ppsd"))
PATIENCE = 20.0  # seconds after which something that should happen has not


# ---- a script, said through the module


def escaped(data: bytes) -> str:
    def shown(byte: int) -> str:
        if byte == 10:
            return "\\n"
        return "\\\\" if byte == 92 else chr(byte) if 32 <= byte <= 126 else f"\\x{byte:02x}"

    return "".join(map(shown, data))


def unescaped(text: str) -> bytes:
    def meant(found: re.Match[str]) -> str:
        word = found[1]
        return "\n" if word == "n" else "\\" if word == "\\" else chr(int(word[1:], 16))

    return re.sub(r"\\(n|\\|x[0-9A-Fa-f]{2})", meant, text).encode("latin-1")


def data_answer(data: Optional[bytes]) -> str:
    if data is None:
        return "parked"
    return f"data {len(data)} {escaped(data)}" if data else "data 0"


def refused(refusal: pps.Refusal) -> str:
    return f"refused {refusal.number} {refusal}"


def item_answer(item: Optional[pps.Item]) -> str:
    if item is None:
        return "empty"
    if isinstance(item, pps.Pulse):
        return f"pulse {item.code} {item.value}"
    rest = data_answer(item.data) if item.refusal is None else refused(item.refusal)
    return f"done {item.handle} {rest}"


def shown(data: bytes) -> list[str]:
    lines = []
    for change in pps.changes(data):
        for line in change.lines:
            if isinstance(line, pps.Attribute) and line.encoding in ("b", "b64"):
                value = line.value
                if isinstance(value, bool):
                    text = "true" if value else "false"
                elif isinstance(value, bytes):
                    text = f"bytes {len(value)} {escaped(value)}" if value else "bytes 0"
                else:
                    text = "bad"
                lines.append(f"  {line.name}: {text}")
    return lines


def said(connection: pps.Connection, words: str, is_shown: bool) -> list[str]:
    """What a command of a script is answered, without its connection, and the lines that are shown after it."""
    command, _, rest = words.partition(" ")
    after: list[str] = []
    try:
        if command in ("attach", "detach"):
            getattr(connection, command)()
            return ["ok"]
        if command == "receive":
            return [item_answer(connection.receive())]
        if command in ("unlink", "mkdir"):
            getattr(connection, command)(rest)
            return ["ok"]
        if command == "list":
            return [data_answer("".join(f"{name}\n" for name in connection.list(rest)).encode())]
        if command == "open":
            mode, _, text = rest.partition(" ")
            return [f"handle {connection.open(text, mode)}"]
        if command == "write":
            handle, _, text = rest.partition(" ")
            return [f"wrote {connection.write(int(handle), unescaped(text))}"]
        numbers = rest.split(" ")
        if command == "read":
            data = connection.read(int(numbers[0]), int(numbers[1]))
            if is_shown and data:
                after = shown(data)
            return [data_answer(data), *after]
        if command == "close":
            connection.close(int(numbers[0]))
            return ["ok"]
        if command == "notify":
            action = {"poll": pps.POLL, "pollarm": pps.POLLARM, "tranarm": pps.TRANARM}[numbers[1]]
            return [f"input {int(connection.notify(int(numbers[0]), action, int(numbers[2]), int(numbers[3])))}"]
    except pps.Refusal as refusal:
        return [refused(refusal)]
    raise AssertionError(f"no command: {words}")


def run_script(script: str, connect: Callable[[int], pps.Connection], is_shown: bool) -> str:
    """The answers to a script, as `pps run` prints them."""
    connections: dict[str, pps.Connection] = {}
    printed = []
    for line in script.split("\n"):
        if line and not line.startswith("#"):
            number, _, words = line.partition(" ")
            if number not in connections:
                connections[number] = connect(int(number))
            first, *after = said(connections[number], words, is_shown)
            printed += [f"{number} {first}", *after]
    return "".join(f"{line}\n" for line in printed)


# ---- doors: the ways to a fresh service


@contextlib.contextmanager
def over_pipes(**options: int) -> Iterator[Callable[[int], pps.Connection]]:
    with pps.Service(PROGRAM, **options) as service:  # type: ignore[arg-type]
        yield lambda number: service.connect(number, attach=False)


class StandIn:
    """What the daemon does for well-behaved clients, in a thread for each, if there is no daemon."""

    def __init__(self, path: str, **options: int) -> None:
        self.service = pps.Service(PROGRAM, **options)  # type: ignore[arg-type]
        self.lock = threading.RLock()
        self.waiting: dict[int, socket.socket] = {}
        self.listener = socket.socket(socket.AF_UNIX)
        self.listener.bind(path)
        self.listener.listen(64)
        self.clients: list[socket.socket] = []
        threading.Thread(target=self.accept, daemon=True).start()

    def accept(self) -> None:
        with contextlib.suppress(OSError):
            for number in range(1, 2000):
                client, _ = self.listener.accept()
                self.clients.append(client)
                threading.Thread(target=self.serve, args=(number, client), daemon=True).start()

    def ask(self, kind: int, number: int, fields: bytes) -> tuple[int, bytes]:
        with self.service._changed:
            return self.service._exchange(kind, number, fields)

    def answer(self, client: socket.socket, number: int, answer: tuple[int, bytes]) -> None:
        tag, fields = answer
        with contextlib.suppress(OSError):
            client.sendall(struct.pack(">IHB", len(fields) + 3, number, tag) + fields)

    def serve(self, number: int, client: socket.socket) -> None:
        with contextlib.suppress(OSError, pps.ServiceEnded, ValueError):
            with client.makefile("rb") as requests:
                while len(head := requests.read(4)) == 4:
                    body = requests.read(int.from_bytes(head, "big"))
                    with self.lock:
                        self.serve_one(number, client, body[0], body[3:])
                        self.give_waiting()

    def serve_one(self, number: int, client: socket.socket, kind: int, fields: bytes) -> None:
        if kind == 12:
            self.waiting[number] = client
            return
        if kind == 2 and number in self.waiting:
            self.answer(self.waiting.pop(number), number, (10, b""))
        self.answer(client, number, self.ask(kind, number, fields))

    def give_waiting(self) -> None:
        for number, client in list(self.waiting.items()):
            answer = self.ask(11, number, b"")
            if answer[0] != 10:
                del self.waiting[number]
                self.answer(client, number, answer)

    def end(self) -> None:
        self.listener.close()
        for client in self.clients:
            with contextlib.suppress(OSError):
                client.shutdown(socket.SHUT_RDWR)
            client.close()
        with self.lock:
            self.service.end()


@contextlib.contextmanager
def over_sockets(**options: int) -> Iterator[Callable[[int], pps.Connection]]:
    """Connections to a fresh daemon, or to the stand-in, each with a socket of its own."""
    opened: list[pps.Connection] = []
    with tempfile.TemporaryDirectory() as folder:
        path = f"{folder}/socket"

        def connect(_number: int) -> pps.Connection:
            connection = pps.connect(path, attach=False)
            opened.append(connection)
            return connection

        if not os.access(PPSD, os.X_OK):
            stand_in = StandIn(path, **options)
            try:
                yield connect
            finally:
                for connection in opened:
                    connection.disconnect()
                stand_in.end()
            return
        words = [PPSD, "--socket", path, "--pps", PROGRAM]
        words += [word for option, value in options.items() for word in (f"--{option}", str(value))]
        with subprocess.Popen(words) as daemon:
            try:
                until = time.monotonic() + PATIENCE
                while not os.path.exists(path) and daemon.poll() is None and time.monotonic() < until:
                    time.sleep(0.005)
                yield connect
            finally:
                for connection in opened:
                    connection.disconnect()
                daemon.send_signal(signal.SIGTERM)
                status = daemon.wait(PATIENCE)
        assert status == 0, f"the daemon ended with status {status}"


DOORS = {"pipes": over_pipes, "sockets": over_sockets}


# ---- the worked rows


def is_said_over_sockets(script: str) -> bool:
    """Whether each connection's number is one that a daemon gives."""
    return all(1 <= int(number) <= 1_024 for number in re.findall(r"^([0-9]+) ", script, re.MULTILINE))


class Rows(unittest.TestCase):
    """Scripts with their answers, of the worked rows and of the examples."""

    def say(self, door: str) -> int:
        count = 0
        paths = [*(TOP / "tests/cases/rows").glob("*.script"), *(TOP / "examples").glob("*.script")]
        for path in sorted(paths):
            words_path = path.with_suffix(".words")
            words = words_path.read_text().split() if words_path.exists() else []
            script = path.read_bytes().decode("utf-8", "surrogateescape")
            if "--image" in words or (door == "sockets" and not is_said_over_sockets(script)):
                continue
            options = {"limit": int(words[words.index("--limit") + 1])} if "--limit" in words else {}
            with self.subTest(path=path.name, door=door), DOORS[door](**options) as connect:
                printed = run_script(script, connect, "--show" in words)
                self.assertEqual(printed, path.with_suffix(".expect").read_text())
            count += 1
        return count

    def test_over_pipes(self) -> None:
        count = self.say("pipes")
        self.assertGreater(count, 70)
        print(f"test_pps: {count} scripts said over pipes")

    def test_over_sockets(self) -> None:
        count = self.say("sockets")
        self.assertGreater(count, 70)
        by = "to the daemon" if os.access(PPSD, os.X_OK) else "to a stand-in, since there is no daemon"
        print(f"test_pps: {count} scripts said over sockets, {by}")


# ---- the module by itself


class Values(unittest.TestCase):
    def test_values_come_back(self) -> None:
        values: list[pps.Value] = [
            True,
            False,
            0,
            -7,
            10**30,
            0.5,
            -1e-300,
            1.5e300,
            b"",
            b"\x00\xff",
            "",
            "a:b é \udcff",
        ]
        for value in [*values, pps.Coded("json", "[1]")]:
            coded = pps.encode(value)
            self.assertEqual(pps.decode(*coded), value)
            self.assertIs(type(pps.decode(*coded)), type(value))

    def test_what_is_no_value(self) -> None:
        values: list[pps.Value] = ["a\nb", pps.Coded("a:b", ""), pps.Coded("x" * 33, ""), pps.Coded("é", "")]
        for value in [*values, float("nan"), float("inf")]:
            with self.assertRaises(ValueError):
                pps.encode(value)
        for other in (None, [1], 1j):
            with self.assertRaises(TypeError):
                pps.encode(other)  # type: ignore[arg-type]

    def test_texts_that_their_encoding_does_not_allow(self) -> None:
        for encoding, text in (
            ("b", "True"), ("b", ""), ("n", ""), ("n", "1_0"), ("n", " 1"), ("n", "١"), ("n", "1e99999"), ("n", "0x1"),
            ("n", "9" * 5000), ("b64", "AA="), ("b64", "AB=="), ("b64", "A A="), ("b64", "ü"), ("s", "text"),
        ):  # fmt: skip
            self.assertEqual(pps.decode(encoding, text), pps.Coded(encoding, text))

    def test_changes(self) -> None:
        data = b"!@gps\na::1\n[n]b:n:2\n+@x.7\n-@y\n#@z\n*@-:[n]\n@s\n-a\na::3\nc::4\nc::5\n-c\n"
        found = pps.changes(data)
        self.assertEqual("".join(map(str, found)).encode(), data)
        self.assertEqual([change.mark for change in found], ["!", "+", "-", "#", "*", ""])
        self.assertEqual(found[0].attributes, {"a": "1", "b": 2})
        self.assertEqual((found[-1].attributes, found[-1].removed), ({"a": "3"}, ("c",)))
        self.assertEqual(pps.changes(b""), [])
        with self.assertRaises(ValueError):
            pps.changes(b"@a\nno line\n")


class Doors(unittest.TestCase):
    """What is tried over pipes and over sockets alike."""

    def through(self, trial: Callable[[pps.Connection, pps.Connection], None]) -> None:
        for door, opened in DOORS.items():
            with self.subTest(door=door), opened() as connect:
                first, second = connect(1), connect(2)
                first.attach()
                second.attach()
                trial(first, second)

    def test_refusals_have_their_names(self) -> None:
        def trial(first: pps.Connection, second: pps.Connection) -> None:
            with self.assertRaises(pps.NotFound):
                second.open("/none")
            with self.assertRaises(pps.BadText) as found:
                first.open("/a", "rwc").write("a::1\nb\n")
            self.assertEqual((found.exception.argument, str(found.exception)), (2, "BadText 2"))
            with self.assertRaises(ValueError):
                first.open("/a", "x")

        self.through(trial)

    def test_an_object_is_a_mapping(self) -> None:
        def trial(first: pps.Connection, second: pps.Connection) -> None:
            with first.object("/gps") as gps, second.object("/gps", write=False, create=False) as seen:
                self.assertEqual((len(gps), dict(gps)), (0, {}))
                gps["speed"] = 70
                gps.update({"city": "Ottawa", "raw": b"\n"}, fixed=False)
                self.assertEqual(
                    [*seen.items()], [("speed", 70), ("city", "Ottawa"), ("raw", b"\n"), ("fixed", False)]
                )
                gps["speed"] += 1  # type: ignore[operator]
                self.assertEqual((seen["speed"], "city" in seen, "none" in seen), (71, True, False))
                gps.set("age", 1.5, persistent=False)
                self.assertEqual(seen.lines()["age"], pps.Attribute("age", "n", "1.5", persistent=False))
                self.assertEqual(gps.pop("age"), 1.5)
                with self.assertRaises(KeyError):
                    del gps["age"]
                for name in ("a:b", "a\nb", "", "9", "é", "x" * 256):
                    with self.assertRaises(ValueError):
                        gps[name] = 1
                with self.assertRaises(ValueError):
                    gps["text"] = "a::1\nb::2"
                with self.assertRaises(pps.BadMode):
                    seen["speed"] = 1
                gps.clear()
                self.assertEqual(dict(seen), {})
                first.unlink("/gps")
                with self.assertRaises(pps.Gone):
                    dict(seen)
                with self.assertRaises(pps.Gone):
                    dict(seen)

        self.through(trial)

    def test_a_large_read_takes_the_room_it_needs(self) -> None:
        def trial(first: pps.Connection, second: pps.Connection) -> None:
            for place in range(3):
                first.open(f"/o{place}", "rwc").write("a::" + "x" * 60_000)
            data = second.open("/.all").read()
            assert data is not None
            self.assertEqual(len(data), 3 * (60_000 + 8))

        self.through(trial)

    def test_it_watches(self) -> None:
        def trial(first: pps.Connection, second: pps.Connection) -> None:
            gps = first.open("/gps", "rwc")
            found: list[pps.Change] = []
            watch = second.watch("/gps?delta")
            watcher = threading.Thread(target=lambda: found.extend(watch))
            watcher.start()
            for number in range(50):
                gps.write(f"speed:n:{number}\n")
            first.unlink("/gps")
            watcher.join(PATIENCE)
            self.assertFalse(watcher.is_alive())
            speeds = [change.attributes["speed"] for change in found if "speed" in change.attributes]
            self.assertEqual(speeds, [*range(50 - len(speeds), 50)])
            self.assertEqual((found[-1].mark, found[-1].name), ("-", "gps"))
            # what is read first is everything, large or not, and waits are no longer than they are asked to be
            big = first.open("/big", "rwc")
            big.write("a::" + "x" * 65_000)
            with second.watch("/big?delta") as changes:
                self.assertEqual(len(str(next(changes))), 65_009)
                big.write("b::" + "y" * 500)
                self.assertEqual(next(changes).attributes, {"b": "y" * 500})

        self.through(trial)

    def test_several_watch_on_one_connection(self) -> None:
        def trial(first: pps.Connection, second: pps.Connection) -> None:
            handles = [first.open(f"/o{place}", "rwc") for place in range(5)]
            watches = [second.watch(f"/o{place}?delta") for place in range(5)]
            counts = [0] * 5

            def count(place: int) -> None:
                for change in watches[place]:
                    counts[place] += len(change.lines)

            threads = [threading.Thread(target=count, args=(place,)) for place in range(5)]
            for thread in threads:
                thread.start()
            for number in range(40):
                for handle in handles:
                    handle.write(f"a{number}::{number}\n")
            reader = second.open("/o0", "r")
            until = time.monotonic() + PATIENCE
            while counts != [40] * 5 and time.monotonic() < until:
                time.sleep(0.01)
                reader.notify()  # other requests are answered meanwhile
            self.assertEqual(counts, [40] * 5)
            for watch in watches[:3]:
                watch.close()
            for place in (3, 4):
                first.unlink(f"/o{place}")
            for thread in threads:
                thread.join(PATIENCE)
                self.assertFalse(thread.is_alive())

        self.through(trial)

    def test_it_receives(self) -> None:
        def trial(first: pps.Connection, second: pps.Connection) -> None:
            gps = first.open("/gps", "rwc")
            view = second.open("/gps?wait,delta")
            self.assertEqual(view.read(), b"@gps\n")
            self.assertIsNone(second.receive())
            begun = time.monotonic()
            self.assertIsNone(second.receive(wait=True, timeout=0.05))
            self.assertLess(time.monotonic() - begun, PATIENCE)
            self.assertFalse(view.notify(pps.POLLARM, 7, 42))
            self.assertIsNone(view.read(100))
            with self.assertRaises(pps.ReadPending):
                view.read(100)
            gps.write("a::1\n")
            self.assertEqual(second.receive(wait=True, timeout=PATIENCE), pps.Pulse(7, 42))
            self.assertEqual(second.receive(wait=True), pps.LateReply(view, b"@gps\na::1\n"))
            self.assertIsNone(second.receive())
            self.assertIsNone(view.read(4))
            view.close()
            late = second.receive(wait=True)
            assert isinstance(late, pps.LateReply)
            with self.assertRaises(pps.BadHandle):
                late.result()
            # a Receive that waits ends if the connection detaches
            found: list[Optional[pps.Item]] = []
            waiter = threading.Thread(target=lambda: found.append(second.receive(wait=True)))
            waiter.start()
            time.sleep(0.05)
            second.detach()
            if waiter.is_alive():
                first.notify(gps)  # over pipes it looks again when somebody else has asked
            waiter.join(PATIENCE)
            self.assertEqual(found, [None])

        self.through(trial)

    def test_many_threads_ask_at_once(self) -> None:
        def trial(first: pps.Connection, second: pps.Connection) -> None:
            def work(connection: pps.Connection, place: int) -> None:
                with connection.object(f"/o{place}") as mine:
                    for number in range(60):
                        mine["n"] = number
                        self.assertEqual(mine["n"], number)
                    done.append(place)

            done: list[int] = []
            threads = [
                threading.Thread(target=work, args=((first, second)[place % 2], place)) for place in range(10)
            ]
            for thread in threads:
                thread.start()
            for thread in threads:
                thread.join(PATIENCE)
            self.assertEqual(sorted(done), [*range(10)])

        self.through(trial)


class OwnConnections(unittest.TestCase):
    def test_each_has_a_connection_of_its_own(self) -> None:
        with tempfile.TemporaryDirectory() as folder:
            stand_in = StandIn(f"{folder}/socket")
            path = f"{folder}/socket"
            with pps.object("/gps", socket=path) as gps:
                gps["speed"] = 70
                changes = pps.watch("/gps?delta", socket=path)
                self.assertEqual(next(changes).attributes, {"speed": 70})
                gps["speed"] = 71
                self.assertEqual(next(changes).attributes, {"speed": 71})
                with pps.connect(path) as other:
                    later = threading.Timer(0.05, other.unlink, ("/gps",))
                    later.start()
                    self.assertEqual([change.mark for change in changes], ["-"])
                    later.join(PATIENCE)
            with self.assertRaises(pps.NotFound):
                pps.watch("/none", socket=path)
            with self.assertRaises(pps.NotFound):
                pps.object("/none", create=False, socket=path)
            stand_in.end()


class Programs(unittest.TestCase):
    def test_it_saves_and_loads(self) -> None:
        with tempfile.TemporaryDirectory() as folder:
            image = f"{folder}/image"
            with pps.start(PROGRAM, save=image) as service, service.object("/gps") as gps:
                gps["speed"] = 70
            self.assertEqual(Path(image).read_bytes(), b"PPSIMAGE 2 256\nO /gps 1\nspeed:n:70\nE 1\n")
            with pps.start([PROGRAM], image=image) as service:
                self.assertEqual(service.list(), ["gps"])

    def test_a_service_that_ends_is_said(self) -> None:
        with self.assertRaises(pps.ServiceEnded):
            pps.start("/bin/false")
        with pps.Service(PROGRAM) as service:
            first = service.connect()
            self.assertEqual((service.end(), service.end()), (0, 0))
            with self.assertRaises(pps.ServiceEnded):
                first.list()
            first.disconnect()

    def test_numbers_are_given_again(self) -> None:
        with pps.Service(PROGRAM) as service:
            first = service.connect()
            with service.connect() as second:
                second.list()
            first.disconnect()
            with service.connect() as third:
                self.assertEqual(third.list(), [])
            with self.assertRaises(pps.BadArgument):
                service.connect(1_025)

    def test_a_daemon_that_is_not_there(self) -> None:
        with tempfile.TemporaryDirectory() as folder, self.assertRaises(OSError):
            pps.connect(f"{folder}/none")

    def test_a_daemon_that_ends(self) -> None:
        """Whoever waits for an answer is not left waiting."""
        for last, wanted in (
            (b"", pps.ServiceEnded),
            (bytes.fromhex("00000008 0000 00 18 00000000"), pps.TableFull),
        ):
            with tempfile.TemporaryDirectory() as folder:
                listener = socket.socket(socket.AF_UNIX)
                listener.bind(f"{folder}/socket")
                listener.listen()

                def refuse(words: bytes = last) -> None:
                    client, _ = listener.accept()
                    client.recv(7)
                    client.sendall(words)
                    client.close()

                refusing = threading.Thread(target=refuse)
                refusing.start()
                with self.assertRaises(wanted):
                    pps.connect(f"{folder}/socket")
                refusing.join(PATIENCE)
                listener.close()


def load_tests(
    _loader: unittest.TestLoader, tests: unittest.TestSuite, _pattern: Optional[str]
) -> unittest.TestSuite:
    """The examples of the module's documents are tests too."""
    tests.addTests(doctest.DocTestSuite(pps, extraglobs={"PROGRAM": PROGRAM}))
    return tests


if __name__ == "__main__":
    if "PPS" not in os.environ:
        subprocess.run([TOP / "pps", "--version"], stdout=subprocess.DEVNULL, check=True)
    unittest.main()
