"""What ppsd does for its clients, tried: each part is given an empty folder, and gives the words to be printed."""

import os
import random
import resource
import signal
import socket
import struct
import subprocess
import threading
import time
from pathlib import Path

from daemon import (
    ATTACH, BAD_FRAME, C, CLOSE, Client, DATA, DETACH, DONE, Daemon, EMPTY, LATE, LIST, MKDIR, NOTIFY, NOT_ATTACHED,
    OPEN, OPENED, OUT, PARKED, PATIENCE, PPS, R, READ, READ_PENDING, RECEIVE, REFUSED, T, TOP, UNLINK, W, WAIT, WRITE,
    WROTE, frame, refusal, same, together, until,
)

ROWS = TOP / "tests" / "cases" / "rows"


# What a client can say of a script: its connections are 1 to 1,024, and it shows no values.
def said_of(script, expect):
    lines = [line for line in script.split("\n") if line and not line.startswith("#")]
    answers = [line for line in expect.split("\n") if line and not line.startswith("  ")]
    assert len(lines) == len(answers), "an answer for each line"
    pairs = [pair for pair in zip(lines, answers) if 1 <= int(pair[0].split(" ")[0]) <= 1_024]
    return "".join(f"{line}\n" for line, _ in pairs), "".join(f"{answer}\n" for _, answer in pairs)


def rows(folder, _):
    """Each worked row, said through the C client."""
    count = 0
    for path in sorted(ROWS.glob("*.script")):
        words = path.with_suffix(".words")
        given = [word for word in words.read_text().split() if word != "--show"] if words.exists() else []
        script, expected = said_of(path.read_text(), path.with_suffix(".expect").read_text())
        with Daemon(folder, *given) as daemon:
            command = [OUT / "say", daemon.socket]
            ran = subprocess.run(command, input=script, capture_output=True, text=True, check=False)
            assert (ran.stdout, ran.stderr, ran.returncode) == (expected, "", 0), f"{path.name}: {ran}"
            same(daemon.end(), 0)
        count += 1
    return f"{count} rows"


# Lines that are said through the C client, with their answers.
WAITS = """\
1 attach: ok
2 attach: ok
1 open wc /gps: handle 1
2 open r /gps?delta,wait: handle 2
2 read 2 99: data 5 @gps\\n
2 read 2 99: parked
2 begin: ok
2 begin: refused 18 ReadPending
2 receive: refused 18 ReadPending
2 list /: data 4 gps\\n
1 write 1 a::1\\n: wrote 5
2 list /: data 4 gps\\n
2 wait: done 2 data 10 @gps\\na::1\\n
2 receive: empty
2 notify 2 pollarm 7 9: input 0
1 write 1 a::2\\n: wrote 5
2 wait: pulse 7 9
2 begin: ok
2 detach: ok
2 wait: empty
2 wait: refused 3 NotAttached
"""


def c_waits(folder, _):
    """The waiting Receive of the C client."""
    steps = [line.rsplit(": ", 1) for line in WAITS.splitlines()]
    with Daemon(folder) as daemon:
        script = "".join(f"{line}\n" for line, _ in steps)
        ran = subprocess.run([OUT / "say", daemon.socket], input=script, capture_output=True, text=True, check=False)
        same(ran.stdout.splitlines(), [line.split(" ")[0] + " " + answer for line, answer in steps])
        same(daemon.end(), 0)
    return f"{len(steps)} lines"


def waits(folder, _):
    """The waiting Receive."""
    with Daemon(folder) as daemon:
        one, two = daemon.attached(), daemon.attached()
        gps = one.open(W | C, "/gps")
        news = two.open(R, "/gps?delta,wait")
        same(two.read(news), (DATA, b"@gps\n"))
        same(two.read(news), (PARKED, b""))
        # (later requests are not held up, and a second one is refused in its turn, as is one without waiting)
        two.socket.sendall(frame(WAIT) + frame(LIST, b"/") + frame(WAIT) + frame(RECEIVE) + frame(LIST, b"/"))
        pending = refusal(READ_PENDING)
        same([two.answer() for _ in range(4)], [(DATA, b"gps\n"), pending, pending, (DATA, b"gps\n")])
        same(one.write(gps, b"a::1\n"), (WROTE, struct.pack(">I", 5)))
        same(two.answer(), (LATE, struct.pack(">I", news) + b"@gps\na::1\n"))
        # (what is queued already is given at once)
        same(two.read(news), (PARKED, b""))
        one.write(gps, b"a::2\n")
        same(two.ask(WAIT), (LATE, struct.pack(">I", news) + b"@gps\na::2\n"))
        same(two.ask(RECEIVE), (EMPTY, b""))
        cancelled_waits(daemon)
        woken_waits(daemon)
        reattached_waits(daemon)
        daemon.check_idle()
        same(daemon.end(), 0)
    return "given, refused, cancelled, woken by each kind"


def cancelled_waits(daemon):
    client = daemon.client()
    same(client.ask(WAIT), refusal(NOT_ATTACHED))
    client.socket.sendall(frame(ATTACH) + frame(WAIT) + frame(DETACH) + frame(LIST, b"/"))
    same([client.answer() for _ in range(4)], [(DONE, b""), (EMPTY, b""), (DONE, b""), refusal(NOT_ATTACHED)])
    # (one that comes after the Detach is not cancelled by it)
    client.socket.sendall(frame(ATTACH) + frame(DETACH) + frame(ATTACH) + frame(WAIT) + frame(LIST, b"/nothing"))
    same([client.answer()[0] for _ in range(4)], [DONE, DONE, DONE, REFUSED])
    client.socket.shutdown(socket.SHUT_WR)
    same(client.answer(), (EMPTY, b""))
    same(client.rest(), b"")


def woken_waits(daemon):
    """A waiting client is woken by whatever makes news, also by a client that goes away."""
    one, two = daemon.attached(), daemon.attached()
    one.ask(MKDIR, b"/w")
    watch = two.open(R, "/w/.all?delta,wait")
    same(two.read(watch), (DATA, b""))
    gone = daemon.attached()
    handles = {}

    def opens(name, client, mode, text):
        handles[name] = client.open(mode, text)

    steps = [
        (lambda: opens("a", one, W | C, "/w/a"), b"+@a\n"),
        (lambda: one.write(handles["a"], b"x::1\n"), b"@a\nx::1\n"),
        (lambda: opens("t", one, W | T, "/w/a"), b"#@a\n"),
        (lambda: opens("c", one, W, "/w/a?critical"), None),
        (lambda: one.ask(CLOSE, struct.pack(">I", handles["c"])), b"*@a\n"),
        (lambda: one.ask(UNLINK, b"/w/a"), b"-@a\n"),
        (lambda: opens("s", one, R | W | C, "/w/s?server"), b"+@s\n"),
        (lambda: one.ask(DETACH), b"-@s\n"),
        (lambda: opens("g", gone, R | W | C, "/w/g?server"), b"+@g\n"),
        (gone.close, b"-@g\n"),
    ]
    for step, expected in steps:
        if expected is None:
            step()
            continue
        same(two.read(watch), (PARKED, b""))
        two.send(WAIT)
        same(two.ask(LIST, b"/nothing")[0], REFUSED)
        step()
        same(two.answer(), (LATE, struct.pack(">I", watch) + expected))


def reattached_waits(daemon):
    """A client that waits detaches and attaches again while others write: no item of its next attachment is lost."""
    one, two = daemon.attached(), daemon.attached()
    path = b"/busy"
    busy = one.open(W | C, path.decode())
    last = two.open(R, "/busy?delta,wait")
    over = threading.Event()

    def write():
        asked = frame(WRITE, struct.pack(">I", busy) + b"a::1\n")
        while not over.is_set():
            one.socket.sendall(asked * 50)
            for _ in range(50):
                same(one.answer()[0], WROTE)

    def wait():
        try:
            wait_often()
        finally:
            over.set()

    def wait_often():
        late, parked = last, 0
        for _ in range(200):
            late += 1
            read = frame(READ, struct.pack(">II", late, 100_000))
            opened = frame(OPEN, bytes([R]) + path + b"?delta,wait")
            two.send(WAIT)
            same(two.ask(LIST, b"/nothing")[0], REFUSED)
            two.socket.sendall(frame(DETACH) + frame(ATTACH) + opened + read + read)
            same([two.answer()[0] for _ in range(5)], [EMPTY, DONE, DONE, OPENED, DATA])
            if two.answer()[0] == PARKED:
                parked += 1
                same(two.ask(WAIT)[0], LATE)
        assert parked > 0

    together(2, lambda number: wait() if number else write())


def many(folder, _):
    """200 clients at once, each with an object of its own, and all with one in common."""
    count, changes = 200, 20
    with Daemon(folder) as daemon:
        publisher = daemon.attached()
        news = publisher.open(W | C, "/news")
        ready = threading.Barrier(count + 1)
        gone = threading.Barrier(count + 1)

        def work(number):
            client = daemon.attached()
            path = f"/own{number}"
            own = client.open(R | W | C, path + "?reflect")
            waited = client.open(R, "/news?delta,wait,limit=1000")
            same(client.read(waited), (DATA, b"@news\n"))
            # (a pipeline: all requests first, then all answers)
            texts = [b"n:n:%d\nid:n:%d\n" % (change, number) for change in range(50)]
            asked = frame(READ, struct.pack(">II", own, 1000))
            client.socket.sendall(b"".join(frame(WRITE, struct.pack(">I", own) + text) + asked for text in texts))
            for text in texts:
                same(client.answer(), (WROTE, struct.pack(">I", len(text))))
                same(client.answer(), (DATA, b"@" + path[1:].encode() + b"\n" + text))
            ready.wait(PATIENCE)
            given = b""
            while given.count(b"n:n:") < changes:
                tag, fields = client.read(waited)
                if tag == PARKED:
                    tag, fields = client.ask(WAIT)
                    same((tag, fields[:4]), (LATE, struct.pack(">I", waited)))
                    fields = fields[4:]
                given += fields
            same(given, b"".join(b"@news\nn:n:%d\n" % change for change in range(changes)))
            gone.wait(PATIENCE)
            client.close()

        def publish():
            ready.wait(PATIENCE)
            for change in range(changes):
                publisher.write(news, b"n:n:%d\n" % change)
            gone.wait(PATIENCE)

        together(count + 1, lambda number: work(number) if number < count else publish())
        same(len(publisher.ask(LIST, b"/")[1].splitlines()), count + 1)
        same(daemon.end(), 0)
    return f"{count} clients"


def be_killed(path, number):
    """In a process of its own: makes requests until it is killed."""
    chance = random.Random(number)
    client = Client(path)
    client.ask(ATTACH)
    client.ask(OPEN, bytes([R | W | C]) + f"/k/s{number}?server".encode())
    (own,) = struct.unpack(">I", client.ask(OPEN, bytes([R | W | C]) + b"/shared")[1])
    (waited,) = struct.unpack(">I", client.ask(OPEN, bytes([R]) + b"/shared?delta,wait")[1])
    while True:
        asked = frame(WRITE, struct.pack(">I", own) + b"k%d:n:%d\n" % (number, chance.randrange(1000)))
        asked += frame(READ, struct.pack(">II", waited, 1000)) + frame(RECEIVE)
        client.socket.sendall(asked * chance.randrange(1, 5))
        if chance.random() < 0.3:
            client.send(WAIT)
        # (in the middle of a frame it stops for a while)
        client.socket.sendall(asked[:-1 - chance.randrange(len(asked) - 1)])
        time.sleep(chance.random() / 1000)
        client.socket.sendall(asked[len(asked):])
        client.close() if chance.random() < 0.05 else client.socket.recv(1 << chance.randrange(1, 14))


def killed(folder, _):
    """Clients that are killed at random beside others, which lose no answer."""
    rounds, others = 60, 10
    with Daemon(folder) as daemon:
        observer = daemon.attached()
        observer.ask(MKDIR, b"/k")
        over = threading.Event()
        counts = [0] * others

        def go_on(number):
            client = daemon.attached()
            own = client.open(R | W | C, f"/o{number}?reflect")
            while not over.is_set():
                counts[number] += 1
                text = b"n:n:%d\n" % counts[number]
                same(client.write(own, text), (WROTE, struct.pack(">I", len(text))))
                same(client.read(own), (DATA, b"@o%d\n" % number + text))

        def kill():
            chance = random.Random(1)
            children = []
            for number in range(rounds):
                child = os.fork()
                if child == 0:
                    try:
                        be_killed(daemon.socket, number)
                    finally:
                        os._exit(0)
                children.append(child)
                time.sleep(chance.random() / 50)
                if len(children) > 20:
                    end_child(children.pop(chance.randrange(len(children))))
            for child in children:
                end_child(child)
            over.set()

        together(others + 1, lambda number: go_on(number) if number < others else kill())
        until(lambda: observer.ask(LIST, b"/k") == (DATA, b""), "servers of clients that were killed are left")
        same(daemon.end(), 0)
    return f"{rounds} killed, {sum(counts)} answers to others"


def end_child(child):
    os.kill(child, signal.SIGKILL)
    os.waitpid(child, 0)


MALFORMED = {
    "a length under 3": struct.pack(">I", 2) + b"\x01\x00",
    "a length over 131,072": struct.pack(">I", 131_073),
    "kind 0": frame(0),
    "kind 13": frame(13),
    "a number of its own": frame(ATTACH, number=1),
    "a field cut short": frame(READ, b"\0" * 7),
    "bytes after": frame(ATTACH, b"x"),
    "bytes after a waiting Receive": frame(WAIT, b"x"),
    "a mode above 15": frame(OPEN, b"\x10/a"),
    "an open without its mode": frame(OPEN),
    "action 0": frame(NOTIFY, struct.pack(">IBBI", 1, 0, 0, 0)),
    "action 4": frame(NOTIFY, struct.pack(">IBBI", 1, 4, 0, 0)),
}


def malformed(folder, _):
    """Malformed frames, frames cut short, and bytes at random: that client alone is closed, after its answers."""
    count = 0
    with Daemon(folder) as daemon:
        other = daemon.attached()
        for name, bad in MALFORMED.items():
            client = daemon.client()
            client.socket.sendall(frame(ATTACH) + frame(LIST, b"/") + bad + frame(DETACH))
            same([client.answer() for _ in range(2)], [(DONE, b""), (DATA, b"")])
            assert client.rest() == BAD_FRAME, name
            same(other.ask(LIST, b"/"), (DATA, b""))
            count += 1
        whole = frame(ATTACH) + frame(OPEN, bytes([R | W | C]) + b"/cut?server")
        for cut in range(len(whole) + 1):
            client = daemon.client()
            client.socket.sendall(whole[:cut])
            client.socket.shutdown(socket.SHUT_WR)
            rest = client.rest()
            same(rest.endswith(BAD_FRAME), cut not in (0, 7, len(whole)))
            until(lambda: other.ask(LIST, b"/") == (DATA, b""), "a client that was cut short is still there")
            count += 1
        chance = random.Random(2)
        for _ in range(200):
            client = daemon.client()
            asked = bytearray(frame(ATTACH) + frame(LIST, b"/") + frame(WAIT))
            asked += frame(WRITE, b"\0\0\0\1a::1\n") + frame(DETACH)
            for _ in range(chance.randrange(1, 4)):
                asked[chance.randrange(len(asked))] = chance.randrange(256)
            client.socket.sendall(asked)
            client.socket.shutdown(socket.SHUT_WR)
            client.rest()
            same(other.ask(LIST, b"/"), (DATA, b""))
            count += 1
        daemon.check_idle()
        same(daemon.end(), 0)
    return f"{count} streams"


def slow(folder, _):
    """Clients that do not read: they are detached, and the others are answered all the while."""
    with Daemon(folder, "--buffer", "65536", "--patience", "300") as daemon:
        other = daemon.attached()
        large = other.open(R | W | C, "/large")
        text = b"".join(b"a%d::%s\n" % (number, b"x" * 1000) for number in range(60))
        same(other.write(large, text)[0], WROTE)
        stuck = [daemon.attached() for _ in range(5)]
        stop = time.monotonic() + PATIENCE
        longest = 0
        for number, client in enumerate(stuck):
            client.open(R | W | C, f"/stuck{number}?server")
            handles = [client.open(R, "/large") for _ in range(20)]
            client.socket.setblocking(False)
            client.socket.send(b"".join(frame(READ, struct.pack(">II", handle, 100_000)) for handle in handles))
        left = set(stuck)
        while left and time.monotonic() < stop:
            for client in list(left):
                try:
                    client.socket.send(frame(LIST, b"/"))
                except BlockingIOError:
                    pass
                except (BrokenPipeError, ConnectionResetError):
                    left.remove(client)
            begun = time.monotonic()
            same(other.whole("/large"), (DATA, b"@large\n" + text))
            longest = max(longest, time.monotonic() - begun)
        assert not left, "a client that does not read is kept"
        until(lambda: other.ask(LIST, b"/") == (DATA, b"large\n"), "handles of detached clients are left")
        same(daemon.errors.read_text().count("does not read, and is detached"), len(stuck))
        daemon.check_idle()
        read_slowly(daemon, text)
        # (a client that reads gets an answer that is far longer than the buffer)
        other.ask(MKDIR, b"/d")
        for number in range(100):
            handle = other.open(W | C, f"/d/{number}")
            other.write(handle, text)
        everything = other.read(other.open(R, "/d/.all"))
        same((everything[0], everything[1].count(b"\n")), (DATA, 100 * 61))
        same(daemon.end(), 0)
    return f"{len(stuck)} detached, {longest * 1000:.0f} ms at most for an answer beside them"


def read_slowly(daemon, text):
    """A client that asks for all at once, and reads slowly, is given all."""
    client = daemon.attached()
    handles = [client.open(R, "/large") for _ in range(20)]
    client.socket.sendall(b"".join(frame(READ, struct.pack(">II", handle, 17_000_000)) for handle in handles))
    for _ in handles:
        time.sleep(0.05)
        same(client.answer(), (DATA, b"@large\n" + text))
    client.close()


def full(folder, _):
    """1,024 connections, and one more, which is refused."""
    soft, hard = resource.getrlimit(resource.RLIMIT_NOFILE)
    if soft < 1_200:
        if hard < 1_200:
            return "left out: too few files may be open"
        resource.setrlimit(resource.RLIMIT_NOFILE, (1_200, hard))
    with Daemon(folder) as daemon:
        observer = daemon.client()
        until(lambda: observer.ask(LIST, b"/") == refusal(NOT_ATTACHED), "")
        clients = [observer] + [daemon.client() for _ in range(1_023)]
        for client in clients:
            client.send(ATTACH)
        for client in clients:
            same(client.answer(), (DONE, b""))
        same(sorted(client.number for client in clients), list(range(1, 1_025)))
        for _ in range(3):
            more = daemon.client()
            same(more.rest(), bytes.fromhex("00000008 0000 00 18 00000000"))
        for client in clients:
            client.send(LIST, b"/")
        for client in clients:
            same(client.answer(), (DATA, b""))
        command = [OUT / "pps-cat", "-s", daemon.socket, "/a"]
        refused = subprocess.run(command, capture_output=True, text=True, check=False)
        same((refused.returncode, refused.stderr), (1, f"pps-cat: {daemon.socket}: TableFull\n"))
        for client in clients[500:600]:
            client.close()

        def is_let_in():
            client = daemon.client()
            try:
                return client.ask(ATTACH) == (DONE, b"")
            except (BrokenPipeError, EOFError, ConnectionResetError):
                return False
            except AssertionError:
                return False

        until(is_let_in, "a connection that was given back cannot be had")
        same(daemon.end(), 0)
    return "1,024 clients"


def is_saved_once_killed(folder, image):
    """Whether the service of a daemon that is killed saves its state: unless an answer to the daemon is on its way just then."""
    image.unlink()
    with Daemon(folder, "--limit", "3", "--save", image) as daemon:
        daemon.attached()
        daemon.process.kill()
        daemon.process.wait()
    end = time.monotonic() + PATIENCE / 10
    while not image.exists() and time.monotonic() < end:
        time.sleep(0.005)
    if not image.exists():
        image.touch()
        return False
    same(image.read_text(), "PPSIMAGE 2 3\nE 0\n")
    return True


def images(folder, _):
    """--image, --save, --limit, SIGTERM and SIGINT, the socket's mode, and command lines that are bad."""
    image = folder / "image"
    with Daemon(folder, "--save", image) as daemon:
        same(oct(daemon.socket.stat().st_mode & 0o777), "0o600")
        client = daemon.attached()
        client.write(client.open(W | C, "/gps"), b"speed:n:65\n[n]x::1\n")
        # (what was asked before the end is answered)
        client.socket.sendall(frame(LIST, b"/") * 100)
        same(client.answer(), (DATA, b"gps\n"))
        same(daemon.end(), 0)
        assert len(client.rest()) % 11 == 0
        assert not daemon.socket.exists()
    same(image.read_text(), "PPSIMAGE 2 256\nO /gps 1\nspeed:n:65\nE 1\n")
    with Daemon(folder, "--image", image, "--save", image, "--mode", "660") as daemon:
        same(oct(daemon.socket.stat().st_mode & 0o777), "0o660")
        client = daemon.attached()
        handle = client.open(R | W, "/gps")
        same(client.read(handle), (DATA, b"@gps\nspeed:n:65\n"))
        client.write(handle, b"speed:n:70\n")
        command = [OUT / "ppsd", "--socket", daemon.socket, "--pps", PPS]
        second = subprocess.run(command, capture_output=True, text=True, check=False)
        same((second.returncode, "in use" in second.stderr), (3, True))
        daemon.process.send_signal(signal.SIGINT)
        same(daemon.process.wait(PATIENCE), 0)
    same(image.read_text(), "PPSIMAGE 2 256\nO /gps 1\nspeed:n:70\nE 1\n")
    # (a socket that was left is replaced)
    assert any(is_saved_once_killed(folder, image) for _ in range(10)), "a killed daemon's service does not save"
    with Daemon(folder) as daemon:
        same(daemon.end(), 0)
    image.write_text("no image")
    bad = [(["--image", image], 3), (["--mode", "9"], 2), (["--what"], 2), (["word"], 2), (["--pps", "/none"], 127)]
    for words, status in bad:
        command = [OUT / "ppsd", "--socket", folder / "other", *([] if "--pps" in words else ["--pps", PPS]), *words]
        same(subprocess.run(command, stderr=subprocess.DEVNULL, check=False).returncode, status)
    return "saved, loaded, ended"


def service_killed(folder, _):
    """The service is killed: the clients are closed, and the daemon ends with its status."""
    with Daemon(folder) as daemon:
        clients = [daemon.attached() for _ in range(20)]
        os.kill(daemon.service(), signal.SIGKILL)
        for client in clients:
            same(client.rest(), b"")
        same(daemon.process.wait(PATIENCE), 137)
        assert not daemon.socket.exists()
    return "20 clients closed"


def tools(folder, _):
    """pps-cat, pps-set and pps-watch."""
    with Daemon(folder) as daemon:
        environment = {**os.environ, "XDG_RUNTIME_DIR": str(folder)}
        run = {"env": environment, "capture_output": True, "text": True, "check": False}
        (folder / "pps.sock").symlink_to(daemon.socket)
        ran = subprocess.run([OUT / "pps-cat", "/gps"], **run)
        same((ran.stdout, ran.stderr, ran.returncode), ("", "pps-cat: /gps: NotFound\n", 1))
        ran = subprocess.run([OUT / "pps-set", "/gps", "speed:n:65", "city::Ottawa"], **run)
        same((ran.stdout, ran.stderr, ran.returncode), ("", "", 0))
        ran = subprocess.run([OUT / "pps-set", "/gps", "speed"], **run)
        same((ran.stdout, ran.stderr, ran.returncode), ("", "pps-set: /gps: BadText 1\n", 1))
        ran = subprocess.run([OUT / "pps-cat", "/gps", "/.all?f=speed"], **run)
        same((ran.stdout, ran.stderr), ("@gps\nspeed:n:65\ncity::Ottawa\n@gps\nspeed:n:65\n", ""))
        command = [OUT / "pps-watch", "--socket", daemon.socket, "/gps?delta"]
        watch = subprocess.Popen(command, stdout=subprocess.PIPE, bufsize=0)
        expected = b"@gps\nspeed:n:65\ncity::Ottawa\n"
        same(watch.stdout.read(len(expected)), expected)
        for line, expected in (("speed:n:70", b"@gps\nspeed:n:70\n"), ("-city", b"@gps\n-city\n")):
            subprocess.run([OUT / "pps-set", "/gps", line], **run)
            same(watch.stdout.read(len(expected)), expected)
        client = daemon.attached()
        client.ask(UNLINK, b"/gps")
        same(watch.stdout.read(), b"-@gps\n")
        same(watch.wait(PATIENCE), 0)
        ran = subprocess.run([OUT / "pps-cat"], **run)
        same(ran.returncode, 2)
        same(daemon.end(), 0)
        ran = subprocess.run([OUT / "pps-cat", "-s", daemon.socket, "/gps"], **run)
        same(ran.returncode, 3)
    return "printed, set, watched"


PARTS = [rows, c_waits, waits, many, killed, malformed, slow, full, images, service_killed, tools]
