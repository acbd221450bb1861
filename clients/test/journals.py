"""The journal of ppsd, tried: each part is given an empty folder, and gives the words to be printed."""

import fcntl
import os
import random
import shutil
import signal
import struct
import subprocess
import threading
import time
import zlib
from pathlib import Path

from daemon import (
    ATTACH, C, CLOSE, Client, DATA, DETACH, DONE, Daemon, LIST, MKDIR, NOT_ATTACHED, OPEN, OPENED, OUT, PATIENCE,
    PPS, R, T, UNLINK, W, WRITE, WROTE, frame, refusal, same, together, until,
)

SHARERS = 20
HEADER = 32


class Writer:
    """A client that writes one object in cycles of ten changes, which end with its deletion, so that each change leaves
    a state of its own. `answered` is the last change that was answered, `sent` the last that was sent, and what is
    left after a crash has to be a state from the one to the other."""

    def __init__(self, number):
        self.number = number
        self.path = f"/own{number}"
        self.answered = self.sent = -1
        self.shared = self.shared_sent = -1

    def text(self, change):
        """What a change in the cycle from its second on writes."""
        text = b"n:n:%d\n" % change
        text += b"-a%d\n" % (change % 3) if change % 4 == 0 else b"a%d::%d\n" % (change % 3, change)
        return text + (b"[n]gone::1\n" if self.number == 1 else b"")

    def state(self, change):
        """The object after a change, as it is kept: None if it is absent."""
        if change < 0 or change % 10 == 9:
            return None
        attributes = {}
        for each in range(change - change % 10 + 1, change + 1):
            for line in self.text(each).splitlines():
                name, _, rest = line.partition(b":")
                if line.startswith(b"-"):
                    attributes.pop(line[1:], None)
                elif not line.startswith(b"[n]"):
                    attributes[name] = rest
        return b"@own%d\n" % self.number + b"".join(b"%s:%s\n" % pair for pair in attributes.items())

    def work(self, daemon):
        """Makes changes until the daemon goes."""
        try:
            client = Client(daemon.socket)
            assert client.ask(ATTACH) == (DONE, b"")
            shared = client.open(W | C, "/shared")
            handle = None if self.state(self.answered) is None else client.open(W, self.path)
            while True:
                handle = self.change(client, handle, shared)
        except (EOFError, ConnectionError, FileNotFoundError):
            pass

    def change(self, client, handle, shared):
        change = self.answered + 1
        if change % 10 == 0:
            self.sent = change
            handle = client.open(W | C, self.path)
            self.answered = change
        elif change % 10 == 9:
            self.sent = change
            same(client.ask(UNLINK, self.path.encode()), (DONE, b""))
            self.answered = change
            same(client.ask(CLOSE, struct.pack(">I", handle)), (DONE, b""))
            self.shared_sent = change
            same(client.write(shared, b"c%d:n:%d\n" % (self.number, change))[0], WROTE)
            self.shared = change
        else:
            last = min(change + self.number % 3, change - change % 10 + 8)
            texts = [self.text(each) for each in range(change, last + 1)]
            self.sent = last
            client.socket.sendall(b"".join(frame(WRITE, struct.pack(">I", handle) + text) for text in texts))
            for text in texts:
                same(client.answer(), (WROTE, struct.pack(">I", len(text))))
                self.answered += 1
        return handle

    def check(self, client, shared):
        """Whether what is left is a state that can be; it goes on from there."""
        tag, _ = client.ask(OPEN, bytes([R]) + self.path.encode())
        found = client.whole(self.path)[1] if tag == OPENED else None
        states = [change for change in range(self.answered, self.sent + 1) if self.state(change) == found]
        assert states, f"{self.path}: {found!r} is left, of changes {self.answered} to {self.sent}"
        self.answered = self.sent = states[0]
        value = shared.get(b"c%d:n" % self.number, b"-1")
        allowed = {b"%d" % self.shared, b"%d" % self.shared_sent}
        assert value in allowed, f"{value!r} of {self.number} is left, and not one of {allowed}"
        self.shared = self.shared_sent = int(value)


def check_all(daemon, writers):
    client = daemon.attached()
    tag, _ = client.ask(OPEN, bytes([R]) + b"/shared")
    lines = client.whole("/shared")[1].splitlines()[1:] if tag == OPENED else []
    shared = dict(line.rsplit(b":", 1) for line in lines)
    for writer in writers:
        writer.check(client, shared)
    client.close()


def under_load(daemon, writers, end):
    """Lets the writers write, and calls `end` while they do."""
    threads = [threading.Thread(target=writer.work, args=(daemon,)) for writer in writers]
    for thread in threads:
        thread.start()
    end()
    for thread in threads:
        thread.join()


def journal_words(folder, *more):
    return ["--image", folder / "image", "--journal", folder / "journal", *more]


def crashes(folder, options):
    """The daemon is killed at random under load, and begins again: all that was answered is there, and nothing that was
    not sent. Some of the times it is ended instead, or its service is killed, or it is killed again while it begins."""
    chance = random.Random(options.seed)
    writers = [Writer(number) for number in range(SHARERS)]
    for _ in range(options.times):
        sync, shorten_at = chance.choice(["batch", "batch", "each", "none"]), chance.choice(["0", "65536"])
        words = journal_words(folder, "--sync", sync, "--shorten-at", shorten_at)
        with Daemon(folder, *words) as daemon:
            check_all(daemon, writers)

            def end():
                time.sleep(chance.random() * 0.2)
                how = chance.random()
                service = daemon_service(daemon)
                if how < 0.1:
                    same(daemon.end(), 0)
                    return
                if how < 0.2:
                    end_service(service)
                    # (unless it was about to be replaced by another one, the daemon ends too)
                    time.sleep(0.02)
                daemon.process.kill()
                daemon.process.wait()

            under_load(daemon, writers, end)
        if chance.random() < 0.3:
            with Daemon(folder, *words, wait=False) as daemon:
                time.sleep(chance.random() * 0.02)
    with Daemon(folder, *journal_words(folder)) as daemon:
        check_all(daemon, writers)
        same(daemon.end(), 0)
    return f"{options.times} times, {sum(writer.answered for writer in writers)} changes"


class Disk:
    """A folder of which only what was brought to the disk is left when the power goes."""

    def __init__(self, folder, files=()):
        self.files = folder / "files"
        self.synced = folder / "synced"
        self.files.mkdir()
        self.synced.mkdir()
        self.put(dict(files))
        self.environment = {"LD_PRELOAD": OUT / "synced.so", "SYNCED": self.synced, "SYNCED_OF": self.files}

    def lose_power(self, chance):
        """What was written after is lost, or a part of it is, or is there as zeros."""
        wait_for_lock(self.files)
        names = self.synced / "names"
        left = {}
        for line in names.read_text().splitlines() if names.exists() else []:
            number, name = line.split(" ", 1)
            copy = self.synced / number
            left[name] = copy.read_bytes() if copy.exists() else b""
        journal = self.files / "journal"
        written = journal.read_bytes() if journal.exists() else b""
        kept = left.get("journal", b"")
        if written.startswith(kept):
            more = written[len(kept):]
            more = more[: chance.randint(0, len(more))]
            hole = chance.randint(0, len(more))
            left["journal"] = kept + (bytes(hole) + more[hole:] if chance.random() < 0.5 else more)
        shutil.rmtree(self.files)
        shutil.rmtree(self.synced)
        self.files.mkdir()
        self.synced.mkdir()
        self.put(left)

    def put(self, left):
        """Puts files there that are on the disk."""
        lines = []
        for name, content in left.items():
            path = self.files / name
            path.write_bytes(content)
            shutil.copyfile(path, self.synced / str(path.stat().st_ino))
            lines.append(f"{path.stat().st_ino} {name}\n")
        (self.synced / "names").write_text("".join(lines))


def power(folder, options):
    """The same where only what was brought to the disk is left."""
    chance = random.Random(options.seed)
    writers = [Writer(number) for number in range(SHARERS)]
    disk = Disk(folder)
    for _ in range(options.times):
        sync, shorten_at = chance.choice(["batch", "each"]), chance.choice(["0", "65536"])
        words = journal_words(disk.files, "--sync", sync, "--shorten-at", shorten_at)
        with Daemon(folder, *words, environment=disk.environment) as daemon:
            check_all(daemon, writers)

            def end():
                time.sleep(chance.random() * 0.2)
                if chance.random() < 0.2:
                    daemon.process.terminate()
                    time.sleep(chance.random() * 0.02)
                service = daemon_service(daemon)
                daemon.process.kill()
                daemon.process.wait()
                end_service(service)

            under_load(daemon, writers, end)
        disk.lose_power(chance)
        if chance.random() < 0.3:
            with Daemon(folder, *words, wait=False, environment=disk.environment) as daemon:
                time.sleep(chance.random() * 0.02)
                service = daemon_service(daemon)
                daemon.process.kill()
                daemon.process.wait()
                end_service(service)
            disk.lose_power(chance)
    with Daemon(folder, *journal_words(disk.files), environment=disk.environment) as daemon:
        check_all(daemon, writers)
        same(daemon.end(), 0)
    return f"{options.times} times, {sum(writer.answered for writer in writers)} changes"


def daemon_service(daemon):
    """The service's process, or None if it has no service now."""
    try:
        return daemon.service()
    except (IndexError, FileNotFoundError):
        return None


def end_service(number):
    """Kills the service of a killed daemon."""
    try:
        if number is not None:
            os.kill(number, signal.SIGKILL)
    except ProcessLookupError:
        pass


def wait_for_lock(folder):
    """Waits until no service of a killed daemon is left."""
    lock = folder / "journal.lock"
    if lock.exists():
        with open(lock, "rb") as file:
            fcntl.flock(file, fcntl.LOCK_EX)


def small_journal(folder):
    """Makes a journal of a few groups: the bytes of it and of its image, and the states of `/gps` after each group."""
    with Daemon(folder, *journal_words(folder)) as daemon:
        client = daemon.attached()
        handle = client.open(W | C, "/gps")
        for number in range(6):
            client.write(handle, b"a%d:n:%d\n" % (number, number))
        service = daemon_service(daemon)
        daemon.process.kill()
        daemon.process.wait()
        end_service(service)
    wait_for_lock(folder)
    texts = [None, None]
    texts += [b"@gps\n" + b"".join(b"a%d:n:%d\n" % (each, each) for each in range(count)) for count in range(7)]
    return (folder / "journal").read_bytes(), (folder / "image").read_bytes(), texts


def groups(journal):
    """Where the groups begin, and the end."""
    places = [HEADER]
    while places[-1] < len(journal):
        places.append(places[-1] + 12 + struct.unpack(">I", journal[places[-1] + 4 : places[-1] + 8])[0])
    return places


def begun_with(folder, journal, image, *words):
    """Begins with these files. What is said, and `/gps` then: False if the daemon refuses to begin, None if it is
    absent."""
    folder.mkdir()
    try:
        (folder / "journal").write_bytes(journal)
        (folder / "image").write_bytes(image)
        daemon = Daemon(folder, *journal_words(folder, *words), wait=False)
        with daemon:
            try:
                client = daemon.client()
                same(client.ask(ATTACH), (DONE, b""))
                found = client.ask(LIST, b"/")[1] and client.whole("/gps")[1]
                same(daemon.end(), 0)
                return daemon.errors.read_text(), found or None
            except (EOFError, ConnectionError):
                same(daemon.process.wait(PATIENCE), 3)
                same((folder / "journal").read_bytes(), journal)
                same((folder / "image").read_bytes(), image)
                return daemon.errors.read_text(), False
    finally:
        shutil.rmtree(folder)


def in_pieces(count, work):
    """Runs work(0), work(1), .. with a few at a time."""
    share = 4
    together(share, lambda first: [work(number) for number in range(first, count, share)])


def turned(folder, options):
    """Each byte of a small journal turned: it is refused, or it is the torn end. Cut anywhere: what is whole is there.
    (If the daemon is killed less than 100 times, each fifth byte.)"""
    (folder / "at").mkdir()
    journal, image, texts = small_journal(folder / "at")
    places = groups(journal)
    same(places[-1], len(journal))
    same(len(places) - 1, len(texts) - 1)
    step = 1 if options.times >= 100 else 5
    counts = []

    def turn(number):
        at = number * step
        chance = random.Random(at)
        bad = bytearray(journal)
        bad[at] ^= chance.randrange(1, 256)
        words, found = begun_with(folder / f"turned{at}", bytes(bad), image)
        if at >= places[-2]:
            assert (found, "its torn end is cut" in words) == (texts[-2], True), (at, words, found)
        else:
            assert found is False and words.startswith("ppsd: "), (at, words, found)
        counts.append(found is False)

    in_pieces(-(-len(journal) // step), turn)
    refused, cut = counts.count(True), counts.count(False)

    def cut_at(number):
        at = number * step
        words, found = begun_with(folder / f"cut{at}", journal[:at], image)
        whole = sum(place <= at for place in places) - 1
        if at < HEADER:
            assert found is False, (at, words, found)
        else:
            same((found or None, "its torn end is cut" in words), (texts[whole], at not in places))

    in_pieces(-(-len(journal) // step), cut_at)
    return f"{refused} refused, {cut} cut; {-(-len(journal) // step)} ends"


def group(identity, number, entries):
    body = struct.pack(">II", number, len(entries)) + entries
    return body + struct.pack(">I", zlib.crc32(body, zlib.crc32(identity)))


def salvaged(folder, _):
    """--salvage, journals that are of another image or of another order, and an end between the two renames."""
    (folder / "at").mkdir()
    journal, image, texts = small_journal(folder / "at")
    places, identity = groups(journal), journal[8:16]
    # (a damaged write in the middle)
    bad = bytearray(journal)
    bad[places[4] + 20] ^= 1
    words, found = begun_with(folder / "try", bytes(bad), image)
    same((found, f"damaged: offset {places[4]}" in words), (False, True))
    words, found = begun_with(folder / "try", bytes(bad), image, "--salvage")
    said = f"left out: offset {places[4]}, {places[5] - places[4]} bytes"
    same((found, said in words), (texts[-1].replace(b"a2:n:2\n", b""), True))
    # (a damaged attach is made up for, and the writes of a damaged open are left out)
    bad = bytearray(journal)
    bad[places[0] + 20] ^= 1
    same(begun_with(folder / "try", bytes(bad), image, "--salvage")[1], texts[-1])
    bad = bytearray(journal)
    bad[places[1] + 20] ^= 1
    words, found = begun_with(folder / "try", bytes(bad), image, "--salvage")
    same((found, words.count("is left out, with the open of its handle 1")), (None, 6))
    # (a group that is missing altogether is damage too)
    missing = journal[: places[3]] + journal[places[4] :]
    same(begun_with(folder / "try", missing, image)[1], False)
    # (an open that gives another handle; groups of another journal; another image)
    entry = journal[places[1] + 8 : places[2] - 4]
    other = entry[:4] + struct.pack(">I", 7) + entry[8:]
    changed = journal[: places[1]] + group(identity, 2, other) + journal[places[2] :]
    words, found = begun_with(folder / "try", changed, image)
    same((found, "now gives handle 1" in words), (False, True))
    # (a group under another identity is of another journal)
    words, found = begun_with(folder / "try", journal[: places[1]] + group(b"12345678", 2, entry), image)
    same((found, "torn" in words), (None, True))
    words, found = begun_with(folder / "try", journal, image.replace(b"256", b"255"))
    same((found, "it is not of the image" in words), (False, True))
    between_renames(folder / "between")
    return "left out, made up for, refused"


def between_renames(folder):
    folder.mkdir()
    with Daemon(folder, *journal_words(folder)) as daemon:
        client = daemon.attached()
        client.write(client.open(W | C, "/gps"), b"a::1\n")
        old = (folder / "image").read_bytes()
        same(daemon.end(), 0)
    new = (folder / "image").read_bytes()
    (folder / "image.next").write_bytes(new)
    (folder / "image").write_bytes(old)
    with Daemon(folder, *journal_words(folder)) as daemon:
        same(daemon.attached().whole("/gps"), (DATA, b"@gps\na::1\n"))
        same((folder / "image").read_bytes(), new)
        same(daemon.end(), 0)


def kinds(folder, _):
    """Each kind of request that is kept is needed: without any of them a later one of these would be refused."""
    with Daemon(folder, *journal_words(folder)) as daemon:
        client, other = daemon.attached(), daemon.attached()
        same(client.ask(MKDIR, b"/d"), (DONE, b""))
        watch = client.open(R, "/d/.all")
        same(client.ask(CLOSE, struct.pack(">I", watch)), (DONE, b""))
        same(client.ask(UNLINK, b"/d"), (DONE, b""))
        same(client.ask(MKDIR, b"/d"), (DONE, b""))
        plain = client.open(R | W | C, "/d/plain")
        client.write(plain, b"a::1\nb::2\n")
        truncated = client.open(W | T, "/d/plain")
        client.write(truncated, b"c::3\n-b\n")
        same(client.ask(DETACH), (DONE, b""))
        # (this takes the place of a plain object that nobody has open)
        gone = other.open(R | W | C, "/e")
        same(other.ask(CLOSE, struct.pack(">I", gone)), (DONE, b""))
        server = other.open(R | W, "/e?server,limit=2")
        same(client.ask(ATTACH), (DONE, b""))
        messages = client.open(R | W, "/e")
        for _ in range(5):
            # (its reads are not replayed, so that some of these are refused then)
            same(client.write(messages, b"q::1\n")[0], WROTE)
            same(other.read(server)[0], DATA)
        client.write(client.open(W | C, "/f?nopersist"), b"a::1\n")
        client.write(client.open(W | C, "/g?critical"), b"[n]a::1\nb::1\n")
        other.close()
        until(lambda: client.ask(LIST, b"/") == (DATA, b"d/\nf\ng\n"), "a server is left")
        daemon.process.kill()
        daemon.process.wait()
    with Daemon(folder, *journal_words(folder)) as daemon:
        daemon.attached()
        same((folder / "image").read_text(), "PPSIMAGE 2 256\nD /d\nO /d/plain 1\nc::3\nO /g 1\nb::1\nE 3\n")
        same(daemon.errors.read_text(), "")
        same(daemon.end(), 0)
    return "attach, open, write, close, unlink, mkdir, detach"


def places(folder, _):
    """The daemon is killed before each of its calls that change files or bring them to the disk, at the start and at
    the end, and only what was brought to the disk is left: it begins again with all that was answered."""
    chance = random.Random(1)
    (folder / "at").mkdir()
    journal, image, texts = small_journal(folder / "at")
    count = 0
    for call in range(1, 100):
        shutil.rmtree(folder / "disk", ignore_errors=True)
        (folder / "disk").mkdir()
        disk = Disk(folder / "disk", {"journal": journal, "image": image})
        environment = {**disk.environment, "KILLED": "ppsd", "KILLED_AT": str(call)}
        with Daemon(folder, *journal_words(disk.files), environment=environment, wait=False) as daemon:
            expected = {texts[-1], texts[-1] + b"z::1\n"}
            try:
                client = daemon.client()
                same(client.ask(ATTACH), (DONE, b""))
                same(client.write(client.open(W, "/gps"), b"z::1\n")[0], WROTE)
                expected = {texts[-1] + b"z::1\n"}
                daemon.process.terminate()
            except (EOFError, ConnectionError):
                pass
            status = daemon.process.wait(PATIENCE)
        if status == 0:
            break
        same(status, -signal.SIGKILL)
        disk.lose_power(chance)
        with Daemon(folder, *journal_words(disk.files), environment=disk.environment) as daemon:
            found = daemon.attached().whole("/gps")[1]
            assert found in expected, (call, found)
            same(daemon.end(), 0)
        count += 1
    assert 10 < count < 99, count
    return f"{count} places"


def full_disk(folder, _):
    """The journal's file cannot grow: the daemon ends, and all that was answered is there."""
    writers = [Writer(number) for number in range(SHARERS)]
    for limit in (20_000, 33_333, 50_000):
        with Daemon(folder, *journal_words(folder), limit=limit) as daemon:
            under_load(daemon, writers, lambda: daemon.process.wait(PATIENCE))
            same(daemon.process.returncode, 3)
            assert "File too large" in daemon.errors.read_text()
        with Daemon(folder, *journal_words(folder)) as daemon:
            check_all(daemon, writers)
            same(daemon.end(), 0)
    return f"3 times, {sum(writer.answered for writer in writers)} changes"


def shortened(folder, _):
    """The journal is made short when nobody is attached, at SIGTERM and at the start; its limit is reported; options
    that do not go together."""
    journal = folder / "journal"
    with Daemon(folder, *journal_words(folder, "--shorten-at", "0", "--journal-limit", "200")) as daemon:
        observer = daemon.client()
        for number in range(3):
            client = daemon.attached()
            handle = client.open(W | C, f"/o{number}")
            for _ in range(5):
                client.write(handle, b"a::" + b"x" * 200 + b"\n")
            assert journal.stat().st_size > HEADER
            client.close()
            until(lambda: journal.stat().st_size == HEADER, "the journal is not made short")
        daemon.check_idle()
        same(observer.ask(LIST, b"/"), refusal(NOT_ATTACHED))
        same(observer.ask(ATTACH), (DONE, b""))
        same(observer.ask(LIST, b"/"), (DATA, b"o0\no1\no2\n"))
        # (what is not persistent is there for others, so it is not made short then)
        observer.write(observer.open(W | C, "/o1"), b"[n]b::1\n")
        observer.ask(DETACH)
        time.sleep(0.05)
        client = daemon.attached()
        same(client.whole("/o1")[1].endswith(b"[n]b::1\n"), True)
        assert journal.stat().st_size > HEADER
        assert "is longer than 200 bytes" in daemon.errors.read_text()
        same(daemon.end(), 0)
    same(journal.stat().st_size, HEADER)
    with Daemon(folder, *journal_words(folder)) as daemon:
        same(daemon.attached().whole("/o1")[1].count(b"\n"), 2)
        command = [OUT / "ppsd", "--socket", folder / "second", "--pps", PPS, *journal_words(folder)]
        second = subprocess.Popen(command, stderr=subprocess.DEVNULL)
        time.sleep(0.1)
        assert second.poll() is None, "two daemons with one journal"
        daemon.process.kill()
        daemon.process.wait()
        until((folder / "second").exists, "the second does not begin")
        same(Client(folder / "second").ask(ATTACH), (DONE, b""))
        second.terminate()
        same(second.wait(PATIENCE), 0)
    both = ["--journal", "j", "--image", "i", "--save", "s"]
    for words in (["--journal", "j"], both, ["--salvage"], ["--sync", "often"]):
        same(subprocess.run([OUT / "ppsd", *words], stderr=subprocess.DEVNULL, check=False).returncode, 2)
    return "when nobody is attached, at the end, at the start"


PARTS = [crashes, power, places, turned, salvaged, kinds, full_disk, shortened]
