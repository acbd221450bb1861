"""Many runs of a program, quickly, and which places of its code they come by (tests/cover.c): the beginnings of its pieces
without jumps, as `objdump` lists them."""

import array
import os
import re
import select
import signal
import subprocess
from pathlib import Path
from typing import NamedTuple

LISTED = re.compile(r"^ *([0-9a-f]+):\t(\S+)(?: +([0-9a-f]+))?")
ENDS = ("j", "ret", "ud2", "hlt")


def places_of(program):
    """The offsets of the pieces without jumps, in order: where a jump or a call leads, and what comes after a jump."""
    words = ["objdump", "-d", "--no-show-raw-insn", "-j", ".text", program]
    listed = subprocess.run(words, capture_output=True, check=True, text=True).stdout
    instructions, found, is_next = set(), set(), True
    for line in listed.splitlines():
        it = LISTED.match(line)
        if not it:
            continue
        place, word, to = int(it[1], 16), it[2], it[3]
        instructions.add(place)
        if is_next:
            found.add(place)
        is_next = word.startswith(ENDS)
        if to and (word.startswith("j") or word == "call"):
            found.add(int(to, 16))
    return sorted(found & instructions)


class Ended(NamedTuple):
    """How a run ended, and which of the places that are looked for it met."""

    printed: bytes
    errors: bytes
    status: int
    met: set


class Server:
    """A program that is run again and again with the same words, in a folder of its own. A place that was met is not looked for
    any more, or, with `again`, it is in each run."""

    def __init__(self, folder, loaded, program, words, places=(), again=""):
        self.folder = Path(folder)
        self.folder.mkdir(exist_ok=True)
        (self.folder / "places").write_bytes(array.array("I", sorted(places)).tobytes())
        self.given, self.output, self.errors = (open(self.folder / name, "w+b", buffering=0) for name in ("in", "out", "err"))
        ask, self.asked = os.pipe()
        self.told, tell = os.pipe()
        more = {"LD_PRELOAD": str(loaded), "PLACES": "places", "MET": "met", "SERVED": f"{ask} {tell} {again}"}
        self.program = subprocess.Popen(
            [program, *words], stdin=self.given, stdout=self.output, stderr=self.errors, cwd=self.folder, pass_fds=(ask, tell),
            env={**os.environ, **more},
        )
        os.close(ask)
        os.close(tell)
        self.seen = 0

    def told_number(self, seconds):
        if not select.select([self.told], [], [], seconds)[0]:
            raise subprocess.TimeoutExpired(self.program.args, seconds)
        return int.from_bytes(os.read(self.told, 4), "little", signed=True)

    def newly_met(self):
        with open(self.folder / "met", "rb") as file:
            file.seek(self.seen)
            content = file.read()
        self.seen += len(content)
        return set(array.array("I", content))

    def run(self, given, seconds=20):
        for file, content in ((self.given, given), (self.output, b""), (self.errors, b"")):
            os.ftruncate(file.fileno(), 0)
            os.pwrite(file.fileno(), content, 0)
        os.write(self.asked, b"!")
        process = self.told_number(seconds)
        try:
            status = self.told_number(seconds)
        except subprocess.TimeoutExpired:
            os.kill(process, signal.SIGKILL)
            self.told_number(seconds)
            raise
        printed, errors = (os.pread(file.fileno(), 1 << 26, 0) for file in (self.output, self.errors))
        return Ended(printed, errors, os.waitstatus_to_exitcode(status), self.newly_met())

    def end(self):
        os.close(self.asked)
        self.program.wait()
        for file in (self.given, self.output, self.errors):
            file.close()
        os.close(self.told)
