"""What the tools share that run the program with allocations refused.

A message that is refused for want of memory has changed nothing. So of a run in which messages were answered OutOfMemory, all
other answers, what is said on standard error, the status and the files that are left have to be those of a run without these
messages, in which nothing is refused. A message that needs no memory (docs/BEHAVIOUR.md) is never answered so. If the program
itself is out of memory, its status is 3, its line says so, each answer that it printed is whole and as above, and the files
are as they were. Where one message is refused, the run is made once more with this message given twice: if the first of the two is
refused there too, the second has to be answered as where nothing is refused, and so has all that comes after it.
"""

import argparse
import os
import random
import subprocess
import sys
import tempfile
from concurrent.futures import ThreadPoolExecutor
from pathlib import Path
from typing import NamedTuple

from program import PPS, begin, compiled

TOLD = b"pps: out of memory\n"

# How many allocations of each work are refused, if not all: each by itself, and some with all that follow.
SINGLE, LATER = 200, 30

# How many bytes the larger regions lack at most.
LARGER = 16_384

# Of how many messages that are refused in a run it is seen that they need memory.
JUDGED = 3


class Ended(NamedTuple):
    """What a run ended with: its status, its answers, one by one, what it said on standard error, and the files it left."""

    status: int
    answers: list
    errors: bytes
    left: dict


def run(words, given, files, loaded, refused, program=PPS, **more):
    """What the program ends with, and prints, where these allocations are refused: "7", "7+" for all from there on, or "700b" for
    those that would make it hold more than so many bytes (the first two with tools/refuse.c, the last with tests/memory.c)."""
    with tempfile.TemporaryDirectory() as folder:
        for name, content in files.items():
            (Path(folder) / name).write_bytes(content)
        environment = {**os.environ, "LD_PRELOAD": str(loaded), "REFUSED": refused, "REGION": refused, **more}
        how = {"env": environment, "cwd": folder, "capture_output": True, "check": False, "timeout": 60}
        ran = subprocess.run([program, *words], input=given, **how)
        left = {path.name: path.read_bytes() for path in Path(folder).iterdir()}
    return ran, left


def count(words, given, files, loaded, program=PPS):
    """How many allocations there are, or with tests/memory.c, how many bytes are held at most."""
    with tempfile.NamedTemporaryFile() as counted:
        run(words, given, files, loaded, "0", program, COUNTED=counted.name)
        return int(Path(counted.name).read_text())


def needs_no_memory(line, answer, lines):
    """Whether the message of this line, one of these, needs no memory, if this is its answer where nothing is refused."""
    command, words, answer = line.split(b" ")[1], line.split(b" ")[2:], answer.split(b" ")[1:]
    number = int(answer[1]) if answer[0] == b"refused" else 0
    if command == b"open":
        letters = words[0]
        return number == 3 or not set(letters) & set(b"rw") or (b"t" in letters and b"w" not in letters)
    if command == b"receive":
        return answer[0] != b"done" or answer[2] != b"data"
    if command == b"notify":
        return number > 0 or words[1] == b"poll" or (words[1] == b"pollarm" and answer == [b"input", b"1"])
    if command == b"read":
        return number > 0
    if command == b"close" and answer == [b"ok"]:
        return not any(b"server" in it or b"critical" in it for it in lines)
    before = {b"attach": (23, 4), b"write": (13, 14, 17), b"close": (13,)}
    return number == 3 or number in before.get(command, ())


class Work:
    """A run of the program over messages: `lines` of a script that say what they ask for (None where no line does), its
    words, and the files that are there. What it is given is made anew without some messages."""

    def __init__(self, name, lines, words, files, loaded):
        self.name, self.lines, self.words, self.files, self.loaded = name, lines, words, files, loaded
        self.runs_without, self.works_with_twice = {}, {}

    def given(self, without):
        raise NotImplementedError

    def answers(self, printed):
        raise NotImplementedError

    def out_of_memory(self, at):
        raise NotImplementedError

    def line_of_answer(self, answer):
        raise NotImplementedError

    def with_twice(self, at):
        """The same work, with this message given twice."""
        raise NotImplementedError

    def run(self, without=frozenset(), refused="0"):
        ran, left = run(self.words, self.given(without), self.files, self.loaded, refused)
        return Ended(ran.returncode, self.answers(ran.stdout), ran.stderr, left)

    def run_without(self, without):
        """What comes of it without these messages, where nothing is refused."""
        if without not in self.runs_without:
            self.runs_without[without] = self.run(without)
        return self.runs_without[without]

    def count(self):
        return count(self.words, self.given(frozenset()), self.files, self.loaded)

    def needs_no_memory(self, at, answer):
        """Whether the message at this place needs no memory, if this is its answer where nothing is refused."""
        line = self.lines[at]
        return line is not None and needs_no_memory(line, self.line_of_answer(answer), list(filter(None, self.lines)))

    def wrong_again(self, refused, at):
        """What is wrong where the message at this place, which is refused for this allocation, is given again at once."""
        if at not in self.works_with_twice:
            self.works_with_twice[at] = self.with_twice(at)
        work = self.works_with_twice[at]
        right = work.run_without(frozenset([at]))
        wanted = [*right.answers[:at], self.out_of_memory(at), *right.answers[at:]]
        ended = work.run(refused=refused)
        if ended.answers[at : at + 1] != [self.out_of_memory(at)]:
            return ""  # with one message more the input takes other memory, so the refusal met something else
        return "" if ended == right._replace(answers=wanted) else "given again, not as where nothing is refused"

    def wrong_of(self, refused):
        """What is wrong where these allocations are refused; nothing if all is right."""
        ended = self.run(refused=refused)
        wanting = [at for at in range(min(len(self.lines), len(ended.answers))) if ended.answers[at] == self.out_of_memory(at)]
        right = self.run_without(frozenset(wanting))
        wanted = list(right.answers)
        for at in wanting:
            wanted.insert(at, self.out_of_memory(at))
        for before, at in enumerate(wanting[:JUDGED]):
            answer = self.run_without(frozenset(wanting[:before])).answers[at - before]
            if self.needs_no_memory(at, answer):
                return f"{self.lines[at]!r} needs no memory"
        if (ended.status, ended.errors) == (3, TOLD):
            is_right = ended.answers == wanted[: len(ended.answers)] and ended.left == self.files
            return "" if is_right else "out of memory, but other answers or files"
        if ended != right._replace(answers=wanted):
            return "not as without the messages that are refused"
        return self.wrong_again(refused, wanting[0]) if len(wanting) == 1 and refused.isdecimal() else ""


def sizes(most, name, is_all):
    """Regions of memory that are too small where so many bytes are held at most: the larger ones, in which messages are refused,
    and some in which the program itself is out of memory."""
    larger, smaller = range(max(most - LARGER, 16), most, 16), range(1_024, max(most - LARGER, 16), 1_024)
    if not is_all:
        chance = random.Random(name)
        larger = chance.sample(larger, min(LATER, len(larger)))
        smaller = chance.sample(smaller, min(5, len(smaller)))
    return [f"{size}b" for size in [*larger, *smaller]]


def numbers(count, name, is_all):
    """Which of so many allocations are refused: "7" by itself, or "7+" with all that follow."""
    chance = random.Random(name)
    if is_all or count <= SINGLE:
        single, later = range(1, count + 1), range(1, count + 1)
    else:
        single = sorted({1, count, *chance.sample(range(2, count), SINGLE - 2)})
        later = sorted(chance.sample(range(1, count + 1), LATER))
    return [str(number) for number in single] + [f"{number}+" for number in later]


def tried(name, asked, wrong_of, pool):
    """How many refusals there were of those that are asked for, and how many went wrong, which are named."""
    wrong = [(number, words) for number, words in zip(asked, pool.map(wrong_of, asked)) if words]
    for number, words in wrong[:3]:
        print(f"{name}: refused {number}: {words}", file=sys.stderr, flush=True)
    print(f"{name}: {len(asked)} refusals, {len(wrong)} wrong", flush=True)
    return len(asked), len(wrong)


def main(description, works, seconds, more=()):
    """Runs a tool over the works that `works` makes of its words: each has a name, its number of allocations, and what is
    wrong where some are refused. A work without allocations counts as wrong."""
    parser = argparse.ArgumentParser(description=description, formatter_class=argparse.RawDescriptionHelpFormatter)
    parser.add_argument("--all", action="store_true", help="refuse each allocation, by itself and with all that follow")
    parser.add_argument("--regions", action="store_true", help="refuse what is more than a region of memory, of many sizes")
    for words, options in more:
        parser.add_argument(words, **options)
    parser.add_argument("paths", nargs="*", type=Path)
    asked = parser.parse_args()
    begin((20 if asked.all else 1) * (seconds + 10 * getattr(asked, "random", 0)))
    refused = wrong = number = 0
    with tempfile.TemporaryDirectory() as folder, ThreadPoolExecutor(os.cpu_count()) as pool:
        loaded = compiled(folder, "tests/memory.c" if asked.regions else "tools/refuse.c")
        chosen = sizes if asked.regions else numbers
        for name, allocations, wrong_of in works(asked, loaded):
            more_refused, more_wrong = tried(name, chosen(allocations, name, asked.all), wrong_of, pool)
            refused, wrong, number = refused + more_refused, wrong + more_wrong + (allocations == 0), number + 1
    print(f"{Path(sys.argv[0]).name}: {number} works, {refused} refusals, {wrong} wrong")
    return 1 if wrong or not refused else 0
