"""Whether the program takes bytes for what they are by the grammars of docs/FORMATS.md (tests/grammars.py). Each script is also
given as a stream, and each stream as a script (tests/codec.py), and has to be answered the same there."""

import os
import subprocess
import tempfile
from pathlib import Path
from typing import NamedTuple

from codec import answer_of, frame_of, frames, line_of
from grammars import BAD_FRAME, bad_line, judge_script, judge_stream
from mutations import NEWER, OLDER
from program import PPS


class Taken(NamedTuple):
    """Whether it went right, whether there was something to report, and how many answers were compared."""

    is_right: bool
    is_told: bool
    compared: int


def run(words, content):
    """What the program prints and says on standard error, and its status."""
    ran = subprocess.run([PPS, *words.split()], input=content, capture_output=True, check=False, timeout=60)
    return ran.stdout, ran.stderr, ran.returncode


def script_is_taken(script, run=run):
    commands, errors, status = judge_script(script)
    printed, *rest = run("run", script)
    answers, *clean = run("frames", b"".join(map(frame_of, commands)))
    wanted = b"".join(answer_of(frame) + b"\n" for frame in frames(answers))
    is_right = (printed, rest, clean) == (wanted, [errors, status], [b"", 0]) and wanted.count(b"\n") == len(commands)
    return Taken(is_right, status != 0, len(commands))


def stream_is_taken(stream, run=run):
    """(A request that no line can ask for has to be refused, and changes nothing.)"""
    requests, errors, status = judge_stream(stream)
    written, *rest = run("frames", stream)
    answers = list(frames(written))
    if rest != [errors, status] or b"".join(answers) != written or answers[len(requests) :] != [BAD_FRAME] * (status != 0):
        return Taken(False, status != 0, 0)
    lines = list(map(line_of, requests))
    odd = [answer for line, answer in zip(lines, answers) if line is None]
    printed, *clean = run("run", b"".join(line + b"\n" for line in lines if line is not None))
    wanted = b"".join(answer_of(answer) + b"\n" for line, answer in zip(lines, answers) if line is not None)
    is_right = (printed, clean) == (wanted, [b"", 0]) and all(answer[6] == 0 for answer in odd)
    return Taken(is_right, status != 0, len(requests))


def image_is_taken(image):
    """An image has to be saved again as it was, of version 1 with the first line of version 2; anything else has to be refused at
    the first line at which it is none, and nothing saved."""
    with tempfile.TemporaryDirectory() as folder:
        loaded, saved = f"{folder}/loaded", f"{folder}/saved"
        Path(loaded).write_bytes(image)
        printed, errors, status = run(f"run --image {loaded} --save {saved}", b"")
        left = Path(saved).read_bytes() if os.path.exists(saved) else None
        beside = len(os.listdir(folder)) - 1 - (left is not None)
    line = bad_line(image)
    wanted = (0, b"", b"", NEWER + image.removeprefix(OLDER) if image.startswith(OLDER) else image, 0)
    if line is not None:
        wanted = (3, b"", b"pps: bad image line %d\n" % line, None, 0)
    return Taken((status, printed, errors, left, beside) == wanted, line is not None, 1)
