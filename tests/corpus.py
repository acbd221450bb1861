"""The corpus: inputs that together come by all places of the program that tools/fuzz has found a way to, each beside how it ends.

NAME.script is given to `pps run`, NAME.in to `pps frames`, NAME.img to `pps run --image`. NAME.ENDING.ends has the status in its
first line, what is said on standard error in its second, and then what is printed; behind an image that, and what is saved."""

import subprocess
import tempfile
from pathlib import Path
from typing import NamedTuple

from program import PPS, TOP

CORPUS = TOP / "tests" / "corpus"

# What is asked of a service that begins with an image.
LOOKS = b"1 attach\n1 list /\n1 open r /.all?delta\n1 read 1 17000000\n"


class Kind(NamedTuple):
    """The ending of its files, the words of the command line, and the folders of tests/cases that have more of it."""

    ending: str
    words: str
    cases: tuple


KINDS = {
    "script": Kind("script", "run", ("rows", "random", "bad_lines")),
    "stream": Kind("in", "frames", ("frames",)),
    "image": Kind("img", "run --image image --save saved", ("images",)),
}


def given(name, content, folder):
    """What the program reads; an image is put into its file."""
    if name != "image":
        return content
    (Path(folder) / "image").write_bytes(content)
    return LOOKS


def end_of(name, content):
    """How the program ends with this input: the content of its .ends."""
    with tempfile.TemporaryDirectory() as folder:
        words = [PPS, *KINDS[name].words.split()]
        asked = given(name, content, folder)
        ran = subprocess.run(words, input=asked, cwd=folder, capture_output=True, check=False, timeout=20)
        saved = Path(folder) / "saved"
        left = saved.read_bytes() if saved.exists() else b""
    return b"%d\n%b\n%b%b" % (ran.returncode, ran.stderr.rstrip(b"\n"), ran.stdout, left)


def write_case(folder, number, name, content):
    """An input, and how it ends."""
    path = folder / f"{number}.{KINDS[name].ending}"
    path.write_bytes(content)
    Path(f"{path}.ends").write_bytes(end_of(name, content))
