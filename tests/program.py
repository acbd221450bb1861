"""What the scripts that run the proved program share: where it is, a limit of time, libraries that are loaded before others.

    tests/program.py SECONDS COMMAND..     runs a command with that limit
"""

import os
import shutil
import signal
import subprocess
import sys
from pathlib import Path

TOP = Path(__file__).resolve().parent.parent
CASES = TOP / "tests" / "cases"

# The program; $PPS names another one, as where a check is to be seen to fail.
PPS = Path(os.environ.get("PPS", TOP / "crates" / "pps_cli" / "out" / "pps_cli")).resolve()


def name():
    return Path(sys.argv[0]).name


def watch(script, seconds):
    """Waits for a script, which has a process group of its own, and ends as it does. If it takes longer than so many seconds, or
    if this is interrupted, it is ended with all that it has started."""

    def end(number, _):
        if number == signal.SIGALRM:
            print(f"{name()}: not done in {seconds} seconds", file=sys.stderr, flush=True)
        os.killpg(script, signal.SIGKILL)
        if number != signal.SIGALRM:
            signal.signal(number, signal.SIG_DFL)
            os.kill(os.getpid(), number)

    for number in (signal.SIGALRM, signal.SIGINT, signal.SIGTERM):
        signal.signal(number, end)
    signal.alarm(seconds)
    status = os.waitstatus_to_exitcode(os.waitpid(script, 0)[1])
    os._exit(status if status >= 0 else 128 - status)


def limit(seconds):
    """From now on this script has so many seconds; if it takes longer, it fails."""
    sys.stdout.flush()
    script = os.fork()
    if script:
        watch(script, seconds)
    os.setpgid(0, 0)


def begin(seconds):
    """Builds the program if it is not there. From then on this script has so many seconds."""
    if "PPS" not in os.environ:
        subprocess.run([TOP / "pps", "--version"], stdout=subprocess.DEVNULL, check=True)
    limit(seconds)


def compiled(folder, source, *options):
    """The library of this C source, to be loaded before others. It fails where there is no compiler."""
    compiler = shutil.which(os.environ.get("CC", "cc"))
    if not compiler:
        sys.exit(f"{name()}: there is no C compiler, so nothing was run")
    made = Path(folder).resolve() / f"{Path(source).stem}.so"
    subprocess.run([compiler, "-O1", "-shared", "-fPIC", *options, "-o", made, TOP / source, "-ldl"], check=True)
    return made


def shortest_cover(cases, features, size):
    """The shortest of the cases that together have all features that any of them has: always the one that adds the most for
    its size."""
    found, rest = [], {case: features(case) for case in cases}
    missing = set().union(*rest.values()) if rest else set()
    while missing:
        best = max(rest, key=lambda case: (len(rest[case] & missing) / (20 + size(case)), str(case)))
        found.append(best)
        missing -= rest.pop(best)
    return found


if __name__ == "__main__":
    del sys.argv[0]
    begin(int(sys.argv.pop(0)))
    os.execv(sys.argv[0], sys.argv)
