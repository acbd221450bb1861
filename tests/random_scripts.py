"""Random scripts: of all commands, over few names and few handles, so that they meet."""

import random

PATHS = ["/a", "/b", "/d", "/d/a", "/d/b", "/d/e", "/d/e/a", "/", "/.all", "/d/.all", "/none/a", "bad"]
OPTIONS = ["delta", "deltadir", "wait", "nopersist", "reflect", "server", "critical", "limit=1", "limit=3", "f=x", "f=x>3+y"]
MODES = ["r", "w", "rw", "rc", "wc", "rwc", "rwct", "wct"]
TEXTS = ["x:n:1\\n", "y::text\\n", "[n]y::2\\n", "-x\\n", "x:n:9\\ny::\\n", "[-n]y::3\\n", "z:b64:aGk=\\n", "@a\\nx::5\\n", "bad", ""]
SIZES = [1, 12, 40, 300, 4096]


def open_text(chance):
    words = chance.sample(OPTIONS, chance.choice([0, 0, 1, 1, 2, 3]))
    path = chance.choice(PATHS)
    return f"{path}?{','.join(words)}" if words else path


def command(chance, handles):
    """One command, without its connection."""
    handle = chance.randint(1, handles)
    what = chance.choices(
        ["open", "read", "write", "notify", "receive", "close", "unlink", "mkdir", "list", "attach", "detach"],
        [9, 9, 12, 4, 4, 3, 2, 2, 2, 1, 1],
    )[0]
    if what == "open":
        return f"open {chance.choice(MODES)} {open_text(chance)}"
    if what == "read":
        return f"read {handle} {chance.choice(SIZES)}"
    if what == "write":
        return f"write {handle} {chance.choice(TEXTS)}"
    if what == "notify":
        return f"notify {handle} {chance.choice(['poll', 'pollarm', 'tranarm'])} {chance.randrange(256)} {chance.randrange(1000)}"
    if what == "close":
        return f"close {handle}"
    if what in ("unlink", "mkdir", "list"):
        return f"{what} {chance.choice(PATHS)}"
    return what


def session(chance, connection, length, handles):
    """The lines of one connection, which attaches first, mostly."""
    commands = ["attach"] if chance.random() < 0.9 else []
    commands += [command(chance, handles) for _ in range(length)]
    return [f"{connection} {words}" for words in commands]


def scripts(count, seed):
    """So many scripts of three connections, each by its name; with no seed by one of its own, which is in the names."""
    seed = random.randrange(1 << 32) if seed is None else seed
    for number in range(count):
        chance = random.Random(f"{seed} {number}")
        lines = [line for conn in (1, 2, 3) for line in session(chance, conn, chance.choice([5, 15, 40]), 6)]
        chance.shuffle(lines)
        lines = [f"{conn} attach" for conn in (1, 2, 3)] + lines
        yield f"random script {number} of seed {seed}", "".join(f"{line}\n" for line in lines).encode()
