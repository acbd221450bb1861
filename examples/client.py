#!/usr/bin/env python3
"""A client of the service in plain Python: it starts `pps frames` and talks to it through a pipe, with two connections.

    examples/client.py

The first connection publishes an object, the second subscribes to its changes and asks for a pulse where there are news.
"""

import struct
import subprocess
from pathlib import Path

PPS = Path(__file__).resolve().parent.parent / "pps"

READ, WRITE, CREATE = 1, 2, 4
POLLARM = 2


class Service:
    """A running service. A request is one frame, and so is its answer."""

    def __init__(self):
        self.program = subprocess.Popen([PPS, "frames"], stdin=subprocess.PIPE, stdout=subprocess.PIPE)

    def ask(self, kind, connection, fields=b""):
        """Sends a request, and gives the tag and the fields of its answer."""
        body = struct.pack(">BH", kind, connection) + fields
        self.program.stdin.write(struct.pack(">I", len(body)) + body)
        self.program.stdin.flush()
        (length,) = struct.unpack(">I", self.program.stdout.read(4))
        answer = self.program.stdout.read(length)
        return answer[2], answer[3:]

    def close(self):
        self.program.stdin.close()
        return self.program.wait()


class Refused(Exception):
    """The service refuses a request."""


class Connection:
    """A connection to a service, by its number."""

    def __init__(self, service, number):
        self.service = service
        self.number = number
        self.ask(1)

    def ask(self, kind, fields=b""):
        tag, answer = self.service.ask(kind, self.number, fields)
        if tag == 0:
            raise Refused("number %d, argument %d" % struct.unpack(">BI", answer))
        return answer

    def open(self, mode, text):
        (handle,) = struct.unpack(">I", self.ask(3, bytes([mode]) + text.encode()))
        return handle

    def read(self, handle, size=4096):
        return self.ask(4, struct.pack(">II", handle, size)).decode()

    def write(self, handle, text):
        self.ask(5, struct.pack(">I", handle) + text.encode())

    def notify(self, handle, code, value):
        """Asks for a pulse once the handle has news, and tells whether it has some already."""
        return self.ask(10, struct.pack(">IBBI", handle, POLLARM, code, value)) == b"\x01"

    def receive_pulse(self):
        """The code and value of the pulse that is queued."""
        return struct.unpack(">BI", self.ask(11))


def show(title, text):
    print(title)
    for line in text.splitlines():
        print("   ", line)


def main():
    service = Service()
    publisher = Connection(service, 1)
    subscriber = Connection(service, 2)

    speed = publisher.open(READ | WRITE | CREATE, "/gps")
    publisher.write(speed, "speed:n:65\ncity::Ottawa\n")

    changes = subscriber.open(READ, "/gps?delta")
    show("All, at the first read:", subscriber.read(changes))
    show("Nothing has changed since:", subscriber.read(changes))

    print("News already:", subscriber.notify(changes, code=7, value=42))
    publisher.write(speed, "speed:n:70\n")
    publisher.write(speed, "speed:n:72\n")
    print("A pulse: code %d, value %d" % subscriber.receive_pulse())
    show("The changes, in order:", subscriber.read(changes))

    print("Status:", service.close())


if __name__ == "__main__":
    main()
