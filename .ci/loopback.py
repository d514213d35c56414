#!/usr/bin/env python3
"""Runs the tool `node` of a program against small peers on the loopback address, each behind a port that the system gives.

    .ci/loopback.py PROGRAM          runs all of it, in some seconds
    .ci/loopback.py PROGRAM SECONDS  measures for so long how much processor a node takes that has nothing to do

It ends with 1 at the first run that doesn't end, tell or take what it has to.
"""
import os
import socket
import struct
import subprocess
import sys
import time

PATIENCE = 30
MOST_TURNS = "1000000000"

LIST_NODES, PRESENT = 0xA011, 0x900C
SET_BYTECODE, RESET, RUN, STATE = 0xA001, 0xA002, 0xA003, 0x900A

# The init code sends event 3 with the first two cells, and ends.
SENDS_ONCE = [0x0003, 0xFFFF, 0x0003, 0xB003, 0x0000, 0x0002, 0x0000]
# It sends event 3 with 256 cells, for ever.
SENDS_EVER = [0x0003, 0xFFFF, 0x0003, 0xB003, 0x0000, 0x0100, 0x9FFD]


def words(*numbers):
    """Returns words as bytes."""
    return struct.pack(f"<{len(numbers)}H", *numbers)


def frame(kind, *numbers, source=0):
    """Returns the bytes of a frame that carries words."""
    return words(2 * len(numbers), source, kind) + words(*numbers)


def load_and_run(code):
    """Returns the frames that load words into the default node and run them."""
    return frame(SET_BYTECODE, 1, 0, *code) + frame(RESET, 1) + frame(RUN, 1)


class Failure(Exception):
    """A run that isn't as it has to be."""


def expect(what, got, wanted):
    """Fails where something isn't what is wanted."""
    if got != wanted:
        raise Failure(f"{what}: expected {wanted!r}, got {got!r}")


class Node:
    """The tool `node` with the default project, dialled to a port of this process."""

    def __init__(self, program, room=None):
        self.listener = socket.socket()
        if room is not None:
            self.listener.setsockopt(socket.SOL_SOCKET, socket.SO_RCVBUF, room)
        self.listener.bind(("127.0.0.1", 0))
        self.listener.listen(1)
        self.listener.settimeout(PATIENCE)
        self.process = start(program, self.listener.getsockname()[1])
        self.link, _ = self.listener.accept()
        self.link.settimeout(PATIENCE)

    def __enter__(self):
        return self

    def __exit__(self, *_):
        self.link.close()
        self.listener.close()
        self.process.kill()
        self.process.communicate()

    def say(self, data):
        """Writes bytes to the node."""
        self.link.sendall(data)

    def hear(self, wanted, what):
        """Reads as many bytes of the node as are wanted, which have to be these."""
        heard = b""
        while len(heard) < len(wanted):
            piece = self.link.recv(len(wanted) - len(heard))
            if not piece:
                break
            heard += piece
        expect(what, heard.hex(" "), wanted.hex(" "))

    def ends(self, what, statuses, told):
        """Waits for the program's end, with one of these statuses and lines."""
        _, err = self.process.communicate(timeout=PATIENCE)
        ending = (self.process.returncode, err.decode())
        if ending not in list(zip(statuses, told)):
            raise Failure(f"{what}: it ended with {ending!r}")

    def seconds(self):
        """Returns how many processor seconds the program has taken."""
        with open(f"/proc/{self.process.pid}/stat") as it:
            fields = it.read().rpartition(")")[2].split()
        return (int(fields[11]) + int(fields[12])) / os.sysconf("SC_CLK_TCK")


def start(program, port):
    """Starts the tool `node` with a target on the loopback address."""
    target = f"tcp:127.0.0.1:{port}"
    command = [program, "node", "default", target, MOST_TURNS]
    return subprocess.Popen(command, stdin=subprocess.DEVNULL, stdout=subprocess.DEVNULL, stderr=subprocess.PIPE)


def is_present(node):
    """The node answers LIST_NODES."""
    node.say(frame(LIST_NODES, 5))
    node.hear(frame(PRESENT, 5, source=1), "LIST_NODES")


def runs_what_is_loaded(program):
    """A node tells that it is there, takes words, runs them, and sends what they send."""
    with Node(program) as node:
        is_present(node)
        node.say(load_and_run(SENDS_ONCE))
        node.hear(frame(STATE, 3, 3, source=1), "RESET")
        node.hear(frame(STATE, 3, 1, source=1), "RUN")
        node.hear(frame(3, 1, 0, source=1), "the event that is sent")
        # A frame whose bytes come one by one.
        for byte in frame(LIST_NODES, 5):
            node.say(bytes([byte]))
            time.sleep(0.005)
        node.hear(frame(PRESENT, 5, source=1), "LIST_NODES in pieces")
        # The peer ends in the middle of a frame.
        node.say(frame(LIST_NODES, 5)[:5])
        node.link.shutdown(socket.SHUT_WR)
        node.ends("a link that ends in a frame", [0], [""])


def tells_a_bad_length(program):
    """A length above 1024 ends the run, with its place."""
    with Node(program) as node:
        node.say(frame(LIST_NODES, 5) + words(1025))
        node.ends("a bad length", [10], ["aseba: bad frame at 8\n"])


READ_FAULT, WRITE_FAULT = "aseba: read failed\n", "aseba: write failed\n"


def tells_a_reset(program):
    """A peer that resets the connection is a fault of a read, or of a write that comes first."""
    with Node(program) as node:
        is_present(node)
        node.link.setsockopt(socket.SOL_SOCKET, socket.SO_LINGER, struct.pack("ii", 1, 0))
        node.link.close()
        node.ends("a reset", [3, 7], [READ_FAULT, WRITE_FAULT])


def tells_a_full_link(program):
    """A peer that reads no more and closes while the node writes is a fault of the write."""
    with Node(program, room=4096) as node:
        node.say(load_and_run(SENDS_EVER))
        before = -1
        # A node that takes no more processor waits for room.
        while node.seconds() != before:
            before = node.seconds()
            time.sleep(0.3)
        node.link.close()
        node.ends("a peer that reads no more", [7], [WRITE_FAULT])


def tells_no_connection(program):
    """Nobody listens at the port."""
    with socket.socket() as deaf:
        deaf.bind(("127.0.0.1", 0))
        process = start(program, deaf.getsockname()[1])
        _, err = process.communicate(timeout=PATIENCE)
        expect("nobody listens", (process.returncode, err.decode()), (12, "aseba: no connection\n"))


def is_idle(program, seconds):
    """A node that has nothing to do takes less than a twentieth of a processor."""
    with Node(program) as node:
        is_present(node)
        before = node.seconds()
        time.sleep(seconds)
        taken = node.seconds() - before
        is_present(node)
    print(f"a node that has nothing to do took {taken:.2f} processor seconds in {seconds:g}")
    if taken >= seconds / 20:
        raise Failure("a node that has nothing to do takes too much of a processor")


def main(program, *rest):
    """Runs all, or measures an idle node for so many seconds."""
    if rest:
        is_idle(program, float(rest[0]))
        return
    for run in (runs_what_is_loaded, tells_a_bad_length, tells_a_reset, tells_a_full_link, tells_no_connection):
        run(program)
    is_idle(program, 5)


try:
    main(*sys.argv[1:])
except (Failure, OSError, subprocess.TimeoutExpired) as failure:
    print(f"aseba node: {failure}", file=sys.stderr)
    sys.exit(1)
