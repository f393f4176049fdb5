"""Calls beside others who want the log: each call stands whole in it, or is refused and isn't there.

A process is stopped on entry to each call of flock (tools/calls.c), so that another one can try for the log between any
two of its steps; another is hunted for the log by a process (logs/hunter.py); and some make calls at once.
"""
import fcntl
import os
import pathlib
import select
import signal
import subprocess
import sys
import time
from concurrent.futures import ThreadPoolExecutor

from logs.form import read_log
from logs.runs import BUSY, Living
from logs.storm import drawn_lines
from logs.world import World

# Who calls, who has made what is opened, and for how many milliseconds a call waits for the log.
NODE, MAKER = 51, 52
WAIT = 50
# The calls, each with the lines before it and how it is answered; and one that makes an access, and nothing else.
CALLS = {
    "a create": ([], f"event create {NODE} 0 whole", "ok 0 number="),
    "an open or create": ([], f"rr open_or_create {NODE} 0 whole", "ok 0 number="),
    "a close of the last node": ([f"pubsub create {NODE} 0 whole"], "close 0", "closed 0"),
    "an open": ([], f"event open {NODE} 0 kept", "ok 0 number="),
    "a close beside another node": ([f"event open {NODE} 0 kept"], "close 0", "closed 0"),
}
LOOK = f"event open {NODE} 9 absent"
# How calls are answered that are refused since others hold the log: by the general faults of accesses.
REFUSED = ("InternalFailure", "InsufficientPermissions", "ServiceInCorruptedState", "not closed")
# How often the stopped process is looked at, and at how many of its stops another tries for the log at most.
LOOK_SECONDS = 0.0005
MOST_STOPS = 40
# Of the hunt: the script, how long the log is held, for how long, and how many calls so that it isn't compacted.
HUNTER = pathlib.Path(__file__).with_name("hunter.py")
HOLD_SECONDS = 0.08
HUNT_SECONDS = 3
HUNTED_CALLS = 200
# How often a call is repeated that is refused, and of how many wrong things of a kind it is told.
TRIES = 20
TOLD = 3
# Those that make calls at once.
TOGETHER = (53, 54, 55, 56)
TOGETHER_CALLS = 400


# ---- what is whole


def is_done(world, entry):
    """Whether the entry's node is done with its service: it has joined it and has its tag, or has nothing of it."""
    phase, has_tag = world.phases.get((entry.node, entry.hash)), (entry.node, entry.hash) in world.tags
    return has_tag if phase is not None and phase.at == "Joined" else not has_tag and world.begins(entry)


def unfinished(entries, counter):
    """The entries after which their call isn't done, though the next entry is another node's or there is none."""
    world, found = World(counter), []
    for entry, after in zip(entries, [*entries[1:], None]):
        world.grant(entry)
        if (after is None or after.node != entry.node) and not is_done(world, entry):
            found.append(entry)
    return found


def left_in(path):
    """The unfinished calls of a file, in words."""
    log = read_log(path.read_bytes())
    return [f"{entry.operation} of node {entry.node}" for entry in unfinished(log.entries, log.header.counter)]


# ---- one that is stopped at each step


def nothing():
    """Is done at a stop at which nobody looks."""


class Stepped(Living):
    """A process that is stopped on entry to each flock."""

    def __init__(self, runs, path):
        self.at_stop = nothing
        super().__init__(runs, path, NODE, wait=WAIT, CALLS_STOP="flock")
        self.reply(LOOK)

    def goes_on(self):
        """Has it go on where it is stopped, after a look at what there is."""
        try:
            is_stopped = os.waitid(os.P_PID, self.process.pid, os.WSTOPPED | os.WNOHANG)
        except ChildProcessError:
            # It has ended.
            return
        if is_stopped:
            self.at_stop()
            self.process.send_signal(signal.SIGCONT)

    def reply(self, line):
        """The reply to a line."""
        self.runs.count("calls")
        self.watch()
        self.process.stdin.write(f"{line}\n".encode())
        self.process.stdin.flush()
        while not select.select([self.process.stdout], [], [], LOOK_SECONDS)[0]:
            self.goes_on()
        return self.process.stdout.readline().decode().rstrip("\n")

    def end(self):
        """Has it end by itself."""
        self.process.stdin.close()
        while self.process.poll() is None:
            self.goes_on()
            time.sleep(LOOK_SECONDS)
        self.process.stdin = None
        return super().end()


class Grabber:
    """Takes the log at one of the stops at which it is free, and keeps it until the call is answered."""

    def __init__(self, path, number):
        self.path, self.number, self.stops, self.stood = path, number, 0, None
        self.base, self.file = path.stat().st_size, open(path, "rb")

    def __call__(self):
        """At a stop."""
        if self.stood is not None:
            return
        try:
            fcntl.flock(self.file, fcntl.LOCK_EX | fcntl.LOCK_NB)
        except BlockingIOError:
            return
        if self.stops == self.number:
            self.stood = left_in(self.path)
        else:
            fcntl.flock(self.file, fcntl.LOCK_UN)
        self.stops += 1

    def let_go(self):
        """Lets go of the log, and tells by how much it has grown."""
        self.file.close()
        return self.path.stat().st_size - self.base


def faults_of(path, living, line, wanted, number):
    """What is wrong with a call at one of whose stops another takes the log; at last whether there was such a stop."""
    grabber = Grabber(path, number)
    living.at_stop = grabber
    reply = living.reply(line)
    living.at_stop = nothing
    if grabber.stood:
        yield f"another took it after its {grabber.stood[-1]}"
    has_grown = grabber.let_go()
    if is_refused := any(word in reply for word in REFUSED):
        if has_grown:
            yield f"to {line!r} it replied {reply!r}, and left entries"
        reply = living.reply(line)
    if not reply.startswith(wanted):
        yield f"to {line!r} it replied {reply!r}{', when it was made again' * is_refused}"
    yield is_refused, grabber.stood is not None


def grabbed(runs, name, number):
    """Another takes the log at this one of the stops of a call at which it is free. False where there are no more."""
    before, line, wanted = CALLS[name]
    path, what = runs.file(f"whole-{number}"), f"{name}, when another takes the log at chance {number}"
    maker = Living(runs, path, MAKER)
    maker.reply(f"event create {MAKER} 0 kept max_nodes=2")
    living = Stepped(runs, path)
    for one in before:
        living.reply(one)
    *faults, (is_refused, is_grabbed) = faults_of(path, living, line, wanted, number)
    ended = living.end(), maker.end()
    if any(ran.status for ran in ended) or is_refused > (BUSY in ended[0].err):
        faults.append(f"they ended with {ended}")
    replayed = runs.replay(path.read_bytes(), what)
    if replayed and replayed[1].remains():
        faults.append(f"in the end there is {replayed[1].remains()}")
    runs.need(not faults, f"{what}: {'; '.join(faults)}")
    return is_grabbed


def stepped(runs):
    """Each call, with another that takes the log at each of its stops in turn."""
    for name in CALLS:
        number = 0
        while number < MOST_STOPS and grabbed(runs, name, number):
            number += 1
        runs.need(0 < number < MOST_STOPS, f"{name}: another could take the log at {number} of its stops")
        print(f"{name}: another could take the log {number} times")


# ---- one that is hunted


def hunted_call(runs, living, path, line, wanted, what):
    """Makes a call until it isn't refused. Tells whether it is granted then, and nothing came of the refused ones."""
    for _ in range(TRIES):
        before, reply = path.stat().st_size, str(living.reply(line))
        if not any(word in reply for word in REFUSED):
            is_granted = reply.startswith(wanted)
            return is_granted or runs.need(False, f"{what}: to {line!r} it replied {reply!r}, after {left_in(path)}")
        if not runs.need(path.stat().st_size == before, f"{what}: to {line!r} it replied {reply!r}, and left entries"):
            return False
    return runs.need(False, f"{what}: {line!r} was refused {TRIES} times")


def hunted(runs):
    """A process creates and closes while another takes the log wherever it can, and keeps it longer than it waits."""
    path, what = runs.file("hunted"), "a process that is hunted for the log"
    living = Living(runs, path, NODE, wait=WAIT)
    living.reply(LOOK)
    words = [sys.executable, "-B", HUNTER, path, str(HOLD_SECONDS)]
    hunter = subprocess.Popen(words, stdin=subprocess.PIPE, stdout=subprocess.PIPE)
    hunter.stdout.readline()
    deadline, count, fine = time.monotonic() + HUNT_SECONDS, 0, True
    while fine and count < HUNTED_CALLS and time.monotonic() < deadline:
        fine = hunted_call(runs, living, path, f"event create {NODE} 0 whole", "ok 0 number=", what)
        fine = fine and hunted_call(runs, living, path, "close 0", "closed 0", what)
        count += 2
    holds = int(hunter.communicate()[0])
    runs.need(holds, f"{what}: it never was")
    print(f"{what}: {count} calls, held {holds} times")
    ran = living.end()
    runs.need(ran.status == 0, f"{what}: it ended with {ran}")
    replayed = runs.replay(path.read_bytes(), what)
    if replayed:
        runs.need(not replayed[1].remains(), f"{what}: in the end there is {replayed[1].remains()}")


# ---- some at once


def together(runs):
    """Some processes make calls on shared names at once: no entry of another comes within a call."""
    path, what = runs.file("together"), "calls at once"
    lines = {node: drawn_lines(runs.random, node, TOGETHER_CALLS) for node in TOGETHER}
    with ThreadPoolExecutor(len(lines)) as pool:
        ended = list(pool.map(lambda node: runs.run(path, node, lines[node]), lines))
    fine = all((ran.status, ran.err) == (0, "") for ran in ended)
    runs.need(fine, f"{what}: they ended with {[(ran.status, ran.err) for ran in ended]}")
    replayed = runs.replay_all(path, what)
    if replayed:
        log = replayed[0].log
        found = unfinished(log.entries, log.header.counter)
        told = ", ".join(entry.line() for entry in found[:TOLD])
        runs.need(not found, f"{what}: {len(found)} times another's entry comes within a call: after {told}")


def whole_calls(runs):
    """All of it, one after the other."""
    for part in (stepped, hunted, together):
        part(runs)
