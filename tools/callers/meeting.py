"""Callers in C, Rust and Python, and the program itself, hold services of each other over one log, while some die; and
over a log in PostgreSQL, by its launcher, where a server can be started."""
import importlib
import json
import os
import re
import select
import signal
import subprocess
import sys
import time
from dataclasses import dataclass

from callers.checks import C, OUT, TOP
from callers.library import FLAGS
from postgres.server import LAUNCHER, Server, binaries

# How long a reply may take, and how long it may take until the log shows what came of something.
SECONDS = 30
LACKS = "EventOpenError::DoesNotSupportRequestedAmountOfListeners"
IS_THERE = "EventCreateError::AlreadyExists"


@dataclass(frozen=True)
class Place:
    """A log, the program that holds sessions over it, its environment, and that of callers that start it."""

    log: str
    program: str
    environment: dict
    of_callers: dict

    def listing(self, checks):
        """What stands in the log: each service with its nodes, and whether these are alive."""
        ran = checks.ran([self.program, "list", "--at", self.log, "--json"], env=self.environment)
        services = json.loads(ran.stdout) if ran.returncode == 0 else []
        return {service["name"]: {node["node"]: node["alive"] for node in service["nodes"]} for service in services}


class Caller:
    """A process that reads lines and answers each with a line."""

    def __init__(self, name, words, environment):
        self.name, self.slots, self.said = name, 0, ""
        pipes = {"stdin": subprocess.PIPE, "stdout": subprocess.PIPE, "stderr": subprocess.PIPE}
        self.process = subprocess.Popen([*map(str, words)], env=environment, text=True, bufsize=1, **pipes)

    def asks(self, how, service, listeners):
        """Its answer to a call."""
        self.process.stdin.write(self.line(how, service, listeners) + "\n")
        self.process.stdin.flush()
        ready, _, _ = select.select([self.process.stdout], [], [], SECONDS)
        return self.process.stdout.readline().rstrip("\n") if ready else "no answer"

    def line(self, how, service, listeners):
        """A line for a call."""
        return f"{how} {service} {listeners}"

    def answer(self, service, room):
        """What it answers to a call that is done."""
        return rf"node \d+: {service} has room for {room} listeners"

    def program(self):
        """The program that holds its session."""
        path = f"/proc/{self.process.pid}/task/{self.process.pid}/children"
        with open(path, encoding="ascii") as children:
            return int(children.read().split()[0])

    def ends(self):
        """Its status at the end of its input. What it wrote of errors is `said`."""
        try:
            _, self.said = self.process.communicate(timeout=SECONDS)
        except subprocess.TimeoutExpired:
            self.process.kill()
            self.process.communicate()
        return self.process.returncode


class Program(Caller):
    """`wulameron run`, whose lines have a node and a slot."""

    NODE = 9

    def line(self, how, service, listeners):
        self.slots += 1
        return f"event {how} {self.NODE} {self.slots} {service} max_listeners={listeners}"

    def answer(self, service, room):
        return rf"ok {self.slots} number=\d+"


def callers(checks, place):
    """The callers that can be made here."""
    archive, meet, log = OUT / "libwulameron.a", checks.room / "meet", place.log
    environment = place.of_callers
    found = [Caller("python", [sys.executable, "-B", TOP / "bindings/python/meet.py", log], environment)]
    found.append(Program("run", [place.program, "run", "--at", log, "--node", Program.NODE], place.environment))
    if checks.builds([checks.compiler, *FLAGS, "-o", meet, C / "meet.c", archive], "meet.c"):
        found.append(Caller("c", [meet, log], environment))
    if checks.has("cargo"):
        target = checks.room / "target"
        words = ["cargo", "build", "--offline", "--quiet", "--example", "meet", "--target-dir", target]
        built = checks.ran(words, cwd=TOP / "bindings/rust")
        if checks.counts(built.returncode == 0, f"bindings/rust: {built.stderr}"):
            found.append(Caller("rust", [target / "debug/examples/meet", log], environment))
    return found


def comes(look, wanted):
    """Looks until what is wanted is seen, or until it takes too long, and gives the last look."""
    end = time.monotonic() + SECONDS
    seen = look()
    while not wanted(seen) and time.monotonic() < end:
        time.sleep(0.05)
        seen = look()
    return seen


def agree(checks, found):
    """Each creates a service, each opens those of the others, and is refused what doesn't fit, by name."""
    for room, caller in enumerate(found, 4):
        reply = caller.asks("create", caller.name, room)
        checks.counts(re.fullmatch(caller.answer(caller.name, room), reply), f"{caller.name} creates: {reply}")
    for caller in found:
        for room, other in enumerate(found, 4):
            for how, listeners, wanted in (
                ("open", room - 1, caller.answer),
                ("open", room + 1, LACKS),
                ("create", room, IS_THERE),
            ):
                reply = caller.asks(how, other.name, listeners)
                text = wanted(other.name, room) if callable(wanted) else f"(refused: )?{wanted}(;.*)?"
                checks.counts(re.fullmatch(text, reply), f"{caller.name} asks to {how} {other.name}: {reply}")


def killed_caller(checks, place, caller):
    """A caller is killed: its program closes what it holds, and the others keep theirs."""
    before = place.listing(checks)
    caller.process.kill()
    caller.process.communicate()
    fewer = len(before) and len(before[caller.name]) - 1
    after = comes(lambda: place.listing(checks), lambda seen: all(len(nodes) == fewer for nodes in seen.values()))
    is_right = all(len(nodes) == fewer and all(nodes.values()) for nodes in after.values())
    checks.counts(is_right and after.keys() == before.keys(), f"{caller.name} was killed: {after}, before {before}")


def killed_program(checks, place, caller, session):
    """The program of a caller is killed: each call ends, its node is dead, and another one cleans up for it."""
    before = place.listing(checks)
    os.kill(caller.program(), signal.SIGKILL)
    reply = caller.asks("open", caller.name, 1)
    checks.counts(reply == "the program that holds the session has ended", f"{caller.name}: {reply}")
    dead = [node.node for node in session.nodes() if not node.is_alive and node.node in before[caller.name]]
    if not checks.counts(len(dead) == 1, f"nodes {session.nodes()} after a program was killed"):
        return
    after = place.listing(checks)
    is_dead = all(nodes.get(dead[0]) is False for nodes in after.values())
    checks.counts(is_dead and len(after) == len(before), f"node {dead[0]} is dead, and the log has {after}")
    # A place at each service, one more at its own, which it opened too, and a tag of each. The others keep the services.
    wanted = (1, len(before) + 1, len(before))
    for is_dry_run in (True, False):
        cleaned = session.clean(dead[0], dry_run=is_dry_run)
        checks.counts(cleaned == wanted, f"node {dead[0]} is cleaned up for: {cleaned}, and not {wanted}")
    after = place.listing(checks)
    checks.counts(len(after) == len(before) and not any(dead[0] in nodes for nodes in after.values()), f"then {after}")
    checks.counts(caller.ends() == 1, f"{caller.name} ends with {caller.process.returncode}")


def end(checks, place, found, session):
    """All end, and nothing is left."""
    for caller in found:
        status = caller.ends()
        checks.counts(status == 0, f"{caller.name} ends with {status}: {caller.said}")
    left = place.listing(checks)
    checks.counts(not left and session.list() == 0, f"all have ended, and {place.log} has {left}")
    session.close_session()


def opened(place, node):
    """A session of this process."""
    sys.path.insert(0, str(TOP / "bindings/python"))
    os.environ.update(place.environment)
    return importlib.import_module("wulameron").Session(place.log, node=node, program=str(place.program))


def meeting(checks):
    """All of them over one log."""
    place = Place(str(checks.folder() / "log"), checks.program, checks.environment, checks.environment)
    session = opened(place, 99)
    found = callers(checks, place)
    agree(checks, found)
    killed_caller(checks, place, found.pop(2))
    killed_program(checks, place, found.pop(-1 if len(found) > 2 else 0), session)
    end(checks, place, found, session)
    print(f"meeting: {checks.passed} passed so far")


def meeting_in_postgres(checks):
    """All of them over one log in a database, by its launcher."""
    programs = binaries()
    if not programs:
        print("PostgreSQL of version 15 or later isn't here")
        return
    server = Server(programs, checks.server_room())
    try:
        server.make()
        own = checks.environment | server.environment() | {"WULAMERON_RECONNECT": "0"}
        # The callers' variable names the launcher, which doesn't get it, and finds its program on the path.
        path = f"{checks.program.parent}:{own['PATH']}"
        place = Place("postgres:meeting", LAUNCHER, own, own | {"WULAMERON": str(LAUNCHER), "PATH": path})
        session = opened(place, 99)
        found = callers(checks, place)
        agree(checks, found)
        end(checks, place, found, session)
    finally:
        server.stop()
    print(f"meeting in PostgreSQL: {checks.passed} passed so far")
