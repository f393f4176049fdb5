"""A `hold` that does nothing while its sessions end: it is told, and goes on in another session, as often as there is one.
It ends where it can't, and however it ends, nothing is left of its launcher. The unit of contrib/ over a database."""
import contextlib
import os
import re
import select
import signal
import subprocess
import threading
import time

from logs.commands import REFUSED
from postgres.again import AGAIN, NOT_AGAIN, SOON, WATCHED
from postgres.checks import SECONDS, until
from postgres.errors import children_left
from postgres.server import FAST, LAUNCHER, PAUSE, TOP, Server
from postgres.site import FAULT, LOST, NOT_PROGRAMS, WOKEN, child, waiting

UNIT, HOLD = TOP / "contrib/wulameron-hold@.service", TOP / "contrib/wulameron-hold"
# What the program tells of its service, and why it ends.
STILL, NO_LONGER = "event {} is still held, in a new session", "event {} is no longer held"
GONE = "the session had ended, and what this node held is gone; start the program again"
NO_SESSION = "the session with the database has ended; see whether the server runs, and start the program again"
# For how many seconds one tries to connect, and by how many more a server is away.
SHORT, LONGER = 2, 1
# What is written to an input that nobody reads.
TYPED = b"typed later\n"


def told(log, *texts):
    """Lines of the program."""
    return [f"wulameron: postgres:{log}: {text}\n" for text in texts]


def stood(log, name):
    """What is told of a session that ended, and of a service that is still held in the next one."""
    return [WOKEN.format(log), f"{AGAIN}\n", *told(log, STILL.format(name))]


def ended(log, name, why):
    """What a program tells that can't go on."""
    return told(log, why, NO_LONGER.format(name))


class Hold:
    """A `hold` under the launcher, of a service that has the log's name, and the lines that it is told as they come."""

    def __init__(self, site, server, name, words=None, **others):
        call = waiting("hold", ["--node", "1", "event", "create", name])
        words = words or [str(LAUNCHER), "hold", *call, "--at", f"postgres:{name}"]
        options = {key: others.pop(key) for key in ("stdin", "preexec_fn", "start_new_session") if key in others}
        streams = {stream: subprocess.PIPE for stream in ("stdin", "stdout", "stderr")}
        own = {"WULAMERON_RECONNECT": str(SECONDS), "PGOPTIONS": "", "PGAPPNAME": name}
        environment = site.environment(server, **own | others)
        self.site, self.server, self.name, self.lines = site, server, name, []
        self.process = subprocess.Popen(words, env=environment, text=True, **streams | options)
        site.checks.count("processes")
        site.checks.same(self.process.stdout.readline(), f"name: {name}\n", f"{name}: a hold")
        self.reader = threading.Thread(target=self.read, daemon=True)
        self.reader.start()

    def read(self):
        """Keeps each line that it is told."""
        for line in self.process.stderr:
            self.lines.append(line)

    def hears(self, wanted, what):
        """It is told these lines, or lines that begin so, and no others."""
        until(lambda: len(self.lines) >= len(wanted))
        fine = len(self.lines) == len(wanted) and all(map(str.startswith, self.lines, wanted))
        self.site.checks.need(fine, f"{self.name}: {what}: {self.lines}, not {wanted}")

    def terminate(self):
        """Has the server end its session."""
        query = f"select pg_terminate_backend(pid) from pg_stat_activity where application_name = '{self.name}'"
        self.site.checks.need("t" in self.server.told(query), f"{self.name} has no session")

    def program(self):
        """The process of the program."""
        return child(self.process.pid, *NOT_PROGRAMS)

    def psql(self):
        """The process of its psql."""
        return until(lambda: child(child(self.process.pid, wanted="bash"), wanted="psql"), pause=PAUSE)

    def ends(self, wanted, status, what):
        """It ends with this status by itself, or when its input ends, and was told these lines in all."""
        with contextlib.suppress(subprocess.TimeoutExpired):
            self.process.wait(SECONDS)
        found = self.process.poll()
        self.process.kill()
        self.reader.join()
        self.site.checks.same(found, status, f"{self.name}: {what}: the status, with {self.lines}")
        self.hears(wanted, what)

    def has(self, state, count):
        """Its node is in this state, and so many services are listed."""
        nodes = until(lambda: self.server.told(f"select wulameron.nodes('{self.name}')") == [f"1 {state}"], pause=PAUSE)
        self.site.checks.need(nodes, f"{self.name}: its node isn't {state}")
        ran = self.site.ran("list", self.name, server=self.server)
        self.site.checks.need(f"{count} services" in ran.out, f"{self.name}: not {count} services are listed: {ran}")


def twice(site, server):
    """A hold stands again as often as its session ends, and ends in order."""
    hold, wanted = Hold(site, server, "held-twice"), []
    for what, way in (("its session ended", hold.terminate), ("psql killed", lambda: os.kill(hold.psql(), signal.SIGKILL))):
        time.sleep(WATCHED)
        way()
        wanted += stood(hold.name, hold.name)
        hold.hears(wanted, what)
        hold.has("alive", 1)
    hold.process.stdin.close()
    hold.ends(wanted, 0, "a hold that stood again twice")
    hold.has("dead", 0)


def without(site, server):
    """There is no other session: at all, in time, and until the input has ended, when a hold releases in a later one."""
    never, short, late = (Hold(site, server, f"held-{name}", WULAMERON_RECONNECT=str(seconds))
                          for name, seconds in (("never", 0), ("short", SHORT), ("late", SECONDS)))
    time.sleep(WATCHED)
    server.stop(FAST)
    began = time.monotonic()
    never.ends([LOST.format(never.name)], FAULT, "a hold that never connects again")
    late.hears([WOKEN.format(late.name)], "while there is no server")
    late.process.stdin.close()
    wanted = [WOKEN.format(short.name), NOT_AGAIN, *ended(short.name, short.name, NO_SESSION)]
    short.ends(wanted, FAULT, "no other session in time")
    took = time.monotonic() - began
    site.checks.need(took >= SHORT, f"a hold that may connect again for {SHORT} seconds has ended after {took:.1f}")
    server.start()
    late.ends(stood(late.name, late.name), 0, "a hold whose input ended while there was no session")
    late.has("dead", 0)
    for hold in (never, short):
        hold.has("dead", 1)


def handed(site, server):
    """The launcher reads the input of a `hold` itself, and hands on that of a `run` as it is."""
    hold = Hold(site, server, "held-handed")
    process = site.living_of(site.words("run", "run-handed"), "run-handed", 0, site.environment(server))
    process.reply("list")
    for what, one, is_handed in (("run", process, True), ("hold", hold, False)):
        ends = (("self", one.process.stdin.fileno()), (one.program(), 0))
        own, theirs = (os.readlink(f"/proc/{pid}/fd/{number}") for pid, number in ends)
        site.checks.same(own == theirs, is_handed, f"whether the program has the input of a {what}")
        site.checks.same(bool(child(one.process.pid, wanted="cat")), not is_handed, f"whether a {what} has a feeder")
    # More than a pipe has room for.
    hold.process.stdin.write("\n".join(map(str, range(100000))))
    hold.process.stdin.close()
    hold.ends([], 0, "a hold whose input has much")
    process.end()


def unread(reader):
    """What nobody has read of a pipe."""
    return os.read(reader, len(TYPED)) if select.select([reader], [], [], 0)[0] else None


def refused(site, server):
    """A hold that is refused reads nothing of its input."""
    hold, (reader, writer) = Hold(site, server, "held-refused"), os.pipe()
    os.write(writer, TYPED)
    words = site.words("hold", hold.name, "--node", "2", "event", "create", hold.name)
    ran = subprocess.run(words, stdin=reader, env=site.environment(server), capture_output=True, text=True, timeout=SECONDS)
    site.checks.same((ran.returncode, unread(reader)), (REFUSED, TYPED), f"a hold that is refused, and its input: {ran}")
    hold.process.stdin.close()
    hold.ends([], 0, "beside a hold that was refused")
    os.close(reader)
    os.close(writer)


def left(site, server, room):
    """However a hold ends, nothing is left of its launcher, and nobody reads what comes on its input afterwards."""
    killed, terminated = -signal.SIGKILL, -signal.SIGTERM
    ways = {
        "input-ended": (lambda hold, writer: os.close(writer), 0),
        "program-killed": (lambda hold, _: os.kill(hold.program(), signal.SIGKILL), killed),
        "launcher-killed": (lambda hold, _: hold.process.kill(), killed),
        "launcher-ended": (lambda hold, _: hold.process.terminate(), terminated),
        "group-ended": (lambda hold, _: os.killpg(hold.process.pid, signal.SIGTERM), terminated),
        "session-ended": (lambda hold, _: hold.terminate(), FAULT),
    }
    for name, (way, status) in ways.items():
        reader, writer = os.pipe()
        others = {"WULAMERON_RECONNECT": "0"} if status == FAULT else {}
        hold = Hold(site, server, name, stdin=reader, start_new_session=True, TMPDIR=str(room), **others)
        time.sleep(WATCHED if others else 0)
        way(hold, writer)
        hold.ends([LOST.format(name)] if others else [], status, "a hold")
        site.checks.need(until(lambda: not children_left(room), SOON, PAUSE), f"{name}: there is left: {children_left(room)}")
        if status:
            os.write(writer, TYPED)
            site.checks.same(unread(reader), TYPED, f"{name}: the input")
            os.close(writer)
        os.close(reader)
    for name, options in (("no-input", {"stdin": subprocess.DEVNULL}), ("closed", {"preexec_fn": lambda: os.close(0)})):
        hold = Hold(site, server, name, TMPDIR=str(room), **options)
        hold.ends([], 0, "a hold without an input")
        site.checks.need(until(lambda: not children_left(room), SOON, PAUSE), f"{name}: there is left: {children_left(room)}")


# ---- The unit


def unit(site, server):
    """The unit of contrib over a database: a lost session doesn't end it. Without another one it ends so that systemd starts it
    again, and what it runs behind a stop cleans up by the launcher."""
    text = UNIT.read_text(encoding="utf-8")
    lines = {name: re.search(rf"^{name}=-?(.*)$", text, re.MULTILINE)[1] for name in ("ExecStart", "ExecStopPost", "Restart")}
    # The launcher finds the program beside it, or on the path.
    programs = site.room / "unit"
    programs.mkdir()
    (programs / "wulameron").symlink_to(site.program)
    for name, seconds in (("unit-again", SECONDS), ("unit-never", 0)):
        given = {"NODE": "1", "CALL": f"event create {name}", "WULAMERON": str(LAUNCHER), "WULAMERON_LOG": f"postgres:{name}"}
        words = lambda line: [word for part in lines[line].replace("/usr/local/bin/wulameron-hold", str(HOLD)).split()
                              for word in (given[part.strip("${}")].split() if part.startswith("$") else [part])]
        others = given | {"PATH": f"{programs}:{server.environment()['PATH']}", "WULAMERON_RECONNECT": str(seconds)}
        hold = Hold(site, server, name, words("ExecStart"), stdin=subprocess.DEVNULL, **others)
        time.sleep(WATCHED)
        hold.terminate()
        wanted, cleaned = [LOST.format(name)], ["node 1: 1 releases, 3 removals"]
        if seconds:
            wanted, cleaned = stood(name, name), []
            hold.hears(wanted, "the unit when its session has ended")
            hold.process.terminate()
        hold.ends(wanted, 0 if seconds else FAULT, "the unit")
        ran = site.finished(words("ExecStopPost"), [], site.environment(server, **others))
        site.checks.same((ran.status, ran.out, ran.err), (0, cleaned, ""), f"{name}: what the unit runs then")
    site.checks.same(lines["Restart"], "on-failure", "when the unit is started again")


def holds(site):
    """All of these, at a server of their own."""
    server = site.add(Server(site.programs, site.room / "holds", "127.0.0.1")).make()
    room = site.room / "holds-left"
    room.mkdir()
    twice(site, server)
    without(site, server)
    handed(site, server)
    refused(site, server)
    left(site, server, room)
    unit(site, server)
    server.stop()
