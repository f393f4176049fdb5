"""Holders that do nothing while their sessions end, each beside a newcomer that creates the same service again and again.
Each holder is told before its newcomer gets the service: a `hold` by the launcher's line, a `run` by another one and its
status, a caller in C and one in Python by a code. A `hold` that reaches a server in time goes on, and its newcomer never gets
the service. Sessions end in all ways: the server is stopped in order or at once and started again, ends one session, a psql
is killed, a link is cut, and a standby is promoted. All moments are of the one clock of this machine."""
import contextlib
import json
import os
import pathlib
import shutil
import signal
import socket
import subprocess
import sys
import threading
import time
from dataclasses import dataclass

from postgres.checks import SECONDS, until
from postgres.driver import Client
from postgres.errors import WRONG_ARGUMENTS
from postgres.failover import STANDBY, takes_over
from postgres.holds import GONE, ended, holds, stood
from postgres.networks import Network
from postgres.server import FAST, IMMEDIATE, LAUNCHER, ORDINARY, PAUSE, TOP, Server, replica
from postgres.site import FAULT, LOST, LOST_FOR, waiting

# How long a newcomer goes on, and how soon it asks again: at first, and as long as a `hold` stands that stood again before.
GOES_ON, NEXT, LATER, AT_FIRST = 20, 0.02, 0.2, 8
# How soon a holder is told where the server or psql is at fault, and where a link is cut, also under load: a server that is
# stopped in order takes two seconds for that then.
TOLD, TOLD_CUT = 5, 10
# How long a session lasts at most before it ends, and a server is away.
LASTS, AWAY = 1.5, 0.7
# Connections by which a server would notice a link that is cut before the holder does.
SLOW = (["-d", "dbname=logs keepalives_idle=60"], ["-d", "postgresql:///logs?keepalives_count=9&keepalives_interval=2"],
        ["-d", "dbname=logs tcp_user_timeout='20000'"], ["-d", "dbname=logs keepalives=0"],
        ["-d", "postgres:///logs?tcp_user_timeout=0"])
# How many holders there are at once, and by how many ends of them a link is cut, or a standby is promoted.
CUTS, PROMOTIONS = 24, 100
BINDINGS, WATCHER = TOP / "bindings", TOP / "postgres/wulameron-postgres-watch"
CALLER = """
import sys, time, wulameron as w
program, path, node, name = sys.argv[1:]
with w.Session(path, node=int(node), program=program) as session:
    session.begin(w.EVENT, w.CREATE, session.node, name)
    session.send(0)
    print("held", flush=True)
    try:
        while True:
            session.begin(w.EVENT, w.OPEN, session.node, name)
            time.sleep(0.02)
    except w.SessionLost as lost:
        print(int(lost.code), time.monotonic(), *lost.services, flush=True)
"""
# WULAMERON_LOST.
CODE = 33


class Holder:
    """A process that holds a service, and is told once that this is lost: when, or nothing. A `hold` may go on then."""

    def __init__(self, place, kind, node, name, environment):
        self.kind, self.node, self.name, self.log = kind, node, name, place.log
        self.is_caller = kind in ("c", "python")
        self.told, self.lines, self.heard = None, [], threading.Event()
        streams = {stream: subprocess.PIPE for stream in ("stdin", "stdout", "stderr")}
        words = [*place.front, *place.words(kind, node, name)]
        self.process = subprocess.Popen(words, env=environment | {"PGAPPNAME": name}, text=True, **streams)
        # The launcher throws away what comes on the input of a `hold`.
        if not self.is_caller:
            self.process.stdin.write(f"event create - 0 {name}\n")
            self.process.stdin.flush()
        self.is_held = bool(self.process.stdout.readline())
        self.thread = threading.Thread(target=self.hear, daemon=True)
        self.thread.start()

    def hear(self):
        """Keeps all lines that it is told. The first one may tell that what it holds is lost."""
        for line in self.process.stdout if self.is_caller else self.process.stderr:
            self.told = self.told if self.lines else self.moment(line)
            self.lines.append(line)
            self.heard.set()
        self.heard.set()

    def moment(self, line):
        """When a line told that what it holds is lost, if it did."""
        if not self.is_caller:
            return time.monotonic() if line == self.wanted()[0] else None
        cells = line.split()
        return float(cells[1]) if cells[:1] == [str(CODE)] and cells[2:] == [self.name] else None

    def wanted(self, stands=False):
        """What it has to be told in all: of a `hold` that stands again once, or of one whose service is gone."""
        if self.is_caller:
            return self.lines[:1]
        again = stood(self.log, self.name)
        gone = [*again[:-1], *ended(self.log, self.name, GONE)]
        return [LOST.format(self.log)] if self.kind != "hold" else again if stands else gone

    def status(self):
        """How it ended, if it has."""
        with contextlib.suppress(subprocess.TimeoutExpired):
            return self.process.wait(SECONDS if self.told else 0.1)
        self.process.kill()
        return None

    def end(self):
        """Ends its input, and gives its status, with all that it was told."""
        self.process.stdin.close()
        status = self.status()
        self.thread.join(SECONDS)
        return status


class Newcomer(threading.Thread):
    """A process that cleans up and creates a service, again and again: when it got it, or nothing."""

    def __init__(self, place, name, environment):
        super().__init__(daemon=True)
        self.name, self.got, self.replies = name, None, []
        streams = {stream: subprocess.PIPE for stream in ("stdin", "stdout")}
        words = [*place.newcomers, str(LAUNCHER), *waiting("run", ["run", "--escaped"]), "--at", f"postgres:{place.log}"]
        self.process = subprocess.Popen(words, env=environment, text=True, stderr=subprocess.DEVNULL, **streams)
        self.process.stdout.readline()
        self.deadline = time.monotonic() + SECONDS

    def run(self):
        """Asks until it gets it, or its time is over."""
        with contextlib.suppress(BrokenPipeError):
            while not self.got and time.monotonic() < self.deadline:
                self.process.stdin.write(f"clean\nevent create - 0 {self.name}\n")
                self.process.stdin.flush()
                self.replies = [self.process.stdout.readline(), self.process.stdout.readline()]
                if self.replies[1].startswith("ok "):
                    self.got = time.monotonic()
                elif not self.replies[1]:
                    return
                else:
                    time.sleep(NEXT if time.monotonic() < self.deadline - GOES_ON + AT_FIRST else LATER)

    def end(self):
        """Ends it, with what it holds."""
        self.process.stdin.close()
        self.process.wait(SECONDS)


class Place:
    """Where holders are, and newcomers, and by what name their log goes."""

    def __init__(self, site, server, room, **environment):
        self.site, self.checks, self.server, self.room = site, site.checks, server, room
        self.environment = site.environment(server, **{"WULAMERON_RECONNECT": str(SECONDS), "PGOPTIONS": ""} | environment)
        self.front, self.newcomers, self.own = [], [], {}
        self.log, self.rounds = None, 0
        # The holds that stand again, whose newcomers go on.
        self.standing = []

    def words(self, kind, node, name):
        """The words by which a holder is begun."""
        if kind == "c":
            return [str(self.room / "holder"), str(LAUNCHER), f"postgres:{self.log}", str(node), name]
        if kind == "python":
            return [sys.executable, "-B", "-c", CALLER, str(LAUNCHER), f"postgres:{self.log}", str(node), name]
        call = ["event", "create", name] if kind == "hold" else []
        return [str(LAUNCHER), kind, *waiting(kind, ["--node", str(node), *call]), "--at", f"postgres:{self.log}"]

    def begin(self, kinds):
        """Holders, each of a service of its own, and a newcomer for each of them, which has been refused."""
        self.rounds += 1
        self.log = f"holders-{self.rounds}"
        callers = {"WULAMERON_LIBRARY": str(self.room / "libwulameron.so"), "PYTHONPATH": str(BINDINGS / "python")}
        environment = self.environment | self.own | callers
        names = {kind: f"{kind}-{self.server.folder.name}-{self.rounds}" for kind in kinds}
        found = {kind: Holder(self, kind, node, name, environment) for node, (kind, name) in enumerate(names.items(), 1)}
        newcomers = {kind: Newcomer(self, name, self.environment) for kind, name in names.items()}
        for kind, holder in found.items():
            self.checks.need(holder.is_held, f"{kind}: a holder that holds nothing")
        return found, newcomers

    def strike(self, what, way, kinds, soon=TOLD, mend=None):
        """Has all sessions of the holders end, at a drawn moment, and looks who was told, and who got what, and when. A link that
        was cut is mended once newcomers have got what was held. Otherwise a `hold` stands again."""
        holders, newcomers = self.begin(kinds)
        for newcomer in newcomers.values():
            newcomer.start()
        until(lambda: all(newcomer.replies for newcomer in newcomers.values()))
        time.sleep(self.checks.random.uniform(0, LASTS))
        early = [kind for kind, newcomer in newcomers.items() if newcomer.got]
        self.checks.same(early, [], f"{what}: newcomers that got what was held")
        struck = time.monotonic()
        for newcomer in newcomers.values():
            newcomer.deadline = struck + GOES_ON
        way(holders)
        ends = [End(f"{what}, {kind}", struck, holder, newcomers[kind], soon) for kind, holder in holders.items()]
        self.standing += [end for end in ends if end.holder.kind == "hold" and not mend]
        ends = [end for end in ends if end not in self.standing]
        for end in ends:
            end.newcomer.join(SECONDS)
            end.holder.heard.wait(GOES_ON)
        if mend:
            mend()
        for end in ends:
            self.check(end)
        self.settle([end for end in self.standing if not end.newcomer.is_alive()])

    def check(self, end):
        """A holder was told soon, and before its newcomer got the service. It has ended."""
        need, told, got = self.checks.need, end.holder.told, end.newcomer.got
        status = end.holder.status()
        end.holder.thread.join(SECONDS)
        self.checks.count("ends of idle holders")
        need(told and (status == 0 if end.holder.is_caller else status == FAULT), f"{end}; status {status}, {end.holder.lines}")
        need(got, f"{end}: {end.newcomer.replies}")
        need(not told or not got or told < got, f"{end}: not before")
        need(not told or told - end.struck < end.soon, f"{end}: not soon")
        self.checks.same(end.holder.lines, end.holder.wanted(), f"{end}: what it was told")
        end.newcomer.end()

    def settle(self, ends):
        """These holds were told soon that their sessions were lost, and go on in other ones: newcomers have never got what they
        hold. Later ends of sessions may have met them, too. When their inputs end, they give back what they hold."""
        for end in ends:
            holder = end.holder
            end.newcomer.join(SECONDS)
            self.checks.need(holder.told and holder.told - end.struck < end.soon, f"{end}: not soon; {holder.lines}")
            self.checks.need(not end.newcomer.got, f"{end}: {end.newcomer.replies}")
            alive = {"alive": True, "factories": 1, "node": holder.node, "state": "alive"}
            self.checks.same(self.listed(holder), [alive], f"{end}: what is listed")
            status = holder.end()
            count = max(len(holder.lines) // len(holder.wanted(True)), 1)
            self.checks.count("ends of idle holders", count)
            wanted = holder.wanted(True) * count
            self.checks.same((status, holder.lines), (0, wanted), f"{end}: its status, and what it was told")
            self.checks.same(self.listed(holder), [], f"{end}: what is listed in the end")
            end.newcomer.end()
            self.standing.remove(end)

    def listed(self, holder):
        """The nodes of the holder's service, as they are listed."""
        words = [str(LAUNCHER), "list", "--json", "--at", f"postgres:{holder.log}"]
        ran = self.site.finished(words, [], self.environment)
        found = {one["name"]: one["nodes"] for one in json.loads("".join(ran.out) or "[]")}
        return found.get(holder.name, []) if ran.status == 0 else ran


@dataclass(eq=False)
class End:
    """The end of a holder's session: what it was, when that came, beside whom, and how soon the holder has to be told."""

    what: str
    struck: float
    holder: Holder
    newcomer: Newcomer
    soon: float

    def __str__(self):
        after = lambda moment: f"after {moment - self.struck:.3f} seconds" if moment else "never"
        return f"{self.what}: told {after(self.holder.told)}, the newcomer got it {after(self.newcomer.got)}"


def psql_of(name):
    """The process of the psql of a session of this name."""
    for path in pathlib.Path("/proc").glob("[0-9]*"):
        with contextlib.suppress(OSError):
            is_psql = (path / "comm").read_text(encoding="utf-8") == "psql\n"
            if is_psql and f"PGAPPNAME={name}".encode() in (path / "environ").read_bytes().split(b"\0"):
                return int(path.name)
    return None


def restarted(place, how):
    """What stops the server, and starts it again a drawn time later."""

    def strike(_):
        place.server.stop(how)
        time.sleep(place.checks.random.uniform(0, AWAY))
        place.server.start()

    return strike


def terminated(place, holders):
    """Has the server end each holder's session."""
    for holder in holders.values():
        query = f"select pg_terminate_backend(pid) from pg_stat_activity where application_name = '{holder.name}'"
        place.checks.need("t" in place.server.told(query), f"{holder.name} has no session")


def killed(_, holders):
    """Kills the psql of each holder."""
    for holder in holders.values():
        os.kill(psql_of(holder.name), signal.SIGKILL)


def at_server(site, room, kinds, rounds):
    """Each way that a server and psql have, and so many rounds in all. A newcomer beside a `hold` goes on for some rounds, so the
    last one has no `hold` of its own."""
    server, hosts = served(site, "holders-server")
    place = Place(site, server, room)
    ways = {
        "its session ended": lambda holders: terminated(place, holders),
        "psql killed": lambda holders: killed(place, holders),
        "stopped in order": restarted(place, FAST),
        "stopped at once": restarted(place, IMMEDIATE),
    }
    drawn = list(ways) + site.checks.random.choices(list(ways), k=max(rounds - len(ways), 0))
    for number, what in enumerate(drawn):
        place.environment["PGHOST"] = hosts[number % len(hosts)]
        place.strike(what, ways[what], [kind for kind in kinds if kind != "hold" or number + 1 < len(drawn)])
    place.settle(list(place.standing))
    server.stop()


def served(site, name):
    """A server, and by what it is reached: by addresses of both kinds, where there are, and by its socket."""
    hosts = ["127.0.0.1", *(["::1"] if has_ipv6() else [])]
    server = site.add(Server(site.programs, site.room / name, ",".join(hosts))).make()
    return server, [*hosts, str(server.folder)]


def beside(site, *_):
    """The watcher, what is refused, and nodes that are free at once."""
    server, hosts = served(site, "holders-beside")
    watching(site, server, hosts)
    slow(site, server)
    freed(site, server)
    server.stop()


def has_ipv6():
    """Whether this machine has an address of its own of IPv6."""
    try:
        with socket.socket(socket.AF_INET6) as one:
            one.bind(("::1", 0))
    except OSError:
        return False
    return True


def watched(pid, *front):
    """A watcher of this process."""
    words = [*front, sys.executable, "-IS", str(WATCHER), str(pid)]
    return subprocess.Popen(words, stdout=subprocess.PIPE, stderr=subprocess.PIPE, text=True)


def watching(site, server, hosts):
    """The watcher tells the end of a session of each kind of connection, and of a process; it tells where it can't look."""
    for host in hosts:
        session = Client(server.environment(PGHOST=host))
        pid = session.call("select pg_backend_pid()")[0]
        watcher = watched(session.process.pid)
        time.sleep(1)
        site.checks.same(watcher.poll(), None, f"at {host}: a watcher while the session lasts")
        server.told(f"select pg_terminate_backend({pid})")
        told = watcher.communicate(timeout=SECONDS)
        site.checks.same((watcher.returncode, *told), (0, f"ended {session.process.pid}\n", ""), f"at {host}: a watcher then")
        session.kill()
        # The number of a process that has ended, and was waited for.
        watcher = watched(session.process.pid)
        told = watcher.communicate(timeout=SECONDS)
        site.checks.same((watcher.returncode, *told), (0, f"ended {session.process.pid}\n", ""), f"at {host}: without psql")
    if os.geteuid() == 0:
        watcher = watched(os.getpid(), "setpriv", f"--reuid={ORDINARY}", "--clear-groups")
        out, err = watcher.communicate(timeout=SECONDS)
        fine = (watcher.returncode, out) == (FAULT, f"ended {os.getpid()}\n") and "can't be read: Permission denied" in err
        site.checks.need(fine, f"a watcher that may not look: {watcher.returncode}, {out!r}, {err!r}")


def slow(site, server):
    """Keepalives by which the server would notice first are refused, to who holds."""
    environment = site.environment(server, PGHOST="127.0.0.1", WULAMERON_LOG="postgres:slow")
    for words in SLOW:
        ran = site.finished([str(LAUNCHER), *words, "hold", "event", "create", "x"], [], environment)
        fine = ran.status == WRONG_ARGUMENTS and ran.err.count("\n") == 1 and "notices a link that is cut" in ran.err
        site.checks.need(fine and not ran.out, f"by {words}: {ran}")
        ran = site.finished([str(LAUNCHER), *words, "list"], [], environment)
        site.checks.need("no log of this name" in ran.err, f"a list by {words}: {ran}")
    ran = site.finished([str(LAUNCHER), "run"], [], environment | {"PGOPTIONS": "-c tcp_user_timeout=2000"})
    site.checks.need(ran.status == WRONG_ARGUMENTS and "and the server after 2:" in ran.err, f"a server that notices soon: {ran}")
    ran = site.finished([str(LAUNCHER), *SLOW[0], "run"], [], environment | {"PGHOST": str(server.folder)})
    site.checks.need(ran.status == 0, f"at a socket: {ran}")


def freed(site, server):
    """A node is free as soon as its program has ended in order or was killed."""
    environment = site.environment(server, PGOPTIONS="")
    for number, how in enumerate((None, signal.SIGKILL, signal.SIGTERM, None)):
        process = site.living_of(site.words("run", "freed", "--node", "1"), "freed", 1, environment)
        began = time.monotonic()
        reply = process.reply(f"event create 1 0 own-{number}")
        took = time.monotonic() - began
        site.checks.need(reply and reply.startswith("ok 0 "), f"a node that is free: {reply}")
        site.checks.need(took < LOST_FOR, f"a node that is free was had after {took:.1f} seconds")
        if how:
            process.kill(how)
        else:
            process.end()


def at_machines(site, room, kinds, rounds):
    """The link of the holders is cut, and the newcomers are on another machine. Nothing where no namespace can be made."""
    try:
        entered = Network().__enter__()
    except (OSError, subprocess.CalledProcessError):
        return
    try:
        near, far = entered.machines
        addresses = ",".join(["127.0.0.1", near.server, far.server])
        server = site.add(Server(site.programs, site.room / "holders-network", addresses, ("10.71.0.0/16",), entered.hub)).make()
        place = Place(site, server, room, PGHOST=near.server)
        place.own = {"PGHOST": far.server}
        place.front, place.newcomers = (["ip", "netns", "exec", machine.name] for machine in (far, near))
        for _ in range(rounds):
            place.strike("a link cut", lambda _: far.cut(), kinds, TOLD_CUT, lambda: far.mend(server.port))
        server.stop()
    finally:
        entered.__exit__()


def at_standby(site, room, kinds, rounds):
    """A standby that has all is promoted, and everybody names both servers."""
    first = site.add(Server(site.programs, site.room / "holders-first", wal_level="replica")).make()
    for number in range(rounds):
        second = site.add(replica(first, site.room / f"holders-standby-{number}", STANDBY, synchronous_standby_names="''"))
        first.set("synchronous_standby_names", STANDBY)
        until(lambda: first.told("select sync_state from pg_stat_replication") == ["sync"], pause=PAUSE)
        hosts = {"PGHOST": f"{first.folder},{second.folder}", "PGPORT": f"{first.port},{second.port}"}
        place = Place(site, first, room, **hosts, PGTARGETSESSIONATTRS="read-write")
        place.rounds = number
        place.strike("a standby promoted", lambda _: takes_over(site, first, second), kinds)
        place.settle(list(place.standing))
        first = second
    first.stop()


def callers(room):
    """Makes the callers of the library for C, where there is a compiler: the kinds of holders."""
    compiler = shutil.which("cc")
    if not compiler:
        return ["hold", "run"]
    sources = [TOP / "tools/postgres/holder.c", BINDINGS / "c/lines.c", BINDINGS / "c/transport.c"]
    words = [compiler, "-std=c99", "-O1", f"-I{BINDINGS / 'c'}", *sources]
    for more in (["-o", room / "holder"], ["-fPIC", "-shared", "-o", room / "libwulameron.so"]):
        subprocess.run([*words, *more], check=True, timeout=SECONDS)
    return ["hold", "run", "c", "python"]


def holders(site):
    """All of these, beside each other."""
    if site.is_plain:
        return "left out, since the plain driver has no such commands"
    room = site.room / "holders"
    room.mkdir()
    kinds = callers(room)
    cuts, promotions = (-(-site.ends // each) for each in (CUTS, PROMOTIONS))
    rounds = -(-site.ends // len(kinds)) - cuts - promotions
    threads = [threading.Thread(target=guarded, args=[site, part, room, kinds, count], daemon=True)
               for part, count in ((at_server, rounds), (at_machines, cuts), (at_standby, promotions), (beside, 0), (alone, 0))]
    for thread in threads:
        thread.start()
    for thread in threads:
        thread.join()
    return None


def alone(site, *_):
    """What a `hold` does without a newcomer."""
    holds(site)


def guarded(site, part, *words):
    """Runs one of them, whose own faults are wrong too."""
    try:
        part(site, *words)
    except Exception as error:  # pylint: disable=broad-exception-caught
        site.checks.need(False, f"{part.__name__}: {type(error).__name__}: {error}")
