"""Processes of three patterns at one log, a third of which are killed, and what is in the table in the end."""
import hashlib
import random
import signal
import subprocess
import threading
import time

from logs import storm
from logs.storm import GIVING_BACK, PREFIXES, PROCESSES
from logs.storm import check_entries, check_given_back, check_listings, check_replies, check_world
from postgres import texts
from postgres.checks import SECONDS, until
from postgres.driver import Client
from postgres.server import OWNER, PAUSE
from postgres.site import PLAIN
from postgres.table import replay

CALLS = 60
# A refusal that comes only where a service is half gone: calls are whole but where a process was killed within one.
IN_FLUX = "SystemInFlux"
LAST = """select generation, coalesce((select max(seq) from wulameron.entries e where e.log = l.log
    and e.generation = l.generation), 0) from wulameron.logs l where name = '{}'"""


class Standing(Client):
    """A session of the owner, which tells how far a log is."""

    def __init__(self, server, name):
        super().__init__(server.environment(OWNER))
        self.server, self.name = server, name

    def row(self):
        """The generation and number of a log's last row; nothing where there is no log."""
        told = self.call(LAST.format(self.name))
        return tuple(map(int, told[0].split("|"))) if told else None

    def wait_gone(self, title):
        """Waits until the session of that name has ended, which may still have a question of a process that is gone."""
        query = f"select pid from pg_stat_activity where application_name = '{title}'"
        return until(lambda: not self.call(query), pause=PAUSE)


class Process(storm.Process):
    """A process of the storm: its lines, its replies, whether it was killed, and where the log stood meanwhile."""

    def __init__(self, site, name, node, seed, is_killed, program=None, calls=CALLS, server=None):
        threading.Thread.__init__(self, daemon=True)
        self.site, self.name_of_log, self.node, self.server = site, name, node, server or site.server
        self.drawn = random.Random(seed)
        self.lines = storm.drawn_lines(self.drawn, node, calls)
        self.is_killed, self.is_late, self.replies = is_killed, False, []
        self.services, self.listings = [], []
        self.process, self.status, self.err = None, None, ""
        self.began = self.struck = self.ended = self.standing = None
        self.environment = site.environment(self.server, PGAPPNAME=f"{name}-{node}")
        if program:
            self.environment["WULAMERON"] = str(program)

    def run(self):
        """Runs the process to its end, or kills it."""
        self.standing = Standing(self.server, self.name_of_log)
        self.began = self.standing.row()
        self.live()
        gone = self.standing.wait_gone(self.environment["PGAPPNAME"])
        self.site.checks.need(gone, f"node {self.node}: its session is there though its process has ended")
        self.ended = self.standing.row()
        self.standing.kill()
        self.is_killed = self.is_killed and self.status == -9
        self.struck = self.struck if self.is_killed else self.ended

    def settle(self, table):
        """Has it know the places in the whole log."""
        self.began, self.struck, self.ended = map(table.place, (self.began, self.struck, self.ended))

    def words(self):
        """The words by which it is run."""
        return self.site.words("run", self.name_of_log, "--node", str(self.node))

    def live(self):
        """Runs the process to its end, or kills it."""
        streams = {name: subprocess.PIPE for name in ("stdin", "stdout", "stderr")}
        self.process = subprocess.Popen(self.words(), env=self.environment, **streams)
        timer = threading.Timer(3 * SECONDS, self.stop, [self.process])
        timer.daemon = True
        timer.start()
        try:
            self.feed(self.process)
            self.process.stdin.close()
        except BrokenPipeError:
            pass
        while self.read(self.process):
            pass
        self.err = self.process.stderr.read().decode(errors="replace")
        self.status = self.process.wait()
        timer.cancel()

    def feed(self, process):
        """Gives it some lines at once and reads their replies, again and again, or kills it within some."""
        calls = len(self.lines)
        last = self.drawn.randrange(calls * 3 // 4) if self.is_killed else calls
        begin = 0
        while begin < calls:
            end = calls if begin >= last else min(calls, begin + self.drawn.randrange(1, storm.MOST_AT_ONCE))
            process.stdin.write("".join(f"{line}\n" for line in self.lines[begin:end]).encode())
            process.stdin.flush()
            if begin >= last:
                self.wait_for_reply(process, begin)
                time.sleep(self.drawn.random() * 10 * storm.KILL_SECONDS)
                self.struck = self.standing.row()
                process.kill()
            while len(self.replies) < end and self.read(process):
                pass
            begin = end

    def wait_for_reply(self, process, begin):
        """Reads the next reply, so that it is at work when it is killed, and not at its start."""
        while len(self.replies) <= begin and self.read(process):
            pass


def replied(checks, processes, what):
    """What processes replied, each by itself."""
    checks.count("processes", len(processes))
    checks.count("calls", sum(len(process.replies) for process in processes))
    checks.count("kills", sum(process.is_killed for process in processes))
    for process in processes:
        check_replies(Needs(checks), process, f"{what}, node {process.node}")
        in_flux = sum(IN_FLUX in reply for reply in process.replies)
        checks.count("refused in flux", in_flux)
        fine = not in_flux or any(map(was_killed, processes))
        checks.need(fine, f"{what}, node {process.node}: {in_flux} calls were refused as in flux, and nobody was killed")


class Needs:
    """The checks, for what is shared with the logs in files: it needs only what it tells."""

    def __init__(self, checks):
        self.need, self.count = checks.need, checks.count


def was_killed(process):
    """Whether it was killed, and hasn't ended otherwise."""
    return process.status == -signal.SIGKILL


def check_in_flux(checks, processes, table, what):
    """A call is refused as in flux only on a service of which a killed process had left a part, until it was seen that
    its session had ended: others gave that back then."""
    left = set()
    for process in processes:
        if was_killed(process):
            own = [entry for entry in table.entries if entry.node == process.node and entry.at >= process.struck]
            left |= {entry.hash for entry in own if entry.operation in GIVING_BACK}
    for process in processes:
        for line, reply in zip(process.lines, process.replies):
            if IN_FLUX in reply:
                pattern, _, _, _, name = line.split()[:5]
                found = hashlib.sha1(PREFIXES[pattern] + name.encode()).digest()
                checks.need(found in left, f"{what}, node {process.node}: to {line!r}: {reply}")


def replayed(checks, server, processes, name, what):
    """What is in the table, and what processes replied of it; the table, or nothing where something is wrong."""
    table = replay(checks, server, name, what)
    if table:
        for process in processes:
            process.settle(table)
            check_entries(checks, process, table, f"{what}, node {process.node}")
        check_given_back(checks, processes, table, what)
        check_listings(checks, processes, table, what)
        check_world(checks, processes, table.world, what)
    return table


def afterwards(site, name, processes, what, server=None):
    """A new process cleans up for those that were killed, and leaves nothing."""
    checks, node = site.checks, PROCESSES + 1
    alive = (server or site.server).wait_dead(name)
    checks.need(not alive, f"{what}: of nodes whose processes have ended there are {alive}")
    lines = [f"event create {node} 0 afterwards", "list"]
    ran = site.ran("run", name, "--node", str(node), lines=lines, server=server)
    fine = ran.status == 0 and not ran.err and ran.out[:1] and ran.out[0].startswith("ok 0 ")
    checks.need(fine and ran.out[-1] == "1 services", f"{what}, afterwards: {ran}")
    table = replay(checks, server or site.server, name, f"{what}, afterwards")
    if table:
        checks.need(not table.world.remains(), f"{what}, afterwards: there is {table.world.remains()}")
        check_in_flux(checks, processes, table, what)
        check_given_back(checks, processes, table, f"{what}, afterwards")


def begun(site, name, seed, kind=Process, killed=PROCESSES // 3 + 1, **others):
    """The processes of a storm, some of which are killed. Each second one is the plain driver."""
    drawn = random.Random(seed)
    dying = drawn.sample(range(PROCESSES), killed)
    seeds = [drawn.randrange(2**32) for _ in range(PROCESSES)]
    kinds = [PLAIN if site.is_mixed and at % 2 else None for at in range(PROCESSES)]
    return [kind(site, name, at + 1, seeds[at], at in dying, kinds[at], **others) for at in range(PROCESSES)]


def run_storm(site, name, seed, **others):
    """A storm, and what came of it."""
    checks, what = site.checks, f"storm {seed}"
    processes = begun(site, name, seed, **others)
    for process in processes:
        process.start()
    for process in processes:
        process.join()
    replied(checks, processes, what)
    table = replayed(checks, site.server, processes, name, what)
    if table:
        afterwards(site, name, processes, what)
        alive = site.server.wait_dead(name)
        checks.need(not alive, f"{what}, afterwards: of nodes whose processes have ended there are {alive}")


def storms(site):
    """Two storms: one of the program alone, and one beside the plain driver."""
    for number, is_mixed in enumerate((False, not site.is_plain)):
        site.is_mixed = is_mixed
        run_storm(site, f"storm-{number}", site.checks.random.randrange(10**6))
