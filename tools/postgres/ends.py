"""Sessions that end: a process that is stopped while it holds, psql that is killed, the server's process for a session,
also within COMMIT, and a server that is restarted. What was answered is in the table, and the others go on."""
import contextlib
import os
import signal
import time

from postgres.checks import until
from postgres.driver import Client
from postgres.server import FAST, IMMEDIATE, IN_COMMIT, OWNER, PAUSE
from postgres.site import check_over, is_refused, session_of
from postgres.storms import Process, afterwards, begun, replayed, replied
from postgres.table import replay

# Why the server ends a session that does nothing for two seconds while it holds, and after how many seconds others have
# what they wait for then, also on a slow machine.
IDLE, WAITED = "terminating connection due to idle-in-transaction timeout", 20
# How many lines each process of a storm has at which a server is restarted, and how many of them are answered then.
LINES, LEAST = 600, 8
# What a session is at that has ended.
ENDED = ["ended"]
# How often a process is stopped until that is within a hold, and how long it then has to stand there: until whatever it
# had asked before has come to the server. How often all of it is tried where more was on its way.
TRIES, STANDS, ATTEMPTS = 2000, 0.2, 8
# How long the server may take to end a session once it has begun to.
ENDING = 1


def work(process, count=400):
    """Has a process create and close again and again."""
    pairs = [(f"event create {process.node} 0 w/{number % 5} max_nodes=3", "close 0") for number in range(count)]
    process.say(*(line for pair in pairs for line in pair))


def begin(site, name, node, **environment):
    """A process that has made a call."""
    process = site.living(name, node, **environment)
    process.node = node
    reply = process.reply(f"event create {node} 9 own-{node}")
    site.checks.need(reply and reply.startswith("ok 9 "), f"{name}: a first create replied {reply}")
    return process


def stop_within_hold(process, owner, pid=None):
    """Stops a process, or its psql, at a moment at which it holds. Gives the server's process for its session, and
    nothing where that didn't come about."""
    pid = pid or process.program()
    for _ in range(TRIES):
        os.kill(pid, signal.SIGSTOP)
        found = until(lambda: settled(session_of(owner, process)), pause=0.001)
        if found == ENDED:
            return None
        if holds(found):
            time.sleep(STANDS)
            if session_of(owner, process) in (found, None):
                return found[2]
        os.kill(pid, signal.SIGCONT)
        time.sleep(0.002)
    return None


def settled(found):
    """What a session is at, where it isn't at work."""
    found = found or ENDED
    return found if found[0] != "active" else None


def holds(found):
    """Whether a session does nothing while it has a gate."""
    return found[0] == "idle in transaction" and found[3] == "t"


def check_rest(site, name, what, nodes):
    """Nodes that begin again find what they had given back, and in the end there is nothing."""
    for node in nodes:
        ran = site.ran("run", name, "--node", str(node), lines=[f"event create {node} 0 own-{node}"])
        fine = ran.status == 0 and not ran.err and ran.out[:1] and ran.out[0].startswith("ok 0 ")
        site.checks.need(fine, f"{what}: node {node} begins again: {ran}")
    table = replay(site.checks, site.server, name, what)
    if table:
        site.checks.need(not table.world.remains(), f"{what}: in the end there is {table.world.remains()}")


def stopped(site, owner, is_psql):
    """A process, or its psql, that is stopped while it holds: the server ends its session, and others wait no longer."""
    checks, name = site.checks, f"stopped-{is_psql}".lower()
    process, other = begin(site, name, 1), begin(site, name, 2)
    pid = process.psql() if is_psql else process.program()
    for attempt in range(ATTEMPTS):
        work(process, 50 if attempt else 400)
        session = stop_within_hold(process, owner, pid)
        if not checks.need(session, "a process wasn't stopped within a hold"):
            return
        began = time.monotonic()
        reply = other.reply(f"event create 2 {attempt} meanwhile-{attempt}")
        waited = time.monotonic() - began
        left = left_of(owner, process)
        if not left or holds(left):
            break
        # What was on its way has let go.
        go_on(pid)
    checks.need(reply and reply.startswith("ok "), f"while another is stopped within a hold: {reply}")
    checks.need(waited < WAITED, f"while another is stopped within a hold, a call took {waited:.1f} seconds")
    checks.same(left, None, "the session of a process that is stopped within a hold")
    checks.same(site.server.reason(session), IDLE, "why the session ended of a process that is stopped within a hold")
    go_on(pid)
    check_over(checks, process.end(), name, "a process that was stopped within a hold")
    ran = other.end()
    checks.need(ran.status == 0 and not ran.err, f"the other process: {ran}")
    check_rest(site, name, "after a stop within a hold", (1, 2))


def left_of(owner, process):
    """What a session is at whose gate another one got; nothing if the server has ended it. A session that ends has let go of
    the gate a moment before the server stops telling of it."""
    end = time.monotonic() + ENDING
    found = session_of(owner, process)
    while found and not holds(found) and time.monotonic() < end:
        time.sleep(0.01)
        found = session_of(owner, process)
    return found


def go_on(pid):
    """Has a process go on that was stopped, unless its launcher has ended it."""
    with contextlib.suppress(ProcessLookupError):
        os.kill(pid, signal.SIGCONT)


def terminate(owner, pid):
    """Has the server end its process for a session."""
    owner.call(f"select pg_terminate_backend({pid})")


def killed(site, owner):
    """psql is killed, and the server's process for a session is ended, while a process is at work."""
    checks, name = site.checks, "killed"
    ways = {
        "psql killed": lambda process: os.kill(process.psql(), signal.SIGKILL),
        "psql ended": lambda process: os.kill(process.psql(), signal.SIGTERM),
        "its session ended": lambda process: terminate(owner, session_of(owner, process)[2]),
    }
    for what, way in ways.items():
        process = begin(site, name, 1)
        work(process)
        until(lambda: process.hear() and site.checks.random.random() < 0.2)
        way(process)
        checks.count("kills")
        check_over(checks, process.end(), name, what)
        check_rest(site, name, what, (1,))


def within_commit(site, owner):
    """A commit that waits for a replica, and then is told to wait no more: its entry is there, and its process ends."""
    checks, server = site.checks, site.server
    ways = {
        "canceled": lambda pid: owner.call(f"select pg_cancel_backend({pid})"),
        "terminated": lambda pid: terminate(owner, pid),
        "killed": lambda pid: os.kill(int(pid), signal.SIGKILL),
    }
    for what, way in ways.items():
        name, what = f"commit-{what}", f"within a commit, its session is {what}"
        process = begin(site, name, 1)
        before = server.told("select count(*) from wulameron.entries")
        server.delay_commits()
        process.say("event create 1 0 doubtful")
        found = until(lambda: (one := session_of(owner, process)) and one[1] == IN_COMMIT and one)
        started = server.processes()
        if checks.need(found, f"{what}: no commit waits"):
            way(found[2])
        checks.count("kills")
        check_over(checks, process.end(), name, what)
        # A server of which a process was killed ends all sessions a little later, and begins anew.
        begun_anew = what.endswith("killed")
        until(lambda: server.processes() and (server.processes() != started or not begun_anew), pause=PAUSE)
        server.set("synchronous_standby_names", "")
        after = server.told("select count(*) from wulameron.entries")
        checks.same(int(after[0]) - int(before[0]), 1, f"{what}: entries that are in the table")
        owner = Client(server.environment(OWNER))
        check_rest(site, name, what, (1,))
    owner.kill()


def restarted(site, how, what):
    """A server that is restarted within a storm: each session is over, and what was answered is there."""
    checks, server, name = site.checks, site.server, f"restarted-{how.name}"
    processes = begun(site, name, checks.random.randrange(10**6), Ended, killed=0, calls=LINES)
    for process in processes:
        process.start()
    at_work = until(lambda: min(len(process.replies) for process in processes) >= LEAST)
    checks.need(at_work, f"{what}: not each process is at work")
    server.stop(how)
    server.start()
    for process in processes:
        process.join()
        check_over(checks, process, name, f"{what}, node {process.node}")
        process.is_killed, process.err = True, ""
    replied(checks, processes, what)
    if replayed(checks, server, processes, name, what):
        afterwards(site, name, processes, what)
        check_rest(site, name, what, (1, 2))


class Ended(Process):
    """A process of a storm whose session is ended by others, at no known place in the log."""

    def run(self):
        """Runs the process to its end. The call in which it found out may have had a reply."""
        self.live()
        if self.replies and is_refused(self.replies[-1]):
            self.replies.pop()

    def settle(self, table):
        """It may be anywhere, and others may have cleaned up for it since its session ended."""
        self.began, self.struck, self.ended = 1, 1, table.whole


def ends(site):
    """All of these."""
    owner = Client(site.server.environment(OWNER))
    stopped(site, owner, False)
    stopped(site, owner, True)
    killed(site, owner)
    within_commit(site, owner)
    restarted(site, FAST, "a fast restart")
    restarted(site, IMMEDIATE, "an immediate restart")
