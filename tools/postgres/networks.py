"""Two network namespaces as two machines, each with an address of its own, and a third one as the server's. The link of
one is cut within a hold, within an append and after it, for longer than the keepalives."""
import contextlib
import secrets
import subprocess
import time

from postgres.again import AGAIN, LONG
from postgres.checks import until
from postgres.driver import Client
from postgres.ends import ENDED, IDLE, WAITED, begin, check_rest, go_on, holds, stop_within_hold, work
from postgres.server import IN_COMMIT, OWNER, PAUSE, Server
from postgres.site import check_over, is_refused, session_of
from postgres.table import replay

# How long a cut is that nobody notices, and how long it is at most from the last lines of a session until its end: each
# side notices after eleven seconds without a sign of the other one. How often it is tried where that took longer.
SHORT_CUT, LONGEST_CUT, CUTS = 2, 9, 5
# After how many seconds of a cut no session has ended yet for that: the sign before it may have been five seconds ago.
ALIVE = 4
# How the namespaces of this run begin, which another run has no part of.
PREFIX = f"wpg{secrets.token_hex(3)}"
# How long a connection is tried for while a link comes up.
TRIED = 2


def ip(*words):
    """Runs `ip`."""
    subprocess.run(["ip", *words], check=True, capture_output=True)


class Machine:
    """A namespace with a link to that of the server."""

    def __init__(self, hub, number):
        self.hub, self.name = hub, f"{hub}-{number}"
        self.link, self.other = f"{hub}{number}s", f"{hub}{number}m"
        self.server, self.address = f"10.71.{number}.1", f"10.71.{number}.2"
        ip("netns", "add", self.name)
        ip("-n", hub, "link", "add", self.link, "type", "veth", "peer", "name", self.other, "netns", self.name)
        ip("-n", hub, "addr", "add", f"{self.server}/24", "dev", self.link)
        ip("-n", self.name, "addr", "add", f"{self.address}/24", "dev", self.other)
        for name, link in ((self.name, self.other), (hub, self.link), (self.name, "lo")):
            ip("-n", name, "link", "set", link, "up")

    def cut(self):
        """Cuts its link."""
        ip("-n", self.hub, "link", "set", self.link, "down")

    def mend(self, port):
        """Mends its link, and waits until the server's port is there again."""
        ip("-n", self.hub, "link", "set", self.link, "up")
        words = ["ip", "netns", "exec", self.name, "timeout", str(TRIED), "bash", "-c"]
        words += [f"exec 3<>/dev/tcp/{self.server}/{port}"]
        until(lambda: not subprocess.run(words, capture_output=True, check=False).returncode, pause=PAUSE)


class Network:
    """The server's namespace, and two machines; as long as it is entered."""

    def __init__(self):
        self.hub, self.machines = f"{PREFIX}{secrets.token_hex(2)}", []

    def __enter__(self):
        ip("netns", "add", self.hub)
        try:
            ip("-n", self.hub, "link", "set", "lo", "up")
            self.machines = [Machine(self.hub, number) for number in (1, 2)]
        except subprocess.CalledProcessError:
            self.__exit__()
            raise
        return self

    def __exit__(self, *_):
        for name in (f"{self.hub}-1", f"{self.hub}-2", self.hub):
            with contextlib.suppress(subprocess.CalledProcessError):
                ip("netns", "del", name)

    def serve(self, site):
        """A server that is reached from both machines alone, and by the owner at its socket."""
        addresses = ",".join(["127.0.0.1", *(machine.server for machine in self.machines)])
        server = Server(site.programs, site.room / "network", addresses, ("10.71.0.0/16",), self.hub)
        return site.add(server).make()


class Far:
    """A site of which the programs run on a machine."""

    def __init__(self, site, server, machine):
        self.site, self.server, self.machine = site, server, machine
        self.checks = site.checks

    def words(self, *words):
        """The words by which a command is run there."""
        return ["ip", "netns", "exec", self.machine.name, *self.site.words(*words)]

    def ran(self, command, name, *words, lines=()):
        """Runs a command there to its end."""
        return self.site.finished(self.words(command, name, *words), lines, self.environment())

    def environment(self, **others):
        """That of a program there."""
        return self.site.environment(self.server, PGHOST=self.machine.server, **others)

    def living(self, name, node, **others):
        """A process there."""
        words = self.words("run", name, "--node", str(node))
        return self.site.living_of(words, name, node, self.environment(**others))


def meanwhile(near, name, what):
    """While the other machine is cut off from a log, a call of this one is granted in time."""
    began = time.monotonic()
    ran = near.ran("run", name, "--node", "1", lines=["pubsub create 1 0 meanwhile"])
    took = time.monotonic() - began
    near.checks.need(ran.status == 0 and ran.out[:1] and ran.out[0].startswith("ok 0 "), f"{what}: {ran}")
    near.checks.need(took < WAITED, f"{what}: a call took {took:.1f} seconds")


def cut_within(near, far, owner):
    """The link is cut while one is within a hold, one within an append, and one does nothing."""
    checks, server = near.checks, near.server
    doubtful, idle = (begin(far, name, 2) for name in ("cut-append", "cut-idle"))
    renewing = begin(far, "cut-again", 2, WULAMERON_RECONNECT=LONG)
    # Its own commits don't wait for the replica for which that of the other one waits.
    holding = begin(far, "cut-hold", 2, PGOPTIONS="-c synchronous_commit=local")
    server.delay_commits()
    doubtful.say("event create 2 0 doubtful")
    found = until(lambda: (one := session_of(owner, doubtful)) and one[1] == IN_COMMIT and one)
    checks.need(found, "no commit waits")
    sessions = {"an append": found and found[2]}
    work(holding)
    sessions["a hold"] = stop_within_hold(holding, owner)
    checks.need(sessions["a hold"], "a process wasn't stopped within a hold")
    began = time.monotonic()
    far.machine.cut()
    # One that has nothing to answer is ended as soon as it is known that the link is cut.
    renewing.say("event create 2 0 late")
    checks.count("cuts within a hold", holds(session_of(owner, holding) or ENDED))
    alive = server.told("select wulameron.nodes('cut-idle')")
    if time.monotonic() - began < ALIVE:
        checks.same(alive, ["2 alive"], "a node that was just cut off")
    server.set("synchronous_standby_names", "")
    meanwhile(near, "cut-append", "while another is cut off within an append")
    meanwhile(near, "cut-hold", "while another is cut off within a hold")
    for what, session in sessions.items():
        checks.same(server.reason(session), IDLE, f"why the session ended of a process that is cut off within {what}")
    checks.need(not server.wait_dead("cut-idle"), "a node that is cut off is alive")
    meanwhile(near, "cut-idle", "while another is cut off")
    checks.need(not server.wait_dead("cut-again"), "another node that is cut off is alive")
    check_over(checks, doubtful.end(), "cut-append", "a process that was cut off within an append")
    far.machine.mend(far.server.port)
    if program := holding.program():
        go_on(program)
    check_over(checks, holding.end(), "cut-hold", "a process that was cut off within a hold")
    reply = idle.reply("event create 2 0 late")
    checks.need(is_refused(reply), f"the reply to who was cut off: {reply}")
    check_over(checks, idle.end(), "cut-idle", "a process that was cut off")
    reply, ran = renewing.hear(), renewing.end()
    fine = reply and reply.startswith("ok 0 ") and ran.status == 0 and ran.err == f"{AGAIN}\n"
    checks.need(fine, f"a process that was cut off and may connect again: {reply}, {ran}")


def cut_shortly(far):
    """A cut that is shorter than the keepalives isn't noticed by who does nothing. Where this machine was so slow that it
    wasn't that short, another process is tried."""
    for cut in range(CUTS):
        process = begin(far, "cut-shortly", 2)
        began = time.monotonic()
        process.reply("list")
        far.machine.cut()
        time.sleep(SHORT_CUT)
        far.machine.mend(far.server.port)
        lasted = time.monotonic() - began
        reply = process.reply(f"event create 2 0 after-{cut}")
        ran = process.end()
        if lasted < LONGEST_CUT:
            break
    what = f"after a cut of {lasted:.1f} seconds"
    far.checks.need(lasted < LONGEST_CUT, f"{CUTS} cuts took too long, the last one {lasted:.1f} seconds")
    far.checks.need(reply and reply.startswith("ok 0 "), f"{what}: {reply}")
    far.checks.need(ran.status == 0 and not ran.err, f"{what}: {ran}")


def networks(site):
    """Two machines. Tells why it is left out where no namespace can be made."""
    try:
        entered = Network().__enter__()
    except (OSError, subprocess.CalledProcessError):
        return "left out, since no network namespace can be made here"
    try:
        server = entered.serve(site)
        near, far = (Far(site, server, machine) for machine in entered.machines)
        owner = Client(server.environment(OWNER))
        cut_shortly(far)
        cut_within(near, far, owner)
        for name in ("cut-hold", "cut-append", "cut-idle"):
            check_rest(far, name, f"{name}, after the link is mended", (2, 1))
        for name in ("cut-shortly", "cut-again"):
            table = replay(site.checks, server, name, name)
            site.checks.need(table and not table.world.remains(), f"{name}: it isn't left empty")
        owner.kill()
        server.stop()
    finally:
        entered.__exit__()
    return None
