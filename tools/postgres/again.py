"""Sessions that end while their processes go on: the launcher connects again, and a process has its node and its open
factories as before. A call within which its session ended is refused, and leaves nothing. A process whose node was
cleaned up for meanwhile says so and ends. A `run` that waits for its input is ended by the launcher; the part `holders` has
holds. The other parts say what happens without another session, by WULAMERON_RECONNECT=0."""
import json
import os
import pathlib
import signal
import time

from postgres.checks import SECONDS, until
from postgres.driver import Client
from postgres.ends import begin, terminate
from postgres.errors import children_left
from postgres.server import FAST, IMMEDIATE, IN_COMMIT, OWNER, PAUSE
from postgres.site import FAULT, LOST, Living, check_over, is_refused, session_of
from postgres.table import replay

# What is told on the standard error: by the launcher, and by a program whose factories others have given back.
AGAIN, NOT_AGAIN, GONE = "wulameron-postgres: connected again", "wulameron-postgres: not connected again: ", "is gone"
# For how many seconds a process may try to connect, and where it can't; how soon all is gone that it had.
LONG, SHORT, SOON = str(SECONDS), "1", 5
# After how many seconds a process has a watcher, and another one in place of one that was killed.
WATCHED, WATCHED_AGAIN = 1, 3
# A role whose sessions are let in, or not.
PARTED, CLOSED, OPEN = "parted", "alter role parted nologin", "alter role parted login"
# A sequence counts appends, also those of which nothing comes. At one number the session is ended before its row is in
# the table. At another one the commit waits for a replica, so that the session can be ended when its row is there.
BEFORE, WITHIN = 1000, 500
STRIKE = f"""create sequence strikes; create function strike() returns trigger language plpgsql security definer as $$
    declare at bigint := nextval('public.strikes'); begin
    if at = {BEFORE} then perform pg_terminate_backend(pg_backend_pid()); end if;
    if at = {WITHIN} then perform set_config('synchronous_commit', 'on', true); end if; return new; end $$;
    create trigger strike before insert on wulameron.entries for each row execute function strike()"""
LOCAL = "synchronous_commit=local"
LATE = "event create 1 0 late"
APPENDS = ("tag", "lock", "segment", "description")


class Renewing:
    """A site whose processes connect again, with a folder of their own for temporary files."""

    def __init__(self, site):
        self.site, self.checks, self.server, self.room = site, site.checks, site.server, site.room / "again"
        self.environment = {"WULAMERON_RECONNECT": LONG, "TMPDIR": str(self.room)}
        self.owner = Client(self.server.environment(OWNER))
        self.room.mkdir()

    def begin(self, name, **others):
        """A process that has a factory."""
        return begin(self.site, name, 1, **self.environment | others)

    def replies(self, process, line, wanted, what):
        """A process replies so."""
        reply = process.reply(line)
        self.checks.need(reply and reply.startswith(wanted), f"{what}: to {line!r}: {reply}")

    def ends(self, process, wanted, what, status=0):
        """A process ends with these lines on the standard error. On a slow machine more sessions may have ended."""
        ran = process.end()
        lines = ran.err.splitlines()
        while lines.count(AGAIN) > wanted.count(AGAIN):
            lines.remove(AGAIN)
        fine = ran.status == status and len(lines) == len(wanted) and all(map(str.__contains__, lines, wanted))
        self.checks.need(fine, f"{what}: it ended with {ran}, not {status} and {wanted}")
        self.checks.count("sessions ended", len(wanted))

    def stands(self, name, services, what):
        """Node 1 is alive, and has a factory of each of these and nothing else; and no pipe has a name."""
        self.checks.same(self.server.told(f"select wulameron.nodes('{name}')")[:1], ["1 alive"], f"{what}: the nodes")
        self.checks.same(list(self.room.iterdir()), [], f"{what}: folders")
        if table := replay(self.checks, self.server, name, what):
            found = (table.world.left_by(1), table.world.remains([1]))
            self.checks.same(found, ((len(services),) * 3, []), f"{what}: what there is")
        if not self.site.is_plain:
            found = json.loads("".join(self.site.ran("list", name, "--json").out) or "null")
            wanted = {service: [{"alive": True, "factories": 1, "node": 1, "state": "alive"}] for service in services}
            self.checks.same({one["name"]: one["nodes"] for one in found or []}, wanted, f"{what}: what list shows")

    def cleaned(self, name, what):
        """Another process cleans up for all nodes that are dead, and nothing is left."""
        self.checks.need(not self.server.wait_dead(name), f"{what}: a node is alive")
        ran = self.site.ran(*(("run", name, "--node", "2") if self.site.is_plain else ("clean", name)))
        self.checks.need(ran.status == 0 and not ran.err, f"{what}: cleaning up: {ran}")
        if table := replay(self.checks, self.server, name, what):
            self.checks.need(not table.world.remains(), f"{what}: there is {table.world.remains()}")

    def terminate(self, process):
        """Has the server end a session."""
        terminate(self.owner, session_of(self.owner, process)[2])

    def part(self, process, line=None):
        """Has the server end a session whose role isn't let in then, and waits until a line has found that out."""
        self.owner.call(CLOSED)
        self.terminate(process)
        if line:
            process.say(line)
            self.checks.need(until(lambda: list(self.room.glob("*/said")), pause=PAUSE), "nothing connects again")


def idle(own):
    """A session ends between two lines: the next one is answered as if nothing had been."""
    name, process = "again-idle", own.begin("again-idle")
    ways = {
        "its session ended": lambda: own.terminate(process),
        "psql killed": lambda: os.kill(process.psql(), signal.SIGKILL),
        "a fast restart": lambda: own.server.stop(FAST),
        "an immediate restart": lambda: own.server.stop(IMMEDIATE),
    }
    services = ["own-1"]
    for slot, (what, way) in enumerate(ways.items()):
        way()
        services.append(f"again-{slot}")
        # A process that has nothing to answer for a second is ended.
        process.say(f"event create 1 {slot} {services[-1]}")
        if not own.server.is_running():
            own.server.start()
        reply = process.hear()
        own.checks.need(reply and reply.startswith(f"ok {slot} "), f"{what}: {reply}")
        own.stands(name, services, what)
    own.server.stop(FAST)
    process.say("close 0")
    own.server.start()
    own.checks.same(process.hear(), "closed 0", "a line while there is no server")
    own.ends(process, [AGAIN] * (len(ways) + 1), "sessions that ended between lines")
    own.owner = Client(own.server.environment(OWNER))


def within_call(own):
    """A session ends within an append of a create, when its row is in the table or before: the call is refused, and
    leaves nothing."""
    own.server.script("logs", STRIKE)
    own.server.delay_commits()
    process = own.begin("again-call", PGOPTIONS=f"-c {LOCAL}")
    for number, at in ((number, at) for number in (WITHIN, BEFORE) for at in range(len(APPENDS))):
        what = f"a session that ends {'within the commit of' if number == WITHIN else 'before'} the {APPENDS[at]}"
        own.owner.call(f"set {LOCAL}\\; select setval('strikes', {number - at}, false)")
        process.say("event create 1 0 doubtful")
        if number == WITHIN:
            found = until(lambda: (one := session_of(own.owner, process)) and one[1] == IN_COMMIT and one)
            if not own.checks.need(found, f"{what}: no commit waits"):
                break
            terminate(own.owner, found[2])
        reply = process.hear()
        own.checks.need(reply and is_refused(reply), f"{what}: {reply}")
        own.replies(process, "event create 1 1 other", "ok 1 ", what)
        own.stands("again-call", ["own-1", "other"], what)
        own.replies(process, "event create 1 0 doubtful", "ok 0 ", what)
        for slot in (0, 1):
            own.replies(process, f"close {slot}", f"closed {slot}", what)
    own.server.set("synchronous_standby_names", "")
    own.owner.call("drop trigger strike on wulameron.entries")
    own.ends(process, [AGAIN] * 2 * len(APPENDS), "sessions that ended within calls")


def cleaned_up(own):
    """Others clean up for a node whose session has ended, before its process finds that out and afterwards."""
    own.owner.call(f"create role {PARTED} login in role wulameron_node")
    for line in (None, LATE):
        name, what = f"again-{bool(line)}".lower(), f"others clean up {'after' if line else 'before'} it found out"
        process = own.begin(name, PGUSER=PARTED)
        own.part(process, line)
        own.cleaned(name, what)
        own.owner.call(OPEN)
        if not line:
            process.say(LATE)
        own.ends(process, [AGAIN, GONE], what, FAULT)
        own.cleaned(name, what)


def not_again(own):
    """No other session can be had: in time, before the process is killed, and at all."""
    late = own.begin("again-late", PGUSER=PARTED, WULAMERON_RECONNECT=SHORT)
    killed = own.begin("again-killed", PGUSER=PARTED)
    never = own.begin("again-never", PGUSER=PARTED, WULAMERON_RECONNECT="0")
    own.part(late, LATE)
    own.ends(late, [NOT_AGAIN, "wulameron: postgres:again-late: "], "no other session in time", FAULT)
    own.part(killed, LATE)
    began = time.monotonic()
    killed.kill()
    own.checks.need(time.monotonic() - began < SOON, "a keeper goes on without its process")
    own.part(never)
    never.say(LATE)
    check_over(own.checks, never.end(), "again-never", "a process that never connects again")
    own.owner.call(OPEN)
    for name in ("again-late", "again-killed", "again-never"):
        own.cleaned(name, name)


def held(own):
    """A hold whose input ends right behind its session gives its factory back in another one."""
    words = own.site.words("hold", "again-hold", "--node", "1", "event", "create", "held")
    process = Living(own.checks, words, own.site.environment(**own.environment, PGAPPNAME="again-hold"))
    own.checks.same(process.hear(), "name: held", "a hold")
    time.sleep(WATCHED)
    own.terminate(process)
    own.ends(process, [AGAIN], "a hold whose session ended")
    own.cleaned("again-hold", "a hold whose session ended")


def lost(own):
    """A `run` that waits for its input is ended when its session has, also where it is stopped, with one line, which
    `run --escaped` has on its output too. Its launcher's end is its own."""
    for what in ("run", "stopped", "watched-again", *([] if own.site.is_plain else ["escaped"])):
        name = f"again-lost-{what}"
        words = own.site.words("run", name, "--node", "1", *(["--escaped"] if what == "escaped" else []))
        process = own.site.living_of(words, name, 1, own.site.environment(**own.environment))
        process.say("event create 1 0 own-1")
        process.hear()
        time.sleep(WATCHED)
        if what == "stopped":
            os.kill(process.program(), signal.SIGSTOP)
        if what == "watched-again":
            os.kill(process.watcher(), signal.SIGKILL)
            time.sleep(WATCHED_AGAIN)
        own.terminate(process)
        began = time.monotonic()
        ran = process.ended()
        took = time.monotonic() - began
        fine = (ran.status, ran.err) == (FAULT, LOST.format(name))
        own.checks.need(fine, f"{what}: an idle process whose session ended: {ran}")
        own.checks.same([line for line in ran.out if line == "lost"], ["lost"] * (what == "escaped"), f"{what}: a last line")
        own.checks.need(took < SOON, f"{what}: an idle process was ended {took:.1f} seconds after its session")
        own.cleaned(name, what)
    process = own.begin("again-orphan")
    program = process.program()
    process.kill()
    own.checks.need(until(lambda: not is_running(program), SOON, PAUSE), "a program goes on without its launcher")
    own.cleaned("again-orphan", "a launcher that was killed")


def is_running(pid):
    """Whether there is such a process, which hasn't ended."""
    try:
        return pathlib.Path(f"/proc/{pid}/stat").read_text(encoding="utf-8").rpartition(")")[2].split()[0] not in "ZX"
    except OSError:
        return False


def again(site):
    """All of these; and no process or folder is left of them."""
    own = Renewing(site)
    for part in (idle, within_call, cleaned_up, not_again, lost, *([] if site.is_plain else [held])):
        part(own)
    own.owner.kill()
    left = lambda: children_left(own.room)
    site.checks.need(until(lambda: not left(), SOON, PAUSE), f"there is left: {left()}")
