"""The commands that look at a log, hold a call and clean up, beside each other, with a process killed in between: what
they print is what a reader in Python finds in the table. A node that is lost is shown so, and as dead afterwards."""
import json
import os
import signal
import time

from logs.commands import NAME, REFUSED, VERBS, Command, check_change
from postgres.checks import until
from postgres.server import LAUNCHER, PAUSE
from postgres.site import LOST_FOR, waiting
from postgres.table import read_rows, replay

LOG, LOG_OF_LOST = "commands", "commands-lost"
# What a list tells behind its table where one service has dead nodes, and how a show of no service ends.
DEAD_NODES = "1 with dead nodes; run `wulameron-postgres clean` to release them"
NO_SERVICE = "has no such service; see `wulameron-postgres list`\n"
# By how many seconds a node is told as dead later than it is, also on a slow machine.
MARGIN = 3
# What has nodes found lost anew.
UNFOUND = "update wulameron.nodes set lost_since = null where log = (select log from wulameron.logs where name = '{}')"
# Whether who watches has had the answer to its first reading.
HAS_READ = """select pid from pg_stat_activity where application_name = 'watch' and state = 'idle'
    and query like '%from wulameron.entries%'"""


class Shown:
    """The site, as the commands over files know theirs: words begin with the launcher, and paths are names."""

    program = str(LAUNCHER)

    def __init__(self, site):
        self.site, self.need, self.count = site, site.checks.need, site.checks.count
        self.title = LOG

    def environment(self, _path):
        """That of the launcher. Sessions go under a name that is told before."""
        return self.site.environment(PGAPPNAME=self.title)

    def command(self, *words):
        """A command at the log, whose input is open until it is ended."""
        return Command(self, f"postgres:{LOG}", words[0], *waiting(words[0], words[1:]))

    def once(self, command, *words):
        """Runs a command until it ends."""
        return self.site.ran(command, LOG, *words)


def check_listed(shown, alive, what):
    """The list has the service with these nodes, each alive or not, as it is in the table."""
    need, ran = shown.need, shown.once("list", "--json")
    need(ran.status == 0, f"{what}: list ended with {ran.status}: {ran.err}")
    found = json.loads("\n".join(ran.out) or "null") or []
    nodes = [
        {"alive": is_alive, "factories": 1, "node": node, "state": "alive" if is_alive else "dead"}
        for node, is_alive in sorted(alive.items())
    ]
    need([one["name"] for one in found] == [NAME] * bool(alive), f"{what}: list has {found}")
    if found and alive:
        need(found[0]["nodes"] == nodes, f"{what}: list has the nodes {found[0]['nodes']}, not {nodes}")
    table = replay(shown.site.checks, shown.site.server, LOG, what)
    if table:
        members = {ticket.node for ticket in table.world.tickets.values()}
        need(members == set(alive), f"{what}: the table has the nodes {members}, not {set(alive)}")
    lines = shown.once("list").out
    told = [f"{len(found)} services"] + [DEAD_NODES] * (False in alive.values())
    need(lines[-len(told) :] == told, f"{what}: list printed {lines}")


def check_dead(shown):
    """One of both nodes is dead: what shows it, and what cleans up for it."""
    need = shown.need
    states = {1: "alive", 2: "dead", 3: "ended"}
    wanted = [f"node {node} {state}" for node, state in states.items()]
    nodes = until(lambda: (ran := shown.once("nodes")).out == wanted and ran, pause=PAUSE)
    need(nodes, f"nodes printed {shown.once('nodes')}, not {wanted}")
    found = json.loads("".join(shown.once("nodes", "--json").out) or "null")
    objects = [{"alive": node == 1, "node": node, "state": state} for node, state in states.items()]
    need(found == objects, f"nodes --json printed {found}")
    check_listed(shown, {1: True, 2: False}, "after a kill")
    before = read_rows(shown.site.server, LOG)
    dry = shown.once("clean", "--dry-run")
    need(dry.status == 0 and len(dry.out) == 1 and "node 2" in dry.out[0], f"clean --dry-run: {dry}")
    alive = shown.once("clean", "1")
    need(alive.status == REFUSED and "alive" in alive.err, f"clean of a node that is alive: {alive}")
    never = shown.once("clean", "77")
    need(never.status == REFUSED and "never claimed" in never.err, f"clean of a node that was never claimed: {never}")
    need(read_rows(shown.site.server, LOG) == before, "clean --dry-run, or a clean that is refused, changed the log")
    ran = shown.once("clean", "2")
    need(ran.status == 0 and ran.out == ["node 2: 1 releases, 1 removals"], f"clean 2: {ran}")
    check_listed(shown, {1: True}, "after a clean")


def check_log(shown, first, follower):
    """The lines that log printed as they came, the first of which was read, are the entries of the table, and those that
    log prints at once."""
    need = shown.need
    table = replay(shown.site.checks, shown.site.server, LOG, "after all commands")
    if not table:
        return
    lines = [first, *(follower.line() for _ in table.entries[1:])]
    status, rest, err = follower.end(interrupt=True)
    lines += rest
    need(status == -signal.SIGINT, f"log --follow ended with {status}: {err}")
    wanted = [f"{at} node {one.node} {VERBS[one.operation]} " for at, one in enumerate(table.entries)]
    need(len(lines) == len(wanted), f"log --follow printed {len(lines)} lines of {len(wanted)} entries")
    for line, front in zip(lines, wanted):
        need((line or "").startswith(front), f"log --follow printed {line!r}, not {front!r}")
    need(shown.once("log").out == lines, "log prints other lines than log --follow")
    need(shown.once("log", "--from", "5").out == lines[5:], "log --from prints other lines")
    sound = shown.once("check")
    need(sound.status == 0 and sound.out[0].startswith(f"sound: {len(lines)} entries"), f"check: {sound}")


def check_damaged(shown):
    """A log of which a row was changed isn't sound, and no node uses it."""
    server, need = shown.site.server, shown.need
    of = f"log = (select log from wulameron.logs where name = '{LOG}') and seq = 3"
    server.script("logs", "alter table wulameron.entries disable trigger all",
                  f"update wulameron.entries set bytes = set_byte(bytes, 30, get_byte(bytes, 30) # 1) where {of}",
                  "alter table wulameron.entries enable trigger all")
    found = shown.once("check")
    need(found.status == 1 and found.out[0].startswith("wrong at "), f"check of a log that was changed: {found}")
    before = read_rows(server, LOG)
    for words in (("list",), ("log",), ("run", "--node", "1"), ("clean",)):
        ran = shown.once(*words)
        need(ran.status == 3 and "damaged at entry 3" in ran.err, f"{words} of a log that was changed: {ran}")
    need(read_rows(server, LOG) == before, "a log that was changed is written to")


def looks(word):
    """What shows node 1, which has a service and is lost or dead: the last lines of each command."""
    is_dead = word == "dead"
    node = {"alive": False, "node": 1, "state": word}
    return {
        ("nodes",): [f"node 1 {word}"],
        ("nodes", "--json"): [node],
        ("list",): ["1 services"] + [DEAD_NODES] * is_dead,
        ("list", "--json"): [node | {"factories": 1}],
        ("show", NAME): [f"node 1: 1 factories, {word}", "* differs from the default of a create"],
    }


def check_looks(site, word):
    """Each command that looks at the log of the node that is lost or dead shows it so."""
    for words, wanted in looks(word).items():
        if word == "lost":
            site.server.told(UNFOUND.format(LOG_OF_LOST))
        ran = site.ran(words[0], LOG_OF_LOST, *words[1:], PGOPTIONS="")
        found = ran.out[-len(wanted) :]
        if "--json" in words:
            found = json.loads("".join(ran.out) or "null")
            found = found[0]["nodes"] if found and words[0] == "list" else found
        elif words == ("list",):
            site.checks.need(len(ran.out) > 1 and ran.out[1].endswith(f"  1 {word}"), f"list of a {word} node: {ran}")
        site.checks.same(found, wanted, f"{words} of a {word} node")


def check_lost(site):
    """A node whose session has ended is lost, with no advice to clean up for it, and dead as soon as others get it."""
    words = site.words("hold", LOG_OF_LOST, "--node", "1", "event", "create", NAME, "max_nodes=2")
    process = site.living_of(words, LOG_OF_LOST, 1, site.environment(PGOPTIONS=""))
    site.checks.same(process.hear(), f"name: {NAME}", "a hold whose session will end")
    os.kill(until(process.psql, pause=PAUSE), signal.SIGKILL)
    process.ended()
    check_looks(site, "lost")
    site.server.told(UNFOUND.format(LOG_OF_LOST))
    nodes = lambda: site.ran("nodes", LOG_OF_LOST, PGOPTIONS="").out
    began, found = time.monotonic(), nodes()
    is_dead = until(lambda: nodes() == ["node 1 dead"], pause=PAUSE)
    took = time.monotonic() - began
    fine = found == ["node 1 lost"] and is_dead and LOST_FOR <= took < LOST_FOR + MARGIN
    site.checks.need(fine, f"a node told as {found} was dead after {took:.1f} seconds: {is_dead}")
    check_looks(site, "dead")


def commands(site):
    """A service is held by two processes of which one is killed, while others watch."""
    if site.is_plain:
        return "left out, since the plain driver has no such commands"
    shown = Shown(site)
    need = shown.need
    maker = shown.command("hold", "--node", "1", "event", "create", NAME, "max_nodes=3")
    need(maker.line() == f"name: {NAME}", "hold doesn't print what was agreed")
    shown.title = "watch"
    watch = shown.command("watch", "--json")
    shown.title = LOG
    follower = shown.command("log", "--follow")
    first = follower.line()
    # Who watches tells what comes behind its first reading.
    need(until(lambda: site.server.told(HAS_READ), pause=PAUSE), "who watches doesn't read the log")
    opener = shown.command("hold", "--node", "2", "event", "open", NAME)
    need(opener.line() == f"name: {NAME}", "hold of an open doesn't print what was agreed")
    check_change(shown, watch, "opened", 2)
    again = shown.once("hold", "--node", "3", "event", "create", NAME)
    need(again.status == REFUSED and "EventCreateError::AlreadyExists" in again.err, f"a second create: {again}")
    check_listed(shown, {1: True, 2: True}, "with two nodes")
    show = shown.once("show", NAME)
    need(show.out[:1] == [f"name: {NAME}"] and "node 2: 1 factories, alive" in show.out, f"show: {show}")
    absent = shown.once("show", "nothing")
    need(absent.status == REFUSED and absent.err.endswith(NO_SERVICE), f"show of no service: {absent}")
    opener.kill(shown)
    check_dead(shown)
    check_change(shown, watch, "left", 2)
    ended = maker.end()
    need(ended[0] == 0 and not ended[2], f"hold ended with {ended}")
    check_change(shown, watch, "left", 1)
    check_change(shown, watch, "removed", 1)
    status, rest, err = watch.end(interrupt=True)
    need(status == -signal.SIGINT and not rest, f"watch ended with {status}, {rest}: {err}")
    check_listed(shown, {}, "after all have ended")
    check_log(shown, first, follower)
    check_damaged(shown)
    check_lost(site)
    return None
