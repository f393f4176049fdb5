"""A replica takes over within a storm: a synchronous one has all that was answered; an asynchronous one lacks some, and a
handle that had read further tells so and stops."""
from postgres import texts
from postgres.again import AGAIN, LONG
from postgres.checks import until
from postgres.driver import Client, Log, Other
from postgres.ends import LEAST, LINES, Ended, check_rest
from postgres.server import IMMEDIATE, PAUSE, Server, replica
from postgres.site import check_over, is_refused
from postgres.storms import afterwards, begun, replied, replayed
from postgres.table import read_rows, replay

# The name of a replica for which commits wait.
STANDBY = "standby"
# By which entries are appended beside a storm: how many behind the last one that the replica gets.
LOST = 20


def run_until_failover(site, name, server, strike):
    """A storm at a server, which is ended in its midst by some operation; gives its processes, all of which are over."""
    checks = site.checks
    processes = begun(site, name, checks.random.randrange(10**6), Ended, killed=0, calls=LINES, server=server)
    for process in processes:
        process.start()
    at_work = until(lambda: min(len(process.replies) for process in processes) >= LEAST)
    checks.need(at_work, f"{name}: not each process is at work")
    strike(processes)
    for process in processes:
        process.join()
        check_over(checks, process, name, f"{name}, node {process.node}")
        process.is_killed, process.err = True, ""
    replied(checks, processes, name)
    return processes


def takes_over(site, server, other):
    """The server is gone for good, and the other one becomes the first."""
    server.stop(IMMEDIATE)
    other.told("select pg_promote(false)")
    is_first = until(lambda: other.told("select pg_is_in_recovery()") == ["f"], pause=PAUSE)
    site.checks.need(is_first, "a replica doesn't take over")


class At:
    """A site at another server."""

    def __init__(self, site, server):
        self.site, self.server, self.checks = site, server, site.checks

    def ran(self, *words, **others):
        """Runs a command to its end."""
        return self.site.ran(*words, server=self.server, **others)


def synchronous(site, server, other):
    """Commits wait for the replica, so it has all that was answered."""
    name = "synchronous"
    server.set("synchronous_standby_names", STANDBY)
    state = "select sync_state from pg_stat_replication"
    site.checks.need(until(lambda: server.told(state) == ["sync"], pause=PAUSE), "the replica isn't synchronous")
    readers(site, other)
    environment = site.environment(other, WULAMERON_RECONNECT=LONG)
    process = site.living_of(by_both(site, server, other, "both"), "both", 1, environment)
    replies = [process.reply("event create 1 0 before")]
    processes = run_until_failover(site, name, server, lambda _: takes_over(site, server, other))
    replies.append(process.reply("event create 1 1 after"))
    ran = process.end()
    fine = all(replies) and [one[:5] for one in replies] == ["ok 0 ", "ok 1 "] and ran.status == 0
    site.checks.need(fine and ran.err == f"{AGAIN}\n", f"a process that goes on at a replica: {replies}, {ran}")
    if replayed(site.checks, other, processes, name, "a synchronous failover"):
        afterwards(site, name, processes, "a synchronous failover", server=other)
        check_rest(At(site, other), name, "after a synchronous failover", (1, 2))
    both(site, server, other)


def readers(site, other):
    """A replica may be read, and is no place for a node."""
    site.ran("run", "readers", "--node", "1", lines=["event create 1 0 lamps"], server=site.first_of_two)
    found = Client(other.environment())
    until(lambda: found.call("select wulameron.opened('readers', false)"))
    log = Log(found, "readers", makes=False)
    until(lambda: log.look() and log.number >= 8)
    site.checks.need(log.number >= 8, f"a replica has {log.number} entries")
    for text in ("select wulameron.nodes('readers')", "select wulameron.claim('readers', 1, false)"):
        site.checks.same(found.state(text), "25006", f"at a replica: {text}")
    appended = found.state(f"{texts.INSERT}{texts.row(log.log, 0, log.number + 1, b'x')}")
    site.checks.same(appended, "25006", "appending at a replica")
    found.kill()
    ran = site.ran("run", "readers", "--node", "1", lines=["event create 1 0 lamps"], server=other)
    site.checks.need(ran.status == 3 and "read" in ran.err, f"a node at a replica: {ran}")


def by_both(site, server, other, name):
    """The words of a process that names both servers."""
    servers = f"host={server.folder},{other.folder} port={server.port},{other.port} target_session_attrs=read-write"
    words = site.words("run", name, "--node", "1")
    words[1:1] = ["-d", f"{servers} dbname=logs user=lamps"]
    return words


def both(site, server, other):
    """Who names both servers finds the one that may be written."""
    words = by_both(site, server, other, "synchronous")
    ran = site.finished(words, ["event create 1 0 lamps"], site.environment(other))
    site.checks.need(ran.status == 0 and ran.out[:1] and ran.out[0].startswith("ok 0 "), f"by the names of both servers: {ran}")


def asynchronous(site, server, other):
    """The replica lacks the last entries: what it has agrees, and who had read further tells so and stops."""
    checks, name = site.checks, "asynchronous"
    beyond, seen = [], []

    def strike(processes):
        """Has the replica get no more, and take over when it lacks some."""
        opened = f"select wulameron.opened('{name}', false)"
        checks.need(until(lambda: other.told(opened), pause=PAUSE), "a replica doesn't get a log")
        other.set("primary_conninfo", "host=/nowhere")
        until(lambda: not server.told("select * from pg_stat_replication"), pause=PAUSE)
        before = sum(len(process.replies) for process in processes)
        until(lambda: sum(len(process.replies) for process in processes) >= before + LOST)
        log = Log(Client(server.environment()), name, makes=False)
        log.look()
        seen.append(log)
        beyond.extend(read_rows(server, name))
        takes_over(site, server, other)

    run_until_failover(site, name, server, strike)
    rows = read_rows(other, name)
    checks.need(0 < len(rows) < len(beyond), f"of {len(beyond)} rows a replica that is behind has {len(rows)}")
    checks.same(rows, beyond[: len(rows)], "the rows of a replica that is behind")
    log = seen[0]
    log.session = Client(other.environment())
    try:
        found = log.hold()
        checks.need(False, f"a handle that had read further holds, and reads {found}")
    except Other as told:
        checks.same(told.lines, ["another history"], "a handle that had read further")
    log.session.kill()
    replay(checks, other, name, "an asynchronous failover")
    check_rest(At(site, other), name, "after an asynchronous failover", range(1, 9))


def gone_back(site, server):
    """A log that goes back under a process, as from an older copy: it tells so and stops."""
    checks, name = site.checks, "gone-back"
    process, other = (site.living(name, node, server) for node in (1, 2))
    for node, one in ((1, process), (2, other)):
        one.reply(f"event create {node} 0 own-{node}")
    process.reply("list")
    server.told("alter table wulameron.entries disable trigger all")
    log = f"(select log from wulameron.logs where name = '{name}')"
    server.told(f"delete from wulameron.entries where log = {log} and seq > 6")
    server.told("alter table wulameron.entries enable trigger all")
    for node, one in ((1, process), (2, other)):
        reply = one.reply(f"event create {node} 1 more")
        checks.need(is_refused(reply), f"a log that went back: {reply}")
        check_over(checks, one.end(), name, f"node {node} at a log that went back")
    checks.need(replay(checks, server, name, "a log that went back"), "a log that went back can't be read")
    check_rest(At(site, server), name, "at a log that went back", (1, 2))


def failover(site):
    """All of these, at three servers of which each one follows the one before."""
    settings = {"wal_level": "replica"}
    first = site.add(Server(site.programs, site.room / "first", **settings)).make()
    site.first_of_two = first
    second = site.add(replica(first, site.room / "second", STANDBY))
    synchronous(site, first, second)
    third = site.add(replica(second, site.room / "third", "other", synchronous_standby_names="''"))
    asynchronous(site, second, third)
    gone_back(site, third)
    third.stop()
