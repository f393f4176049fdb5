"""The tables and what guards them: each question with its reply, numbers and chains, the gate, claims, generations, and
what the role of the nodes may not do."""
import contextlib
import hashlib
import re
import time

from postgres import texts
from postgres.checks import until
from postgres.driver import BUSY, Client, Ended, Log, Other
from postgres.server import FAST, OWNER, PAUSE

DATA = [b"one", b"two", b"three"]
# For how many milliseconds is waited for what another has, where that is tried, and where it comes.
PATIENCE, LONG = 300, 30000
# By how many seconds a wait may be longer on a slow machine.
MARGIN = 1.5
LONGEST = 1048592
# What the role of the nodes may not do, and with which state it is refused.
FORBIDDEN = {
    "update wulameron.entries set bytes = 'x'": "42501",
    "delete from wulameron.entries": "42501",
    "truncate wulameron.entries": "42501",
    "update wulameron.logs set generation = generation + 1": "42501",
    "insert into wulameron.logs (name) values ('another')": "42501",
    "delete from wulameron.logs": "42501",
    "insert into wulameron.nodes (log, node) values (1, 1)": "42501",
    "delete from wulameron.nodes": "42501",
    "update wulameron.nodes set lost_since = null": "42501",
    "select wulameron.lost_for(1)": "42501",
    "select wulameron.find_lost({log})": "42501",
    "insert into wulameron.entries values ({log}, 0, 4, 'x', sha256('x'))": "42501",
    "update wulameron.entries set chain = sha256('x')": "42501",
    "insert into wulameron.entries (log, generation, seq, bytes) values ({log}, 0, 3, 'x')": "23505",
    "insert into wulameron.entries (log, generation, seq, bytes) values ({log}, 0, 5, 'x')": "23503",
    "insert into wulameron.entries (log, generation, seq, bytes) values ({log}, 0, 4, '')": "23514",
    "insert into wulameron.entries (log, generation, seq, bytes) values ({log}, 0, 0, '')": "23505",
    "insert into wulameron.entries (log, generation, seq, bytes) values ({log}, 0, -1, 'x')": "23503",
    "insert into wulameron.entries (log, generation, seq, bytes) values ({log}, 1, 0, '')": "23514",
    "insert into wulameron.entries (log, generation, seq, bytes) values ({log}, 1, 1, 'x')": "23503",
    "insert into wulameron.entries (log, generation, seq, bytes) values ({log}, 2, 0, '')": "23503",
    "insert into wulameron.entries (log, generation, seq, bytes) values (0, 0, 0, '')": "23503",
    "select wulameron.forget('rights')": "42501",
    "select wulameron.made('rights')": "42501",
    "select wulameron.node_id('rights', 1)": "42501",
    "select wulameron.locked('wulameron.logs', true)": "42501",
    "select nextval('wulameron.logs_log_seq')": "42501",
    "alter table wulameron.entries disable trigger follow": "42501",
    "drop table wulameron.entries": "42501",
    "drop function wulameron.stand() cascade": "42501",
    "create table wulameron.others ()": "42501",
    "do 'begin lock table wulameron.entries in share mode; end'": "42501",
}
# What the owner may not do.
STANDING = ["update wulameron.entries set bytes = 'x'", "delete from wulameron.entries", "truncate wulameron.entries"]
ROW = re.compile(r"(\d+) ([0-9a-f]{64})(?: ([0-9a-f]*))?")


@contextlib.contextmanager
def clients(server, count=2, role=None):
    """So many sessions."""
    environment = server.environment(role) if role else server.environment()
    found = [Client(environment) for _ in range(count)]
    try:
        yield found
    finally:
        for client in found:
            client.kill()


def unhurried(log):
    """A handle whose session isn't ended while this check does something else."""
    log.session.call("set idle_in_transaction_session_timeout = 0")
    return log


def pid_of(session):
    """The server's process for a session."""
    return session.call("select pg_backend_pid()")[0]


def questions(checks, server):
    """Each question, byte for byte, with all lines of its reply."""
    with clients(server) as (one, other):
        same = checks.same
        same(one.ask(texts.opening("rights", False, PATIENCE), "opened"), ["opened 00000"], "opening no log")
        told = one.ask(texts.opening("rights", True, PATIENCE), "opened")
        log, chain = told[0].split(" ")[1], told[0].split(" ")[5]
        same(told, [f"3 {log} 0 1 0 {chain}", "opened 00000"], "opening")
        one.call("set idle_in_transaction_session_timeout = 0")
        same(other.ask(texts.opening("rights", False, PATIENCE), "opened"), told, "opening it again")
        same(other.ask(texts.reopening("rights"), "opened"), told, "reopening")
        same(one.ask(texts.holding(log, 0, 0), "held"), ["", f"0 {chain} 0", "held 00000"], "holding")
        rows = [f"0 {chain}"]
        for number, data in enumerate(DATA, 1):
            chain = hashlib.sha256(bytes.fromhex(chain) + data).hexdigest()
            rows.append(f"{number} {chain}")
            told = one.ask(texts.appending(log, 0, number, data), "appended")
            same(told, [rows[-1], "appended 00000"], "appending")
        begin = time.monotonic()
        busy = other.ask(texts.holding(log, 0, 0), "held")
        same(busy, [f"ERROR:  {BUSY}", f"held {BUSY}"], "holding what another holds, behind its commits")
        checks.need(time.monotonic() - begin >= PATIENCE / 1000, "who holds what another holds doesn't wait")
        read = [f"{row} {data.hex()}" for row, data in zip(rows[1:], DATA)]
        same(other.ask(texts.looking(log, 0, 0), "read"), [f"{rows[0]} 3", *read, "read 00000"], "looking meanwhile")
        same(other.ask(texts.looking(log, 0, 1, 2), "read"), [f"{rows[1]} 3", read[1], "read 00000"], "a bounded look")
        same(other.ask(texts.looking(log, 0, 9), "read"), ["read 00000"], "looking at no own place")
        other.call(f"set lock_timeout = {LONG}\\; set idle_in_transaction_session_timeout = 0")
        one.call(f"set lock_timeout = {LONG}")
        one.say(texts.letting_go(log))
        same(other.ask(texts.holding(log, 0, 2), "held"), ["", f"{rows[2]} 3", read[2], "held 00000"], "holding then")
        same(other.ask(texts.pausing(log), "paused"), ["", "paused 00000"], "pausing")
        same(one.ask(texts.holding(log, 0, 3), "held"), ["", f"{rows[3]} 3", "held 00000"], "holding what was let go")
        same(one.ask(texts.appending(log, 0, 9, b"x"), "appended"), ["ERROR:  23503", "appended 23503"], "a gap")


def pieces(checks, server):
    """More rows than a piece, and the longest row."""
    with clients(server) as sessions:
        one, other = (unhurried(Log(session, "pieces")) for session in sessions)
        wanted = [b"%d" % number for number in range(1, 200)]
        one.hold()
        for data in wanted:
            one.append(data)
        checks.same(other.look(), list(enumerate(wanted, 1)), "looking in pieces")
        one.append(bytes(LONGEST))
        state = sessions[0].state(f"{texts.INSERT}{texts.row(one.log, 0, one.number + 1, bytes(LONGEST + 1))}")
        checks.same(state, "23514", "a row that is too long")
        checks.same(other.look(), [(200, bytes(LONGEST))], "the longest row")


def stopped(checks, server):
    """Who does nothing while it holds is ended, and so is who fails; who fails behind the gate gives it back."""
    with clients(server, 4) as (idle, failed, late, one):
        logs = [Log(session, name) for session, name in zip((idle, failed, late), ("idle", "failed", "late"))]
        pids = [pid_of(session) for session in (idle, failed, late)]
        logs[0].hold()
        logs[1].hold()
        failed.state("select 1 / 0")
        late.say(texts.holding(logs[2].log, 0, 0).replace("; select seq", "; select pg_sleep(600)\\; select seq", 1))
        asleep = f"select pg_cancel_backend(pid) from pg_stat_activity where pid = {pids[2]} and wait_event = 'PgSleep'"
        until(lambda: server.told(asleep), pause=PAUSE)
        checks.same(late.hear("held"), ["", "ERROR:  57014", "held 57014"], "a statement that is canceled")
        unhurried(Log(one, "late")).hold()
        checks.need(True, "the gate is given back where a hold fails behind it")
        one.say(texts.letting_go(logs[2].log))
        checks.need(server.wait_gone(pids[:2]), "a session that does nothing while it holds isn't ended")
        for session, log in ((idle, logs[0]), (failed, logs[1])):
            try:
                told = session.ask(texts.looking(log.log, 0, 0), "read")
                checks.need(False, f"a session that did nothing while it held was told {told}")
            except Ended as ended:
                checks.need(str(ended).startswith("FATAL:  25P03; "), f"a session that did nothing was told {ended}")
            unhurried(Log(one, log.name)).hold()
            checks.need(True, "the gate of a session that ended is free")
            one.say(texts.letting_go(log.log))


def generations(checks, server):
    """A generation becomes the current one as a whole, by who has the gate, and nothing else does."""
    name = "generations"
    with clients(server, 3) as (session, other, reader):
        log, behind = unhurried(Log(session, name)), Log(reader, name)
        log.hold()
        for data in DATA:
            log.append(data)
        before = behind.look()[:1] and behind.place()
        session.told(texts.moving(log.log, 0, 4, b"mark"), "moved")
        session.say(texts.UNDOING)
        checks.same(session.told(texts.looking(log.log, 1, 0), "read"), [], "rows of a generation that was undone")
        log.compact([b"mark", b"a", b"b"])
        checks.same([log.generation, log.counter, log.snapshot], [1, 0, 2], "the current generation")
        checks.same(log.look(), [(1, b"a"), (2, b"b")], "the rows of the current generation")
        log.append(b"c")
        log.let_go()
        checks.same(behind.look(), [(4, b"mark")], f"the rows behind {before}")
        chain = behind.chain
        behind.rejoin()
        checks.same(behind.chain, chain, "the chain of a generation's row 0")
        checks.same([data for _, data in behind.look()], [b"a", b"b", b"c"], "the rows of the current generation")
        for what, first, words in refused_generations(log.log):
            one = Client(server.environment())
            held = unhurried(Log(one, name))
            held.look()
            one.state("begin") if what == "without the gate" else held.hold()
            for text in first:
                checks.same(one.state(text), "00000", f"going on {what}")
            checks.same(one.state(words), "55000", f"going on {what}")
            one.kill()
        one = unhurried(Log(other, name))
        one.look()
        one.hold()
        other.told(texts.moving(one.log, 1, 4, b"mark"), "moved")
        checks.same(other.state("commit and chain"), "23514", "committing a generation that isn't the current one")
        checks.same(log.look(), [], "rows that were not committed")


def refused_generations(log):
    """In which ways a generation doesn't become the current one."""
    moved = texts.moving(log, 1, 4, b"mark").split(" returning ")[0]
    copied = f"{texts.INSERT}{texts.row(log, 2, 1, b'a')}"
    behind = f"{texts.INSERT}{texts.row(log, 1, 5, b'x')}"
    yield "without the gate", [moved], f"select wulameron.go_on({log}, 2, 0)"
    yield "to another generation", [moved], f"select wulameron.go_on({log}, 3, 0)"
    yield "with too few rows", [moved], f"select wulameron.go_on({log}, 2, 1)"
    yield "with too many rows", [moved, copied], f"select wulameron.go_on({log}, 2, 0)"
    yield "with no row", [], f"select wulameron.go_on({log}, 2, 0)"
    yield "behind another row", [moved, behind], f"select wulameron.go_on({log}, 2, 0)"


def forgetting(checks, server):
    """Only the owner deletes, and only what is before the current generation."""
    told = server.told
    query = "select e.generation, count(*) from wulameron.entries e join wulameron.logs l using (log)"
    query += " where name = 'generations' group by 1 order by 1"
    checks.same(told(query), ["0|5", "1|4"], "the rows of both generations")
    with clients(server, 1, OWNER) as (session,):
        for text in STANDING:
            checks.same(session.state(text), "42501", f"as the owner: {text}")
    checks.same(told("select wulameron.forget('generations')"), ["0"], "what is forgotten but for one generation")
    checks.same(told("select wulameron.forget('generations', 0)"), ["5"], "what is forgotten")
    checks.same(told("select wulameron.forget('generations', -1)"), ["0"], "what is forgotten twice")
    checks.same(told(query), ["1|4"], "the rows of the current generation")


def claims(checks, server):
    """A node is one session's, and lost when that ends."""
    with clients(server, 3) as (one, other, third):
        ask, same = (lambda session, text, word="claimed": session.ask(text, word)), checks.same
        same(ask(one, texts.listing("claims"), "listed"), ["listed 00000"], "the nodes of no log")
        same(ask(one, texts.claiming("claims", 3, True)), ["t", "claimed 00000"], "a claim")
        for waits in (True, False):
            same(ask(one, texts.claiming("claims", 3, waits)), ["f", "claimed 00000"], "a claim of one's own node")
        other.call(f"set lock_timeout = {PATIENCE}")
        begin = time.monotonic()
        same(ask(other, texts.claiming("claims", 3, True)), ["f", "claimed 00000"], "a claim of another's node")
        checks.need(time.monotonic() - begin >= PATIENCE / 1000, "a claim of another's node doesn't wait")
        same(ask(other, texts.claiming("claims", 3, False)), ["f", "claimed 00000"], "a claim of another's, at once")
        free = [ask(session, texts.claiming_free("claims"))[0] for session in (one, other, other, third, third)]
        same(free, ["0", "1", "2", "4", "5"], "the lowest nodes that are free")
        pid = pid_of(one)
        one.kill()
        other.call(f"set lock_timeout = {LONG}")
        same(ask(other, texts.claiming("claims", 3, True)), ["t", "claimed 00000"], "a claim of a node that is dead")
        checks.need(server.wait_gone([pid]), "the session of psql that was killed isn't ended")
        wanted = ["0 lost", "1 alive", "2 alive", "3 alive", "4 alive", "5 alive", "listed 00000"]
        same(ask(other, texts.listing("claims"), "listed"), wanted, "the nodes")
        for told in ("t", "f"):
            same(ask(other, texts.releasing("claims", 3), "released"), [told, "released 00000"], "a release")
        same(ask(other, texts.releasing("claims", 99), "released"), ["f", "released 00000"], "a release of no node")
        same(ask(other, texts.claiming("claims", 2**64 - 1, False)), ["t", "claimed 00000"], "the last node")
        same(ask(other, texts.claiming("claims", 2**64, False))[-1], "claimed 23514", "a node behind the last one")
        for name in ("-a", "a b", "", "a" * 64, "a\\n"):
            same(ask(other, texts.opening(name, True, PATIENCE), "opened")[-1], "opened 23514", f"the name {name!r}")
        for name in ("a" * 63, "0", "Z.y_x-w"):
            same(ask(other, texts.opening(name, True, PATIENCE), "opened")[-1], "opened 00000", f"the name {name!r}")


def of_process(server, process):
    """A session of a process, as the launcher names it to the server."""
    return Client(server.environment(PGOPTIONS=f"-c wulameron.process={process}"))


def took(session, node, waits):
    """Has a session claim a node: what it is told, and for how many seconds it waited."""
    begin = time.monotonic()
    told = session.ask(texts.claiming("lost", node, waits), "claimed")[0]
    return told, time.monotonic() - begin


def lose(checks, server, nodes):
    """Has sessions claim these nodes, each of a process of its own, and end, and others find them lost."""
    sessions = {node: of_process(server, f"own-{node}") for node in nodes}
    for node, session in sessions.items():
        checks.same(took(session, node, False)[0], "t", f"a claim of node {node}")
    pids = [pid_of(session) for session in sessions.values()]
    for session in sessions.values():
        session.kill()
    checks.need(server.wait_gone(pids), "sessions of psql that was killed aren't ended")


def lost(checks, server):
    """A node whose session has ended is lost for three seconds from when that was found: only its own process gets it then,
    and whoever won't wait. To these two it is told as dead, as to all others after that time. One that was given back in
    order is free."""
    near = lambda seconds, wanted: wanted - 0.2 < seconds < wanted + MARGIN
    lose(checks, server, range(1, 8))
    own, now, other, third, fourth, back = (of_process(server, name) for name in ("own-1", "x", "y", "z", "w", "own-6"))
    now.call("set wulameron.now = on")
    found, begin = server.told("select wulameron.nodes('lost')"), time.monotonic()
    states = lambda word, others: [f"{node} {word if node == 1 else others}" for node in range(1, 8)]
    checks.same(found, states("lost", "lost"), "nodes that were lost")
    listed = lambda session: session.call("select wulameron.nodes('lost')")
    checks.same(listed(own), states("dead", "lost"), "nodes that were lost, as told to a process that had one of them")
    checks.same(listed(now), states("dead", "dead"), "nodes that were lost, as told to one that won't wait")
    checks.same(other.ask(texts.claiming_free("lost"), "claimed")[0], "0", "the lowest node that isn't lost")
    for session, node, whose in ((own, 1, "its own process"), (now, 2, "one that won't wait")):
        told, seconds = took(session, node, True)
        checks.need(told == "t" and near(seconds, 0), f"a lost node, claimed by {whose}: {told} after {seconds:.2f} seconds")
    for session, node, waits in ((other, 3, True), (third, 4, False), (fourth, 6, False)):
        session.say(texts.claiming("lost", node, waits))
    time.sleep(1)
    told, seconds = took(back, 6, True)
    checks.need(told == "t" and near(seconds, 0), f"a lost node whose process comes back: {told} after {seconds:.2f} seconds")
    for session, wanted in ((other, "t"), (third, "t"), (fourth, "f")):
        told, seconds = session.hear("claimed")[0], time.monotonic() - begin
        checks.need(told == wanted and near(seconds, 3), f"a claim of a lost node: {told} after {seconds:.2f} seconds")
    wanted = [f"{node} {'dead' if node in (5, 7) else 'alive'}" for node in range(8)]
    checks.same(server.told("select wulameron.nodes('lost')"), wanted, "nodes after that time")
    told, seconds = took(now, 5, False)
    checks.need(told == "t" and near(seconds, 0), f"a node that is lost no more: {told} after {seconds:.2f} seconds")
    checks.same(now.ask(texts.releasing("lost", 5), "released")[0], "t", "a release")
    fourth.call("select wulameron.give_back()")
    checks.same(took(fourth, 8, False)[0], "t", "a claim of node 8")
    fourth.call("select wulameron.give_back()")
    pid = pid_of(fourth)
    fourth.kill()
    checks.need(server.wait_gone([pid]), "the session of psql that was killed isn't ended")
    for node in (5, 8):
        told, seconds = took(third, node, False)
        checks.need(told == "t" and near(seconds, 0), f"node {node}, which was given back: {told} after {seconds:.2f} seconds")
    # Another start of the server may not know of claims since it was written down that a node is lost.
    checks.same(now.ask(texts.releasing("lost", 2), "released")[0], "t", "a release")
    for session in (own, now, other, third, back):
        session.kill()
    server.stop(FAST)
    server.start()
    asking = of_process(server, "another")
    asking.say(texts.claiming("lost", 7, False))
    for session, node, wanted in ((of_process(server, "v"), 2, 3), (of_process(server, "own-6"), 6, 0)):
        told, seconds = took(session, node, False)
        checks.need(told == "t" and near(seconds, wanted), f"node {node} after a restart: {told} after {seconds:.2f} seconds")
        session.kill()
    checks.same(asking.hear("claimed")[0], "t", "a lost node after a restart")
    asking.kill()


def at_once(checks, server, count=12):
    """Many make one log at once, and take nodes of another one."""
    with clients(server, count) as found:
        for session in found:
            session.call(f"set lock_timeout = {LONG}")
        for session in found:
            session.say(texts.opening("at-once", True, LONG))
        told = {tuple(session.hear("opened")) for session in found}
        checks.need(len(told) == 1 and min(told)[-1] == "opened 00000", f"logs that were made at once: {told}")
        for session in found:
            session.say(texts.claiming_free("free-at-once"))
        told = sorted(int(session.hear("claimed")[0]) for session in found)
        checks.same(told, list(range(count)), "nodes that were claimed at once")


def forbidden(checks, server):
    """What the role of the nodes may not do, and what a role may not do that isn't of it."""
    log = server.told("select log from wulameron.logs where name = 'rights'")[0]
    with clients(server, 1) as (session,):
        for text, state in FORBIDDEN.items():
            checks.same(session.state(text.format(log=log)), state, text)
    server.told("create role stranger login")
    with clients(server, 1, "stranger") as (session,):
        for text in ("select wulameron.opened('rights', false)", "select * from wulameron.entries"):
            checks.same(session.state(text), "42501", f"as another role: {text}")
    with clients(server, 1, OWNER) as (session,):
        checks.same(session.state("select wulameron.opened('rights', false)"), "00000", "as the owner")


def rights(site):
    """All of these."""
    checks, server = site.checks, site.server
    for part in (questions, pieces, stopped, generations, forgetting, claims, lost, at_once, forbidden):
        try:
            part(checks, server)
        except (Ended, Other, AssertionError) as error:
            checks.need(False, f"{part.__name__}: {type(error).__name__}: {error}")
