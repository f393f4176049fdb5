"""Nodes that die, and are cleaned up for: by who starts, by whom they are in the way, and by the command clean."""
import fcntl
import hashlib
import os
import re
import signal
import threading
import time
from collections import Counter
from dataclasses import dataclass
from functools import partial

from logs.form import FILE_HEADER_LENGTH, read_log
from logs.history import standing
from logs.runs import FAULT, NO_CLEAN, Living, at_once, leave_node, node_path, snapshot
from logs.storm import PREFIXES, PROCESSES, Process, alive_text, drawn_lines
from logs.storm import check_entries, check_given_back, check_replies
from logs.writing import entry_bytes

# Who dies, who made its service and lives, and who comes then.
DEAD, MAKER, OTHER = 1, 2, 3
NAME = "mortal"
ERRORS = {"event": "Event", "pubsub": "PublishSubscribe", "rr": "RequestResponse"}
CALLS = ("create", "open", "open_or_create")
AGAIN = ([], [NO_CLEAN], ["--explain"])
# What stands in the log of a service that is created, opened by another, and closed by it, and by its last node.
CREATED = ["make_tag", "lock", "make_segment", "publish"]
OPENED = ["make_tag", "open_segment"]
CLOSED = ["release", "remove_tag"]
CLOSED_LAST = [*CLOSED, "remove_segment", "remove_description"]
# By a letter each, and in which order they are given back.
LETTERS = {"release": "r", "remove_segment": "s", "remove_description": "d", "remove_tag": "t"}
IN_ORDER = re.compile("r*(s?d)*t*")
# For which refusals of an open it is cleaned up.
BLOCKED = ("HangsInCreation", "ExceedsMaxNumberOfNodes", "IsMarkedForDestruction")
# How many deaths are looked at once, of which many wait for who creates; and for how long others are begun.
DEATHS_AT_ONCE = 8
DEATHS_SECONDS = 6
# Of programs that are stopped: how many, with how many calls, after how long at most, and for how long others wait.
STOPS = 6
STOPPED_CALLS = 60
STOP_SECONDS = 0.04
STOPPED_WAIT = 200
# How long who is creating is waited for.
CREATION_SECONDS = 0.5
# Of claims of a node that another has for a moment: for how long, how long it is waited, and how long where it stays.
CLAIM_SECONDS = 0.3
LONG_WAIT, SHORT_WAIT = 1000, 100
# Of two that clean up at once.
TWENTY = 20
LINES_EACH = 8
# Of rounds.
ROUNDS = 30
ROUND_SECONDS = 7
ROUND_CALLS = 30
NODES = 12
KEEPER = 99


@dataclass(frozen=True)
class Death:
    """The log that a node leaves which dies after an entry, and how much of it another wrote, which lives."""

    pattern: str
    data: bytes
    made: int = FILE_HEADER_LENGTH

    @property
    def is_beside(self):
        """Whether another lives."""
        return self.made > FILE_HEADER_LENGTH

    @property
    def living(self):
        """The other where there is one."""
        return [MAKER] * self.is_beside

    def line(self, call, node, slot=0):
        """The line of a call of its service. There is room for one node beside the one that lives."""
        room = "" if call == "open" else f" max_nodes={2 if self.is_beside else 1}"
        return f"{self.pattern} {call} {node} {slot} {NAME}{room}"

    @property
    def found(self):
        """Its service's hash."""
        return hashlib.sha1(PREFIXES[self.pattern] + NAME.encode()).digest()


# ---- what is made


def written(runs, path, operations, what):
    """The log of a path, in which these were done."""
    data = path.read_bytes()
    found = [entry.operation for entry in read_log(data).entries]
    runs.need(found == operations, f"{what}: in the log is {found}")
    return data


def alone(runs, pattern):
    """A node creates, and closes."""
    path, what = runs.file(f"alone-{pattern}"), f"{pattern}, alone"
    whole = Death(pattern, b"")
    ran = runs.run(path, DEAD, [whole.line("create", DEAD), "close 0"])
    runs.need(ran.status == 0 and ran.out == ["ok 0 number=0", "closed 0"], f"{what}: {ran}")
    data = written(runs, path, CREATED + CLOSED_LAST, what)
    return [Death(pattern, data[: entry.end]) for entry in read_log(data).entries]


def twice(runs, pattern):
    """A node creates, opens that again, creates another, and closes all."""
    path, what = runs.file(f"twice-{pattern}"), f"{pattern}, twice"
    whole = Death(pattern, b"")
    lines = [whole.line("create", DEAD), whole.line("open", DEAD, 1), f"rr create {DEAD} 2 second"]
    ran = runs.run(path, DEAD, [*lines, "close 0", "close 2", "close 1"])
    runs.need(ran.status == 0 and all(" " in reply for reply in ran.out), f"{what}: {ran}")
    operations = [*CREATED, "open_segment", *CREATED, "release", *CLOSED_LAST, *CLOSED_LAST]
    data = written(runs, path, operations, what)
    return [Death(pattern, data[: entry.end]) for entry in read_log(data).entries[len(CREATED) :]]


def beside(runs, pattern):
    """A node opens what another has created, and closes it."""
    path, what = runs.file(f"beside-{pattern}"), f"{pattern}, beside another"
    whole = Death(pattern, b"", FILE_HEADER_LENGTH + 1)
    maker = Living(runs, path, MAKER)
    maker.reply(whole.line("create", MAKER))
    made = path.stat().st_size
    ran = runs.run(path, DEAD, [whole.line("open", DEAD), "close 0"])
    runs.need(ran.status == 0 and ran.out == ["ok 0 number=0", "closed 0"], f"{what}: {ran}")
    data = written(runs, path, CREATED + OPENED + CLOSED, what)
    maker.end()
    return [Death(pattern, data[: entry.end], made) for entry in read_log(data).entries[len(CREATED) :]]


def place(runs, name, death, is_known=True):
    """A log as the death leaves it, and who made its service where somebody did, who is alive."""
    path, maker = runs.file(name), None
    if death.is_beside:
        maker = Living(runs, path, MAKER)
        maker.reply(death.line("create", MAKER))
        made, begin = path.read_bytes()[FILE_HEADER_LENGTH:], death.data[FILE_HEADER_LENGTH : death.made]
        runs.need(made == begin, f"{name}: another made other entries of the same lines")
        with open(path, "ab") as file:
            file.write(death.data[death.made :])
    else:
        path.write_bytes(death.data)
    if is_known:
        leave_node(path, DEAD)
    return path, maker


# ---- what has to be


def check_nodes(runs, path, wanted, what):
    """The nodes are listed: which are alive, and of each other one whether something of it is left in the file."""
    replayed = runs.replay(path.read_bytes(), what)
    if not replayed:
        return
    left = {node: "dead" if any(replayed[1].left_by(node)) else "ended" for node in wanted}
    ran = runs.nodes(path)
    lines = [f"node {node} {wanted[node] or left[node]}" for node in sorted(wanted)]
    runs.need((ran.status, ran.out, ran.err) == (0, lines, ""), f"{what}: of nodes it listed {ran}, and not {lines}")


def appended(runs, path, old, what):
    """The entries that stand after these bytes, and the world that all come to; nothing where something is wrong."""
    data = path.read_bytes()
    replayed = runs.need(data.startswith(old), f"{what}: a whole entry is gone") and runs.replay(data, what)
    if not replayed:
        return None
    return [entry for entry in replayed[0].entries if entry.at >= len(old)], replayed[1]


def check_cleaned(runs, path, old, living, what):
    """All was given back in the dead node's name, in order, but what the living ones have. Gives what it was."""
    found = appended(runs, path, old, what)
    if not found:
        return Counter()
    entries, world = found
    runs.need(not world.remains(living), f"{what}: there still is {world.remains(living)}")
    given = [entry for entry in entries if entry.node == DEAD]
    runs.need(given == entries, f"{what}: others wrote {[entry.line() for entry in entries if entry not in given]}")
    letters = "".join(LETTERS.get(entry.operation, "?") for entry in given)
    runs.need(IN_ORDER.fullmatch(letters), f"{what}: it was given back in the order {letters}")
    if letters:
        runs.count("cleanings")
    return Counter(entry.operation for entry in given)


def clean_line(node, operations):
    """The line of what was given back for a node; none where nothing was."""
    releases, removals = operations["release"], sum(operations.values()) - operations["release"]
    return [f"node {node}: {releases} releases, {removals} removals"] if operations else []


def check_clean(runs, path, living, what):
    """The command gives all back that the dead node has, by its line, and then nothing more."""
    old = path.read_bytes()
    ran = runs.clean(path)
    wanted = clean_line(DEAD, check_cleaned(runs, path, old, living, what))
    runs.need((ran.status, ran.out, ran.err) == (0, wanted, ""), f"{what}: clean replied {ran}, and not {wanted}")
    old = path.read_bytes()
    ran = runs.clean(path)
    fine = (ran.status, ran.out, ran.err) == (0, [], "") and path.read_bytes() == old
    runs.need(fine, f"{what}: the second clean replied {ran}")


def check_end(runs, path, processes, what):
    """These end by themselves, and then there is nothing."""
    for process in processes:
        ran = process.end()
        runs.need((ran.status, ran.out, ran.err) == (0, [], ""), f"{what}: node {process.node} ended with {ran}")
    replayed = runs.replay_all(path, what)
    if replayed:
        runs.need(not replayed[1].remains(), f"{what}: in the end there is {replayed[1].remains()}")


def is_answer(reply, pattern, call, word):
    """Whether a reply is this one: `ok`, or a refusal of the call."""
    if reply is None or word == "ok":
        return reply is not None and reply.startswith("ok ")
    return reply == f"{ERRORS[pattern]}{call}Error::{word}"


def answers(world, found):
    """How a create and an open have to be answered where nothing is cleaned up for."""
    row, segment = world.rows.get(found), world.segments.get(found)
    if row is None:
        return "ok", "ok"
    if row.form is None:
        return "HangsInCreation", "HangsInCreation"
    if segment is None:
        return "AlreadyExists", "ServiceInCorruptedState"
    if segment.marked:
        return "AlreadyExists", "IsMarkedForDestruction"
    is_full = len(segment.participants) == segment.capacity
    return "AlreadyExists", "ExceedsMaxNumberOfNodes" if is_full else "ok"


# ---- each death, again and again


def at_start(runs, death, name):
    """Who starts gives back what the dead node had, before its first line, and then has the service."""
    what = f"{name}, at a start"
    path, maker = place(runs, f"{name}-start", death)
    states = {DEAD: None, **{node: "alive" for node in death.living}}
    check_nodes(runs, path, states, what)
    other = Living(runs, path, OTHER)
    listed = other.reply("list")
    runs.need(listed == f"{len(death.living)} services", f"{what}: it listed {listed!r}")
    check_cleaned(runs, path, death_bytes(path, death), [*death.living, OTHER], what)
    check_nodes(runs, path, {**states, OTHER: "alive"}, what)
    call = "open" if maker else "create"
    replies = [other.reply(death.line(call, OTHER)), other.reply("close 0")]
    runs.need(str(replies[0]).startswith("ok ") and replies[1] == "closed 0", f"{what}: it replied {replies}")
    check_end(runs, path, [other, maker] if maker else [other], what)


def death_bytes(path, death):
    """The bytes that the death left: after the header of this very log."""
    return path.read_bytes()[:FILE_HEADER_LENGTH] + death.data[FILE_HEADER_LENGTH:]


def left_alone(runs, death, name):
    """Who starts with --no-clean leaves all as it was, also with --explain, and is refused what is in the way.

    The command clean gives it back then.
    """
    what = f"{name}, {NO_CLEAN}"
    path, maker = place(runs, f"{name}-left", death)
    old = path.read_bytes()
    explained = runs.run(path, OTHER, ["list"], flags=["--explain", NO_CLEAN])
    fine = explained.status == 0 and not explained.err and path.read_bytes() == old
    runs.need(fine, f"{what}: at a start with --explain too something changed, and it replied {explained}")
    other = Living(runs, path, OTHER, [NO_CLEAN])
    replayed = runs.replay(old, what)
    listed = other.reply("list")
    if not replayed:
        return
    before = replayed[1]
    runs.need(listed == before.listing()[-1] and path.read_bytes() == old, f"{what}: it listed {listed!r}")
    create, opening = answers(before, death.found)
    replies = [other.reply(death.line("create", OTHER)), other.reply(death.line("open", OTHER, 1))]
    for reply, call, word in zip(replies, ("Create", "Open"), (create, opening)):
        runs.need(is_answer(reply, death.pattern, call, word), f"{what}: it replied {reply!r}, and not {word}")
    ended = other.end()
    runs.need((ended.status, ended.err) == (0, ""), f"{what}: it ended with {ended}")
    found = appended(runs, path, old, what)
    if found:
        writers, left = {entry.node for entry in found[0]}, found[1].left_by(DEAD)
        runs.need(writers <= {OTHER}, f"{what}: the nodes {writers} wrote")
        runs.need(left == before.left_by(DEAD), f"{what}: of the dead node is {left}")
    check_clean(runs, path, death.living, what)
    check_end(runs, path, [maker] if maker else [], what)


def wanted_within(world, death, call):
    """How a call has to be answered in the end, and whether the dead node is cleaned up for within it."""
    create, opening = answers(world, death.found)
    # What others leave half removed is no service any more, but its description stands.
    is_cleaned = opening in (*BLOCKED, "ServiceInCorruptedState")
    if call == "open_or_create":
        return "ok", is_cleaned
    if call == "create":
        return ("ok", True) if create in BLOCKED else (create, False)
    if death.found not in world.rows:
        return "DoesNotExist", False
    if is_cleaned:
        return "ok" if death.is_beside else "DoesNotExist", True
    return opening, False


def within_a_call(runs, death, name, call):
    """Who is refused since a node is in the way that died meanwhile gives back what it had, and is answered then."""
    what = f"{name}, within a call of {call}"
    path, maker = place(runs, f"{name}-within-{call}", death, is_known=False)
    old = path.read_bytes()
    other = Living(runs, path, OTHER)
    listed = other.reply("list")
    replayed = runs.replay(old, what)
    if not replayed:
        return
    runs.need(path.read_bytes() == old, f"{what}: it changed something for who has no file, and listed {listed!r}")
    leave_node(path, DEAD)
    word, is_cleaned = wanted_within(replayed[1], death, call)
    reply = other.reply(death.line(call, OTHER))
    runs.need(is_answer(reply, death.pattern, call.title(), word), f"{what}: it replied {reply!r}, and not {word}")
    found = appended(runs, path, old, what)
    if found:
        left = found[1].left_by(DEAD)
        wanted = (0, 0, 0) if is_cleaned else replayed[1].left_by(DEAD)
        runs.need(left == wanted, f"{what}: the dead node has {left}, and not {wanted}")
        letters = "".join(LETTERS.get(entry.operation, "?") for entry in found[0] if entry.node == DEAD)
        runs.need(IN_ORDER.fullmatch(letters), f"{what}: it was given back in the order {letters}")
        runs.count("cleanings", is_cleaned)
    ended = [process.end() for process in (other, maker) if process]
    runs.need(all(ran.status == 0 and not ran.err for ran in ended), f"{what}: they ended with {ended}")
    check_clean(runs, path, [], what)


def again(runs, death, name, flags):
    """Who starts with the dead node gives back what it had, whatever words it has, and then is that node anew."""
    what = " ".join([f"{name}, again", *flags])
    path, maker = place(runs, f"{name}-again", death)
    old, call = path.read_bytes(), "open" if maker else "create"
    ran = runs.run(path, DEAD, ["list", death.line(call, DEAD), "close 0"], flags=flags)
    replies = [line for line in ran.out if line and not line.startswith("  ")]
    texts = "\n".join(["", *replies])
    fine = re.search(rf"\n{len(death.living)} services\nok 0 number=\d+\nclosed 0$", texts)
    runs.need(fine and ran.status == 0 and not ran.err, f"{what}: {ran}")
    found = appended(runs, path, old, what)
    if found:
        done = [entry.operation for entry in found[0]]
        own = OPENED + CLOSED if maker else CREATED + CLOSED_LAST
        letters = "".join(LETTERS.get(operation, "?") for operation in done[: -len(own)])
        fine = done[-len(own) :] == own and {entry.node for entry in found[0]} == {DEAD}
        runs.need(fine and IN_ORDER.fullmatch(letters), f"{what}: it did {done}")
        runs.count("cleanings", bool(letters))
    check_end(runs, path, [maker] if maker else [], what)


def each_death(runs, seconds):
    """A node that dies after each of its entries, and what others make of it."""
    deaths = [death for pattern in PREFIXES for kind in (alone, beside, twice) for death in kind(runs, pattern)]
    scenes = [at_start, left_alone, *(partial(within_a_call, call=call) for call in CALLS)]
    tries = [(at, scene) for at in range(len(deaths)) for scene in scenes]
    tries += [(at, partial(again, flags=AGAIN[at % len(AGAIN)])) for at in range(len(deaths))]
    runs.random.shuffle(tries)

    def look(found):
        at, scene = found
        death = deaths[at]
        operation = read_log(death.data).entries[-1].operation
        scene(runs, death, f"death-{at}-{death.pattern}-{operation}")
        runs.count("deaths")

    done = at_once(look, tries, seconds, threads=DEATHS_AT_ONCE)
    print(f"looked at {done} of {len(tries)} deaths")


# ---- who is alive


def check_alive(runs, path, living, what):
    """A node that is alive has nobody else, and keeps what it has."""
    before = snapshot(path)
    check_nodes(runs, path, {living.node: "alive"}, what)
    ran = runs.run(path, living.node, ["list"])
    fine = (ran.status, ran.out, ran.err) == (FAULT, [], alive_text(path, living.node))
    runs.need(fine, f"{what}: a second process with its node: {ran}")
    ran = runs.clean(path)
    runs.need((ran.status, ran.out, ran.err) == (0, [], ""), f"{what}: clean replied {ran}")
    check_nodes(runs, path, {living.node: "alive"}, what)
    runs.need(snapshot(path) == before, f"{what}: something changed")


def alive(runs):
    """A node that is alive, and others that are given those that are free."""
    path, what = runs.file("alive"), "who is alive"
    living = Living(runs, path, 0)
    living.reply(f"event create 0 0 {NAME} max_nodes=2")
    check_alive(runs, path, living, what)
    ran = runs.run(path, None, [f"event open 1 0 {NAME}", "list"])
    fine = ran.status == 0 and ran.err == f"wulameron: {path}: this process has node 1\n"
    runs.need(fine and ran.out[0] == "ok 0 number=0" and "nodes=2/2" in ran.out[1], f"{what}: beside it {ran}")
    check_nodes(runs, path, {0: "alive", 1: None}, what)
    runs.need(living.reply("close 0") == "closed 0", f"{what}: it doesn't close")
    check_end(runs, path, [living], what)
    ran = runs.run(path, None, ["list"])
    fine = (ran.status, ran.out, ran.err) == (0, ["0 services"], f"wulameron: {path}: this process has node 0\n")
    runs.need(fine, f"{what}: after its end {ran}")
    others = [Living(runs, path, None) for _ in range(PROCESSES)]
    replies = [other.reply("list") for other in others]
    texts = {other.end().err for other in others}
    fine = replies == ["0 services"] * PROCESSES and len(texts) == PROCESSES
    runs.need(fine, f"{what}: {PROCESSES} at once replied {replies} and wrote {texts}")


def claim(runs, path, words, wait, seconds):
    """Runs a program that claims a node which another has for so many seconds. Gives also how long it ran."""
    with open(node_path(path, DEAD), "rb") as file:
        fcntl.flock(file, fcntl.LOCK_EX)
        timer, begin = threading.Timer(seconds, fcntl.flock, [file, fcntl.LOCK_UN]), time.monotonic()
        timer.start()
        words = [runs.program, *words, "--at", str(path), "--node", str(DEAD), "--wait", str(wait)]
        ran = runs.ran(words, ["list"], env=runs.environment(path))
        seconds = time.monotonic() - begin
        timer.join()
    return ran, seconds


def claims(runs):
    """Who claims a node that another has for a moment waits for it, as one who cleans up has it, as long as it may."""
    for words in (["run"], ["hold", "event", "create", NAME]):
        path, what = runs.file("claims"), f"a claim of a node by {words[0]}, which another has for a moment"
        leave_node(path, DEAD)
        ran, _ = claim(runs, path, words, LONG_WAIT, CLAIM_SECONDS)
        runs.need((ran.status, ran.err) == (0, "") and ran.out, f"{what}: {ran}")
        ran, seconds = claim(runs, path, words, SHORT_WAIT, 2 * CLAIM_SECONDS)
        fine = (ran.status, ran.out, ran.err) == (FAULT, [], alive_text(path, DEAD)) and seconds >= SHORT_WAIT / 1000
        runs.need(fine, f"{what}, of {SHORT_WAIT} milliseconds: {ran} after {seconds:.3f} seconds")


def stopped(runs):
    """A program that is stopped is alive, and goes on where it was."""
    path, what = runs.file("stopped"), "who is stopped"
    living = Living(runs, path, MAKER)
    living.reply(f"event create {MAKER} 0 {NAME} max_nodes=2")
    stop(living.process)
    check_alive(runs, path, living, what)
    old = path.read_bytes()
    ran = runs.run(path, OTHER, [f"event open {OTHER} 0 {NAME}", "close 0", "list"])
    fine = ran.status == 0 and ran.out[:2] == ["ok 0 number=0", "closed 0"] and ran.out[-1] == "1 services"
    runs.need(fine and not ran.err, f"{what}: beside it {ran}")
    found = appended(runs, path, old, what)
    if found:
        writers = {entry.node for entry in found[0]}
        runs.need(writers == {OTHER}, f"{what}: meanwhile the nodes {writers} wrote")
    living.process.send_signal(signal.SIGCONT)
    replies = [living.reply(line) for line in (f"event open {MAKER} 1 {NAME}", "close 0", "list", "close 1")]
    runs.need(replies == ["ok 1 number=0", "closed 0", "1 services", "closed 1"], f"{what}: then it replied {replies}")
    check_end(runs, path, [living], what)


def finish(path, data):
    """Appends what is missing of these entries, as their writer does."""
    with open(path, "r+b") as file:
        fcntl.flock(file, fcntl.LOCK_EX)
        count = len(file.read())
        file.write(data[count:])


def creating(runs):
    """Who is creating and alive is waited for, and keeps its lock where that takes too long."""
    steps, what = alone(runs, "event"), "who is creating"
    path, _ = place(runs, "creating", steps[CREATED.index("lock")])
    line, whole = steps[0].line("open", OTHER), steps[len(CREATED) - 1].data
    with open(node_path(path, DEAD), "rb") as claim:
        fcntl.flock(claim, fcntl.LOCK_EX)
        old, begin = path.read_bytes(), time.monotonic()
        ran = runs.run(path, OTHER, [line])
        fine = ran.out == ["EventOpenError::HangsInCreation"] and time.monotonic() - begin >= CREATION_SECONDS
        runs.need(fine and path.read_bytes() == old, f"{what}: it replied {ran}")
        timer, begin = threading.Timer(CREATION_SECONDS / 2, finish, [path, whole]), time.monotonic()
        timer.start()
        ran = runs.run(path, OTHER, [line])
        timer.join()
        fine = ran.out == ["EventOpenError::ExceedsMaxNumberOfNodes"]
        runs.need(fine and time.monotonic() - begin >= CREATION_SECONDS / 2, f"{what}: when it was created {ran}")
        found = appended(runs, path, whole, what)
        if found:
            done = [(entry.node, entry.operation) for entry in found[0]]
            runs.need(done == [(OTHER, "make_tag"), (OTHER, "remove_tag")], f"{what}: then it did {done}")


def stop(process):
    """Stops a process, and waits until it is, or has ended."""
    process.send_signal(signal.SIGSTOP)
    try:
        os.waitid(os.P_PID, process.pid, os.WSTOPPED | os.WEXITED | os.WNOWAIT)
    except ChildProcessError:
        pass


def started(runs, path):
    """A process with some calls, that has begun."""
    process = Process(runs, path, MAKER, runs.random.randrange(2**32), False, calls=STOPPED_CALLS)
    process.start()
    while process.process is None:
        time.sleep(0.001)
    return process


def stopped_within(runs):
    """Programs that are stopped within their calls: nobody writes in their name, whatever they hold."""
    for number in range(STOPS):
        path, what = runs.file(f"stopped-{number}"), f"who is stopped within a call, {number}"
        process = started(runs, path)
        time.sleep(runs.random.random() * STOP_SECONDS)
        stop(process.process)
        old = path.read_bytes() if path.exists() else b""
        runs.run(path, OTHER, drawn_lines(runs.random, OTHER, STOPPED_CALLS // 4), wait=STOPPED_WAIT)
        runs.clean(path, STOPPED_WAIT)
        data = path.read_bytes()
        process.process.send_signal(signal.SIGCONT)
        process.join()
        runs.count("stops")
        found = [entry for entry in read_log(data).entries if entry.at >= len(old) and entry.node == MAKER]
        runs.need(not found, f"{what}: meanwhile in its name was written {[entry.line() for entry in found]}")
        check_replies(runs, process, what)
        replayed = runs.replay_all(path, what)
        if replayed:
            process.settle(replayed[0])
            check_entries(runs, process, replayed[0].log, what)
            runs.need(not replayed[1].remains([OTHER]), f"{what}: in the end there is {replayed[1].remains([OTHER])}")


# ---- many


def unfinished(world, node):
    """The entries of a create by the node of a service of its own, as far as it came."""
    found = hashlib.sha1(f"unfinished {node}".encode()).digest()
    number = world.counter
    made = [entry_bytes("make_tag", node, found=found), entry_bytes("lock", node, number, found=found)]
    return b"".join([*made, entry_bytes("make_segment", node, number, 1, found=found)][: 1 + node % 3])


def check_counts(runs, ran, entries, what):
    """The lines of these runs of clean count what stands in the log, each thing once."""
    given = {}
    for entry in entries:
        given.setdefault(entry.node, Counter())[entry.operation] += 1
        runs.need(entry.operation in LETTERS, f"{what}: {entry.line()}")
    wanted = sorted(line for node, operations in given.items() for line in clean_line(node, operations))
    found = sorted(line for one in ran for line in one.out)
    runs.need(found == wanted, f"{what}: the lines are {found}, and not {wanted}")
    fine = all(one.status == 0 and not one.err for one in ran)
    runs.need(fine, f"{what}: {[(one.status, one.err) for one in ran]}")
    runs.count("cleanings", len(given))


def two_at_once(runs):
    """Two clean up for twenty dead nodes at once: each thing is given back once."""
    path, what = runs.file("twenty"), "two that clean up"
    for node in range(1, TWENTY + 1):
        runs.held(path, node, drawn_lines(runs.random, node, LINES_EACH), [NO_CLEAN])
        replayed = runs.replay(path.read_bytes(), what)
        if not replayed:
            return
        with open(path, "ab") as file:
            file.write(unfinished(replayed[1], node))
        runs.count("deaths")
    old, ran = path.read_bytes(), []
    cleaners = [threading.Thread(target=lambda: ran.append(runs.clean(path))) for _ in range(2)]
    for thread in cleaners:
        thread.start()
    for thread in cleaners:
        thread.join()
    found = appended(runs, path, old, what)
    if found:
        runs.need(not found[1].remains(), f"{what}: there still is {found[1].remains()}")
        check_counts(runs, ran, found[0], what)


def round_of(runs, path, drawn):
    """Processes with calls on shared names, of which all but one are killed."""
    nodes = drawn.sample(range(1, NODES + 1), PROCESSES)
    seeds = [drawn.randrange(2**32) for _ in nodes]
    starts = [(nodes[at], seeds[at], at > 0) for at in range(PROCESSES)]
    processes = [Process(runs, path, *start, calls=ROUND_CALLS) for start in starts]
    for thread in processes:
        thread.start()
    for thread in processes:
        thread.join()
    killed = sum(process.is_killed for process in processes)
    runs.count("processes", PROCESSES)
    runs.count("calls", sum(len(process.replies) for process in processes))
    runs.count("kills", killed)
    runs.count("deaths", killed)
    return processes


def check_rounds(runs, path, processes, old, ran, what):
    """What stands in the log is what each replied, or what was given back; and only the living one has anything."""
    for process in processes:
        check_replies(runs, process, f"{what}, node {process.node}")
    replayed = runs.replay_all(path, what)
    if not replayed:
        return None
    log, world = replayed[0].log, replayed[1]
    check_counts(runs, [ran], [entry for entry in log.entries if entry.at >= replayed[0].place(old)], what)
    for process in processes:
        process.settle(replayed[0])
        check_entries(runs, process, log, f"{what}, node {process.node}")
    check_given_back(runs, processes, log, what)
    runs.need(not world.remains([KEEPER]), f"{what}: there still is {world.remains([KEEPER])}")
    return world


def rounds(runs, seconds):
    """Rounds of processes of which nearly all are killed, beside one that stays; then it is cleaned up."""
    path, what, begin = runs.file("rounds"), "rounds", time.monotonic()
    keeper, processes, count = Living(runs, path, KEEPER), [], 0
    replies = [keeper.reply(f"event create {KEEPER} 0 kept")]
    while count < ROUNDS and time.monotonic() - begin < seconds:
        processes += round_of(runs, path, runs.random)
        replies += [keeper.reply(f"event open {KEEPER} 1 kept"), keeper.reply("close 1")]
        count += 1
    print(f"{count} rounds")
    old, ran = standing(path), runs.clean(path)
    wanted = ["ok 0 number=0", *["ok 1 number=0", "closed 1"] * count]
    runs.need(replies == wanted, f"{what}: who stayed replied {replies}")
    world = check_rounds(runs, path, processes, old, ran, what)
    if world:
        runs.need(world.listing()[-1] == "1 services", f"{what}: it lists {world.listing()}")
    runs.need(keeper.reply("close 0") == "closed 0", f"{what}: who stayed doesn't close")
    check_end(runs, path, [keeper], what)


def deaths(runs):
    """All of it, one after the other, the longest last."""
    for part in (alive, creating, stopped, stopped_within, two_at_once):
        part(runs)
    each_death(runs, DEATHS_SECONDS)
    rounds(runs, ROUND_SECONDS)
