"""Random histories of a log that is compacted, and processes that find it compacted.

A compaction writes entries that lead from an empty world to the log's world. A process that finds its log compacted goes from
the world that it has read to the snapshot's world, by entries that are written nowhere. None of them may be in the name of the
process's own node.

The model (logs/world.py) decides which of the random entries are granted. A process reads a prefix of a history, or some of a
snapshot's entries, and another process compacts the log. The rest is appended to the new file, and the log is compacted again.
So the first process finds none of these entries, since it has the first file open. Each snapshot must lead to the model's
world, and the process must list that world and go on in it. In half of the histories the process makes calls in the prefix, the
last of which may be refused halfway.
"""
import fcntl
import hashlib
import os
import random
from copy import deepcopy

from logs.compaction import filling
from logs.form import OPERATIONS, Entry, Wrong, entries_of, read_log
from logs.history import FILLER, SHORT_LENGTH, file_number, same_worlds
from logs.owed import Limited
from logs.runs import NO_CLEAN, Ran, at_once
from logs.storm import PREFIXES
from logs.words import description
from logs.world import NotGranted, World
from logs.writing import ZEROS, entry_bytes, header_bytes

# The nodes that act, the node of a process that reads a prefix in which its node does nothing, the node of the process that
# compacts, the node that spends numbers in a history, and the node that spends them in a snapshot.
NODES, READER, COMPACTOR, SPENDER, SPARE = range(1, 6), 6, 7, 8, 0
# How many operations are drawn at most before a process reads the log, and as many after it. One of SPENT_EACH operations
# spends up to MOST_SPENT numbers.
MOST_OPERATIONS, SPENT_EACH, MOST_SPENT = 60, 40, 2
# Each log begins with so many bytes that come to nothing. With a prefix behind them it isn't long enough to be compacted.
BEGINNING = 50000
# One history of so many has a process that reads some of a snapshot's entries.
MIDDLE_EACH = 6
DETAILS = dict(OPERATIONS.values())
CAPACITIES = (1, 2, 3)
# The services of the random entries, and all services at which a process makes calls, by their hashes.
SHARED = {hashlib.sha1(front + b"xample").digest(): (pattern, "xample") for pattern, front in PREFIXES.items()}
CALLED = {**SHARED, hashlib.sha1(PREFIXES["event"] + b"own").digest(): ("event", "own")}
# The descriptions of each service by the service's number of nodes.
DESCRIPTIONS = {
    found: {nodes: description(*service, found, [f"max_nodes={nodes}"]) for nodes in CAPACITIES}
    for found, service in SHARED.items()
}
# How many calls a process makes before its last one, and the slots of all calls. In the last call the log may grow by so many
# bytes: by the first two or three entries of a create or of a close, and by too few bytes more for any entry.
CALLS, SLOTS, ROOMS = 6, range(3), (105, 166, 113, 158)
# The call that a process makes after a move.
FRESH_SLOT, FRESH = 3, "event create - 3 fresh"
# A random number below 100 decides what a node does. Below TAGS the node makes or removes a tag. By the node's phase, below
# ONWARDS it goes on to hold the service, else below REMOVALS it removes the segment, and else the description.
TAGS = 8
ONWARDS, REMOVALS = {"Locked": 55, "Made": 75, "Joined": 35}, {"Locked": 80, "Made": 80, "Leaving": 50, "Cleared": 50}
# The least shares of the histories: MOVED with a move to another world, THERE with each of THINGS before or after the move, and
# RARE with a CHANGE, and with a process whose own node is at each of OWN_PHASES as it moves. Then the least number of entries
# that a snapshot has on average, and the operations that snapshots must have. No snapshot removes a tag.
MOVED, THERE, RARE, ENTRIES = 0.9, 0.005, 0.003, 8
CHANGE = "full services all of whose nodes changed"
THINGS = ("Locked", "Made", "Joined", "Joined again", "Leaving", "Cleared", "a tag", "a segment alone", "a marked one alone")
OWN_PHASES = ("Locked", "Made", "Joined", "Leaving")
WRITTEN = tuple(name for name in DETAILS if name not in ("remove_tag", "moved"))


# ---- random entries


def onwards(drawn, world, phase, found):
    """The operation by which a node comes to hold a service, or holds it once more."""
    at, row = phase.at if phase else None, world.rows.get(found)
    if at == "Locked":
        return "make_segment", {"number": phase.number, "max_nodes": drawn.choice(CAPACITIES)}
    if at == "Made":
        return "publish", {"number": phase.number, "form": DESCRIPTIONS[found][world.segments[found].capacity]}
    if row is None:
        return "lock", {"number": world.counter}
    return "open_segment", {"number": row.number, "ticket": world.counter}


def drawn_operation(drawn, world, node, found):
    """An operation of a node at a service, and its details. The world may refuse it."""
    chance, phase = drawn.randrange(100), world.phases.get((node, found))
    if chance < TAGS:
        return "remove_tag" if (node, found) in world.tags else "make_tag", {}
    if phase is None or chance < ONWARDS.get(phase.at, 0):
        return onwards(drawn, world, phase, found)
    if phase.at == "Joined":
        held = [number for number, ticket in world.tickets.items() if (ticket.node, ticket.hash) == (node, found)]
        return "release", {"ticket": drawn.choice((min(held), max(held))), "number": phase.number}
    return "remove_segment" if chance < REMOVALS[phase.at] else "remove_description", {}


def drawn_entry(drawn, world, services, idle):
    """An entry of any node except an idle one, at one of the services."""
    node = drawn.choice(NODES)
    if node == idle or not drawn.randrange(SPENT_EACH):
        return Entry(0, 0, "spend", SPENDER, ZEROS, number=world.counter + drawn.randint(0, MOST_SPENT))
    found = drawn.choice(services)
    operation, details = drawn_operation(drawn, world, node, found)
    return Entry(0, 0, operation, node, found, **details)


def drawn_history(drawn, world, services, idle=None, most=MOST_OPERATIONS):
    """Random entries that the world grants one after the other."""
    entries = []
    for _ in range(drawn.randrange(most)):
        entry = drawn_entry(drawn, world, services, idle)
        try:
            world.grant(entry)
        except NotGranted:
            continue
        entries.append(entry)
    return entries


def things_of(world):
    """Which of the things are in a world."""
    alone = [segment for found, segment in world.segments.items() if found not in world.rows]
    names = {phase.at for phase in world.phases.values()}
    names |= {"Joined again"} if any(phase.count > 1 for phase in world.phases.values()) else set()
    names |= {"a tag"} if world.tags else set()
    return names | {"a marked one alone" if segment.marked else "a segment alone" for segment in alone}


def changed_services(one, other):
    """How many services are full in the other world, with other nodes than in the first world."""
    count = 0
    for found, segment in other.segments.items():
        before = one.segments.get(found)
        if before and before.number == segment.number and len(segment.participants) == segment.capacity:
            count += bool(before.participants) and not before.participants & segment.participants
    return count


# ---- files


def bytes_of(entries):
    """The bytes of some entries."""
    parts = [(one, [getattr(one, name) for name in DETAILS[one.operation]]) for one in entries]
    return b"".join(entry_bytes(one.operation, one.node, *details, found=one.hash) for one, details in parts)


def beginning():
    """The bytes with which each log begins, and the counter behind them."""
    data, world = header_bytes() + filling(0, BEGINNING), World()
    for entry in read_log(data).entries:
        world.grant(entry)
    return data, world.counter


def append(path, data):
    """Appends bytes to a log as other processes do."""
    with open(path, "r+b") as file:
        fcntl.flock(file, fcntl.LOCK_EX)
        file.seek(0, os.SEEK_END)
        file.write(data)


def lengthen(path):
    """Appends tags that are made and removed, until the log is long enough to be compacted. Tags use no numbers."""
    pair = entry_bytes("make_tag", FILLER) + entry_bytes("remove_tag", FILLER)
    append(path, pair * max(0, (SHORT_LENGTH - path.stat().st_size) // len(pair) + 1))


class RandomHistory:
    """A history, and processes that read its log before and after the log is compacted."""

    def __init__(self, runs, begun, seed, number):
        self.runs, self.what, self.drawn = runs, f"history {number}", random.Random(f"{seed} history {number}")
        self.is_middle, self.is_acting = not number % MIDDLE_EACH, number % 2
        self.services = self.drawn.sample(list(DESCRIPTIONS), self.drawn.randint(1, len(DESCRIPTIONS)))
        self.data, self.counter = begun
        self.path, self.world, self.nodes = runs.file(f"history-{number}", self.data), World(self.counter), {SPARE}
        # The process that reads, the slots that it uses, and the place up to which the world has taken the log over.
        self.reader, self.is_ended, self.used, self.place = None, False, set(), len(self.data)

    def need(self, holds, why):
        """Keeps what is wrong with the history, and tells whether nothing is."""
        return self.runs.need(holds, f"{self.what}: {why}")

    def others(self, **bounds):
        """Other nodes act."""
        node = self.reader.node if self.reader else None
        self.append(drawn_history(self.drawn, self.world, self.services, node, **bounds))

    def append(self, entries):
        """Appends the entries of other nodes, which the world has granted."""
        self.nodes |= {entry.node for entry in entries}
        append(self.path, bytes_of(entries))
        self.place = self.path.stat().st_size

    def grant(self, entries):
        """The world grants entries of other nodes, which are appended."""
        for entry in entries:
            self.world.grant(entry)
        self.append(entries)

    # ---- a compaction

    def compact(self):
        """A process compacts the log. Returns the snapshot's entries, which must come to the world, by nodes that acted."""
        lengthen(self.path)
        before, restored = file_number(os.stat(self.path)), World()
        ran = self.runs.run(self.path, COMPACTOR, ["list"], flags=[NO_CLEAN])
        self.need(ran == Ran(0, self.world.listing(), ""), f"the process that compacts replied {ran}")
        log = read_log(self.path.read_bytes())
        if file_number(os.stat(self.path)) == before:
            raise Wrong(0, "it isn't compacted")
        self.need(log.header.counter == 0 and log.entries == log.snapshot, f"it was compacted to {log.header}")
        for entry in log.snapshot:
            restored.follow(entry)
            self.runs.count(f"snapshots: {entry.operation}")
        why = same_worlds(self.world, restored)
        self.need(not why and not restored.without_effect, f"the snapshot isn't the model's world: {why}")
        others = {entry.node for entry in log.snapshot} - self.nodes
        self.need(not others, f"the snapshot has entries of the nodes {others}")
        self.runs.count("compactions of histories")
        self.runs.count("entries of snapshots", len(log.snapshot))
        self.place = log.header.snapshot_end
        return log.snapshot

    # ---- a process before it moves

    def begin(self, node):
        """A process begins, and reads what is there."""
        self.reader = Limited(self.runs, self.path, node, flags=[NO_CLEAN])
        self.nodes.add(node)
        self.read()

    def read(self):
        """The process lists the world, after the world has taken over what the process does first."""
        found = self.reader.listing()
        self.take_over()
        wanted = self.world.listing()
        self.need(found == wanted, f"node {self.reader.node} lists {found}, and the model {wanted}")

    def take_over(self):
        """The world takes over what the process has appended."""
        for entry in entries_of(self.path.read_bytes(), self.place):
            self.need(entry.node == self.reader.node, f"node {self.reader.node} appended {entry.line()}")
            self.world.follow(entry)
            self.place = entry.end

    def calls(self):
        """The calls that find nothing in their way, and the closes, each with its slot."""
        free, node = [slot for slot in SLOTS if slot not in self.used], self.reader.node
        lines = [(slot, f"close {slot}") for slot in self.used]
        for found, (pattern, name) in CALLED.items():
            row, segment = self.world.rows.get(found), self.world.segments.get(found)
            if row is None and segment is None:
                room = f"max_nodes={self.drawn.choice(CAPACITIES)}"
                lines += [(slot, f"{pattern} create - {slot} {name} {room}") for slot in free[:1]]
            elif row and row.form and segment and not segment.marked and len(segment.participants | {node}) <= segment.capacity:
                lines += [(slot, f"{pattern} open - {slot} {name}") for slot in free[:1]]
        return lines

    def call(self, room=None):
        """The process makes a call. If there is room for so many bytes alone, the call may be refused halfway."""
        calls = self.calls()
        if not calls:
            return
        slot, line = self.drawn.choice(calls)
        if room is not None:
            self.reader.limit(self.path.stat().st_size + room)
        reply = str(self.reader.reply(line))
        self.reader.limit()
        fine = reply.startswith(("ok ", "closed "))
        self.need(fine or room is not None, f"node {self.reader.node} replied {reply} to {line}")
        self.runs.count("calls refused halfway", not fine)
        self.used ^= {slot} if fine else set()
        self.take_over()

    def act(self):
        """The process makes calls, and other nodes act between them."""
        self.begin(self.drawn.choice(NODES))
        for _ in range(CALLS):
            self.call()
            self.others(most=MOST_OPERATIONS // CALLS)
        self.read()
        self.call(self.drawn.choice(ROOMS))

    def read_part(self):
        """The process reads some of a snapshot's entries. Returns the others."""
        snapshot = self.compact()
        cut = self.drawn.randint(0, len(snapshot))
        self.world, self.place = World(self.counter), len(self.data)
        self.path.write_bytes(self.data)
        self.grant(snapshot[:cut])
        self.begin(READER)
        return snapshot[cut:]

    # ---- a process that moves

    def move(self):
        """The process finds the log compacted. It lists the world, creates a service there, and closes all at its end."""
        self.read()
        number, reply = self.world.counter, self.reader.reply(FRESH)
        self.need(reply == f"ok {FRESH_SLOT} number={number}", f"behind the move it replied {reply!r} at {number}")
        self.read()
        ran = self.reader.end()
        self.is_ended = True
        self.need(ran.status == 0 and not ran.out, f"it ended with {ran}")
        self.take_over()
        left, why = self.world.left_by(self.reader.node), self.world.disagreement()
        self.need(left == (0, 0, 0) and not why, f"in the end node {self.reader.node} has {left}: {why}")

    def begin_history(self):
        """A process reads some entries. Returns entries that follow them."""
        if self.is_acting:
            self.act()
            return []
        self.others()
        if self.is_middle:
            return self.read_part()
        self.begin(READER)
        return []

    def run(self):
        """A process reads some entries, and follows the log over two compactions."""
        try:
            rest = self.begin_history()
            first = deepcopy(self.world)
            self.compact()
            self.grant(rest)
            self.others()
            self.compact()
            self.tell(first)
            self.move()
        finally:
            if self.reader and not self.is_ended:
                self.reader.kill()

    def tell(self, first):
        """Counts what there is before the move and after it."""
        for world in (first, self.world):
            for thing in things_of(world):
                self.runs.count(f"worlds with {thing}")
        for at in {phase.at for (node, _), phase in first.phases.items() if node == self.reader.node}:
            self.runs.count(f"own nodes at {at}")
        self.runs.count(CHANGE, changed_services(first, self.world))
        self.runs.count("moves to another world", bool(same_worlds(first, self.world)))
        self.runs.count("histories")


def look(runs, begun, seed, number):
    """Makes a history of this number, and keeps what is wrong with it."""
    try:
        RandomHistory(runs, begun, seed, number).run()
    except Wrong as wrong:
        runs.need(False, f"history {number}: at byte {wrong.at} of a file of the log: {wrong.why}")
    except OSError as error:
        runs.need(False, f"history {number}: a process or the log is gone: {error}")


def courses(runs, seed, count):
    """Makes so many histories, some of them at once, and checks that enough came up in them."""
    begun = beginning()
    at_once(lambda number: look(runs, begun, seed, number), range(count), 0, least=count)
    least = {"histories": count, "compactions of histories": 2 * count, "moves to another world": MOVED * count}
    least |= {"entries of snapshots": 2 * ENTRIES * count, **{f"worlds with {thing}": THERE * count for thing in THINGS}}
    least |= {f"snapshots: {operation}": 1 for operation in WRITTEN}
    least |= {what: RARE * count for what in (CHANGE, *(f"own nodes at {at}" for at in OWN_PHASES))}
    for what, number in least.items():
        runs.need(runs.counts[what] >= number > 0, f"there were {runs.counts[what]} {what}, of at least {number:.0f}")
