"""The world that a log's entries come to, and whether it agrees.

Written from docs/STORAGES.md, 'What an access does', and from the definitions of iceoryx2_world
(specs/AccessCases.antt, StepCases.antt, ServiceAgreement.antt, Agreement.antt), not from its code. A world grants an entry or
refuses it; an opening's node reads the description before, where it isn't registered.
"""
from collections import Counter
from dataclasses import dataclass, replace

from logs.form import Malformed, Wrong, read_description

LAST_NUMBER = 2**64 - 1


@dataclass(frozen=True)
class Row:
    """What is written under a hash: a lock's number, or a published number with its bytes."""

    number: int
    form: bytes | None = None


@dataclass(frozen=True)
class Segment:
    """Who is in a service, for how many nodes it is, and whether its last node has left."""

    number: int
    capacity: int
    participants: frozenset
    marked: bool = False


@dataclass(frozen=True)
class Phase:
    """Where a node is with a service: at what, with which number, and how often it has joined."""

    at: str
    number: int
    count: int = 0


@dataclass(frozen=True)
class Ticket:
    """Whose registration a ticket is."""

    node: int
    hash: bytes
    number: int


class NotGranted(Exception):
    """Why an access isn't granted."""


def need(holds, why):
    """A test that an access has to pass."""
    if not holds:
        raise NotGranted(why)


def described(form):
    """The description of some bytes."""
    try:
        return read_description(form)
    except Malformed as error:
        raise NotGranted(f"it publishes no description: {error}") from None


class World:
    """Rows and segments by hash, phases by node and hash, tags, tickets, and the counter."""

    def __init__(self, counter=0):
        self.rows, self.segments, self.phases = {}, {}, {}
        self.tags, self.tickets, self.counter = set(), {}, counter
        self.without_effect = 0

    def follow(self, entry):
        """Makes the entry's access, and tests that the world is a later one and agrees."""
        before, counter = self.rows.get(entry.hash), self.counter
        self.make(entry)
        for why in (later_fault(before, self.rows.get(entry.hash), counter), self.disagreement()):
            if why:
                raise Wrong(entry.at, f"after {entry.operation} of node {entry.node} the world doesn't agree: {why}")

    def make(self, entry):
        """Makes the entry's access, and tests nothing else."""
        try:
            self.grant(entry)
        except NotGranted as refusal:
            raise Wrong(entry.at, f"node {entry.node}: {entry.operation} isn't granted: {refusal}") from None

    def grant(self, entry):
        """Makes the entry's access, or refuses it and changes nothing."""
        getattr(self, entry.operation)(entry)

    def phase(self, entry):
        """Where the entry's node is with its service; nothing where it holds and has read nothing."""
        return self.phases.get((entry.node, entry.hash))

    def is_at(self, entry, *names):
        """Whether the node is at one of these."""
        phase = self.phase(entry)
        return phase is not None and phase.at in names

    def begins(self, entry):
        """Whether the node holds nothing."""
        return self.phase(entry) is None or self.is_at(entry, "Read")

    def move(self, entry, at, number=0, count=0):
        """The node is there now."""
        self.phases[entry.node, entry.hash] = Phase(at, number, count)

    def idle(self, entry):
        """The node holds nothing any more."""
        self.phases.pop((entry.node, entry.hash), None)

    # ---- the nine accesses that are written down, and numbers that are spent

    def make_tag(self, entry):
        """The tag is there."""
        need((entry.node, entry.hash) not in self.tags, "the tag is there already")
        self.tags.add((entry.node, entry.hash))

    def remove_tag(self, entry):
        """The tag isn't there."""
        self.without_effect += (entry.node, entry.hash) not in self.tags
        self.tags.discard((entry.node, entry.hash))

    def lock(self, entry):
        """The row is locked with the counter's number."""
        need(entry.hash not in self.rows, "there is a row")
        need(self.begins(entry), f"the node is at {self.phase(entry)}")
        need(self.counter < LAST_NUMBER, "no number is left")
        need(entry.number == self.counter, f"the number is {entry.number}, and the counter {self.counter}")
        self.rows[entry.hash] = Row(entry.number)
        self.move(entry, "Locked", entry.number)
        self.counter += 1

    def make_segment(self, entry):
        """There is a segment with the node alone in it."""
        need(self.phase(entry) == Phase("Locked", entry.number), f"the node is at {self.phase(entry)}")
        need(entry.max_nodes > 0, "it is for no node")
        need(entry.hash not in self.segments, "there is a segment")
        self.segments[entry.hash] = Segment(entry.number, entry.max_nodes, frozenset([entry.node]))
        self.move(entry, "Made", entry.number)

    def remove_segment(self, entry):
        """There is no segment."""
        need(self.is_at(entry, "Locked", "Made", "Leaving"), f"the node is at {self.phase(entry)}")
        self.segments.pop(entry.hash, None)
        self.move(entry, "Cleared" if self.is_at(entry, "Leaving") else "Locked", self.phase(entry).number)

    def remove_description(self, entry):
        """There is no row."""
        need(self.is_at(entry, "Locked", "Made", "Leaving", "Cleared"), f"the node is at {self.phase(entry)}")
        self.rows.pop(entry.hash, None)
        self.idle(entry)

    def publish(self, entry):
        """The description is published, and the node has joined once, with a ticket that is the number."""
        need(self.phase(entry) == Phase("Made", entry.number), f"the node is at {self.phase(entry)}")
        description = described(entry.form)
        need(description.hash == entry.hash, "the description is of another hash")
        need(entry.hash in self.segments, "there is no segment")
        need(description.max_nodes == self.segments[entry.hash].capacity, "the description is for other nodes")
        self.rows[entry.hash] = Row(entry.number, entry.form)
        self.move(entry, "Joined", entry.number, 1)
        self.tickets[entry.number] = Ticket(entry.node, entry.hash, entry.number)

    def open_segment(self, entry):
        """The node has joined once more, with a ticket that is the counter."""
        phase = self.phase_for_opening(entry)
        segment = self.segments.get(entry.hash)
        need(segment is not None, "there is no segment")
        need(segment.number == entry.number, f"the segment is of number {segment.number}")
        need(not segment.marked, "the segment is marked")
        need(phase is not None and phase.at in ("Read", "Joined"), f"the node is at {phase}")
        need(phase.number == entry.number, f"the node is at {phase}")
        if phase.at == "Read":
            need(len(segment.participants) < segment.capacity, "there is no room")
        need(self.counter < LAST_NUMBER and phase.count < LAST_NUMBER, "no number is left")
        need(entry.ticket == self.counter, f"the ticket is {entry.ticket}, and the counter {self.counter}")
        self.segments[entry.hash] = replace(segment, participants=segment.participants | {entry.node})
        self.move(entry, "Joined", entry.number, phase.count + 1)
        self.tickets[entry.ticket] = Ticket(entry.node, entry.hash, entry.number)
        self.counter += 1

    def spend(self, entry):
        """The counter goes on at the number: the node has locked each one before it, and given it up."""
        need(entry.hash not in self.rows, "there is a row")
        need(self.phase(entry) is None, f"the node is at {self.phase(entry)}")
        need(self.counter <= entry.number, f"the number is {entry.number}, and the counter {self.counter}")
        self.counter = entry.number

    def phase_for_opening(self, entry):
        """Where the node is, after it has read what is published."""
        row = self.rows.get(entry.hash)
        if self.begins(entry) and row is not None and row.form is not None:
            return Phase("Read", row.number)
        return self.phase(entry)

    def release(self, entry):
        """The ticket isn't there, and the node has joined once less."""
        ticket = Ticket(entry.node, entry.hash, entry.number)
        need(self.tickets.get(entry.ticket) == ticket, f"the ticket is of {self.tickets.get(entry.ticket)}")
        need(self.is_at(entry, "Joined"), f"the node is at {self.phase(entry)}")
        phase, segment = self.phase(entry), self.segments.get(entry.hash)
        need(phase.count > 1 or segment is not None, "there is no segment")
        del self.tickets[entry.ticket]
        if phase.count > 1:
            self.move(entry, "Joined", phase.number, phase.count - 1)
        elif len(segment.participants) > 1:
            self.segments[entry.hash] = replace(segment, participants=segment.participants - {entry.node})
            self.idle(entry)
        else:
            self.segments[entry.hash] = replace(segment, participants=frozenset(), marked=True)
            self.move(entry, "Leaving", phase.number)

    # ---- what it holds

    def disagreement(self):
        """Why the world doesn't agree, or nothing where it does."""
        hashes = {*self.rows, *self.segments, *(key[1] for key in self.phases)}
        phases = {found: {} for found in hashes}
        for (node, found), phase in self.phases.items():
            phases[found][node] = phase
        for found in hashes:
            row, segment = self.rows.get(found), self.segments.get(found)
            for why in faults_at(self.counter, found, row, segment, phases[found]):
                return f"{found.hex()}: {why}"
        return next(number_faults(self), None) or next(ticket_faults(self), None)

    def listing(self):
        """What the program lists: a line for each service, and how many there are."""
        lines = []
        for found in sorted(self.rows):
            row, segment = self.rows[found], self.segments.get(found)
            if row.form is not None and segment is not None:
                description = described(row.form)
                nodes = f"{len(segment.participants)}/{segment.capacity}"
                front = f"{description.pattern} {description.name} {found.hex()}"
                lines.append(f"{front} number={row.number} nodes={nodes}")
        return [*lines, f"{len(lines)} services"]

    def left_by(self, node):
        """How many tickets, tags, and places at services the node has."""
        tickets = sum(ticket.node == node for ticket in self.tickets.values())
        places = sum(key[0] == node and phase.at != "Read" for key, phase in self.phases.items())
        return tickets, sum(tag[0] == node for tag in self.tags), places

    def remains(self, living=()):
        """What there is but for what the living nodes have, in words."""
        at_work = {found for (node, found) in self.phases if node in living}
        tickets = [(number, ticket.node) for number, ticket in self.tickets.items()]
        others = [f"ticket {number} of {node}" for number, node in tickets if node not in living]
        others += [f"tag of {node}" for node, _ in sorted(self.tags) if node not in living]
        others += [f"{phase.at} of {node}" for (node, _), phase in self.phases.items() if node not in living]
        others += [f"row of {row.number}" for found, row in self.rows.items() if found not in at_work]
        for found, segment in self.segments.items():
            if found not in at_work or not segment.participants <= set(living):
                others.append(f"segment with {sorted(segment.participants)}")
        return others

    def counts(self):
        """How much of each there is, in words."""
        published = sum(row.form is not None for row in self.rows.values())
        locks = len(self.rows) - published
        marked = sum(segment.marked for segment in self.segments.values())
        return (
            f"{published} published, {locks} locked, {len(self.segments)} segments ({marked} marked), "
            f"{len(self.tickets)} tickets, {len(self.tags)} tags, counter {self.counter}, "
            f"{self.without_effect} entries without effect"
        )


# ---- agreement: each of these yields what isn't as it has to be


def faults_at(counter, found, row, segment, phases):
    """What is wrong at one service."""
    yield from below_faults(counter, row, segment, phases)
    yield from lock_faults(row, segment, phases)
    yield from join_faults(row, segment, phases)
    yield from leaving_faults(row, segment, phases)
    yield from read_faults(row, segment, phases)
    yield from published_faults(found, row, segment, phases)


def below_faults(counter, row, segment, phases):
    """Every number is below the counter."""
    numbers = [thing.number for thing in (row, segment) if thing is not None]
    for number in numbers + [phase.number for phase in phases.values()]:
        if number >= counter:
            yield f"the number {number} isn't below the counter {counter}"


def is_locked(row, number):
    """Whether the row is a lock of this number."""
    return row == Row(number)


def is_published(row, number):
    """Whether something is published under this number."""
    return row is not None and row.form is not None and row.number == number


def lock_faults(row, segment, phases):
    """The row is locked exactly where one node holds that lock, and who made a segment is alone in it."""
    holders = {node: phase for node, phase in phases.items() if phase.at in ("Locked", "Made")}
    for node, phase in holders.items():
        if not is_locked(row, phase.number):
            yield f"node {node} holds the lock of {phase.number}, and the row is {row}"
        if phase.at == "Made":
            alone = segment is not None and segment.capacity >= 1 and segment == Segment(
                phase.number, segment.capacity, frozenset([node])
            )
            if not alone:
                yield f"node {node} has made a segment, and there is {segment}"
    if len(holders) > 1:
        yield f"the nodes {sorted(holders)} hold a lock"
    if row is not None and row.form is None and not any(phase.number == row.number for phase in holders.values()):
        yield f"nobody holds the lock of {row.number}"


def join_faults(row, segment, phases):
    """Who has joined has done so once or more, its service is published, and it is in the unmarked segment."""
    for node, phase in phases.items():
        if phase.at != "Joined":
            continue
        if phase.count < 1:
            yield f"node {node} has joined {phase.count} times"
        if not is_published(row, phase.number):
            yield f"node {node} has joined {phase.number}, and the row is {row}"
        if segment is None or segment.number != phase.number or segment.marked or node not in segment.participants:
            yield f"node {node} has joined {phase.number}, and there is {segment}"


def leaving_faults(row, segment, phases):
    """Who was the last to leave finds what it has to remove, and nobody else has."""
    last = {node: phase for node, phase in phases.items() if phase.at in ("Leaving", "Cleared")}
    if len(last) > 1:
        yield f"the nodes {sorted(last)} were the last to leave"
    for node, phase in last.items():
        if not is_published(row, phase.number):
            yield f"node {node} was the last to leave {phase.number}, and the row is {row}"
        deserted = segment is not None and segment.number == phase.number and segment.marked
        if phase.at == "Leaving" and not (deserted and not segment.participants):
            yield f"node {node} was the last to leave {phase.number}, and there is {segment}"
        if phase.at == "Cleared" and segment is not None:
            yield f"node {node} has removed the segment, and there is {segment}"


def read_faults(row, segment, phases):
    """A number that was read is no lock's, and an unmarked segment of it stands only beside its description."""
    for node, phase in phases.items():
        if phase.at != "Read":
            continue
        if is_locked(row, phase.number):
            yield f"node {node} has read {phase.number}, which is locked"
        unmarked = segment is not None and segment.number == phase.number and not segment.marked
        if unmarked and not is_published(row, phase.number):
            yield f"node {node} has read {phase.number}, whose segment stands with the row {row}"


def published_faults(found, row, segment, phases):
    """What is published is a description of this service, and the segment beside it is its."""
    if row is None or row.form is None:
        return
    try:
        description = read_description(row.form)
    except Malformed as error:
        yield f"what is published is no description: {error}"
        return
    if description.hash != found:
        yield f"the description is of {description.hash.hex()}"
    if segment is None:
        return
    if segment.number != row.number:
        yield f"the segment is of {segment.number}, beside {row.number}"
    if segment.capacity != description.max_nodes:
        yield f"the segment is for {segment.capacity} nodes, and the service for {description.max_nodes}"
    if len(segment.participants) > description.max_nodes:
        yield f"{len(segment.participants)} nodes are in a segment for {description.max_nodes}"
    for node in segment.participants:
        phase = phases.get(node)
        if phase is None or phase.at != "Joined" or phase.number != row.number:
            yield f"node {node} is in the segment, and at {phase}"


def number_faults(world):
    """Tickets are below the counter, locks have different numbers, and no lock's number is a ticket."""
    for ticket in world.tickets:
        if ticket >= world.counter:
            yield f"the ticket {ticket} isn't below the counter {world.counter}"
    locks = Counter(row.number for row in world.rows.values() if row.form is None)
    for number, count in locks.items():
        if count > 1:
            yield f"{count} locks have the number {number}"
        if number in world.tickets:
            yield f"the lock's number {number} is a ticket"


def ticket_faults(world):
    """A node has as many tickets as its phase counts, all of its number, and else none."""
    held = Counter()
    for number, ticket in world.tickets.items():
        phase = world.phases.get((ticket.node, ticket.hash))
        held[ticket.node, ticket.hash] += 1
        if phase is None or phase.at != "Joined" or phase.number != ticket.number:
            yield f"the ticket {number} is of number {ticket.number}, and node {ticket.node} at {phase}"
    joined = {key: phase.count for key, phase in world.phases.items() if phase.at == "Joined"}
    for node, found in {*held, *joined}:
        if held[node, found] != joined.get((node, found), 0):
            yield f"node {node} has {held[node, found]} tickets, and has joined {joined.get((node, found), 0)} times"


def later_fault(before, after, counter):
    """Why a row isn't a later one of the same service: numbers don't come anew, and published bytes stay."""
    if after is None:
        return None
    if after.number < counter and (before is None or before.number != after.number):
        return f"the number {after.number} comes anew"
    if before is not None and before.form is not None and before.number == after.number and after != before:
        return f"what was published under {after.number} has changed"
    return None
