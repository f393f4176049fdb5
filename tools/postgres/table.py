"""The rows of a log, read by `psql` as the owner: their numbers, their chain, the world that they come to, and whether
that agrees after each entry. It shares no line with what wrote them."""
import hashlib
from dataclasses import dataclass, field, replace

from logs.form import MOVED, Entry, Wrong, front_of
from logs.history import same_worlds
from logs.world import World

# With which number the counter of services begins: in the first generation, and behind a compaction.
FIRST_COUNTER, LATER_COUNTER = 1, 0
# A snapshot is at most an eighth of what it stands for.
FACTOR = 8
ROWS = """select e.generation, e.seq, encode(e.bytes, 'hex'), encode(e.chain, 'hex')
    from wulameron.entries e join wulameron.logs l using (log) where l.name = '{}' order by 1, 2"""


@dataclass(frozen=True)
class Row:
    """A row of a log."""

    generation: int
    number: int
    data: bytes
    chain: bytes


@dataclass(frozen=True)
class Header:
    """With which number the counter begins."""

    counter: int = FIRST_COUNTER


@dataclass
class Table:
    """A log with all of its generations: its entries but for snapshots and marks, each at its place from 1 on, and the
    world that they come to."""

    world: World
    header: Header
    entries: list = field(default_factory=list)
    # How many entries there are up to a row, by its generation and number.
    rows: dict = field(default_factory=dict)
    compactions: int = 0
    snapshot: int = 0

    @property
    def whole(self):
        """The place behind the last entry."""
        return len(self.entries) + 1

    def place(self, row):
        """The place of the first entry behind a row, which is told by generation and number; the first one of all
        where there was none."""
        return self.rows[row] + 1 if row else 1


def read_rows(server, name):
    """Each row of a log, by generation and number."""
    cells = [line.split("|") for line in server.told(ROWS.format(name))]
    return [Row(int(one[0]), int(one[1]), bytes.fromhex(one[2]), bytes.fromhex(one[3])) for one in cells]


def by_generation(rows):
    """The rows of each generation that there is."""
    found = {}
    for row in rows:
        found.setdefault(row.generation, []).append(row)
    return found


def check_chain(rows):
    """Numbers are dense, and each row has the chain of all before it."""
    before = None
    for row in rows:
        begins = before is None or row.generation != before.generation
        wanted = (row.generation, 0) if begins else (before.generation, before.number + 1)
        if before and begins and row.generation != before.generation + 1:
            raise Wrong(row.number, f"generation {row.generation} is behind {before.generation}")
        if (row.generation, row.number) != wanted or (row.data == b"") != begins:
            raise Wrong(row.number, f"row {row.generation}, {row.number} is where {wanted} should be")
        if before:
            chain = before.chain if begins else hashlib.sha256(before.chain + row.data).digest()
            if row.chain != chain:
                raise Wrong(row.number, f"row {row.generation}, {row.number} has another chain")
        before = row


def entry_of(row, at):
    """The entry of a row."""
    entry = front_of(row.data, 0)
    if not isinstance(entry, Entry) or entry.count != len(row.data):
        raise Wrong(at, f"row {row.generation}, {row.number} is no entry's form")
    return replace(entry, at=at)


def after_snapshot(checks, table, entries, what):
    """The world that a compacted generation begins with, and how many entries that takes. Where nothing is left of what
    was before, it is what those come to."""
    world = World(LATER_COUNTER)
    if table.world is None:
        return world, 0
    for count, entry in enumerate(entries):
        if not same_worlds(table.world, world):
            return world, count
        world.follow(entry)
    why = same_worlds(table.world, world)
    checks.need(not why, f"{what}: a snapshot isn't what stood: {why}")
    return world, len(entries)


def add_generation(checks, table, rows, is_last, what):
    """Goes on with another generation."""
    entries = [entry_of(row, row.number) for row in rows[1:]]
    marks = [entry.at for entry in entries if entry.operation == MOVED]
    checks.same(marks, [] if is_last else [len(entries)], f"{what}: the marks of generation {rows[0].generation}")
    table.snapshot = 0
    if rows[0].generation:
        table.world, table.snapshot = after_snapshot(checks, table, [one for one in entries if one.operation != MOVED], what)
    for row, entry in zip(rows[1:], entries):
        if row.number > table.snapshot and entry.operation != MOVED:
            entry = replace(entry, at=table.whole, count=1)
            table.world.follow(entry)
            table.entries.append(entry)
        table.rows[row.generation, row.number] = len(table.entries)
    table.rows[rows[0].generation, 0] = len(table.entries) if rows[0].generation else 0


def replay(checks, server, name, what):
    """The log of that name with all of its generations; nothing where something is wrong with it."""
    rows = read_rows(server, name)
    generations = by_generation(rows)
    is_whole = 0 in generations
    table = Table(World(FIRST_COUNTER) if is_whole else None, Header())
    try:
        check_chain(rows)
        for generation, found in generations.items():
            add_generation(checks, table, found, generation == max(generations), what)
    except Wrong as wrong:
        checks.need(False, f"{what}: at entry {wrong.at}: {wrong.why}")
        return None
    table.compactions = len(generations) - 1
    checks.count("entries replayed", len(table.entries))
    checks.count("compactions", table.compactions)
    if not is_whole:
        return table
    told = server.told(f"select generation, counter, snapshot from wulameron.logs where name = '{name}'")
    counter = LATER_COUNTER if max(generations) else FIRST_COUNTER
    checks.same(told, [f"{max(generations)}|{counter}|{table.snapshot}"], f"{what}: the log's row")
    checks.need(not table.world.without_effect, f"{what}: {table.world.without_effect} entries had no effect")
    why = table.world.disagreement()
    checks.need(not why, f"{what}: the world doesn't agree: {why}")
    return table
