"""All that ever stood in a log that is compacted: each of its files is kept as another one takes its path.

tools/calls.c keeps them, in the programs that Runs starts. So each snapshot is compared with the file whose place it
took, and the entries of all files are one list, in which places are counted as if the log had never been compacted.
"""
import os
import re
from dataclasses import dataclass, replace

from logs.form import FILE_HEADER_LENGTH, Log, Wrong, read_log
from logs.world import World

# How many times as long as its snapshot a file is that is compacted, and how long at least.
FACTOR = 8
SHORT_LENGTH = 65536
# By whom a log is made long without a process: nobody ever claims that node.
FILLER = 9000


def kept_folder(path):
    """Where the files are kept that had this path."""
    return path.parent.with_name(f"{path.parent.name}-kept")


def file_number(found):
    """By what the system knows a file."""
    return found.st_dev, found.st_ino


def standing(path):
    """The file that a path has now, and how long it is; nothing where there is none."""
    try:
        found = os.stat(path)
    except FileNotFoundError:
        return None
    return file_number(found), found.st_size


def standing_whole(path):
    """The file that a path has now, and where its whole entries end: who starts cuts off what is torn behind them."""
    try:
        with open(path, "rb") as file:
            return file_number(os.fstat(file.fileno())), read_log(file.read()).whole
    except FileNotFoundError:
        return None


@dataclass
class Part:
    """A file of a log, and what has to be added to a place in it for the place in the whole log."""

    number: tuple
    mode: int
    length: int
    log: Log
    base: int = 0


def files_of(path):
    """The files that had the path, in their order, and the one that has it now, each with its bytes."""
    folder = kept_folder(path)
    names = sorted(os.listdir(folder)) if folder.is_dir() else []
    found = {}
    for name in [*(folder / name for name in names), path]:
        number = file_number(os.stat(name))
        # A process that is killed on entry to its renaming has kept a file that stays.
        found.pop(number, None)
        found[number] = name
    return [(number, name.stat().st_mode, name.read_bytes()) for number, name in found.items()]


class History:
    """A log with all of its files."""

    def __init__(self, path):
        self.parts, self.entries = [], []
        for number, mode, data in files_of(path):
            self.add(Part(number, mode, len(data), read_log(data)))
        first, last = self.parts[0], self.parts[-1]
        whole, left = last.base + last.log.whole, last.log
        self.log = Log(first.log.header, self.entries, whole, left.torn, left.is_moved)

    def add(self, part):
        """Goes on with another file, whose first entries may be a snapshot."""
        if self.parts:
            before = self.parts[-1]
            part.base = before.base + before.log.whole - part.log.header.snapshot_end
        self.parts.append(part)
        first = FILE_HEADER_LENGTH if len(self.parts) == 1 else part.log.header.snapshot_end
        self.entries += [replace(entry, at=entry.at + part.base) for entry in part.log.entries if entry.at >= first]

    def place(self, stood):
        """The place in the whole log of the end of a file that stood there."""
        if stood is None:
            return 0
        number, size = stood
        for part in self.parts:
            if part.number == number:
                return part.base + min(size, part.log.whole)
        raise Wrong(size, f"of the file {number} nothing is kept")

    def compactions(self):
        """How often it was compacted."""
        return len(self.parts) - 1


def same_worlds(one, other):
    """In what two worlds differ, but for who has only read."""
    for name in ("rows", "segments", "tags", "tickets", "counter"):
        if getattr(one, name) != getattr(other, name):
            return f"{name}: {getattr(one, name)} and {getattr(other, name)}"
    phases = [{key: phase for key, phase in world.phases.items() if phase.at != "Read"} for world in (one, other)]
    return None if phases[0] == phases[1] else f"phases: {phases[0]} and {phases[1]}"


def check_joint(runs, before, part, world, what):
    """A compaction kept what stood, and was worth it. Gives the world that its snapshot comes to."""
    old, new = before.log, part.log
    fine = old.header.name == new.header.name and before.mode == part.mode and new.header.counter == 0
    runs.need(fine, f"{what}: {old.header}, mode {before.mode:o}, was compacted to {new.header}, {part.mode:o}")
    runs.need(old.is_moved, f"{what}: the file before a compaction has no mark at its end")
    fine = old.whole > SHORT_LENGTH and new.header.snapshot_end * FACTOR <= old.whole
    runs.need(fine, f"{what}: {old.whole} bytes were compacted to {new.header.snapshot_end}")
    restored = World(new.header.counter)
    for entry in new.snapshot:
        restored.follow(entry)
    why = same_worlds(world, restored)
    runs.need(not why, f"{what}: a snapshot isn't what stood: {why}")
    runs.count("compactions")
    return restored


def follow(world, entry):
    """Makes the entry's access, and tests the agreement, but after what makes a log long."""
    if entry.node == FILLER:
        world.make(entry)
    else:
        world.follow(entry)


def replay_parts(runs, parts, what):
    """The world that all files come to, each snapshot compared with what stood before it."""
    world, before = World(parts[0].log.header.counter), None
    for part in parts:
        first = FILE_HEADER_LENGTH
        if before:
            world, first = check_joint(runs, before, part, world, what), part.log.header.snapshot_end
        for entry in part.log.entries:
            if entry.at >= first:
                follow(world, entry)
        runs.count("entries replayed", len(part.log.entries))
        before = part
    return world


def replay(runs, path, what):
    """The history of a log and the world that it comes to; nothing where something is wrong with it."""
    try:
        history = History(path)
        world = replay_parts(runs, history.parts, what)
    except Wrong as wrong:
        runs.need(False, f"{what}: at byte {wrong.at} of a file of the log: {wrong.why}")
        return None
    why = world.disagreement()
    runs.need(not why, f"{what}: the world doesn't agree: {why}")
    runs.need(not world.without_effect, f"{what}: {world.without_effect} entries had no effect")
    return history, world


def check_beside(runs, path, what, most=0, making=0):
    """At most so many files stand beside the log but for the nodes', and they are those of compactions.

    Of processes that may have been killed while they made the log each may have left the file that was to be linked.
    """
    others = sorted(set(os.listdir(path.parent)) - {path.name})
    others = [name for name in others if not name.startswith((f"{path.name}.node-", "errors-"))]
    new = [name for name in others if re.fullmatch(re.escape(path.name) + r"\.new-[0-9a-f]{16}", name)]
    others = [name for name in others if name not in new]
    fine = len(others) <= most and set(others) <= {f"{path.name}.compacted"} and len(new) <= making
    runs.need(fine, f"{what}: beside it stand {others + new}")
    return others
