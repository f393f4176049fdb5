#!/usr/bin/env python3
"""How much processor time calls take that go over what processes share.

    benchmarks/run.sh --shared [--folder FOLDER] [--services N ..] [--wulameron PROGRAM] [--pairs N]

Three programs answer the same lines: `shared_lines` in Rattle over a log, the benchmark's driver in plain Rust over a
log of the same form, and the driver over files alone: a description, a lock, a tag and a segment of shared memory are a
file each. All of it lies in a folder of a memory file system (/dev/shm where none is given). So many services stand (10
and 1,000 where nothing is said), held by as many processes as that takes, while one more process is measured: creates
with their closes, opens with theirs, and lists. Their replies have to be the same, and so have the entries of both logs.

With the built program `wulameron` a start of it is measured after so many pairs (a million where nothing is said), and
what a compaction takes beside 0, 1,000 and 10,000 services. Prints tables; each time is the least of five runs, in
which the programs take turns.
"""
import argparse
import hashlib
import os
import pathlib
import re
import resource
import shutil
import subprocess
import sys
import tempfile
import time

TOP = pathlib.Path(__file__).resolve().parent.parent
sys.dont_write_bytecode = True
sys.path.insert(0, str(TOP / "tools"))

from logs.compaction import fill  # noqa: E402
from logs.history import FACTOR, SHORT_LENGTH  # noqa: E402
from logs.writing import created, event_form, header_bytes  # noqa: E402

# How many bytes stand before the entries of a log.
HEADER_LENGTH = 48
# How many slots the session of one process has.
SLOTS = 64
PAIRS = 500
RUNS = 5
# How often a call is made where its instructions are counted, and where the entries of both logs are compared.
COUNTED = 100
COMPARED = 40
# Beside how many services a compaction is measured, by whom, and by a line that makes one access and changes nothing.
STANDING = (0, 1000, 10000)
COMPACTING, FOLLOWING = 1000001, 1000002
LOOK = "event open {} 0 absent"


class Program:
    """What answers lines: a name, and the words that start it at a place in the name of a node."""

    def __init__(self, name, words):
        self.name, self.words = name, words

    def start(self, place, node, before=()):
        """A process that answers lines in the name of a node."""
        words = [*before, *(word.format(place=place, node=node) for word in self.words)]
        return subprocess.Popen(words, stdin=subprocess.PIPE, stdout=subprocess.PIPE, stderr=subprocess.PIPE, text=True)


def programs(proved, driver):
    """The three programs whose calls are compared."""
    return [
        Program("proved", [proved, "{place}", "{node}"]),
        Program("plain", [driver, "log", "{place}"]),
        Program("files", [driver, "files", "{place}"]),
    ]


class Holder:
    """A process that holds some services until it is let go."""

    def __init__(self, program, place, node, names):
        self.process = program.start(place, node)
        for slot, name in enumerate(names):
            self.process.stdin.write(f"event create {node} {slot} {name}\n")
        # Its reply comes when all others have come, and it has read the log.
        self.process.stdin.write(LOOK.format(node) + "\n")
        self.process.stdin.flush()
        for name in names:
            reply = self.process.stdout.readline()
            if not reply.startswith("ok "):
                raise SystemExit(f"{name}: {reply}")
        self.process.stdout.readline()

    def resident(self):
        """How many bytes of memory it has."""
        with open(f"/proc/{self.process.pid}/statm", encoding="ascii") as file:
            return int(file.read().split()[1]) * resource.getpagesize()

    def let_go(self):
        self.process.stdin.close()
        self.process.wait()


def answered(program, place, node, lines, before=()):
    """The replies of one process to these lines, and what it wrote beside them."""
    process = program.start(place, node, before)
    replies, beside = process.communicate("".join(line + "\n" for line in lines))
    wrong = [reply for reply in replies.splitlines() if not reply.startswith(("ok ", "closed ", "Event", "event"))
             and " services" not in reply]
    if process.returncode or wrong:
        raise SystemExit(f"{program.name}: status {process.returncode}, {wrong[:3]}, {beside}")
    return replies, beside


def seconds(program, place, node, lines):
    """The processor seconds of one process that answers these lines, and its replies."""
    before = resource.getrusage(resource.RUSAGE_CHILDREN)
    replies, _ = answered(program, place, node, lines)
    after = resource.getrusage(resource.RUSAGE_CHILDREN)
    return after.ru_utime + after.ru_stime - before.ru_utime - before.ru_stime, replies


def instructions(program, place, node, lines):
    """The instructions outside of the system, by valgrind's callgrind."""
    before = ("valgrind", "--tool=callgrind", "--callgrind-out-file=/dev/null")
    _, beside = answered(program, place, node, lines, before)
    return int(re.search(r"Collected : (\d+)", beside).group(1))


def pairs(node, count):
    """Lines that create a service and close it, so many times."""
    return [line for _ in range(count) for line in (f"event create {node} 0 measured", "close 0")]


def openings(node, count):
    """Lines that open a standing service and close it, so many times."""
    return [line for _ in range(count) for line in (f"event open {node} 0 service_0", "close 0")]


def lists(_, count):
    return ["list"] * count


# What is measured, and by which programs: the files aren't listed.
CALLS = [("a create with its close", pairs, 3), ("an open with its close", openings, 3), ("a list", lists, 2)]


def same(program, replies, expected):
    """The replies have to be those of the proved program; services in files have no numbers."""
    if program.name == "files":
        replies, expected = (re.sub(r"number=\d+", "", text) for text in (replies, expected))
    if replies != expected:
        raise SystemExit(f"{program.name}: other replies")


def least_times(measured, places, call, node):
    """Of each program the least processor seconds of one call, without those of a start."""
    least, looks = {}, {}
    for run in range(RUNS):
        expected, at = None, node + run
        for program in measured:
            place = places[program.name]
            looked, _ = seconds(program, place, at, [LOOK.format(at)])
            taken, replies = seconds(program, place, at, [LOOK.format(at)] + call(at, PAIRS))
            expected = expected or replies
            same(program, replies, expected)
            looks[program.name] = min(looked, looks.get(program.name, looked))
            least[program.name] = min(taken, least.get(program.name, taken))
    return [(least[program.name] - looks[program.name]) / PAIRS for program in measured]


def counts(measured, places, call, node):
    """Of each program the instructions of one call."""
    found = []
    for program in measured:
        place = places[program.name]
        looked = instructions(program, place, node, [LOOK.format(node)])
        taken = instructions(program, place, node, [LOOK.format(node)] + call(node, COUNTED))
        found.append((taken - looked) / COUNTED)
    return found


def measured_calls(found, folder, number):
    """The rows of calls beside so many services, the memory of a process, and the seconds of a start."""
    places, holders, rows = {}, [], []
    names = [f"service_{index}" for index in range(number)]
    try:
        for program in found:
            place = folder / f"{program.name}-{number}"
            if program.name == "files":
                place.mkdir()
            places[program.name] = str(place)
            for node, first in enumerate(range(0, len(names), SLOTS), start=2):
                holders.append(Holder(program, str(place), node, names[first : first + SLOTS]))
        for at, (what, call, count) in enumerate(CALLS):
            measured = found[:count]
            times = least_times(measured, places, call, 900000 + 10000 * at)
            counted = counts(measured, places, call, 905000 + 10000 * at)
            cells = [f"{time * 1e6:.1f}" for time in times] + [""] * (3 - count)
            rows.append([what, f"{number:,}"] + cells + [f"{one:,.0f}" for one in counted] + [""] * (3 - count))
        started = min(seconds(found[0], places["proved"], 800000 + run, ["list"])[0] for run in range(RUNS))
        return rows, holders[0].resident(), started
    finally:
        for holder in holders:
            holder.let_go()


def compare_entries(found, folder):
    """The entries of both logs are the same bytes, as long as none is compacted."""
    entries = []
    for program in found[:2]:
        place = folder / f"{program.name}-compared"
        holder = Holder(program, str(place), 2, ["service_0"])
        answered(program, str(place), 3, pairs(3, COMPARED) + openings(3, COMPARED))
        entries.append(place.read_bytes()[HEADER_LENGTH:])
        holder.let_go()
    if entries[0] != entries[1]:
        raise SystemExit("the entries of the two logs differ")


# ---- compactions


def standing(path, count):
    """A log in which so many services stand, of nodes that have no file, and the bytes of it."""
    entries = []
    for number in range(count):
        name = f"service_{number}"
        found = hashlib.sha1(b"e" + name.encode()).digest()
        entries += created(1 + number // SLOTS, number, event_form(found=found, name=name, creator=number), found)
    data = header_bytes(os.urandom(16)) + b"".join(entries)
    path.write_bytes(data)
    return len(data)


def reply_seconds(process, node):
    """How long a reply takes to a line that makes one access."""
    begin = time.monotonic()
    process.stdin.write(LOOK.format(node) + "\n")
    process.stdin.flush()
    reply = process.stdout.readline()
    if reply != "EventOpenError::DoesNotExist\n":
        raise SystemExit(f"to a look: {reply}")
    return time.monotonic() - begin


def compaction(program, folder, count):
    """How long a compaction beside so many services takes, and how long who follows it; each without one access."""
    path = folder / "compacted"
    needed = standing(path, count)
    fill(path, max(SHORT_LENGTH, FACTOR * needed) - 4096)
    processes = [(program.start(str(path), node), node) for node in (COMPACTING, FOLLOWING)]
    # The first one also reads the log.
    plain = [[reply_seconds(process, node) for _ in range(RUNS + 1)] for process, node in processes]
    fill(path, max(SHORT_LENGTH, FACTOR * needed) + 4096)
    before = path.stat()
    seconds = [reply_seconds(process, node) for process, node in processes]
    if path.stat().st_ino == before.st_ino:
        raise SystemExit(f"beside {count} services nothing was compacted")
    for process, _ in processes:
        process.stdin.close()
        process.wait()
    size, beside = path.stat().st_size, os.listdir(folder)
    if any(name.endswith(".compacted") for name in beside):
        raise SystemExit(f"beside the log stand {beside}")
    return seconds[0] - min(plain[0]), seconds[1] - min(plain[1]), before.st_size, size


def compactions(program, folder):
    """The rows of compactions."""
    rows = []
    for count in STANDING:
        found = [compaction(program, folder, count) for _ in range(RUNS)]
        made, followed = (min(one[at] for one in found) * 1e3 for at in (0, 1))
        sizes = f"{found[0][2]:,} bytes to {found[0][3]:,}"
        rows.append((f"a compaction beside {count:,} services", f"{made:.1f} ms, others wait; {sizes}"))
        rows.append(("who follows it", f"{followed:.1f} ms"))
    return rows


def after_pairs(program, folder, count):
    """The rows of a start after so many pairs."""
    log = str(folder / "paired")
    each = seconds(program, log, 1, pairs(1, count))[0] / count * 1e6
    started = min(seconds(program, log, 10 + run, ["list"])[0] for run in range(RUNS))
    return [
        (f"a create with its close, {count:,} in a row", f"{each:.1f} us, {os.path.getsize(log)} bytes then"),
        ("a start with a list after them", f"{started * 1e3:.1f} ms"),
    ]


def table(head, rows):
    """A table in Markdown."""
    for row in [head, ["---"] * len(head)] + rows:
        print("| " + " | ".join(row) + " |")
    print()


def print_calls(found, folder, numbers):
    rows, beside = [], []
    for number in numbers:
        more, resident, started = measured_calls(found, folder, number)
        rows += more
        beside.append((f"a start with a list beside {number:,} services", f"{started * 1e3:.1f} ms"))
        beside.append((f"memory of a process beside {number:,} services", f"{resident:,} bytes"))
    print("Microseconds of processor time for one, and instructions outside of the system:\n")
    table(["what", "standing", "proved", "plain", "files", "instructions, proved", "plain", "files"], rows)
    return beside


def main():
    parser = argparse.ArgumentParser(description=__doc__, formatter_class=argparse.RawDescriptionHelpFormatter)
    parser.add_argument("program", help="the built program shared_lines")
    parser.add_argument("driver")
    parser.add_argument("--folder", default="/dev/shm")
    parser.add_argument("--services", type=int, nargs="*", default=[10, 1000])
    parser.add_argument("--wulameron")
    parser.add_argument("--pairs", type=int, default=1000000)
    asked = parser.parse_args()
    folder = pathlib.Path(tempfile.mkdtemp(dir=asked.folder))
    found = programs(asked.program, asked.driver)
    print(f"load: {os.getloadavg()}, of {os.cpu_count()} processors\n")
    try:
        compare_entries(found, folder)
        rows = print_calls(found, folder, asked.services)
        if asked.wulameron:
            words = [asked.wulameron, "run", "--at", "{place}", "--node", "{node}", "--wait", "60000"]
            wulameron = Program("wulameron", words)
            rows += after_pairs(wulameron, folder, asked.pairs)
            rows += compactions(wulameron, folder)
        for name, value in rows:
            print(f"  {name}: {value}")
    finally:
        shutil.rmtree(folder)


if __name__ == "__main__":
    main()
