"""Runs of a program at logs in files, and what is counted and wrong of them."""
import os
import random
import re
import shutil
import subprocess
import threading
import time
from collections import Counter
from concurrent.futures import ThreadPoolExecutor
from dataclasses import dataclass

from logs import history
from logs.form import FILE_HEADER_LENGTH, Wrong, read_header, read_log
from logs.world import World

# How long a run may take, and how long its program waits for a log that others hold, where nothing else is said.
SECONDS = 30
PATIENCE = 10000
FAULT = 3
# The texts by which the program refuses, of iceoryx2_file_log.
BUSY = "others hold the log"
NO_LOG = "is no log"
NO_PERMISSION = "no permission"
GONE = "was removed or renamed"
# What it tells where something stays that its node had.
STAYS = "the log refused to release what this node holds; run `wulameron clean`"
# By which a node that has died is left as it is.
NO_CLEAN = "--no-clean"
# How many things are tried at once, and how many at least, however long they take.
AT_ONCE = 4
LEAST = 50


@dataclass(frozen=True)
class Ran:
    """How a run of the program ended."""

    status: int
    out: list
    err: str


class Runs:
    """Runs the program, counts what is done, and keeps what is wrong."""

    def __init__(self, program, room, seed, calls):
        self.program, self.room, self.random = program, room, random.Random(seed)
        # The library that tools/calls.c makes.
        self.calls = calls
        self.counts, self.wrong, self.names = Counter(), [], set()
        self.mutex = threading.Lock()

    def count(self, what, number=1):
        """So many more of these were done."""
        with self.mutex:
            self.counts[what] += number

    def need(self, holds, what):
        """Keeps what is wrong where it doesn't hold, and tells whether it does."""
        if not holds:
            with self.mutex:
                self.wrong.append(what)
        return holds

    def environment(self, path, **others):
        """That of a program at this log: each file is kept whose path another takes."""
        folder = history.kept_folder(path)
        return {**os.environ, "LD_PRELOAD": self.calls, "CALLS_KEEP": str(folder), **others}

    def words(self, path, node, wait=PATIENCE, flags=()):
        """The words by which the program is run. Without a node it takes a free one."""
        named = [] if node is None else ["--node", str(node)]
        return [self.program, "run", "--at", str(path), *named, "--wait", str(wait), *flags]

    def run(self, path, node, lines, wait=PATIENCE, flags=(), **others):
        """Runs the program on some lines until it ends."""
        self.count("calls", len(lines))
        others = {"env": self.environment(path), **others}
        return self.ran(self.words(path, node, wait, flags), lines, **others)

    def nodes(self, path):
        """Has the program list the nodes."""
        return self.ran([self.program, "nodes", "--at", str(path)])

    def clean(self, path, wait=PATIENCE):
        """Has the program clean up for dead nodes."""
        words = [self.program, "clean", "--at", str(path), "--wait", str(wait)]
        return self.ran(words, env=self.environment(path))

    def ran(self, words, lines=(), **others):
        """Runs the program by these words on some lines until it ends."""
        self.count("processes")
        streams = {"stdout": subprocess.PIPE, "stderr": subprocess.PIPE, "timeout": SECONDS}
        given = "".join(f"{line}\n" for line in lines).encode()
        try:
            ran = subprocess.run(words, input=given, **streams, **others)
        except subprocess.TimeoutExpired:
            return Ran(-1, [], f"it ran for {SECONDS} seconds")
        out, err = (stream.decode(errors="replace") for stream in (ran.stdout, ran.stderr))
        return Ran(ran.returncode, out.splitlines(), err)

    def held(self, path, node, lines, flags=()):
        """Runs the program, reads a line of reply to each line, and kills it, so that what it has open stays."""
        living = Living(self, path, node, flags)
        replies = [reply for line in lines if (reply := living.reply(line)) is not None]
        living.kill()
        return replies

    def replay(self, data, what):
        """The log of some bytes and the world that it comes to; nothing where something is wrong with it."""
        try:
            log = read_log(data)
            world = World(log.header.counter)
            for entry in log.entries:
                world.follow(entry)
                self.count("entries replayed")
        except Wrong as wrong:
            self.need(False, f"{what}: at byte {wrong.at} of the log: {wrong.why}")
            return None
        self.need(not world.without_effect, f"{what}: {world.without_effect} entries had no effect")
        return log, world

    def replay_all(self, path, what):
        """The log of a path with all of its files, and the world that it comes to; nothing where something is wrong."""
        return history.replay(self, path, what)

    def file(self, name, data=None):
        """A path in a folder of its own, with these bytes in its file where there are some."""
        path = self.room / name / "log"
        for folder in (path.parent, history.kept_folder(path)):
            shutil.rmtree(folder, ignore_errors=True)
            folder.mkdir(mode=0o755)
        if data is not None:
            path.write_bytes(data)
        return path


class Living:
    """A process of the program that is given line after line."""

    # How it is begun besides.
    options = {}

    def __init__(self, runs, path, node, flags=(), wait=PATIENCE, **environment):
        self.runs, self.node = runs, node
        streams = {name: subprocess.PIPE for name in ("stdin", "stdout", "stderr")}
        words = runs.words(path, node, wait, flags)
        self.process = subprocess.Popen(words, env=runs.environment(path, **environment), **streams, **self.options)
        self.timer = None
        self.watch()
        runs.count("processes")

    def watch(self):
        """Has it killed where it takes too long from now on."""
        if self.timer:
            self.timer.cancel()
        self.timer = threading.Timer(SECONDS, self.process.kill)
        self.timer.start()

    def reply(self, line):
        """The reply's last line; nothing where it ends before."""
        self.runs.count("calls")
        self.watch()
        try:
            self.process.stdin.write(f"{line}\n".encode())
            self.process.stdin.flush()
        except BrokenPipeError:
            return None
        text = self.process.stdout.readline()
        while line == "list" and text and not text.endswith(b" services\n"):
            text = self.process.stdout.readline()
        return text.decode().rstrip("\n") if text else None

    def listing(self):
        """All lines of a list."""
        self.process.stdin.write(b"list\n")
        self.process.stdin.flush()
        lines = [self.process.stdout.readline()]
        while lines[-1] and not lines[-1].endswith(b" services\n"):
            lines.append(self.process.stdout.readline())
        return [line.decode().rstrip("\n") for line in lines]

    def end(self):
        """Has it end by itself, and gives what it wrote since then."""
        out, err = self.process.communicate()
        self.timer.cancel()
        return Ran(self.process.returncode, out.decode().splitlines(), err.decode(errors="replace"))

    def kill(self):
        """Kills it."""
        self.runs.count("kills")
        self.process.kill()
        return self.end()


# ---- nodes


def node_path(path, node):
    """The file of a node, which stands beside the log."""
    return path.parent / f"{path.name}.node-{node}"


def node_files(path):
    """The names of the nodes' files beside a log."""
    form = re.compile(rf"{re.escape(path.name)}\.node-\d+")
    return sorted(name for name in os.listdir(path.parent) if form.fullmatch(name))


def leave_node(path, node):
    """Leaves the file of a node that was claimed, and isn't any more."""
    os.close(os.open(node_path(path, node), os.O_CREAT | os.O_WRONLY, 0o600))


def snapshot(path):
    """What there is of a path and of its folder but for nodes' files, to see whether anything changed."""
    found = os.lstat(path)
    data = path.read_bytes() if path.is_file() else None
    others = sorted(set(os.listdir(path.parent)) - set(node_files(path)))
    return found.st_mode, found.st_ino, found.st_size, found.st_mtime_ns, data, others


# ---- fronts and listings


def fronts_of(data):
    """The whole fronts of a log: where each ends, with the world's listing and counter there."""
    world = World(read_header(data).counter)
    log = read_log(data)
    fronts = [(FILE_HEADER_LENGTH, world.listing(), world.counter)]
    for entry in log.entries:
        world.follow(entry)
        fronts.append((entry.end, world.listing(), world.counter))
    return fronts


def front_before(fronts, end):
    """The longest of these fronts that ends there or before."""
    return [front for front in fronts if front[0] <= end][-1]


def listings_of(out):
    """The listings among some replies."""
    listings, lines = [], []
    for line in out:
        is_end = line.endswith(" services") and line.split()[0].isdigit()
        if is_end:
            listings.append([*lines, line])
            lines = []
        elif " number=" in line and " nodes=" in line:
            lines.append(line)
    return listings


def telling_first(drawn, fronts, count, offsets):
    """The places in a log, the most telling first: these bytes from each entry and from the file's begin on."""
    begins = [0, *(end for end, _, _ in fronts)]
    first = sorted({begin + offset for begin in begins for offset in offsets if 0 <= begin + offset < count})
    others = sorted(set(range(count)) - set(first))
    drawn.shuffle(first)
    drawn.shuffle(others)
    return first + others


def at_once(call, places, seconds, least=LEAST, threads=AT_ONCE):
    """Makes a call for each of these places, some at once, until it is too late, and counts them."""
    deadline = time.monotonic() + seconds

    def timely(number, at):
        is_timely = number < least or time.monotonic() < deadline
        if is_timely:
            call(at)
        return is_timely

    with ThreadPoolExecutor(threads) as pool:
        return sum(pool.map(timely, range(len(places)), places))
