"""Processes that use one log at the same time, half of which are killed."""
import fcntl
import hashlib
import os
import random
import re
import signal
import subprocess
import threading
import time
from collections import Counter

from logs.form import FILE_HEADER_LENGTH, MOVED, Entry, Wrong, entries_of, front_of, read_log
from logs.history import check_beside, file_number, standing, standing_whole
from logs.runs import FAULT, NO_CLEAN, SECONDS, node_path
from logs.world import World

PROCESSES = 8
CALLS = 150
SLOTS = 12
NAMES = 7
PREFIXES = {"event": b"e", "pubsub": b"p", "rr": b"r"}
PATTERNS, CALLED = "Event|PublishSubscribe|RequestResponse", "Open|Create|OpenOrCreate"
ERROR = re.compile(rf"({PATTERNS})({CALLED})Error::[A-Za-z]+(\([A-Za-z]+\))?")
# Refusals that come only where the log refuses, or memory.
UNEXPECTED = ("InternalFailure", "InsufficientPermissions", "OutOfMemory")
LOOK_SECONDS = 0.004
# How many lines a process is given at once, below this, and how long after the last ones it is killed at most.
MOST_AT_ONCE = 16
KILL_SECONDS = 0.004
# How often a process is started whose node others have, who look at it or clean up for it.
STARTS = 40
# What is done in the name of a dead node, and nothing else.
GIVING_BACK = ("release", "remove_segment", "remove_description", "remove_tag")


def drawn_lines(drawn, node, calls):
    """Lines with calls of the three patterns, in the node's name, on names that all nodes share."""
    lines = []
    for _ in range(calls):
        slot, chance = drawn.randrange(SLOTS), drawn.random()
        if chance < 0.06:
            lines.append("list")
        elif chance < 0.38:
            lines.append(f"close {slot}")
        else:
            pattern, name = drawn.choice(list(PREFIXES)), f"storm/{drawn.randrange(NAMES)}"
            call = drawn.choice(["create", "open", "open_or_create"])
            room = "" if call == "open" else f" max_nodes={drawn.choice([2, 3, 3, 5])}"
            lines.append(f"{pattern} {call} {node} {slot} {name}{room}")
    return lines


def alive_text(path, node):
    """What the program writes where another has its node."""
    return f"wulameron: {node_path(path, node)}: node {node} is alive\n"


class Process(threading.Thread):
    """A process of the storm: its lines, its replies, and whether it was killed."""

    def __init__(self, runs, path, node, seed, is_killed, flags=(), calls=CALLS):
        super().__init__(daemon=True)
        self.runs, self.path, self.node, self.flags = runs, path, node, flags
        self.drawn = random.Random(seed)
        self.lines = drawn_lines(self.drawn, node, calls)
        self.is_killed, self.is_late, self.replies = is_killed, False, []
        self.services, self.listings = [], []
        self.process, self.status, self.err = None, None, ""
        # Where the log stood before it began, just before it was killed, and after it had ended; and then the places.
        self.began = self.struck = self.ended = None

    def run(self):
        """Runs the process to its end, or kills it. It is started anew where its node is another's for a moment."""
        self.began = standing_whole(self.path)
        for _ in range(STARTS):
            self.live()
            self.ended = standing(self.path)
            if not self.is_refused():
                break
            self.runs.count("starts refused")
        self.is_killed = self.is_killed and self.status == -signal.SIGKILL
        self.struck = self.struck if self.is_killed else self.ended

    def settle(self, history):
        """Has it know the places in the whole log."""
        self.began, self.struck, self.ended = map(history.place, (self.began, self.struck, self.ended))

    def is_refused(self):
        """Whether its node was another's, who cleaned up for it or looked at it."""
        return self.status == FAULT and self.err == alive_text(self.path, self.node)

    def live(self):
        """Runs the process to its end, or kills it."""
        with open(self.path.parent / f"errors-{self.node}", "w+b") as errors:
            words = self.runs.words(self.path, self.node, flags=self.flags)
            streams = {"stdin": subprocess.PIPE, "stdout": subprocess.PIPE, "stderr": errors}
            process = subprocess.Popen(words, env=self.runs.environment(self.path), **streams)
            self.process = process
            timer = threading.Timer(SECONDS, self.stop, [process])
            timer.start()
            try:
                self.feed(process)
                process.stdin.close()
            except BrokenPipeError:
                pass
            while self.read(process):
                pass
            self.status = process.wait()
            timer.cancel()
            errors.seek(0)
            self.err = errors.read().decode(errors="replace")

    def stop(self, process):
        """Kills it since it takes too long."""
        self.is_late = True
        process.kill()

    def feed(self, process):
        """Gives it some lines at once and reads their replies, again and again, or kills it within some."""
        calls = len(self.lines)
        last = self.drawn.randrange(calls * 3 // 4) if self.is_killed else calls
        begin = 0
        while begin < calls:
            end = calls if begin >= last else min(calls, begin + self.drawn.randrange(1, MOST_AT_ONCE))
            process.stdin.write("".join(f"{line}\n" for line in self.lines[begin:end]).encode())
            process.stdin.flush()
            if begin >= last:
                time.sleep(self.drawn.random() * KILL_SECONDS)
                self.struck = standing(self.path)
                process.kill()
            while len(self.replies) < end and self.read(process):
                pass
            begin = end

    def read(self, process):
        """Reads a line of its replies, if there is a whole one."""
        text = process.stdout.readline()
        if not text.endswith(b"\n"):
            return False
        line = text.decode().rstrip("\n")
        if " nodes=" in line:
            self.services.append(line)
            return True
        if line.endswith(" services"):
            self.listings.append((*self.services, line))
            self.services = []
        self.replies.append(line)
        return True

    def opened(self):
        """The hash and number of each reply that opened a service."""
        found = Counter()
        for line, reply in zip(self.lines, self.replies):
            match = re.fullmatch(r"ok (\d+) number=(\d+)", reply)
            if match:
                pattern, _, _, _, name = line.split()[:5]
                found[hashlib.sha1(PREFIXES[pattern] + name.encode()).digest(), int(match[2])] += 1
        return found


class Watcher(threading.Thread):
    """Looks at the file again and again: what was whole once has to stay, until the log goes on in another file."""

    def __init__(self, runs, path, what):
        super().__init__(daemon=True)
        self.runs, self.path, self.what = runs, path, what
        self.file, self.seen, self.is_over = None, b"", threading.Event()

    def run(self):
        """Looks until it is over."""
        while not self.is_over.wait(LOOK_SECONDS):
            if self.path.exists() and not self.look():
                return

    def look(self):
        """Compares the file with what was seen whole of it, and adds what is whole since."""
        is_same = self.file is not None and file_number(os.fstat(self.file.fileno())) == standing(self.path)[0]
        if self.file is not None and not self.compare(is_same):
            return False
        if is_same:
            return True
        if self.file is not None:
            self.file.close()
        self.file, self.seen = open(self.path, "rb"), b""
        return True

    def compare(self, is_same):
        """Compares the file that it has open, which has the path still or ends with a mark."""
        self.file.seek(0)
        data = self.file.read()
        self.runs.count("looks")
        if not data.startswith(self.seen):
            why = f"{len(self.seen)} bytes were whole, and not all of them are there"
            return self.runs.need(False, f"{self.what}: {why}")
        at, is_moved = max(len(self.seen), FILE_HEADER_LENGTH), False
        try:
            for entry in entries_of(data, at):
                is_moved = entry.operation == MOVED
                at = at if is_moved else entry.end
        except Wrong:
            # Another process may be writing there. Whether it stays so is seen when all have ended.
            pass
        if len(data) >= FILE_HEADER_LENGTH:
            self.seen = data[:at]
        return self.runs.need(is_same or is_moved, f"{self.what}: another file has the path, and the old one no mark")


class DyingWriter(threading.Thread):
    """Leaves part of an entry at the end of the file now and then, as a writer does that dies."""

    def __init__(self, runs, path, seed):
        super().__init__(daemon=True)
        self.runs, self.path, self.drawn = runs, path, random.Random(seed)
        self.is_over = threading.Event()

    def run(self):
        """Leaves such ends until it is over."""
        while not self.is_over.wait(0.02 + self.drawn.random() * 0.05):
            if self.path.exists():
                with open(self.path, "r+b") as file:
                    fcntl.flock(file, fcntl.LOCK_EX)
                    self.leave(file)

    def leave(self, file):
        """A front of the first entry, or all of it with another last byte, after the last whole one."""
        data = file.read()
        try:
            first, log = front_of(data, FILE_HEADER_LENGTH), read_log(data)
        except Wrong:
            return
        if not isinstance(first, Entry) or log.torn or file_number(os.fstat(file.fileno())) != standing(self.path)[0]:
            return
        form = data[first.at : first.end]
        cut = self.drawn.randrange(1, len(form) + 1)
        file.write(form[:cut] if cut < len(form) else form[:-1] + bytes([form[-1] ^ 1]))
        self.runs.count("torn ends left")


def check_replies(runs, process, what):
    """Each line of a process has a reply of its kind, and who ended by itself answered all."""
    for line, reply in zip(process.lines, process.replies):
        kinds = {"close": r"closed \d+|slot \d+ empty", "list": r"\d+ services"}
        wanted = kinds.get(line.split()[0], rf"ok \d+ number=\d+|slot \d+ in use|{ERROR.pattern}")
        if not re.fullmatch(wanted, reply) or any(word in reply for word in UNEXPECTED):
            runs.need(False, f"{what}: to {line!r} it replied {reply!r}")
    runs.need(not process.is_late, f"{what}: it ran for {SECONDS} seconds")
    if not process.is_killed:
        ended = process.status, process.err.strip(), len(process.replies)
        calls = len(process.lines)
        runs.need(ended == (0, "", calls), f"{what}: status {ended[0]} after {ended[2]} replies: {ended[1][:200]}")
    else:
        runs.need(not process.err, f"{what}: before it was killed it wrote {process.err[:200]!r}")


def check_entries(runs, process, log, what, cleans=True):
    """What a process replied stands in the log; of one that was killed at most one call more."""
    own = [entry for entry in log.entries if entry.node == process.node]
    taken = [entry for entry in own if entry.ticket_taken is not None and process.began <= entry.at < process.ended]
    stands = Counter((entry.hash, entry.number) for entry in taken)
    opened = process.opened()
    runs.need(not opened - stands, f"{what}: {sum((opened - stands).values())} replies have no entry in the log")
    more = sum((stands - opened).values())
    runs.need(more <= process.is_killed, f"{what}: {more} services were opened without a reply")
    closed = sum(reply.startswith("closed ") for reply in process.replies)
    tickets = {entry.ticket_taken for entry in taken}
    releases = [entry for entry in own if entry.operation == "release" and entry.ticket in tickets]
    # What others have released after its end isn't its own.
    until = process.struck if cleans else log.whole
    released = sum(entry.at < until for entry in releases)
    most = closed + 1 if process.is_killed else sum(opened.values())
    least = closed if process.is_killed else most
    runs.need(released <= most, f"{what}: {released} releases, {closed} closed, {sum(opened.values())} opened")
    runs.need(least <= len(releases), f"{what}: {len(releases)} releases in all, and {least} are the least")


def check_given_back(runs, processes, log, what, operations=GIVING_BACK):
    """After a process's end only what it had is given back in its node's name, until the node's next one begins."""
    lives = {}
    for process in processes:
        lives.setdefault(process.node, []).append((process.began, process.ended))
    for entry in log.entries:
        is_living = any(began <= entry.at < ended for began, ended in lives.get(entry.node, [(0, log.whole)]))
        if not is_living:
            runs.count("entries for dead nodes")
            runs.need(entry.operation in operations, f"{what}: in the name of node {entry.node} that was dead: {entry.line()}")


def check_listings(runs, processes, log, what):
    """Each listing is of a front of the log, and the later ones of a process are of later fronts."""
    world, places = World(log.header.counter), {}
    places[tuple(world.listing())] = [0]
    for entry in log.entries:
        world.grant(entry)
        places.setdefault(tuple(world.listing()), []).append(entry.end)
    for process in processes:
        at = 0
        for listing in process.listings:
            runs.count("listings")
            later = [place for place in places.get(listing, []) if place >= at]
            if not runs.need(later, f"{what}, node {process.node}: it listed no front of the log: {listing}"):
                break
            at = later[0]


def check_world(runs, processes, world, what):
    """Who ended by itself has left nothing."""
    for process in processes:
        left = world.left_by(process.node)
        if not process.is_killed:
            runs.need(left == (0, 0, 0), f"{what}, node {process.node}: it left {left[0]} tickets and {left[1]} tags")


def check_file(runs, path, log, what):
    """The file has its mode, its counter begins at zero, and no other log has its name."""
    mode = path.stat().st_mode & 0o777
    runs.need(mode == 0o600 and log.header.counter == 0, f"{what}: mode {mode:03o}, counter {log.header.counter}")
    runs.need(log.header.name not in runs.names, f"{what}: another log has its name")
    runs.names.add(log.header.name)


def check_afterwards(runs, path, before, processes, what):
    """A new process cleans up for those that were killed, goes on where the others ended, and leaves nothing."""
    node = PROCESSES + 1
    ran = runs.run(path, node, [f"event create {node} 0 afterwards", "list"])
    fine = ran.status == 0 and not ran.err and ran.out[:1] and ran.out[0].startswith("ok 0 ")
    runs.need(fine and ran.out[-1] == "1 services", f"{what}, afterwards: {ran}")
    replayed = runs.replay_all(path, f"{what}, afterwards")
    if replayed:
        log, world = replayed[0].log, replayed[1]
        is_kept = log.entries[: len(before.entries)] == before.entries
        runs.need(is_kept, f"{what}, afterwards: a whole entry is gone")
        runs.need(not log.torn, f"{what}, afterwards: {log.torn} bytes are torn")
        runs.need(not world.remains(), f"{what}, afterwards: there is {world.remains()}")
        check_given_back(runs, processes, log, f"{what}, afterwards")


def run_all(runs, path, seed, what, flags):
    """Runs the processes to their ends, beside a watcher and a dying writer."""
    drawn = random.Random(seed)
    killed = drawn.sample(range(PROCESSES), PROCESSES // 2)
    seeds = [drawn.randrange(2**32) for _ in range(PROCESSES)]
    processes = [Process(runs, path, at + 1, seeds[at], at in killed, flags) for at in range(PROCESSES)]
    watcher, writer = Watcher(runs, path, what), DyingWriter(runs, path, drawn.randrange(2**32))
    for thread in (watcher, writer, *processes):
        thread.start()
    for thread in processes:
        thread.join()
    for thread in (writer, watcher):
        thread.is_over.set()
        thread.join()
    watcher.look()
    return processes


def storm(runs, seed, flags=()):
    """Processes at one file, of which half are killed at drawn moments."""
    what = " ".join([f"storm {seed}", *flags])
    cleans = NO_CLEAN not in flags
    path = runs.file(f"storm-{seed}")
    processes = run_all(runs, path, seed, what, flags)
    runs.count("processes", len(processes))
    runs.count("calls", sum(len(process.replies) for process in processes))
    runs.count("kills", sum(process.is_killed for process in processes))
    for process in processes:
        check_replies(runs, process, f"{what}, node {process.node}")
    if not runs.need(path.exists(), f"{what}: there is no log"):
        return
    replayed = runs.replay_all(path, what)
    if replayed:
        log, world = replayed[0].log, replayed[1]
        for process in processes:
            process.settle(replayed[0])
            check_entries(runs, process, log, f"{what}, node {process.node}", cleans)
        check_given_back(runs, processes, log, what, GIVING_BACK if cleans else ())
        check_listings(runs, processes, log, what)
        check_world(runs, processes, world, what)
        check_file(runs, path, log, what)
        check_beside(runs, path, what, most=1, making=sum(process.is_killed for process in processes))
        check_afterwards(runs, path, log, processes, what)
