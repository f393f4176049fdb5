"""Files of logs as a crash of the machine may leave them: the bytes of the last append are drawn.

An append that was not synchronized may be there in any part. So behind a log of entries stands a lock of which some bytes
are others or zeros, and which may end early. The reader of docs/LOG_FORM.md (logs/form.py) says what such a file is: the lock
is whole, or what is left is torn, or it is damage.

`wulameron check` has to say the same of each file. Of some files a process uses the log. Behind a whole or a torn end it
appends to the whole entries, and of a torn end no byte stays. A damaged file it refuses and leaves as it is.
"""
import random

from logs.form import Wrong, read_log
from logs.runs import FAULT, NO_CLEAN, Ran, at_once
from logs.writing import entry_bytes, header_bytes

# What stands before the last append, and that append: node 2 has tagged a service, and locks it.
BEFORE, LOCK = header_bytes() + entry_bytes("make_tag", 2), entry_bytes("lock", 2, 0)
# One file of so many is used by a process. It makes and closes a service of its own.
USED_EACH, NODE, LINES = 4, 3, ("event create - 0 own", "close 0")
# The least share of the files that are whole, torn and damaged.
SHARES = {"whole": 0.01, "torn": 0.3, "damaged": 0.3}


def left_of(drawn):
    """What is left of the lock: all of its bytes, those up to a place, those behind it or the one there are drawn or zeros."""
    is_other = drawn.choice((
        lambda at, place: True, lambda at, place: at >= place, lambda at, place: at < place, lambda at, place: at == place
    ))
    place, length, is_zero = drawn.randrange(len(LOCK) + 1), drawn.randrange(2 * len(LOCK)), drawn.randrange(2)
    others = [0 if is_zero else drawn.randrange(256) for _ in LOCK]
    return bytes(others[at] if is_other(at, place) else byte for at, byte in enumerate(LOCK))[:length]


def meaning(data):
    """What a file is by the reader: its kind, where its whole entries end, and what `check` has to print first."""
    try:
        log = read_log(data)
    except Wrong as wrong:
        return "damaged", wrong.at, f"wrong at byte {wrong.at}, entry 1: the entry is damaged"
    told = f"sound: {len(log.entries)} entries, {log.whole} bytes"
    if log.torn:
        return "torn", log.whole, f"{told}; then {log.torn} bytes of a writer that died"
    return "whole" if len(log.entries) == 2 else "nothing", log.whole, told


class Crash:
    """A file that a crash has left."""

    def __init__(self, runs, seed, number):
        self.runs, self.number, self.what = runs, number, f"crash {number}"
        self.data = BEFORE + left_of(random.Random(f"{seed} crash {number}"))
        self.kind, self.end, self.told = meaning(self.data)
        self.path = runs.file(f"crash-{number}", self.data)

    def need(self, holds, why):
        """Keeps what is wrong with the file."""
        self.runs.need(holds, f"{self.what}, {self.kind}, {self.data[len(BEFORE) :].hex()}: {why}")

    def check(self):
        """`check` says what the reader says, and leaves the file as it is."""
        ran = self.runs.ran([self.runs.program, "check", "--at", str(self.path)])
        status = 1 if self.kind == "damaged" else 0
        fine = (ran.status, ran.err) == (status, "") and len(ran.out) == 1 and f"{ran.out[0]};".startswith(f"{self.told};")
        self.need(fine and self.path.read_bytes() == self.data, f"check: {ran}")

    def use(self):
        """A process goes on behind the whole entries, or refuses the file and leaves it."""
        ran = self.runs.run(self.path, NODE, LINES, flags=[NO_CLEAN])
        after = self.path.read_bytes()
        if self.kind == "damaged":
            fine = ran.status == FAULT and not ran.out and f"is damaged at byte {self.end}" in ran.err
            self.need(fine and after == self.data, f"run: {ran}")
            return
        number = 1 if self.kind == "whole" else 0
        self.need(ran == Ran(0, [f"ok 0 number={number}", "closed 0"], ""), f"run: {ran}")
        replayed = self.runs.replay(after, self.what)
        is_kept = after[: self.end] == self.data[: self.end]
        self.need(is_kept and replayed and not replayed[0].torn, f"behind byte {self.end} stands {after[self.end :].hex()}")

    def look(self):
        """Checks the file, and has a process use some."""
        self.runs.count(f"crashes that leave {self.kind}")
        self.check()
        if not self.number % USED_EACH:
            self.use()


def crashes(runs, seed, count):
    """Makes so many files, some of them at once, and checks that enough of each kind came up."""
    at_once(lambda number: Crash(runs, seed, number).look(), range(count), 0, least=count)
    for kind, share in SHARES.items():
        found = runs.counts[f"crashes that leave {kind}"]
        runs.need(found >= share * count > 0, f"{found} of {count} crashes leave {kind}, which are too few")
