"""What is counted and wrong, and waiting for what comes."""
import random
import threading
import time
from collections import Counter

# How long anything may take where nothing else is said, also on a slow machine that does other things beside.
SECONDS = 60


class Checks:
    """Counts checks and what else is done, and keeps what is wrong."""

    def __init__(self, seed):
        self.random = random.Random(seed)
        self.counts, self.wrong = Counter(), []
        self.mutex = threading.Lock()

    def part(self):
        """Checks of a part, which are counted by themselves until they are added."""
        return Checks(self.random.randrange(10**6))

    def add(self, others):
        """Adds those of a part."""
        self.counts += others.counts
        self.wrong += others.wrong

    def count(self, what, number=1):
        """So many more of these were done."""
        with self.mutex:
            self.counts[what] += number

    def need(self, holds, what):
        """A check. Keeps what is wrong where it doesn't hold, and tells whether it does."""
        with self.mutex:
            self.counts["checks"] += 1
            if not holds:
                self.wrong.append(what)
        return bool(holds)

    def same(self, found, wanted, what):
        """A check that one thing is another."""
        return self.need(found == wanted, f"{what}: {found!r}, not {wanted!r}")


def until(holds, seconds=SECONDS, pause=0.01):
    """Waits until something holds, and gives what that was; what it gave last where it doesn't come."""
    deadline = time.monotonic() + seconds
    while not (found := holds()) and time.monotonic() < deadline:
        time.sleep(pause)
    return found
