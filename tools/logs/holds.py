"""How long the commands that only look at a long log keep others from it."""
import fcntl
import hashlib
import threading
import time
from concurrent.futures import ThreadPoolExecutor

from logs.commands import once
from logs.history import FILLER
from logs.storm import PREFIXES
from logs.writing import created, event_form, header_bytes

# Beside how many services a command is run, and how many where it may take long. What check does for an entry takes the
# longer the more services there are.
SERVICES = {"list": 2000, "show": 4000, "check": 300}
MORE_SERVICES = {"list": 10000, "show": 10000, "check": 1000}
# How many of them are a node's.
SERVICES_EACH = 64
# How long a command may keep others from the log at a time, and how often it is tried, since it may have to wait for a
# processor.
MOST_SECONDS = 0.05
TRIES = 3
# How often the log is tried for, and after which pause of who tries nothing is known of the time between.
PROBE_SECONDS = 0.0002
PAUSE_SECONDS = 0.01


def long_log(services):
    """The bytes of a log in which so many services stand, of nodes that nobody ever claimed."""
    entries = []
    for number in range(services):
        name = f"service/{number}"
        found = hashlib.sha1(PREFIXES["event"] + name.encode()).digest()
        node = FILLER + number // SERVICES_EACH
        entries += created(node, number, event_form(found=found, name=name, creator=node), found)
    return header_bytes() + b"".join(entries)


class Probe(threading.Thread):
    """Tries for a log's lock again and again, and knows for how long at most others have had it without a pause."""

    def __init__(self, path):
        super().__init__(daemon=True)
        self.path, self.is_over = path, threading.Event()
        self.begin, self.last, self.longest = None, 0, 0

    def run(self):
        """Tries until it is over."""
        with open(self.path, "rb") as file:
            while not self.is_over.wait(PROBE_SECONDS):
                self.note(is_held(file), time.monotonic())

    def note(self, held, now):
        """Takes note of whether others have the log now."""
        if not held:
            self.begin = None
        elif self.begin is None or now - self.last > PAUSE_SECONDS:
            self.begin = now
        else:
            self.longest = max(self.longest, now - self.begin)
        self.last = now


def is_held(file):
    """Whether others have the lock."""
    try:
        fcntl.flock(file, fcntl.LOCK_EX | fcntl.LOCK_NB)
    except BlockingIOError:
        return True
    fcntl.flock(file, fcntl.LOCK_UN)
    return False


def last_line(command, services):
    """How the last line begins that a command prints beside so many services."""
    return {"list": f"{services} services", "show": "* differs", "check": f"sound: {4 * services} entries"}[command]


def looked(runs, path, command, wanted):
    """Runs a command, and gives how long at most it had the log, and how long it took."""
    probe, begin = Probe(path), time.monotonic()
    probe.start()
    ran = once(runs, path, command, *["service/7"] * (command == "show"))
    seconds = time.monotonic() - begin
    probe.is_over.set()
    probe.join()
    fine = (ran.status, ran.err) == (0, "") and ran.out and ran.out[-1].startswith(wanted)
    runs.need(fine, f"{command} of a long log: status {ran.status}: {ran.err[:200]}{ran.out[-1:]}")
    return probe.longest, seconds


def check_command(runs, command, services):
    """A command has the log at no time for long."""
    path, wanted, found = runs.file(f"holds-{command}", long_log(services)), last_line(command, services), []
    while len(found) < TRIES and not any(held <= MOST_SECONDS for held, _ in found):
        found.append(looked(runs, path, command, wanted))
    held, seconds = min(found)
    what = f"{command} beside {services} services"
    runs.need(held <= MOST_SECONDS, f"{what} keeps others from the log for {held * 1e3:.0f} milliseconds")
    return f"{what} {held * 1e3:.0f} of {seconds * 1e3:.0f}"


def holds(runs, services):
    """Each command by itself at a log of its own, all at once."""
    with ThreadPoolExecutor(len(services)) as pool:
        found = list(pool.map(lambda command: check_command(runs, command, services[command]), services))
    print(f"others wait for so many milliseconds: {', '.join(found)}")
