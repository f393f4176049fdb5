"""The commands that look at a log, hold a call and clean up, beside each other, with a process killed in between."""
import json
import queue
import signal
import subprocess
import threading
import time

from logs.runs import SECONDS, snapshot

NAME = "lamps"
# The verb of each entry in the program's lines.
VERBS = {
    "make_tag": "makes tag",
    "remove_tag": "removes tag",
    "lock": "locks",
    "make_segment": "makes segment",
    "remove_segment": "removes segment",
    "remove_description": "removes description",
    "publish": "publishes",
    "open_segment": "opens",
    "release": "releases",
}
REFUSED = 1
# After how many seconds who watches has surely begun.
BEGUN = 1


def interruptible():
    """Lets a program be interrupted. A shell without job control has what it runs in the background ignore SIGINT, and
    the programs that such a script begins would ignore it too."""
    signal.signal(signal.SIGINT, signal.SIG_DFL)


class Command:
    """A process of the program whose lines are read as they come, and whose input is open until it is ended."""

    def __init__(self, runs, path, *words, **others):
        others |= {name: subprocess.PIPE for name in ("stdin", "stdout", "stderr")}
        self.process = subprocess.Popen(
            [runs.program, *words, "--at", str(path)], env=runs.environment(path), preexec_fn=interruptible, **others
        )
        runs.count("processes")
        self.lines = queue.Queue()
        self.reader = threading.Thread(target=self.read, daemon=True)
        self.reader.start()

    def read(self):
        """Keeps each line that it prints."""
        for line in self.process.stdout:
            self.lines.put(line.decode().rstrip("\n"))

    def line(self):
        """The next line that it prints; nothing where none comes in time."""
        try:
            return self.lines.get(timeout=SECONDS)
        except queue.Empty:
            return None

    def rest(self):
        """The lines that it has printed since."""
        found = []
        while not self.lines.empty():
            found.append(self.lines.get())
        return found

    def end(self, interrupt=False):
        """Ends its input, or interrupts it, and gives its status and what it printed since then on both streams."""
        if interrupt:
            self.process.send_signal(signal.SIGINT)
        else:
            self.process.stdin.close()
        try:
            status = self.process.wait(SECONDS)
        except subprocess.TimeoutExpired:
            self.process.kill()
            status = f"still running after {SECONDS} seconds"
        self.reader.join()
        return status, self.rest(), self.process.stderr.read().decode(errors="replace")

    def kill(self, runs):
        """Kills it."""
        runs.count("kills")
        self.process.send_signal(signal.SIGKILL)
        self.process.wait(SECONDS)


def once(runs, path, *words, **others):
    """Runs a command until it ends."""
    return runs.ran([runs.program, *words, "--at", str(path)], env=runs.environment(path), **others)


def listed(runs, path):
    """What list prints as JSON."""
    ran = once(runs, path, "list", "--json")
    runs.need(ran.status == 0, f"list ended with {ran.status}: {ran.err}")
    return json.loads("\n".join(ran.out) or "null")


def check_listed(runs, path, alive, what):
    """The list has the service with these nodes, each alive or not, as a reader in Python finds it in the file."""
    found = listed(runs, path)
    nodes = [
        {"alive": is_alive, "factories": 1, "node": node, "state": "alive" if is_alive else "dead"}
        for node, is_alive in sorted(alive.items())
    ]
    runs.need([one["name"] for one in found] == [NAME] * bool(alive), f"{what}: list has {found}")
    if found and alive:
        runs.need(found[0]["nodes"] == nodes, f"{what}: list has the nodes {found[0]['nodes']}, not {nodes}")
    replayed = runs.replay(path.read_bytes(), what)
    if replayed:
        members = {ticket.node for ticket in replayed[1].tickets.values()}
        runs.need(members == set(alive), f"{what}: the file has the nodes {members}, not {set(alive)}")


def check_change(runs, watch, change, node):
    """The next line of a watch is this change."""
    line = watch.line()
    found = json.loads(line) if line else {}
    wanted = {"change": change, "name": NAME, "node": node, "pattern": "event"}
    runs.need(
        {key: found.get(key) for key in wanted} == wanted, f"watch printed {line!r}, not {change} by node {node}"
    )


def check_dead(runs, path):
    """One of both nodes is dead: what shows it, and what cleans up for it."""
    nodes = once(runs, path, "nodes")
    wanted = ["node 1 alive", "node 2 dead", "node 3 ended"]
    runs.need(nodes.out == wanted, f"nodes printed {nodes.out}, not {wanted}")
    check_listed(runs, path, {1: True, 2: False}, "after a kill")
    before = snapshot(path)
    dry = once(runs, path, "clean", "--dry-run")
    runs.need(dry.status == 0 and len(dry.out) == 1 and "node 2" in dry.out[0], f"clean --dry-run: {dry}")
    alive = once(runs, path, "clean", "1")
    runs.need(alive.status == REFUSED and "alive" in alive.err, f"clean of a node that is alive: {alive}")
    runs.need(snapshot(path) == before, "clean --dry-run, or a clean that is refused, changed the log")
    ran = once(runs, path, "clean", "2")
    runs.need(ran.status == 0 and ran.out == ["node 2: 1 releases, 1 removals"], f"clean 2: {ran}")
    check_listed(runs, path, {1: True}, "after a clean")


def check_log(runs, path, first, follower):
    """The lines that log printed as they came, the first of which was read, are the entries of the file, and those that
    log prints at once."""
    replayed = runs.replay(path.read_bytes(), "after all commands")
    if not replayed:
        return
    entries = replayed[0].entries
    lines = [first, *(follower.line() for _ in entries[1:])]
    status, rest, err = follower.end(interrupt=True)
    lines += rest
    runs.need(status == -signal.SIGINT, f"log --follow ended with {status}: {err}")
    wanted = [f"{at} node {one.node} {VERBS[one.operation]} " for at, one in enumerate(entries)]
    runs.need(lines[0] is not None and len(lines) == len(wanted), f"log --follow printed {len(lines)} lines of {len(wanted)} entries")
    for line, front in zip(lines, wanted):
        runs.need((line or "").startswith(front), f"log --follow printed {line!r}, not {front!r}")
    at_once = once(runs, path, "log")
    runs.need(at_once.out == lines, "log prints other lines than log --follow")


def check_checked(runs, path):
    """The log is sound, and isn't where a byte of an entry in its midst is changed."""
    sound = once(runs, path, "check")
    runs.need(sound.status == 0 and sound.out[0].startswith("sound: "), f"check: {sound}")
    data = bytearray(path.read_bytes())
    data[len(data) // 2] ^= 1
    damaged = runs.file("commands_damaged", bytes(data))
    found = once(runs, damaged, "check")
    runs.need(found.status == 1 and found.out[0].startswith("wrong at byte "), f"check of a changed log: {found}")


def commands(runs):
    """A service is held by two processes of which one is killed, while others watch."""
    path = runs.file("commands")
    maker = Command(runs, path, "hold", "--node", "1", "event", "create", NAME, "max_nodes=3")
    runs.need(maker.line() == f"name: {NAME}", "hold doesn't print what was agreed")
    watch = Command(runs, path, "watch", "--json")
    follower = Command(runs, path, "log", "--follow")
    first = follower.line()
    time.sleep(BEGUN)
    opener = Command(runs, path, "hold", "--node", "2", "event", "open", NAME)
    runs.need(opener.line() == f"name: {NAME}", "hold of an open doesn't print what was agreed")
    check_change(runs, watch, "opened", 2)
    again = once(runs, path, "hold", "--node", "3", "event", "create", NAME)
    runs.need(again.status == REFUSED and "EventCreateError::AlreadyExists" in again.err, f"a second create: {again}")
    check_listed(runs, path, {1: True, 2: True}, "with two nodes")
    opener.kill(runs)
    check_dead(runs, path)
    check_change(runs, watch, "left", 2)
    ended = maker.end()
    runs.need(ended[0] == 0 and not ended[2], f"hold ended with {ended}")
    check_change(runs, watch, "left", 1)
    check_change(runs, watch, "removed", 1)
    status, rest, err = watch.end(interrupt=True)
    runs.need(status == -signal.SIGINT and not rest, f"watch ended with {status}, {rest}: {err}")
    check_listed(runs, path, {}, "after all have ended")
    check_log(runs, path, first, follower)
    check_checked(runs, path)
