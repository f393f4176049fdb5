"""Programs in another language that have sessions over one log, each by a process that it asks in escaped lines."""
import json
import signal
import subprocess
import urllib.parse

from logs.runs import FAULT, PATIENCE, SECONDS

# The name has what parts words, terms and values, and a character of three bytes.
NAME = "lamps, 100%: a=b \u20ac"
KEY, VALUE = "colour of it", ""
READY = "ready 3 "
# For how many milliseconds who wants a node waits that another has.
SHORT_WAIT = 100
# DoesNotSupportRequestedAmountOfListeners and ExceedsMaxNumberOfNodes, by their places in docs/REFUSALS.md.
TOO_FEW_LISTENERS, TOO_MANY_NODES = 1013, 1016


def leaf(text):
    """A text as a leaf, by the standard library's reader of the same escapes."""
    return urllib.parse.quote(text, safe="/!\"#$&'()*+;<>?@[\\]^`{|}~") or "%"


def text_of(word):
    """The text of a leaf."""
    return "" if word == "%" else urllib.parse.unquote(word, errors="strict")


class Client:
    """A session over a log by a process of its own. It reads the line that answers none first."""

    def __init__(self, runs, path, *words, wait=PATIENCE):
        self.runs = runs
        streams = {"stdin": subprocess.PIPE, "stdout": subprocess.PIPE, "stderr": subprocess.PIPE}
        words = [runs.program, "run", "--escaped", "--at", str(path), "--wait", str(wait), *words]
        self.process = subprocess.Popen(words, env=runs.environment(path), **streams)
        runs.count("processes")
        self.first = self.reply()

    def reply(self):
        """The next line that it writes, without its end. Nothing where it ends."""
        line = self.process.stdout.readline().decode("ascii")
        return line[:-1] if line.endswith("\n") else None

    def ask(self, line):
        """Writes a line, and reads its reply."""
        self.runs.count("calls")
        self.process.stdin.write(line.encode() + b"\n")
        self.process.stdin.flush()
        return self.reply()

    def answers(self, line, reply):
        """A line has this reply."""
        found = self.ask(line)
        self.runs.need(found == reply, f"the line {line!r} is answered by {found!r}, not {reply!r}")

    def end(self):
        """Ends its input, and gives its status, what it wrote since then, and what it wrote of errors."""
        self.process.stdin.close()
        rest = self.process.stdout.read()
        return self.process.wait(SECONDS), rest, self.process.stderr.read()

    def kill(self):
        """Kills it."""
        self.runs.count("kills")
        self.process.send_signal(signal.SIGKILL)
        self.process.wait(SECONDS)


def call(how, node, slot, terms=""):
    """The line of a call for the service of events."""
    return f"event {how} {node} {slot} {leaf(NAME)}{terms}"


def shown(runs, path):
    """What the command show has of the service, as another process sees it. Nothing where there is none."""
    ran = runs.ran([runs.program, "show", "--at", str(path), "--json", NAME])
    return json.loads("".join(ran.out))["service"] if ran.status == 0 else None


def check_shown(runs, path, alive, what):
    """The command show and a reader of the file have the service with these nodes, each alive or not."""
    found = shown(runs, path)
    nodes = {one["node"]: one["alive"] for one in found["nodes"]} if found else {}
    runs.need(nodes == alive, f"{what}: show has the nodes {nodes}, not {alive}")
    replayed = runs.replay(path.read_bytes(), what)
    if replayed:
        members = {ticket.node for ticket in replayed[1].tickets.values()}
        runs.need(members == set(alive), f"{what}: the file has the nodes {members}, not {set(alive)}")


def check_agreed(runs, path, client):
    """What was agreed on is shown as the line that asks for it: who asks so creates the same, under another name."""
    words = (client.ask("show 0") or "").split(" ")
    runs.need(words[:5] == ["agreed", "0", "number=0", "node=1", "creator=1"], f"a slot is shown as {words[:5]}")
    runs.need(words[5] == "created=7,5", f"the creation time is shown as {words[5]}")
    runs.need(words[6] == f"hash={shown(runs, path)['hash']}", f"the hash is shown as {words[6]}")
    asks = words[7:]
    runs.need(asks[:5] == ["event", "create", "1", "0", leaf(NAME)], f"what asks for it begins by {asks[:5]}")
    runs.need("max_listeners=4" in asks and asks[-1] == f"attribute={leaf(KEY)}:{leaf(VALUE)}", f"it goes on by {asks[5:]}")
    again = " ".join([*asks[:3], "9", "twin", *asks[5:], "now=7,5"])
    client.answers(again, "ok 9 number=1")
    twin = (client.ask("show 9") or "").split(" ")
    runs.need(twin[12:] == asks[5:], f"who asks so is shown {twin[12:]}, not {asks[5:]}")
    told = (client.ask("bytes 0") or "").split(" ")
    runs.need(told[:2] == ["bytes", "0"] and NAME.encode().hex() in told[2], f"the bytes of a slot are {told}")
    client.answers("close 9", "closed 9")
    client.answers("show 9", "slot 9 empty")
    client.answers("bytes 9", "slot 9 empty")


def check_misuse(runs, client, node):
    """What is no line of such a session, or not this session's, changes nothing and is told so."""
    broken = "{}: a % stands before two digits of a byte of UTF-8"
    client.answers(f"event create {node} 5 %zz", "error: " + broken.format("%zz"))
    client.answers(f"event create {node} 5 %ff", "error: " + broken.format("%ff"))
    client.answers(f"event create {node} 5 x attribute=k%4:v", "error: " + broken.format("k%4"))
    for line in ("show", "show 64", "show 0 0", "nodes 1", "clean x", "refusal", "plain"):
        reply = client.ask(line)
        runs.need(reply is not None and reply.startswith("error: "), f"the line {line!r} is answered by {reply!r}")
    client.answers(f"event open {node + 1} 9 x", f"node {node + 1} is not this program's")
    client.answers("abandon 9", "slot 9 empty")
    client.answers("refusal 1000", "no refusal 1000")
    told = (client.ask(f"refusal {TOO_FEW_LISTENERS}") or "").split(" ")
    runs.need(text_of(told[2]) == "EventOpenError::DoesNotSupportRequestedAmountOfListeners", f"a refusal is told as {told}")
    client.answers("plain %", "plain %")
    client.answers(f"plain {leaf(f'event open {node + 1} 9 x')}", f"plain {leaf(f'node {node + 1} is not this program' + chr(39) + 's' + chr(10))}")
    told = (client.ask("plain nonsense") or "").split(" ")
    runs.need(told[0] == "wrong" and text_of(told[1]).startswith("nonsense: no such command"), f"a wrong plain line: {told}")


def check_dead(runs, path, client):
    """One of two nodes is dead: it is listed, would be cleaned up for, and is."""
    client.answers("nodes", "nodes 2 1,alive 2,dead")
    client.answers("clean 1", "node 1 is alive")
    client.answers("clean 7", "node 7 was never claimed")
    before = path.read_bytes()
    client.answers("rehearse", "cleaned nodes=1 releases=1 removals=1")
    runs.need(path.read_bytes() == before, "a rehearsal of cleaning changed the log")
    client.answers("clean", "cleaned nodes=1 releases=1 removals=1")
    client.answers("nodes", "nodes 2 1,alive 2,ended")
    check_shown(runs, path, {1: True}, "after a clean")


def check_blocked(runs, path):
    """Who is refused because of a dead node has what that had given back within the call."""
    opener = Client(runs, path, "--node", "2")
    opener.answers(call("open", 2, 0), "ok 0 number=0")
    third = Client(runs, path, "--node", "3")
    third.answers(call("open", 3, 0), f"refused {TOO_MANY_NODES} EventOpenError::ExceedsMaxNumberOfNodes")
    opener.kill()
    third.answers(call("open", 3, 0), "ok 0 number=0")
    check_shown(runs, path, {1: True, 3: True}, "after a dead node's place was taken")
    third.answers(f"plain {leaf('close 0')}", f"plain {leaf('closed 0' + chr(10))}")
    runs.need(third.end() == (0, b"", b""), "the session of the third node ends otherwise")
    check_shown(runs, path, {1: True}, "after the third node left")


def check_starts(runs, path):
    """A node that is alive isn't claimed twice, and what is no log has no session. The command that is gone says so."""
    again = Client(runs, path, "--node", "1", wait=SHORT_WAIT)
    runs.need((again.first or "").startswith("in use "), f"a claimed node is answered by {again.first}")
    runs.need(again.end() == (FAULT, b"", b""), "a session whose node is in use ends otherwise")
    other = runs.file("session_of_no_log", b"no log at all, but a text that is long enough to be read as one")
    none = Client(runs, other, "--node", "1")
    told = (none.first or "").split(" ")
    runs.need(told[0] == "log" and "no log" in text_of(told[1]), f"no log is answered by {none.first}")
    runs.need(none.end() == (FAULT, b"", b""), "a session over no log ends otherwise")
    cut = Client(runs, path)
    cut.process.stdin.write(b"nodes")
    status, rest, errors = cut.end()
    runs.need(status == 0 and rest.startswith(b"nodes ") and errors == b"", "a last line without an end isn't answered")
    gone = subprocess.run([runs.program, "session", "--at", str(path)], capture_output=True, check=False)
    runs.count("processes")
    runs.need(gone.returncode == 2 and b"run --escaped" in gone.stderr, f"the command that is gone says {gone}")
    form = int.from_bytes(gone.stdout[4:8], "little")
    runs.need(len(gone.stdout) == 48 and form == 2, f"an older library reads the form {gone.stdout}")


def sessions(runs):
    """Sessions of several programs over one log, of which one is killed."""
    path = runs.file("session")
    maker = Client(runs, path, "--node", "1")
    runs.need(maker.first == READY + "1", f"a session begins by {maker.first}")
    terms = f" max_nodes=2 max_listeners=4 deadline=1,0 now=7,5 attribute={leaf(KEY)}:{leaf(VALUE)}"
    maker.answers(call("create", 1, 0, terms), "ok 0 number=0")
    check_agreed(runs, path, maker)
    check_misuse(runs, maker, 1)
    maker.answers(call("open", 1, 0), "slot 0 in use")
    entry = f"published,event,0,1,2,{shown(runs, path)['hash']},{leaf(NAME)}"
    maker.answers("entries", f"entries 1 {entry}")
    opener = Client(runs, path, "--node", "2")
    refused = f"refused {TOO_FEW_LISTENERS} EventOpenError::DoesNotSupportRequestedAmountOfListeners"
    opener.answers(call("open", 2, 0, " max_listeners=5"), refused)
    opener.answers(call("open", 2, 0, " max_listeners=3"), "ok 0 number=0")
    check_shown(runs, path, {1: True, 2: True}, "with two nodes")
    opener.kill()
    check_dead(runs, path, maker)
    check_blocked(runs, path)
    check_starts(runs, path)
    maker.answers("close 1", "slot 1 empty")
    runs.need(maker.end() == (0, b"", b""), "a session ends otherwise")
    check_shown(runs, path, {}, "after all have ended")
