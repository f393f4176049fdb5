"""A process whose log may not grow for a while: a call is refused in its midst, and what it left is given back later.

That is done before the next line. What else the process has stays, and the next calls are as if nothing had been.
"""
import resource

from logs.commands import once
from logs.deaths import CLOSED_LAST, CREATED
from logs.form import read_log
from logs.runs import FAULT, STAYS, Living, at_once

NODE, OTHER = 61, 62
# What stays open meanwhile, and what is made and closed beside it.
KEPT, OWED = f"event create {NODE} 0 kept", [f"pubsub create {NODE} 1 owed", "close 1"]
OPERATIONS = [*CREATED, *CREATED, *CLOSED_LAST, *CLOSED_LAST]
# The place of the first entry of what is made beside it, that of its close, and the one after.
MADE, CLOSED, DONE = 4, 8, 12
# For how many bytes of the refused entry there is room.
PIECE = 7
# What a node has with one service and with two: tickets, tags, and places.
ONE, TWO = (1, 1, 1), (2, 2, 2)


class Limited(Living):
    """A process whose files may only grow up to a length that changes. It is told so by an error, not by a signal."""

    options = {"restore_signals": False}

    def limit(self, length=None):
        """No file may grow over this length; any may where there is none."""
        hard = resource.prlimit(self.process.pid, resource.RLIMIT_FSIZE)[1]
        resource.prlimit(self.process.pid, resource.RLIMIT_FSIZE, (hard if length is None else length, hard))


def whole(runs):
    """The entries of all calls, none of which is refused; nothing where they are others."""
    path = runs.file("owed-whole")
    ran = runs.run(path, NODE, [KEPT, *OWED, "close 0"])
    wanted = ["ok 0 number=0", "ok 1 number=1", "closed 1", "closed 0"]
    runs.need((ran.status, ran.out, ran.err) == (0, wanted, ""), f"what is owed: nothing was refused, and {ran}")
    entries = read_log(path.read_bytes()).entries
    operations = [entry.operation for entry in entries]
    return entries if runs.need(operations == OPERATIONS, f"what is owed: in the log is {operations}") else None


def has(runs, path, wanted, what):
    """The log is sound, by this reader and by the program, and the node has this in it."""
    replayed = runs.replay(path.read_bytes(), what)
    if replayed:
        left = replayed[1].left_by(NODE)
        runs.need(left == wanted, f"{what}: the node has {left}, and not {wanted}")
    ran = once(runs, path, "check")
    fine = (ran.status, ran.err) == (0, "") and ran.out[-1].startswith("sound: ")
    runs.need(fine, f"{what}: check replied {ran}")


def answer_begins(at):
    """How the answer begins to the call whose entry at this place is refused."""
    if at < CLOSED:
        return "PublishSubscribeCreateError::"
    # A close whose release is refused leaves its slot open, to be closed again.
    return "not closed 1" if at == CLOSED else "closed 1"


def refused(runs, entries, at):
    """The entry at this place is refused, and all later ones of its call. Then there is room again."""
    path, what = runs.file(f"owed-{at}"), f"what is owed of a refused {entries[at].operation}, entry {at}"
    before, line = ([KEPT], OWED[0]) if at < CLOSED else ([KEPT, OWED[0]], OWED[1])
    living, is_open = Limited(runs, path, NODE), at == CLOSED
    replies = [str(living.reply(one)) for one in before]
    living.limit(entries[at - 1].end + PIECE)
    answer = str(living.reply(line))
    living.limit()
    fine = all(reply.startswith("ok ") for reply in replies) and answer.startswith(answer_begins(at))
    runs.need(fine, f"{what}: it replied {replies} and {answer!r}")
    listed = living.reply("list")
    runs.need(listed == f"{1 + is_open} services", f"{what}: then it listed {listed!r}")
    has(runs, path, TWO if is_open else ONE, what)
    *closes, made, closed = [str(living.reply(one)) for one in [OWED[1]] * is_open + OWED]
    fine = made.startswith("ok 1 number=") and {closed, *closes} == {"closed 1"}
    runs.need(fine, f"{what}: then it replied {closes}, {made!r} and {closed!r}")
    has(runs, path, ONE, what)
    last, ran = living.reply("close 0"), living.end()
    runs.need((last, ran.status, ran.out) == ("closed 0", 0, []), f"{what}: it replied {last!r} and ended with {ran}")
    replayed = runs.replay(path.read_bytes(), what)
    if replayed:
        runs.need(not replayed[1].remains(), f"{what}: in the end there is {replayed[1].remains()}")


def refused_hold(runs, length):
    """A hold whose call is refused in its midst can't give back what that left, and tells so. Then clean does."""
    path, what = runs.file("owed-hold"), "a hold whose call is refused in its midst"
    runs.run(path, OTHER, ["list"])
    words = [runs.program, "hold", "--at", str(path), "--node", str(NODE), "event", "create", "kept"]
    others = {"env": runs.environment(path), "restore_signals": False}
    ran = runs.ran(words, preexec_fn=lambda: resource.setrlimit(resource.RLIMIT_FSIZE, (length, length)), **others)
    fine = (ran.status, ran.out) == (FAULT, []) and ran.err.endswith(f"wulameron: {path}: {STAYS}\n")
    runs.need(fine, f"{what}: it ended with {ran}")
    ran, wanted = runs.clean(path), [f"node {NODE}: 0 releases, 1 removals"]
    runs.need((ran.status, ran.out, ran.err) == (0, wanted, ""), f"{what}: clean replied {ran}, and not {wanted}")


def owed(runs):
    """Each entry of a create and of a close, refused one at a time, and a hold that is refused."""
    entries = whole(runs)
    if entries:
        at_once(lambda at: refused(runs, entries, at), range(MADE, DONE), 0)
        refused_hold(runs, entries[0].end + PIECE)
