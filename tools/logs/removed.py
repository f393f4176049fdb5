"""A log that is removed or renamed while a process uses it: the process writes nothing more, and ends by name."""
import subprocess

from logs.commands import Command
from logs.history import check_beside
from logs.runs import FAULT, GONE, Living

# Who has the log that is taken away, and who makes another one.
LOSER, OTHER = 61, 62
# What is called then, with slot 1 in use.
LINES = (f"event create {LOSER} 0 fresh", f"event open {LOSER} 0 kept", "close 1")
# How long it may take until a process ends by itself whose log is gone.
END_SECONDS = 3


def take_away(path, kind):
    """The log loses its path, or gets another one."""
    if kind == "removed":
        path.unlink()
    else:
        path.rename(path.with_name("elsewhere"))


def user_of(runs, path, node, name):
    """A process that has made a service."""
    living = Living(runs, path, node)
    reply = living.reply(f"event create {node} 1 {name}")
    runs.need(str(reply).startswith("ok 1 "), f"a log that is taken away: node {node} replied {reply}")
    return living


def ended(process):
    """How a process ended, and whether it did so before its input ended."""
    try:
        process.process.wait(END_SECONDS)
        return process.end(), True
    except subprocess.TimeoutExpired:
        return process.end(), False


def faults_of(loser, path, line):
    """What is wrong with the next call at a log that is taken away, and with the end of who made it."""
    reply = loser.reply(line)
    if reply and reply.startswith(("ok ", "closed ")):
        yield f"to {line!r} it replied {reply!r}"
    ran, is_by_itself = ended(loser)
    if not is_by_itself:
        yield "it didn't end"
    if ran.status != FAULT or f"wulameron: {path}: {GONE}; start the program again" not in ran.err.splitlines():
        yield f"it ended with {ran}"


def taken(runs, kind, line, is_replaced):
    """A log is taken away, and another one is made there before the next call or after it."""
    path, what = runs.file("taken"), f"a log that is {kind}{', and made anew' * is_replaced}"
    loser = user_of(runs, path, LOSER, "kept")
    with open(path, "rb") as file:
        before = file.read()
        take_away(path, kind)
        other = user_of(runs, path, OTHER, "beside") if is_replaced else None
        made = path.read_bytes() if is_replaced else None
        faults = list(faults_of(loser, path, line))
        file.seek(0)
        if file.read() != before:
            faults.append("something was written to the old file")
    if (path.read_bytes() if path.exists() else None) != made:
        faults.append("it wrote to the path")
    runs.need(not faults, f"{what}: {'; '.join(faults)}")
    check_other(runs, path, other or user_of(runs, path, OTHER, "beside"), what)


def check_other(runs, path, other, what):
    """Who has the other log has its own service alone, and goes on."""
    replies = [other.reply(line) for line in ("list", f"event create {OTHER} 0 fresh", "close 0", "close 1")]
    fine = replies[0] == "1 services" and str(replies[1]).startswith("ok 0 ")
    runs.need(fine and replies[2:] == ["closed 0", "closed 1"], f"{what}: who made another replied {replies}")
    ran = other.end()
    runs.need((ran.status, ran.out, ran.err) == (0, [], ""), f"{what}: who made another ended with {ran}")
    replayed = runs.replay(path.read_bytes(), what)
    if replayed:
        writers = {entry.node for entry in replayed[0].entries}
        runs.need(writers == {OTHER}, f"{what}: in the other log the nodes {writers} wrote")
        runs.need(not replayed[1].remains(), f"{what}: in the end there is {replayed[1].remains()}")


def came_back(runs):
    """A log that is renamed and has its path again before the next call is used on."""
    path, what = runs.file("back"), "a log that was renamed and came back"
    living = user_of(runs, path, LOSER, "kept")
    take_away(path, "renamed")
    path.with_name("elsewhere").rename(path)
    replies = [living.reply(line) for line in (*LINES, "close 0")]
    fine = [reply and reply.split()[0] for reply in replies] == ["ok", "slot", "closed", "closed"]
    runs.need(fine, f"{what}: it replied {replies}")
    ran = living.end()
    runs.need((ran.status, ran.out, ran.err) == (0, [], ""), f"{what}: it ended with {ran}")
    replayed = runs.replay(path.read_bytes(), what)
    if replayed:
        runs.need(not replayed[1].remains(), f"{what}: in the end there is {replayed[1].remains()}")
    check_beside(runs, path, what)


def input_ends(runs):
    """The input of a run and of a hold ends after their log was removed: each tells that, and nothing else."""
    for name, words, line in (("run", [], f"event create {LOSER} 0 kept\n"), ("hold", ["event", "create", "kept"], "")):
        path, what = runs.file("input-ends"), f"an end of {name} whose log was removed"
        command = Command(runs, path, name, "--node", str(LOSER), *words)
        command.process.stdin.write(line.encode())
        command.process.stdin.flush()
        command.line()
        path.unlink()
        status, _, err = command.end()
        fine = status == FAULT and err == f"wulameron: {path}: {GONE}; start the program again\n"
        runs.need(fine, f"{what}: it ended with {status}: {err}")


def removed(runs):
    """A log is removed or renamed, before each call, and with another one at its path or not; one comes back; and the
    input of a run and of a hold ends whose log is gone."""
    for kind in ("removed", "renamed"):
        for is_replaced in (False, True):
            for line in LINES if is_replaced else LINES[:1]:
                taken(runs, kind, line, is_replaced)
    came_back(runs)
    input_ends(runs)
