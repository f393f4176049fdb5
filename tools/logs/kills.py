"""Processes that are killed on entry to each of their calls by which files are changed (tools/calls.c)."""
import os
import re
import signal
import time
from functools import partial

from logs.compaction import IDLE, check_same_lists, fill, services, settled
from logs.deaths import OTHER, check_end
from logs.history import SHORT_LENGTH, check_beside
from logs.runs import BUSY, Living, at_once

VICTIM = 13
# How long others wait for one who is stopped, in milliseconds, and how long it may take until it is.
WAIT = 200
STOP_SECONDS = 10
# How many kills are looked at at once, and for how long others are begun; and more calls than there are.
AT_ONCE = 8
SECONDS = 22
MOST_CALLS = 400
# What has to be among the calls, with a compaction and without one.
CALLS = {"open", "flock", "pwrite"}
CALLS_OF_COMPACTION = {"unlink", "fchmod", "fsync", "rename"}


def lives(victim, path, is_long):
    """The victim's life, with a compaction or without. Tells whether it ended by itself."""
    replies = [victim.reply(f"event create {VICTIM} 0 mortal max_nodes=2")]
    if is_long and replies[0]:
        fill(path)
    for line in (f"event open {VICTIM} 1 kept", "list", "close 0", "close 1"):
        replies.append(victim.reply(line) if replies[-1] else None)
    ran = victim.end()
    return ran.status == 0, replies, ran.err


def check_left(runs, path, stood, what):
    """What is left agrees, and is the old file or the new one. Another process goes on, and gives back."""
    replayed = runs.replay_all(path, what)
    if not replayed:
        return
    listing = services(replayed[1].listing())
    runs.need(stood.items() <= listing.items(), f"{what}: it stood {stood}, and then {listing}")
    runs.need(replayed[0].compactions() <= 1, f"{what}: it was compacted {replayed[0].compactions()} times")
    check_beside(runs, path, what, most=1)
    lines = ["list", f"event create {OTHER} 0 mortal", f"event open {OTHER} 1 kept", "close 0", "close 1"]
    ran = runs.run(path, OTHER, lines)
    texts = "\n".join(ran.out[-5:])
    fine = re.fullmatch(r"\d services\nok 0 number=\d+\nok 1 number=\d+\nclosed 0\nclosed 1", texts)
    runs.need(fine and (ran.status, ran.err) == (0, ""), f"{what}: another one replied {ran}")
    runs.need(services(ran.out[:-4]) == stood, f"{what}: another one listed {ran.out}, and there was {stood}")


def check_next(runs, path, sleeper, what):
    """Who was idle goes on, and the next compaction leaves nothing beside the log."""
    replies = [sleeper.reply(f"event open {IDLE} 5 kept"), sleeper.reply("close 5")]
    fine = str(replies[0]).startswith("ok 5 ") and replies[1] == "closed 5"
    runs.need(fine, f"{what}: who was idle replied {replies}")
    fill(path)
    ran = runs.run(path, OTHER, ["list"])
    runs.need((ran.status, ran.err) == (0, "") and ran.out[-1:] == ["2 services"], f"{what}: at the next {ran}")
    check_beside(runs, path, f"{what}, after the next compaction")
    runs.need(path.stat().st_size < SHORT_LENGTH, f"{what}: it is {path.stat().st_size} bytes long in the end")
    check_same_lists(runs, path, [sleeper], f"{what}, in the end")


def killed_at(runs, flags, is_long, number):
    """A process is killed on entry to one of its calls; the others go on. Nothing where it ended before."""
    name = "-".join(["killed", "long" if is_long else "short", *(flag.strip("-") for flag in flags), str(number)])
    path = runs.file(name)
    told = path.parent.with_name(f"{name}-told")
    sleeper = settled(runs, path, IDLE)
    stood = services(sleeper.listing())
    victim = Living(runs, path, VICTIM, flags, CALLS_KILL=str(number), CALLS_TELL=str(told))
    is_over, replies, err = lives(victim, path, is_long)
    calls = told.read_text(encoding="utf-8").splitlines()
    told.unlink()
    what = f"{name}, on entry to {calls[-1].split()[0]}"
    runs.need(not err, f"{what}: it wrote {err!r}")
    runs.need(is_over or victim.process.returncode == -signal.SIGKILL, f"{what}: status {victim.process.returncode}")
    runs.need(not is_over or all(replies), f"{what}: it replied {replies}")
    runs.count("kills", not is_over)
    check_left(runs, path, stood, what)
    check_next(runs, path, sleeper, what)
    check_end(runs, path, [sleeper], what)
    return calls


def calls_of(runs, flags, is_long):
    """The names of the calls of one who isn't killed."""
    names = [call.split()[0] for call in killed_at(runs, flags, is_long, MOST_CALLS)]
    wanted = CALLS | (CALLS_OF_COMPACTION if is_long else set())
    runs.need(wanted <= set(names) and len(names) < MOST_CALLS, f"of the calls {len(names)} were seen: {set(names)}")
    return names


def wait_for_stop(process):
    """Waits until a process is stopped, for some time, and tells whether it is."""
    deadline, found = time.monotonic() + STOP_SECONDS, None
    while not found and time.monotonic() < deadline:
        time.sleep(0.002)
        found = os.waitid(os.P_PID, process.pid, os.WSTOPPED | os.WNOWAIT | os.WNOHANG)
    return bool(found)


def stopped(runs):
    """A process is stopped on entry to its renaming, after the mark: others wait for it, and then all goes on."""
    for is_killed in (False, True):
        path, what = runs.file("stopped-mover"), f"who is stopped before it renames{', and is killed' * is_killed}"
        sleeper = settled(runs, path, IDLE)
        stood = services(sleeper.listing())
        fill(path)
        victim = Living(runs, path, VICTIM, CALLS_STOP="rename")
        if not runs.need(wait_for_stop(victim.process), f"{what}: it didn't stop"):
            victim.kill()
            continue
        ran = runs.run(path, OTHER, ["list", f"event create {OTHER} 0 mortal"], wait=WAIT)
        texts = "\n".join([*ran.out, ran.err])
        fine = BUSY in texts and not any(reply.startswith("ok ") for reply in ran.out)
        runs.need(fine, f"{what}: meanwhile another one replied {ran}")
        if is_killed:
            victim.process.kill()
        victim.process.send_signal(signal.SIGCONT)
        replies = [victim.reply("list"), victim.reply(f"event create {VICTIM} 0 mortal"), victim.reply("close 0")]
        fine = replies[0] == "2 services" and str(replies[1]).startswith("ok 0 ") and replies[2] == "closed 0"
        runs.need(fine or is_killed, f"{what}: then it replied {replies}")
        victim.end()
        check_left(runs, path, stood, what)
        check_next(runs, path, sleeper, what)
        check_end(runs, path, [sleeper], what)


def kills(runs):
    """A process is killed on entry to each of its calls, within a compaction and without one, also synchronized."""
    stopped(runs)
    tries = []
    for is_long in (True, False):
        for flags in ((), ("--sync",)):
            count = len(calls_of(runs, flags, is_long))
            tries += [partial(killed_at, runs, flags, is_long, number + 1) for number in range(count)]
    runs.random.shuffle(tries)
    done = at_once(lambda look: look(), tries, SECONDS, threads=AT_ONCE)
    print(f"killed on entry to {done} of {len(tries)} calls")
