"""A million creates and closes at one log, or a tenth of that: it stays short, and its processes small."""
import re
import subprocess
import threading
import time

from logs.history import SHORT_LENGTH, check_beside
from logs.runs import Living

NODE, IDLE, LATE = 41, 42, 43
# How many creates and closes, and how many at a time.
MILLION = 1000000
TENTH = 100000
AT_A_TIME = 5000
# How long the file is at most in the end, how long a start takes, and how much more memory a process has than early on.
MOST_BYTES = 2 * SHORT_LENGTH
START_SECONDS = 0.02
STARTS = 20
MOST_MORE = 64


def peak(process):
    """How many kibibytes of memory a process had at most."""
    with open(f"/proc/{process.pid}/status", encoding="ascii") as file:
        return int(re.search(r"VmHWM:\s*(\d+) kB", file.read())[1])


def feed(stream, count):
    """Gives a process the lines of so many creates and closes."""
    stream.write(f"event create {NODE} 0 busy\nclose 0\n".encode() * count)
    stream.flush()


def pairs(runs, living, count, first, what):
    """So many creates and closes, of which the first has this number. Tells whether each was answered rightly."""
    feeder = threading.Thread(target=feed, args=[living.process.stdin, count])
    feeder.start()
    for number in range(first, first + count):
        replies = living.process.stdout.readline(), living.process.stdout.readline()
        if replies != (f"ok 0 number={number}\n".encode(), b"closed 0\n"):
            living.kill()
            feeder.join()
            return runs.need(False, f"{what}: to create {number} it replied {replies}")
    feeder.join()
    living.watch()
    runs.count("calls", 2 * count)
    return True


def start_seconds(runs, path, what):
    """How long a start with a list takes: the least of some."""
    seconds = []
    for number in range(STARTS):
        begin = time.monotonic()
        ran = subprocess.run([*runs.words(path, LATE)], input=b"list\n", capture_output=True, check=False)
        seconds.append(time.monotonic() - begin)
        fine = (ran.returncode, ran.stdout.split(b"\n")[-2]) == (0, b"1 services")
        runs.need(fine, f"{what}: start {number} replied {ran}")
    return min(seconds)


def endurance(runs, total=TENTH):
    """So many creates and closes by a process, beside one that does nothing and has a service."""
    path, what = runs.file("endurance"), f"{total} creates and closes"
    idle = Living(runs, path, IDLE)
    runs.need(idle.reply(f"event create {IDLE} 0 kept") == "ok 0 number=0", f"{what}: nothing was made")
    living, early, begin = Living(runs, path, NODE, CALLS_KEEP=""), 0, time.monotonic()
    for at in range(0, total, AT_A_TIME):
        if at >= total // 10 and not early:
            early = peak(living.process)
        idle.watch()
        if not pairs(runs, living, AT_A_TIME, 1 + at, what):
            return
    seconds, late = time.monotonic() - begin, peak(living.process)
    size = path.stat().st_size
    runs.need(size <= MOST_BYTES, f"{what}: the log has {size} bytes")
    runs.need(late <= early + MOST_MORE, f"{what}: memory grew from {early} to {late} kB")
    idle.watch()
    least = start_seconds(runs, path, what)
    runs.need(least <= START_SECONDS, f"{what}: a start takes {least * 1e3:.1f} ms")
    lines = ("list", f"event create {IDLE} 1 last", "close 1", "close 0")
    replies = [idle.reply(line) for line in lines]
    wanted = ["1 services", f"ok 1 number={total + 1}", "closed 1", "closed 0"]
    runs.need(replies == wanted, f"{what}: who was idle replied {replies}, and not {wanted}")
    check_beside(runs, path, what)
    for process in (living, idle):
        ran = process.end()
        runs.need((ran.status, ran.out, ran.err) == (0, [], ""), f"{what}: node {process.node} ended with {ran}")
    replayed = runs.replay(path.read_bytes(), what)
    if replayed:
        runs.need(not replayed[1].remains(), f"{what}: in the end there is {replayed[1].remains()}")
    print(f"{what} in {seconds:.0f} s: {size} bytes, {early} and then {late} kB, a start in {least * 1e3:.1f} ms")
