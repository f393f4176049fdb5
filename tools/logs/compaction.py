"""Logs that are compacted: by one process or several, beside one that does nothing meanwhile, and where nodes died."""
import fcntl
import hashlib
import os
import time

from logs.deaths import DEAD, OTHER, alone, beside, check_clean, check_end, place, twice
from logs.form import MOST_ATTRIBUTES, read_log
from logs.history import FILLER, SHORT_LENGTH, check_beside, kept_folder, standing
from logs.runs import NO_CLEAN, Living, at_once
from logs.storm import PREFIXES, Process, check_entries, check_listings, check_replies, check_world
from logs.world import World
from logs.writing import created, ended, event_form, text_bytes

# Who does nothing while others compact, and who makes the log long.
IDLE, WORKER = 11, 12
# Rounds of who is idle: how many, with how many creates and closes each.
ROUNDS = 4
PAIRS = 160
# Of several that compact at once: their lines, and those of one that comes later.
NODES = (21, 22, 23)
LATE = 24
LINES = 900
LATE_LINES = 150
WAIT_SECONDS = 20
# By what service a log is made long without a process; and how long its creates and closes are, and an attribute.
FILLER_NAME = "filler"
PAIR_ENTRIES, PAIR_LENGTH = 8, 500
VALUE = "v" * 256
ATTRIBUTE_FORM = text_bytes("00") + text_bytes(VALUE)
# How many deaths are looked at at once, and for how long others are begun.
AT_ONCE = 8
DEATHS_SECONDS = 6


# ---- how a log becomes long


def filling(counter, count):
    """Creates and closes by a node that nobody has, of so many bytes or some more, with as many attributes as fit."""
    found, made, length = hashlib.sha1(PREFIXES["event"] + FILLER_NAME.encode()).digest(), [], 0
    while length < count:
        number = min(MOST_ATTRIBUTES, max(0, count - length - PAIR_LENGTH) // len(ATTRIBUTE_FORM))
        pairs = tuple((f"{key:02}", VALUE) for key in range(number))
        form = event_form(found=found, name=FILLER_NAME, attributes=pairs)
        made += created(FILLER, counter, form, found) + ended(FILLER, counter, counter, found)
        length, counter = sum(map(len, made[-PAIR_ENTRIES:])) + length, counter + 1
    return b"".join(made)


def fill(path, length=SHORT_LENGTH + 1):
    """Makes a log so long that it is compacted by who holds it next."""
    with open(path, "r+b") as file:
        fcntl.flock(file, fcntl.LOCK_EX)
        log = read_log(file.read())
        world = World(log.header.counter)
        for entry in log.entries:
            world.grant(entry)
        file.seek(log.whole)
        file.write(filling(world.counter, length - log.whole))


def services(lines):
    """The numbers of listed services by their names."""
    return {line.split()[1]: line.split()[3] for line in lines[:-1]}


# ---- beside one that does nothing


def settled(runs, path, node):
    """A process that has made two services, and has opened one of them again."""
    living = Living(runs, path, node)
    replies = [
        living.reply(f"event create {node} 0 kept max_nodes=4"),
        living.reply(f"pubsub create {node} 1 poses payload=fixed,Pose,24,8"),
        living.reply(f"event open {node} 2 kept"),
    ]
    fine = all(str(reply).startswith(f"ok {slot} number=") for slot, reply in enumerate(replies))
    runs.need(fine, f"who is to be idle replied {replies}")
    return living


def check_same_lists(runs, path, processes, what):
    """The processes list the same, and it is what all files come to."""
    listings = [process.listing() for process in processes]
    replayed = runs.replay_all(path, what)
    wanted = replayed[1].listing() if replayed else None
    runs.need(all(listing == wanted for listing in listings), f"{what}: they list {listings}, and it is {wanted}")
    return listings[0]


def works(runs, worker, number, what):
    """Creates and closes a service again and again, and leaves another one."""
    for _ in range(PAIRS):
        replies = [worker.reply(f"event create {WORKER} 0 busy"), worker.reply("close 0")]
        fine = str(replies[0]).startswith("ok 0 number=") and replies[1] == "closed 0"
        if not runs.need(fine, f"{what}: to a create and a close it replied {replies}"):
            return
    slot = 1 + number % 8
    lines = [f"rr create {WORKER} {slot} left/{number}", f"event open {WORKER} 20 kept", "close 20"]
    replies = [worker.reply(line) for line in lines]
    fine = replies[0].startswith(f"ok {slot} ") and replies[1].startswith("ok 20 ") and replies[2] == "closed 20"
    runs.need(fine, f"{what}: it replied {replies}")


def idle(runs):
    """One process creates and closes while another does nothing, again and again; it goes on as if it had followed."""
    path, what = runs.file("idle"), "beside one that is idle"
    sleeper, worker = settled(runs, path, IDLE), Living(runs, path, WORKER)
    stood = services(sleeper.listing())
    for number in range(ROUNDS):
        works(runs, worker, number, what)
        listing = services(check_same_lists(runs, path, [sleeper, worker], f"{what}, round {number}"))
        is_kept = stood.items() <= listing.items() and set(listing) - set(stood) == {f"left/{number}"}
        runs.need(is_kept, f"{what}: it stood {stood}, and then {listing}")
        lines = [f"rr open {IDLE} 9 left/{number}", "close 9", f"event create {IDLE} 10 busy", "close 10"]
        replies = [sleeper.reply(line) for line in lines]
        fine = replies[0] == f"ok 9 {listing[f'left/{number}']}" and replies[1] == "closed 9"
        runs.need(fine and replies[3] == "closed 10", f"{what}: who was idle replied {replies}")
        stood = listing
    check_beside(runs, path, what)
    count = len(os.listdir(kept_folder(path)))
    runs.need(count >= ROUNDS, f"{what}: it was compacted {count} times")
    check_end(runs, path, [worker, sleeper], what)
    print(f"{what}: {count} compactions by {ROUNDS * PAIRS} creates and closes")


# ---- several at once


def wait_for_compaction(path):
    """Waits until the log has been compacted once, for some time."""
    deadline = time.monotonic() + WAIT_SECONDS
    while not os.listdir(kept_folder(path)) and time.monotonic() < deadline:
        time.sleep(0.002)


def several(runs):
    """Some processes with calls on shared names compact at once, beside an idle one, and one comes in the midst."""
    path, what = runs.file("several"), "several that compact"
    sleeper = settled(runs, path, IDLE)
    stood = services(sleeper.listing())
    processes = [Process(runs, path, node, runs.random.randrange(2**32), False, calls=LINES) for node in NODES]
    late = Process(runs, path, LATE, runs.random.randrange(2**32), False, calls=LATE_LINES)
    for process in processes:
        process.start()
    wait_for_compaction(path)
    late.start()
    processes.append(late)
    for process in processes:
        process.join()
    runs.count("processes", len(processes))
    runs.count("calls", sum(len(process.replies) for process in processes))
    listing = services(check_same_lists(runs, path, [sleeper], what))
    runs.need(listing == stood, f"{what}: it stood {stood}, and then {listing}")
    replayed = runs.replay_all(path, what)
    if replayed:
        history, world = replayed
        for process in processes:
            check_replies(runs, process, f"{what}, node {process.node}")
            process.settle(history)
            check_entries(runs, process, history.log, f"{what}, node {process.node}")
        check_listings(runs, processes, history.log, what)
        check_world(runs, processes, world, what)
        runs.need(history.compactions() >= 2, f"{what}: it was compacted {history.compactions()} times")
        calls = sum(len(process.replies) for process in processes)
        print(f"{what}: {history.compactions()} compactions, {calls} calls")
    check_beside(runs, path, what)
    check_end(runs, path, [sleeper], what)


# ---- nodes that died before


def compacted_with(runs, death, name):
    """A log that a node left which died is compacted with what it left, and then that is given back."""
    path, maker = place(runs, name, death)
    fill(path)
    before = standing(path)
    ran = runs.run(path, OTHER, ["list"], flags=[NO_CLEAN])
    runs.need((ran.status, ran.err) == (0, ""), f"{name}: it replied {ran}")
    replayed = runs.replay_all(path, name)
    if replayed:
        history, world = replayed
        runs.need(history.compactions() == 1 and standing(path) != before, f"{name}: it wasn't compacted once")
        wanted = World(read_log(death.data).header.counter)
        for entry in read_log(death.data).entries:
            wanted.follow(entry)
        runs.need(world.left_by(DEAD) == wanted.left_by(DEAD), f"{name}: of the dead node is {world.left_by(DEAD)}")
        runs.need(ran.out == world.listing(), f"{name}: it listed {ran.out}")
    check_clean(runs, path, death.living, name)
    other = Living(runs, path, OTHER)
    line = death.line("open" if maker else "create", OTHER)
    replies = [other.reply(line), other.reply("close 0")]
    runs.need(str(replies[0]).startswith("ok 0 ") and replies[1] == "closed 0", f"{name}: it replied {replies}")
    check_end(runs, path, [other, maker] if maker else [other], name)
    runs.count("deaths")


def dead_before(runs):
    """A node dies after each of its entries, and the log is compacted before anybody cleans up."""
    deaths = [death for pattern in PREFIXES for kind in (alone, beside, twice) for death in kind(runs, pattern)]
    tries = list(enumerate(deaths))
    runs.random.shuffle(tries)

    def look(found):
        operation = read_log(found[1].data).entries[-1].operation
        compacted_with(runs, found[1], f"compacted-{found[0]}-{found[1].pattern}-{operation}")

    done = at_once(look, tries, DEATHS_SECONDS, least=8, threads=AT_ONCE)
    print(f"compacted after {done} of {len(tries)} deaths")


# ---- a log with a second name


def linked(runs):
    """A log gets a second name while a process uses it, and another one comes: it isn't compacted any more."""
    path, what = runs.file("linked"), "a log that is linked"
    worker = Living(runs, path, WORKER)
    made = [worker.reply(f"event create {WORKER} 1 kept")]
    os.link(path, path.with_name("elsewhere"))
    other = Living(runs, path, IDLE)
    made.append(other.reply(f"event create {IDLE} 1 beside"))
    stood = standing(path)[0]
    for _ in range(2 * PAIRS):
        made += [worker.reply(f"event create {WORKER} 0 busy"), worker.reply("close 0")]
    runs.need(None not in made and all(reply[:3] in ("ok ", "clo") for reply in made), f"{what}: it replied {made}")
    runs.need(standing(path)[0] == stood, f"{what}: another file has the path")
    runs.need(not path.with_name("log.compacted").exists(), f"{what}: a file is left beside it")
    listed = services(other.listing())
    runs.need(set(listed) == {"beside", "kept"}, f"{what}: it lists {listed}")
    for process in (worker, other):
        ran = process.end()
        runs.need((ran.status, ran.out, ran.err) == (0, [], ""), f"{what}: node {process.node} ended with {ran}")


def compaction(runs):
    """All of it, one after the other."""
    for part in (idle, several, dead_before, linked):
        part(runs)
