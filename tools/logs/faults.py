"""What a program does at a log that is cut, changed, not a log, on a full disk, or held by another."""
import fcntl
import hashlib
import os
import resource
import shutil
import subprocess
import threading
import time

from logs.commands import BEGUN, Command, once
from logs.form import FILE_HEADER_LENGTH, read_log
from logs.runs import BUSY, FAULT, NO_CLEAN, NO_LOG, NO_PERMISSION, STAYS, Living, Ran, at_once, front_before
from logs.runs import fronts_of, leave_node, listings_of, node_files, node_path, snapshot, telling_first

# Where in an entry a cut or a change tells most: its parts' bounds.
BOUNDS = (-1, 0, 1, 4, 7, 8, 15, 16, 17, 25, 31, 39, 45)
MOST_CHANGES = 400
# The node of the runs at logs that others have made, whose name stands in none of them.
NODE = 77
LINES = [f"event open {NODE} 0 absent", "list", f"event create {NODE} 1 fresh", "list"]
# The commands that write what is wrong on the standard error, and words that tell nobody what that is.
COMMANDS = (["run", "--node", "1"], ["hold", "--node", "1", "event", "create", "lamps"], ["list"], ["show", "lamps"])
COMMANDS += (["nodes"], ["clean"], ["log"], ["watch"], ["check"])
UNTOLD = ("uncategorized error", "entity not found")
# A name that no file system has, and how much of a line is told.
LONG_NAME, TOLD = "n" * 300, 60
# A user who isn't root, to whom permissions mean something.
NOBODY = 65534
# The commands that only look at a log, but for `watch`; and how many bytes its last entry lacks where it is torn.
LOOKS = (["list"], ["list", "--json"], ["show", "lamps"], ["show", "lamps", "--json"], ["nodes"], ["log"], ["check"])
LOOKS += (["clean", "--dry-run"],)
TORN = 9


def make_log(runs):
    """A log of twenty entries, in which two services stand and one is gone."""
    path = runs.file("small")
    for node, lines in (
        (1, ["event create 1 0 lamps max_nodes=2", "pubsub create 1 1 poses payload=fixed,Pose,24,8"]),
        (2, ["event open 2 0 lamps", "rr create 2 1 plan", "close 1", "event open 2 2 lamps", "close 2"]),
    ):
        replies = runs.held(path, node, lines, [NO_CLEAN])
        fine = all(reply.startswith(("ok ", "closed ")) for reply in replies) and len(replies) == len(lines)
        runs.need(fine, f"the small log: node {node} replied {replies}")
    if not runs.need(path.exists(), "the small log: there is none"):
        return None
    data = path.read_bytes()
    replayed = runs.replay(data, "the small log")
    if not replayed or not runs.need(len(replayed[0].entries) == 20, f"it has {len(replayed[0].entries)} entries"):
        return None
    return data


# ---- cuts and changes


def check_goes_on(runs, path, front, ran, what):
    """The program cut off what stood after the front, and went on from there."""
    end, before, listing, counter = front
    fine = runs.need(ran.status == 0 and not ran.err, f"{what}: status {ran.status}: {ran.err[:200]}{ran.out[:3]}")
    wanted = ["EventOpenError::DoesNotExist", *listing, f"ok 1 number={counter}"]
    if not fine or not runs.need(ran.out[: len(wanted)] == wanted, f"{what}: it replied {ran.out}, and not {wanted}"):
        return
    after = path.read_bytes()
    runs.need(after[:end] == before, f"{what}: a whole entry is gone")
    replayed = runs.replay(after, what)
    if replayed:
        log, world = replayed
        added = [entry.node for entry in log.entries if entry.at >= end]
        runs.need(not log.torn and len(added) == 8 and set(added) == {NODE}, f"{what}: {len(added)} entries were added")
        runs.need(world.left_by(NODE) == (0, 0, 0), f"{what}: it left something")
        fresh = hashlib.sha1(b"efresh").hexdigest()
        second = [line for line in listings_of(ran.out)[-1] if fresh not in line]
        runs.need(second[:-1] == listing[:-1], f"{what}: it listed {second} then")


def check_refused(runs, path, before, ran, names, what):
    """The program ended by a named error, and changed nothing. But it may have claimed its node."""
    fine = ran.status == FAULT and any(f"{path}: {name}" in ran.err for name in names)
    runs.need(fine, f"{what}: status {ran.status}, not {names}: {ran.err[:200]!r} {ran.out[:3]}")
    check_unchanged(runs, path, before, what)


def check_unchanged(runs, path, before, what):
    """Nothing changed, and of nodes there is the empty file of the one that ran."""
    runs.need(snapshot(path) == before, f"{what}: something changed")
    own = node_path(path, NODE)
    fine = node_files(path) == [own.name] and own.is_file() and not own.stat().st_size
    runs.need(fine, f"{what}: the nodes' files are {node_files(path)}")


def cut_at(runs, data, fronts, end):
    """A log of which only so many bytes are left."""
    path, what = runs.file(f"cut-{end}", data[:end]), f"cut at byte {end}"
    before = snapshot(path)
    ran = runs.run(path, NODE, LINES)
    if end < FILE_HEADER_LENGTH:
        name = NO_LOG if end < 8 else "is damaged at byte 0"
        check_refused(runs, path, before, ran, [name], what)
    else:
        front, listing, counter = front_before(fronts, end)
        check_goes_on(runs, path, (front, data[:front], listing, counter), ran, what)
    runs.count("cuts")
    shutil.rmtree(path.parent)


def names_of_change(fronts, at):
    """The names by which the program may refuse a log whose byte there is another."""
    if at < 7:
        return [NO_LOG]
    if at == 7:
        return ["is a log of version "]
    return [f"is damaged at byte {0 if at < FILE_HEADER_LENGTH else front_before(fronts, at)[0]}"]


def change_at(runs, data, fronts, at, value):
    """A log of which one byte is another."""
    path, what = runs.file(f"change-{at}", data[:at] + bytes([value]) + data[at + 1 :]), f"byte {at} is {value}"
    before = snapshot(path)
    ran = runs.run(path, NODE, LINES)
    last = fronts[-2]
    if ran.status == 0 and at >= last[0]:
        check_goes_on(runs, path, (last[0], data[: last[0]], *last[1:]), ran, what)
    else:
        check_refused(runs, path, before, ran, names_of_change(fronts, at), what)
        known = [listing for _, listing, _ in fronts]
        is_known = all(listing in known for listing in listings_of(ran.out))
        runs.need(is_known, f"{what}: it listed another world: {ran.out}")
    runs.count("changes")
    shutil.rmtree(path.parent)


def cuts(runs, data, seconds):
    """The small log cut at each of its bytes."""
    fronts = fronts_of(data)
    ends = telling_first(runs.random, fronts, len(data), BOUNDS)
    done = at_once(lambda end: cut_at(runs, data, fronts, end), ends, seconds)
    print(f"cut at {done} of {len(ends)} bytes")


def changes(runs, data, seconds):
    """The small log with single bytes changed."""
    fronts = fronts_of(data)
    values = {at: data[at] ^ runs.random.randrange(1, 256) for at in range(len(data))}
    places = telling_first(runs.random, fronts, len(data), BOUNDS)[:MOST_CHANGES]
    done = at_once(lambda at: change_at(runs, data, fronts, at, values[at]), places, seconds)
    print(f"changed {done} of {len(data)} bytes")


# ---- what is no log


def make_things(runs, data):
    """Paths that are no usable log, each with the name by which the program refuses it."""
    things = [(runs.file("folder"), "is a folder"), (runs.file("link"), "is a symbolic link")]
    things[0][0].mkdir()
    target = runs.file("target", data)
    things[1][0].symlink_to(target)
    things.append((runs.file("dangling"), "is a symbolic link"))
    things[2][0].symlink_to(target.parent / "nothing")
    things.append((runs.file("pipe"), "is no file"))
    os.mkfifo(things[3][0])
    things.append((runs.file("empty", b""), NO_LOG))
    things.append((runs.file("foreign", b"These are lines of another program.\n" * 9), NO_LOG))
    things.append((runs.file("newer", data[:7] + b"\x03" + data[8:]), "is a log of version 3"))
    things.append((runs.file("older", data[:7] + b"\x01" + data[8:]), "is a log of version 1"))
    return things


def refused_things(runs, data):
    """A folder, a link, a pipe, an empty and a foreign file, and those of other versions."""
    for path, name in make_things(runs, data):
        before = snapshot(path)
        check_refused(runs, path, before, runs.run(path, NODE, LINES), [name], f"{path.parent.name}")


def make_places(runs):
    """Paths at which there can be no log, by what is wrong with them."""
    folder = runs.file("places").parent
    (folder / "file").write_bytes(b"")
    (folder / "loop").symlink_to(folder / "loop")
    return {
        "a folder that isn't there": folder / "nothing/log",
        "a file in place of a folder": folder / "file/log",
        "a name that is too long": folder / LONG_NAME,
        "a path that is too long": folder.joinpath(*[LONG_NAME[:200]] * 25, "log"),
        "a loop of links": folder / "loop/log",
    }


def refused_places(runs, _data):
    """Each command ends by a line in words of the program, whatever the system has to say of the path."""
    for what, path in make_places(runs).items():
        found = []
        for words in COMMANDS:
            ran = runs.ran([runs.program, *words, "--at", str(path)])
            is_line = ran.err.startswith("wulameron: ") and ran.err.count("\n") == 1
            is_told = ran.status == FAULT and is_line and not any(word in ran.err for word in UNTOLD)
            # No node has a file of such a name.
            if not is_told and (words, ran) != (["nodes"], Ran(0, [], "")):
                found.append(f"{words[0]} ended with {ran.status} and {ran.err[-TOLD:]!r}")
        runs.need(not found, f"{what}: {'; '.join(found)}")


def can_be_nobody():
    """Whether this is root, who may run programs as another user."""
    try:
        return os.geteuid() == 0 and subprocess.run(["true"], user=NOBODY, group=NOBODY).returncode == 0
    except (OSError, subprocess.SubprocessError):
        return False


def refused_permissions(runs, data):
    """Files that may not be read or written, by a user who isn't root."""
    other = {"user": NOBODY, "group": NOBODY, "extra_groups": []} if can_be_nobody() else {}
    if os.geteuid() == 0 and not other:
        print("root can run no program as another user: permissions are left out")
        return
    for mode in (0o000, 0o444, 0o222):
        path = runs.file(f"mode-{mode:03o}", data)
        path.chmod(mode)
        if other:
            os.chown(path, NOBODY, NOBODY)
            os.chown(path.parent, NOBODY, NOBODY)
        before = snapshot(path) if os.geteuid() == 0 else None
        ran = runs.run(path, NODE, LINES, **other)
        check_refused(runs, path, before or snapshot(path), ran, [NO_PERMISSION], f"mode {mode:03o}")
    folder = runs.file("closed")
    folder.parent.chmod(0o555)
    ran = runs.run(folder, NODE, LINES, **other)
    fine = ran.status == FAULT and f"{node_path(folder, NODE)}: {NO_PERMISSION}" in ran.err
    runs.need(fine, f"a folder that is read-only: {ran}")
    runs.need(not os.listdir(folder.parent), "a folder that is read-only: something was made")


def reader_fault(runs, path, own, words, other):
    """What is wrong where a user looks at a log that it may only read. Its owner looks at the same log at own."""
    before = snapshot(path)
    ran = once(runs, path, *words, **other)
    if snapshot(path) != before:
        return f"{' '.join(words)} changed something"
    wanted = once(runs, own, *words)
    fine = (ran.status, ran.out, ran.err.replace(str(path), str(own))) == (wanted.status, wanted.out, wanted.err)
    return None if fine else f"{' '.join(words)} replied {ran}, and to its owner {wanted}"


def check_readers(runs, places, other, what):
    """Who may only read a log is answered as its owner, and changes nothing."""
    found = [reader_fault(runs, *places(), words, other) for words in LOOKS]
    found = [fault for fault in found if fault]
    runs.need(not found, f"{what}, {len(found)} of {len(LOOKS)} commands: {''.join(found[:1])}")


def check_watcher(runs, path, living, other, what):
    """Who may only read a log and watches it has the lines that its owner has."""
    watches = [Command(runs, path, "watch", "--json", **one) for one in (other, {})]
    time.sleep(BEGUN)
    living.reply(f"event create {NODE} 1 more")
    if runs.need(watches[0].process.poll() is None, f"{what}: watch ended with {watches[0].process.poll()}"):
        lines = [watch.line() for watch in watches]
        runs.need(lines[0] and lines[0] == lines[1], f"{what}: watch printed {lines[0]!r}, and to others {lines[1]!r}")
    for watch in watches:
        watch.end(interrupt=True)


def readers(runs, data):
    """A log that a user may only read, of nodes that nobody claimed, with a torn end, of one that is alive, and of a
    dead one."""
    other = {"user": NOBODY, "group": NOBODY, "extra_groups": []} if can_be_nobody() else {}
    if os.geteuid() == 0 and not other:
        return

    def places(data):
        path, own = runs.file("readers", data), runs.file("owner", data)
        path.chmod(0o444)
        return path, own

    check_readers(runs, lambda: places(data), other, "a log that may only be read")
    check_readers(runs, lambda: places(data[:-TORN]), other, "a torn log that may only be read")
    path, what = runs.file("readers"), "a log in use that may only be read"
    living = Living(runs, path, NODE)
    living.reply(f"event create {NODE} 0 lamps")
    dead = runs.file("readers-dead")
    runs.held(dead, NODE, [f"event create {NODE} 0 lamps"])
    for name in (path, dead):
        name.chmod(0o444)
        node_path(name, NODE).chmod(0o444)
    if other:
        check_readers(runs, lambda: (path, path), other, what)
        check_readers(runs, lambda: (dead, dead), other, "a log of a dead node that may only be read")
    check_watcher(runs, path, living, other, what)
    ran = living.end()
    runs.need((ran.status, ran.out, ran.err) == (0, [], ""), f"{what}: its user ended with {ran}")


def refused_nodes(runs, data):
    """A node's file that may not be opened: nobody knows who is dead, and the command clean ends by a named error."""
    path, what = runs.file("nodes", data), "a node's file that may not be opened"
    leave_node(path, 1)
    leave_node(path, 2)
    node_path(path, 2).chmod(0o000)
    other = {"user": NOBODY, "group": NOBODY, "extra_groups": []} if can_be_nobody() else {}
    if os.geteuid() == 0 and not other:
        return
    for name in [path.parent, *path.parent.iterdir()] if other else []:
        os.chown(name, NOBODY, NOBODY)
    for command in ("nodes", "clean"):
        ran = runs.ran([runs.program, command, "--at", str(path)], **other)
        fine = ran.status == FAULT and f"{node_path(path, 2)}: {NO_PERMISSION}" in ran.err
        runs.need(fine, f"{what}: {command} replied {ran}")


def another_node(runs, data):
    """A line in the name of another node is refused by a text of its own, and changes nothing."""
    path = runs.file("another", data)
    before = snapshot(path)
    ran = runs.run(path, NODE, ["event create 1 0 foreign"])
    fine = ran.status == 0 and len(ran.out) == 1 and not ran.out[0].startswith(("ok ", "Event"))
    runs.need(fine, f"a line of another node: {ran}")
    check_unchanged(runs, path, before, "a line of another node")


# ---- full disks


def filling_lines():
    """Lines that make the log longer and longer."""
    return [f"event create {NODE} {slot} full/{slot} max_nodes={slot + 1}" for slot in range(40)] + ["list"]


def check_full(runs, path, data, ran, what):
    """What stood still stands, each reply has its entry, and a new process goes on where there is room again."""
    fine = ran.status == 0 or (ran.status == FAULT and f"{path}: " in ran.err)
    runs.need(fine, f"{what}: status {ran.status}: {ran.err[:200]!r}")
    granted = sum(reply.startswith("ok ") for reply in ran.out)
    after = path.read_bytes()
    runs.need(after.startswith(data), f"{what}: a whole entry is gone")
    runs.need(granted < 40, f"{what}: nothing was refused")
    replayed = runs.replay(after, what)
    if not replayed:
        return
    published = sum(entry.operation == "publish" and entry.node == NODE for entry in replayed[0].entries)
    runs.need(published == granted, f"{what}: {granted} creates were granted, and {published} stand")


def check_room_again(runs, path, what):
    """A new process goes on where there is room again."""
    whole = read_log(path.read_bytes()).whole
    data = path.read_bytes()[:whole]
    ran = runs.run(path, NODE + 1, [f"event create {NODE + 1} 0 afterwards"])
    runs.need(ran.status == 0 and ran.out[:1] and ran.out[0].startswith("ok 0 "), f"{what}, with room again: {ran}")
    after = path.read_bytes()
    runs.need(after.startswith(data), f"{what}, with room again: a whole entry is gone")
    replayed = runs.replay(after, f"{what}, with room again")
    if replayed:
        runs.need(not replayed[0].torn, f"{what}, with room again: a torn end stands")
        left = replayed[1].left_by(NODE)
        runs.need(left == (0, 0, 0), f"{what}, with room again: the dead node has {left}")


def limited_file(runs, data):
    """A file that may only grow by so many bytes, one run by an error and one by a signal that ends the process."""
    for more in (1, 30, 45, 200, 700):
        for by_signal in (False, True):
            what = f"a file of {more} bytes more{', by a signal' * by_signal}"
            path = runs.file("limited", data)
            limit = len(data) + more

            def before(limit=limit):
                resource.setrlimit(resource.RLIMIT_FSIZE, (limit, limit))

            ran = runs.run(path, NODE, filling_lines(), preexec_fn=before, restore_signals=by_signal)
            if by_signal and ran.status < 0:
                runs.need(path.read_bytes().startswith(data), f"{what}: a whole entry is gone")
                runs.replay(path.read_bytes(), what)
            else:
                check_full(runs, path, data, ran, what)
            check_room_again(runs, path, what)


def full_disk(runs, data):
    """A small disk that something else fills; left out where none can be mounted."""
    folder = runs.file("disk").parent
    options = ["mount", "-t", "tmpfs", "-o", "size=64k", "tmpfs", str(folder)]
    is_able = os.geteuid() == 0 and shutil.which("mount")
    if not is_able or subprocess.run(options, stderr=subprocess.DEVNULL).returncode:
        print("no small disk can be mounted: left out")
        return
    try:
        path, filler = folder / "log", folder / "filler"
        path.write_bytes(data)
        try:
            filler.write_bytes(bytes(2**20))
        except OSError:
            pass
        check_full(runs, path, data, runs.run(path, NODE, filling_lines()), "a full disk")
        filler.unlink()
        check_room_again(runs, path, "a full disk")
        read_only(runs, folder, data)
    finally:
        subprocess.run(["umount", str(folder)], check=True)


def read_only(runs, folder, data):
    """A disk that is read-only."""
    path = folder / "log"
    path.write_bytes(data)
    if subprocess.run(["mount", "-o", "remount,ro", str(folder)], stderr=subprocess.DEVNULL).returncode:
        print("no disk can be made read-only: left out")
        return
    before = snapshot(path)
    ran, named = runs.run(path, NODE, LINES), node_path(path, NODE)
    runs.need(snapshot(path) == before, "a disk that is read-only: something changed")
    fine = ran.status == FAULT and f"{named}: {NO_PERMISSION}" in ran.err and not ran.out
    runs.need(fine, f"a disk that is read-only: {ran}")


# ---- held by another


def held_log(runs, data):
    """A log that the script holds: longer than the program waits, and shorter."""
    path = runs.file("held", data)
    line = [f"event create {NODE} 0 fresh"]
    before = snapshot(path)
    with open(path, "rb") as file:
        fcntl.flock(file, fcntl.LOCK_EX)
        begin = time.monotonic()
        ran = runs.run(path, NODE, line, wait=200)
        seconds = time.monotonic() - begin
    texts = "\n".join([*ran.out, ran.err])
    runs.need(BUSY in texts and ran.status in (0, FAULT), f"a log that is held: {ran}")
    runs.need(not any(reply.startswith("ok ") for reply in ran.out), f"a log that is held: {ran.out}")
    runs.need(seconds >= 0.2, f"a log that is held: it waited {seconds:.3f} seconds in place of 0.2")
    check_unchanged(runs, path, before, "a log that is held")
    with open(path, "rb") as file:
        fcntl.flock(file, fcntl.LOCK_EX)
        timer = threading.Timer(0.4, lambda: fcntl.flock(file, fcntl.LOCK_UN))
        timer.start()
        begin = time.monotonic()
        ran = runs.run(path, NODE, line, wait=10000)
        seconds = time.monotonic() - begin
        timer.join()
    fine = ran.status == 0 and ran.out[:1] and ran.out[0].startswith("ok 0 ")
    runs.need(fine and seconds >= 0.3, f"a log that is held for 0.4 seconds: {ran} after {seconds:.3f} seconds")
    runs.replay(path.read_bytes(), "a log that was held")


def held_close(runs, _data):
    """A close while the script holds the log is refused and leaves the slot as it is, and then it is closed."""
    path, what = runs.file("held-close"), "a close while the log is held"
    living = Living(runs, path, NODE, wait=200)
    living.reply(f"event create {NODE} 0 kept")
    before = snapshot(path)
    with open(path, "rb") as file:
        fcntl.flock(file, fcntl.LOCK_EX)
        refused = living.reply("close 0")
    check_unchanged(runs, path, before, what)
    replies = [refused, *(living.reply(line) for line in ("list", "close 0", "list"))]
    wanted = ["not closed 0", "1 services", "closed 0", "0 services"]
    runs.need(replies == wanted, f"{what}: it replied {replies}, and not {wanted}")
    ended = living.end()
    runs.need(ended.status == 0 and BUSY in ended.err, f"{what}: it ended with {ended}")
    replayed = runs.replay(path.read_bytes(), what)
    if replayed:
        runs.need(not replayed[1].remains(), f"{what}: in the end there is {replayed[1].remains()}")


def held_end(runs, _data):
    """A run and a hold end while the script holds the log: they tell that something stays. It is given back later."""
    for name, words, line in (("run", [], f"event create {NODE} 0 kept\n"), ("hold", ["event", "create", "kept"], "")):
        path, what = runs.file("held-end"), f"an end of {name} while the log is held"
        command = Command(runs, path, name, "--node", str(NODE), "--wait", "200", *words)
        command.process.stdin.write(line.encode())
        command.process.stdin.flush()
        command.line()
        before = snapshot(path)
        with open(path, "rb") as file:
            fcntl.flock(file, fcntl.LOCK_EX)
            status, _, err = command.end()
        fine = status == FAULT and BUSY in err and err.endswith(f"wulameron: {path}: {STAYS}\n")
        runs.need(fine, f"{what}: it ended with {status}: {err}")
        check_unchanged(runs, path, before, what)
        ran = runs.clean(path)
        wanted = [f"node {NODE}: 1 releases, 3 removals"]
        runs.need((ran.status, ran.out, ran.err) == (0, wanted, ""), f"{what}: clean replied {ran}, and not {wanted}")
