"""Compactions that are refused: a full disk, a closed folder, what stands where the new file is to be."""
import os
import shutil
import subprocess

from logs.compaction import fill
from logs.deaths import check_end
from logs.faults import NOBODY, can_be_nobody
from logs.form import read_log
from logs.history import SHORT_LENGTH, check_beside, kept_folder, standing
from logs.runs import FAULT, Living, leave_node, snapshot
from logs.writing import MARK, ZEROS, entry_bytes, header_bytes

NODE, OTHER = 31, 32
PAIR = [f"event create {NODE} 0 fresh", "close 0", "list"]
SERVICES = 45
GROUP = 12345
# What the program writes where it can't go on from what it knew.
OVER = "has an entry that this program can't follow"
# A snapshot in which nothing stands.
SPENT = entry_bytes("spend", 0, 9, found=ZEROS)


def beside_of(path):
    """Where a compaction makes its file."""
    return path.parent / f"{path.name}.compacted"


def long_log(runs, name):
    """A log in which a process has made a service, and so long that it is compacted by who holds it next."""
    path = runs.file(name)
    living = Living(runs, path, OTHER)
    runs.need(living.reply(f"event create {OTHER} 0 kept") == "ok 0 number=0", f"{name}: nothing was made")
    fill(path)
    return path, living


def check_works(runs, path, what, compactions, **others):
    """A process creates and closes, writes nothing on the standard error, and the log has been compacted so often."""
    ran = runs.run(path, NODE, PAIR, **others)
    fine = (ran.status, ran.err) == (0, "") and ran.out[0].startswith("ok 0 ")
    fine = fine and ran.out[1:] and ran.out[1] == "closed 0"
    runs.need(fine and ran.out[-1] == "1 services", f"{what}: it replied {ran}")
    replayed = runs.replay_all(path, what)
    if replayed:
        found = replayed[0].compactions()
        runs.need(found == compactions, f"{what}: it was compacted {found} times, and not {compactions}")


def check_refused_once(runs, path, living, what, **others):
    """Where a compaction is refused all goes on in the old file, and nothing is left beside it."""
    before = standing(path)
    check_works(runs, path, what, 0, **others)
    runs.need(standing(path)[0] == before[0], f"{what}: another file has the path")
    lines = [living.reply(line) for line in (f"event open {OTHER} 1 kept", "close 1")]
    runs.need(lines[0] == "ok 1 number=0" and lines[1] == "closed 1", f"{what}: who was there replied {lines}")


def links(runs):
    """A symbolic link, a file and a folder where the new file is to be: the first two are removed, and not followed."""
    for name in ("link", "dangling", "file", "folder"):
        what = f"a {name} beside a log"
        path, living = long_log(runs, f"beside-{name}")
        target, beside = runs.file(f"beside-{name}-target", b"of somebody else"), beside_of(path)
        if name == "file":
            beside.write_bytes(b"of a process that died" * 9999)
        elif name == "folder":
            beside.mkdir()
        else:
            beside.symlink_to(target if name == "link" else target.parent / "nothing")
        check_works(runs, path, what, 0 if name == "folder" else 1)
        fine = target.read_bytes() == b"of somebody else" and os.listdir(target.parent) == [target.name]
        runs.need(fine, f"{what}: the link was followed")
        runs.need(not path.is_symlink() and path.stat().st_mode & 0o777 == 0o600, f"{what}: {path.lstat()}")
        if name == "folder":
            beside.rmdir()
        check_beside(runs, path, what)
        check_end(runs, path, [living], what)


def groups(runs):
    """The new file has the mode of the old one, and a log of another group is left as it is."""
    path, living = long_log(runs, "mode")
    path.chmod(0o640)
    check_works(runs, path, "a log of mode 640", 1)
    runs.need(path.stat().st_mode & 0o777 == 0o640, "a log of mode 640 has another one then")
    check_end(runs, path, [living], "a log of mode 640")
    if os.geteuid() == 0:
        path, living = long_log(runs, "group")
        os.chown(path, -1, GROUP)
        path.chmod(0o660)
        check_refused_once(runs, path, living, "a log of another group")
        check_beside(runs, path, "a log of another group")
        check_end(runs, path, [living], "a log of another group")


def closed_folder(runs):
    """A folder in which no file can be made: the log grows on, until it can."""
    what = "a folder that is read-only"
    if not can_be_nobody():
        print("root can run no program as another user: such a folder is left out")
        return
    other = {"user": NOBODY, "group": NOBODY, "extra_groups": []}
    path, living = long_log(runs, "closed-folder")
    leave_node(path, NODE)
    for name in (path.parent, kept_folder(path), *path.parent.iterdir()):
        os.chown(name, NOBODY, NOBODY)
    path.parent.chmod(0o555)
    check_refused_once(runs, path, living, what, **other)
    path.parent.chmod(0o755)
    check_works(runs, path, f"{what} no more", 1, **other)
    check_beside(runs, path, what)
    check_end(runs, path, [living], what)


def too_little(runs):
    """A log of which a compaction would save too little stays until it is eight times as long as the new one."""
    path, what = runs.file("little"), "a log that is needed"
    living = Living(runs, path, OTHER)
    replies = [living.reply(f"event create {OTHER} {slot} kept/{slot}") for slot in range(SERVICES)]
    runs.need(all(str(reply).startswith("ok ") for reply in replies), f"{what}: it replied {replies}")
    fill(path)
    before = standing(path)
    ran = runs.run(path, NODE, PAIR)
    fine = (ran.status, ran.err) == (0, "") and ran.out[-1] == f"{SERVICES} services"
    runs.need(fine and standing(path)[0] == before[0], f"{what}: it replied {ran}")
    check_beside(runs, path, what)
    fill(path, SHORT_LENGTH * 4)
    ran = runs.run(path, NODE, PAIR)
    fine = (ran.status, ran.err) == (0, "") and standing(path)[0] != before[0] and standing(path)[1] < SHORT_LENGTH
    runs.need(fine, f"{what}: when it was long it replied {ran}, and stands at {standing(path)}")
    check_beside(runs, path, what)
    check_end(runs, path, [living], what)


def full_disk(runs):
    """A disk without room for the new file: the log goes on while its own last page has room, and then it has some."""
    folder, what = runs.file("full").parent, "a full disk"
    options = ["mount", "-t", "tmpfs", "-o", "size=128k", "tmpfs", str(folder)]
    is_able = os.geteuid() == 0 and shutil.which("mount")
    if not is_able or subprocess.run(options, stderr=subprocess.DEVNULL).returncode:
        print("no small disk can be mounted: left out")
        return
    try:
        path = folder / "log"
        living = Living(runs, path, OTHER)
        living.reply(f"event create {OTHER} 0 kept")
        leave_node(path, NODE)
        fill(path)
        try:
            (folder / "filler").write_bytes(bytes(2**20))
        except OSError:
            pass
        before, data = standing(path), path.read_bytes()
        ran = runs.run(path, NODE, PAIR[:2])
        after = path.read_bytes()
        fine = (ran.status, ran.err) == (0, "") and ran.out[0].startswith("ok 0 ") and after.startswith(data)
        runs.need(fine and standing(path)[0] == before[0], f"{what}: it replied {ran}")
        runs.replay(after, what)
        (folder / "filler").unlink()
        check_beside(runs, path, what)
        ran = runs.run(path, NODE, PAIR)
        fine = (ran.status, ran.err) == (0, "") and ran.out[-1] == "1 services"
        runs.need(fine and standing(path)[1] < SHORT_LENGTH, f"{what}, with room again: {ran}")
        runs.replay(path.read_bytes(), f"{what}, with room again")
        check_beside(runs, path, f"{what}, with room again")
        check_end(runs, path, [living], what)
    finally:
        subprocess.run(["umount", str(folder)], check=True)


def others(runs):
    """A log that moved to what it can't have become is refused, and one with more after its mark is damaged."""
    name_of = slice(8, 24)
    for name, wanted, new in (
        ("another", "is another log", lambda data: header_bytes(bytes(range(16)))),
        ("version", "is a log of version 1", lambda data: data[:7] + b"\x01" + data[8:]),
        ("without", OVER, lambda data: header_bytes(data[name_of], snapshot_length=len(SPENT)) + SPENT),
        ("backwards", OVER, lambda data: header_bytes(data[name_of])),
        ("more", "is damaged", None),
    ):
        path, what = runs.file(f"moved-{name}"), f"a log that moved, {name}"
        living = Living(runs, path, OTHER)
        living.reply(f"event create {OTHER} 0 kept")
        data = path.read_bytes()
        with open(path, "ab") as file:
            file.write(MARK if new else MARK + MARK)
        if new:
            (path.parent / "new").write_bytes(new(data))
            (path.parent / "new").rename(path)
        before = snapshot(path)
        reply = living.reply(f"event open {OTHER} 1 kept")
        runs.need(str(reply).startswith("EventOpenError::"), f"{what}: it replied {reply}")
        ran = living.end()
        runs.need(f"{path}: {wanted}" in ran.err, f"{what}: it ended with {ran}")
        runs.need(snapshot(path) == before, f"{what}: something changed")


def explained(runs):
    """Replies at a log that is compacted are the same with explanations."""
    path, living = long_log(runs, "explained-long")
    ran = runs.run(path, NODE, PAIR, flags=["--explain"])
    replies = [line for line in ran.out if line and not line.startswith("  ")]
    fine = (ran.status, ran.err) == (0, "") and replies[1] == "closed 0" and replies[-1] == "1 services"
    runs.need(fine and standing(path)[1] < SHORT_LENGTH, f"a log that is compacted, explained: {ran}")
    check_end(runs, path, [living], "a log that is compacted, explained")


def cut_snapshots(runs):
    """A file that ends within its snapshot is damaged, and nothing of it is cut off."""
    path, living = long_log(runs, "whole-snapshot")
    check_works(runs, path, "a whole snapshot", 1)
    data = path.read_bytes()
    check_end(runs, path, [living], "a whole snapshot")
    log = read_log(data)
    runs.need(len(log.snapshot) > 3, f"a whole snapshot has {len(log.snapshot)} entries")
    for entry in log.snapshot:
        for cut in (entry.at, entry.at + 1, entry.end - 1):
            path, what = runs.file("cut-snapshot", data[:cut]), f"a snapshot that ends at byte {cut}"
            before = snapshot(path)
            ran = runs.run(path, NODE, ["list"])
            fine = ran.status == FAULT and f"{path}: is damaged at byte {entry.at};" in ran.err and not ran.out
            runs.need(fine and snapshot(path) == before, f"{what}: {ran}")


def stayed(runs):
    """A mark at the end of the file that has the path is cut off, by the next call of who is there and by who comes."""
    for is_there in (True, False):
        path, what = runs.file("stayed"), f"a mark of who died, {'at an access' if is_there else 'at a start'}"
        living = Living(runs, path, OTHER)
        living.reply(f"event create {OTHER} 0 kept")
        data = path.read_bytes()
        with open(path, "ab") as file:
            file.write(MARK)
        if is_there:
            runs.need(living.listing()[-1] == "1 services", f"{what}: it listed another world")
            runs.need(path.read_bytes() == data + MARK, f"{what}: a list cut it off")
            living.reply(f"event create {OTHER} 1 other")
        else:
            ran = runs.run(path, NODE, ["list"])
            runs.need(ran.out[-1:] == ["1 services"] and not ran.err, f"{what}: it replied {ran}")
        after = path.read_bytes()
        fine = after.startswith(data) and not after.startswith(data + MARK) and is_there == (after != data)
        runs.need(fine, f"{what}: it isn't cut off")
        check_end(runs, path, [living], what)


def limits(runs):
    """All of it, one after the other."""
    parts = (links, groups, closed_folder, too_little, full_disk, others, explained, cut_snapshots, stayed)
    for part in parts:
        part(runs)
    print(f"refused compactions: {len(parts)} kinds")
