"""Replies that are explained: they are those without explanations, and have those of the program explain. Who is
explained cleans up for dead nodes too."""
import pathlib

from logs.runs import NO_CLEAN, Living, leave_node

# The stored run of the program explain: the lines that it is given, and what it writes of them over a table.
STORED = pathlib.Path(__file__).resolve().parent.parent.parent / "crates/explain"
MAKER, NODE = 1, 2
EXPLAIN = "--explain"
# A service with room for the node that creates it, and for no other.
FULL = "mortal max_nodes=1"
# A line that is no command, and its reply.
WRONG, REPLY = "evnt", "error: evnt: no such command; did you mean event?"


def blocks(lines):
    """Each line that is neither indented nor empty, with the indented ones behind it."""
    found = []
    for line in filter(None, lines):
        if line.startswith("  ") and found:
            found[-1].append(line)
        else:
            found.append([line])
    return found


def stored():
    """The lines of the stored run and what is written of each: a create, two opens of others, and two closes."""
    given, written = ((STORED / name).read_text(encoding="utf-8").splitlines() for name in ("stdin", "stdout"))
    return given, blocks(written)


def for_node(line):
    """The same line in the node's name."""
    terms = line.split(" ")
    return " ".join([*terms[:2], str(NODE), *terms[3:]]) if len(terms) > 2 else line


def reply_lines(living, line):
    """All lines of an explained reply, whose last is empty."""
    lines = [living.reply(line)]
    while lines[-1]:
        lines.append(living.process.stdout.readline().decode().rstrip("\n"))
    return lines


def check_twin(runs, path, line, wanted, what):
    """Whether what is explained is this where the dead node is cleaned up for before."""
    ran = runs.clean(path)
    runs.need((ran.status, ran.err) == (0, "") and ran.out, f"{what}: clean replied {ran}")
    ran = runs.run(path, NODE, [line], flags=[EXPLAIN])
    runs.need((ran.status, ran.out, ran.err) == (0, wanted, ""), f"{what}: it replied {wanted}, and else {ran}")


def explained_again(runs):
    """A call that a dead node is in the way of is made again after it was cleaned up for, and that one is explained."""
    for call in ("open", "open_or_create"):
        path, what = runs.file(f"explained-{call}"), f"explained: {call} of what a dead node has"
        maker, living = Living(runs, path, MAKER), Living(runs, path, NODE, [EXPLAIN])
        maker.reply(f"event create {MAKER} 0 {FULL}")
        reply_lines(living, "list")
        maker.kill()
        twin = runs.file(f"explained-{call}-twin", path.read_bytes())
        leave_node(twin, MAKER)
        line = f"event {call} {NODE} 0 mortal"
        found = reply_lines(living, line)
        first = "ok 0 number=1" if call == "open_or_create" else "EventOpenError::DoesNotExist"
        runs.need(found[0] == first and len(found) > 2, f"{what}: it replied {found}")
        ran = living.end()
        runs.need((ran.status, ran.err) == (0, ""), f"{what}: it ended with {ran}")
        check_twin(runs, twin, line, found, what)


def explained_start(runs):
    """Who is explained gives back what dead nodes have when it starts."""
    path, what = runs.file("explained-start"), "explained: a start beside a dead node"
    runs.held(path, MAKER, [f"event create {MAKER} 0 {FULL}"])
    ran = runs.run(path, NODE, ["list"], flags=[EXPLAIN])
    runs.need((ran.status, ran.out, ran.err) == (0, ["0 services", ""], ""), f"{what}: it replied {ran}")
    replayed = runs.replay(path.read_bytes(), what)
    if replayed:
        runs.need(not replayed[1].remains(), f"{what}: there still is {replayed[1].remains()}")


def explained_stored(runs, _data):
    """One process creates, and another is explained what it opens, is refused and closes, as over a table.

    Nobody cleans up for the first one, which is dead.
    """
    given, wanted = stored()
    path = runs.file("explained")
    replies = runs.held(path, MAKER, given[:1])
    runs.need(replies == wanted[0][:1], f"explained: the create replied {replies}")
    lines = [for_node(line) for line in given[1:-1]]
    others = [f"event create {NODE + 1} 5 foreign", WRONG, "list"]
    data = path.read_bytes()
    plain = runs.run(path, NODE, lines + others, flags=[NO_CLEAN])
    path.write_bytes(data)
    ran = runs.run(path, NODE, lines + others, flags=[EXPLAIN, NO_CLEAN])
    fine = ran.status == 0 and not ran.err and plain.status == 0 and not plain.err and REPLY in plain.out
    runs.need(fine, f"explained: {ran}, and without explanations {plain}")
    found = blocks(ran.out)
    apart = ran.out.count("") == len(lines + others) and ran.out[-1:] == [""]
    runs.need(apart, f"explained: no empty line ends each of {ran.out}")
    runs.need([block[0] for block in found] == plain.out, f"explained: it replied {found}, and not {plain.out}")
    runs.need(found[: len(lines)] == wanted[1:-1], f"explained: it wrote {found}, and not {wanted[1:-1]}")
    runs.need(all(len(block) == 1 for block in found[len(lines) :]), f"explained: without an access: {found}")
    runs.need(any("  comes when: " in line[:14] for block in found for line in block), "explained: nothing was refused")


def explained(runs, data):
    """What is explained, and whom it cleans up for."""
    explained_stored(runs, data)
    explained_again(runs)
    explained_start(runs)
