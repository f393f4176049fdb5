#!/usr/bin/env python3
"""Reads the file of a log of accesses, and replays its entries into a world of its own.

tools/log_reader.py FILE [--quiet] tests after each entry that the world agrees. It prints a line for each entry,
which --quiet leaves out, and a last line with counts, and ends with status 0; or with 1 after the first thing that is
wrong and its byte. A torn end isn't wrong: who holds the log next cuts it off. Where the log goes on in another file,
which has the path meanwhile, that is read too, from its snapshot on. tools/log_reader.py --self-test
runs the tests of the reader, over logs by a writer of their own. It shares no line with the program that writes logs:
it is made from docs/LOG_FORM.md and docs/BYTE_FORM.md (logs/form.py) and from definitions (logs/world.py).
"""
import os
import sys

sys.dont_write_bytecode = True

from logs import self_test  # noqa: E402
from logs.form import MOVED, Wrong, check_snapshot, entries_of, read_header  # noqa: E402
from logs.world import World  # noqa: E402


def read_at(path):
    """The bytes of a path's file, and by what the system knows the file."""
    with open(path, "rb") as file:
        return file.read(), file_number(os.fstat(file.fileno()))


def file_number(found):
    """By what the system knows a file."""
    return found.st_dev, found.st_ino


def replay(data, quiet):
    """Prints the entries of a file while a world follows them, and then counts. Tells whether it ends with a mark."""
    header, entries, is_moved = read_header(data), [], False
    world = World(header.counter)
    for entry in entries_of(data):
        is_moved = entry.operation == MOVED
        if not quiet:
            print(entry.line())
        if not is_moved:
            world.follow(entry)
            entries.append(entry)
    check_snapshot(header, entries)
    whole = entries[-1].end if entries else header.snapshot_end
    snapshot = sum(entry.end <= header.snapshot_end for entry in entries)
    left = f"{len(data) - whole} bytes {'of a mark' if is_moved else 'torn'}"
    print(f"{len(entries)} entries, {snapshot} of them a snapshot, {world.counts()}, {left}")
    return is_moved


def replay_file(path, quiet):
    """The same of a path's file, and then of the one that has the path meanwhile, as long as the log goes on there."""
    data, number = read_at(path)
    while replay(data, quiet) and file_number(os.stat(path)) != number:
        print("it goes on in another file")
        data, number = read_at(path)


def main(arguments):
    """Reads the file that the arguments name, and ends with status 1 where something is wrong."""
    if arguments == ["--self-test"]:
        return self_test.main()
    names = [word for word in arguments if word != "--quiet"]
    if len(names) != 1 or names[0].startswith("--"):
        print("usage: tools/log_reader.py FILE [--quiet] | --self-test", file=sys.stderr)
        return 2
    try:
        replay_file(names[0], "--quiet" in arguments)
    except Wrong as wrong:
        print(f"wrong at byte {wrong.at}: {wrong.why}")
        return 1
    except OSError as error:
        print(f"{names[0]}: {error.strerror}")
        return 1
    return 0


if __name__ == "__main__":
    sys.exit(main(sys.argv[1:]))
