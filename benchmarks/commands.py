#!/usr/bin/env python3
"""How long each command of `wulameron` takes beside so many services.

    benchmarks/commands.py [--program FILE] [NUMBER ..]

The program is by default the one that `rt ci` built. It is asked of a log in which so many services stand (100, 1,000, 10,000 and 100,000 where
no number is given), 64 of each node, which have no process. Prints a table of milliseconds by the clock, the least of three
runs. A command that isn't done after a minute isn't asked again, and has no figure.
"""
import argparse
import os
import pathlib
import shutil
import subprocess
import sys
import tempfile
import time

sys.dont_write_bytecode = True

from shared_log import RUNS, standing, table  # noqa: E402

PROGRAM = pathlib.Path(__file__).resolve().parent.parent / "crates/wulameron/out/wulameron"
LIMIT = 60
NUMBERS = [100, 1000, 10000, 100000]
# Each with what is asked, and its input.
COMMANDS = [
    ("list", ["list"], ""),
    ("list as JSON", ["list", "--json"], ""),
    ("show", ["show", "service_7"], ""),
    ("nodes", ["nodes"], ""),
    ("log", ["log"], ""),
    ("check", ["check"], ""),
    ("run, that opens a service", ["run", "--node", "3000000"], "event open 3000000 0 service_7\n"),
]


def seconds(program, log, words, text):
    """How long one command takes, or nothing where it isn't done in time."""
    begin = time.monotonic()
    try:
        done = subprocess.run([program, *words, "--at", str(log)], input=text, capture_output=True, text=True, timeout=LIMIT)
    except subprocess.TimeoutExpired:
        return None
    if done.returncode:
        raise SystemExit(f"{words}: status {done.returncode}, {done.stderr}")
    return time.monotonic() - begin


def measured(program, folder, words, text, number):
    """The least of some runs over a log of their own each, in milliseconds."""
    found = []
    for run in range(min(RUNS, 3)):
        log = folder / f"log-{number}"
        standing(log, number)
        took = seconds(program, log, words, text)
        if took is None:
            return ""
        found.append(took)
    return f"{min(found) * 1e3:,.1f}"


def main():
    parser = argparse.ArgumentParser(description=__doc__.partition("\n")[0])
    parser.add_argument("--program", type=pathlib.Path, default=PROGRAM, metavar="FILE")
    parser.add_argument("number", nargs="*", type=int, default=NUMBERS)
    asked = parser.parse_args()
    if not asked.program.is_file():
        sys.exit(f"benchmarks/commands.py: {asked.program} isn't there: build it by tools/build-unproved, and name it by --program")
    program, numbers = str(asked.program.resolve()), asked.number
    folder = pathlib.Path(tempfile.mkdtemp(dir="/dev/shm"))
    print(f"load: {os.getloadavg()}, of {os.cpu_count()} processors\n")
    try:
        rows = [[what] + [measured(program, folder, words, text, number) for number in numbers] for what, words, text in COMMANDS]
        table(["milliseconds beside"] + [f"{number:,}" for number in numbers], rows)
    finally:
        shutil.rmtree(folder)


if __name__ == "__main__":
    main()
