#!/usr/bin/env python3
"""guard.py FOLDER PREFIX: waits until its input ends, as it does when who began it is gone, however that ended. Then it
ends what a check has left: the servers in the folder, the processes that have the folder in their environment, and the
network namespaces whose names begin with the prefix. It removes the folder, and touches nothing of another check."""
import contextlib
import os
import pathlib
import shutil
import signal
import subprocess
import sys
import time

# By which variable all processes of a check are known.
NAME = "CHECK_POSTGRES_FOLDER"
# How long servers may take to end.
SECONDS = 20


def servers(folder):
    """The servers that run in the folder."""
    found = []
    for path in folder.glob("*/data/postmaster.pid"):
        with contextlib.suppress(OSError, ValueError, IndexError):
            lines = path.read_text().splitlines()
            # The number may be another process's by now.
            if os.readlink(f"/proc/{int(lines[0])}/cwd") == lines[1]:
                found.append(int(lines[0]))
    return found


def others(folder):
    """The processes that were begun for this folder."""
    found = []
    for name in filter(str.isdigit, os.listdir("/proc")):
        with contextlib.suppress(OSError):
            environment = pathlib.Path(f"/proc/{name}/environ").read_bytes().split(b"\0")
            if f"{NAME}={folder}".encode() in environment and int(name) != os.getpid():
                found.append(int(name))
    return found


def end(pids, how):
    """Sends them a signal."""
    for pid in pids:
        with contextlib.suppress(ProcessLookupError):
            os.kill(pid, how)


def clean(folder, prefix):
    """Ends and removes all of it."""
    deadline = time.monotonic() + SECONDS
    while (found := servers(folder)) and time.monotonic() < deadline:
        end(found, signal.SIGQUIT)
        time.sleep(0.1)
    while (found := servers(folder) + others(folder)) and time.monotonic() < 2 * SECONDS + deadline:
        end(found, signal.SIGKILL)
        time.sleep(0.1)
    with contextlib.suppress(OSError):
        for name in os.listdir("/var/run/netns"):
            if name.startswith(prefix):
                subprocess.run(["ip", "netns", "del", name], check=False, capture_output=True)
    shutil.rmtree(folder, ignore_errors=True)


if __name__ == "__main__":
    for one in (signal.SIGINT, signal.SIGTERM, signal.SIGHUP):
        signal.signal(one, signal.SIG_IGN)
    sys.stdin.read()
    clean(pathlib.Path(sys.argv[1]), sys.argv[2])
