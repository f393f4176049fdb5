"""Compiles and runs programs, and counts what passed and what failed."""
import os
import pathlib
import re
import shutil
import subprocess

TOP = pathlib.Path(__file__).resolve().parent.parent.parent
C = TOP / "bindings/c"
OUT = C / "out"
SECONDS = 240
# How many lines of a program that fails are printed.
LINES = 20
VALGRIND = ["valgrind", "-q", "--error-exitcode=9", "--leak-check=full", "--show-leak-kinds=all"]
VALGRIND += ["--child-silent-after-fork=yes"]


class Checks:
    """What is checked of the library and of its callers, in a room of its own."""

    def __init__(self, room, program):
        self.room, self.program = room, program
        self.passed = self.failed = self.folders = 0
        self.compiler = os.environ.get("CC", "cc")
        # The crate for Rust would take an installed library before the one that is checked here.
        self.environment = os.environ | {"WULAMERON": str(program), "WULAMERON_LIB_DIR": str(OUT)}

    def folder(self):
        """A new folder, for logs."""
        self.folders += 1
        folder = self.room / f"logs-{self.folders}"
        folder.mkdir()
        return folder

    def server_room(self):
        """The path of a new folder for a server's files, which its user reaches."""
        self.room.chmod(0o755)
        return self.room / "server"

    def counts(self, holds, what):
        """Counts one check, and tells whether it holds."""
        if holds:
            self.passed += 1
        else:
            self.failed += 1
            print(f"wrong: {what}")
        return holds

    def ran(self, words, **where):
        """Runs something to its end."""
        where = {"timeout": SECONDS, "env": self.environment} | where
        return subprocess.run([*map(str, words)], capture_output=True, text=True, **where)

    def builds(self, words, what):
        """Compiles something, which has to pass without a warning."""
        ran = self.ran(words)
        return self.counts(ran.returncode == 0, f"{what}: {ran.stderr}")

    def runs(self, words, what):
        """Runs a program, and adds what it counts."""
        try:
            ran = self.ran(words)
        except subprocess.TimeoutExpired:
            self.counts(False, f"{what}: it runs for more than {SECONDS} seconds")
            return
        counted = re.search(r"^(\d+) passed, (\d+) failed$", ran.stdout, re.MULTILINE)
        said = "".join(f"{ran.stdout}{ran.stderr}".splitlines(True)[:LINES])
        if counted is None:
            self.counts(False, f"{what}: status {ran.returncode}, {said}")
            return
        passed, failed = (int(word) for word in counted.groups())
        self.passed += passed
        self.failed += failed
        self.counts(ran.returncode == 0 and passed > 0, f"{what}: status {ran.returncode}, {said}")
        print(f"{what}: {passed} passed, {failed} failed", flush=True)

    def has(self, command):
        """Whether a command is there; a line is printed where it isn't."""
        found = shutil.which(command) is not None
        if not found:
            print(f"{command} isn't here")
        return found
