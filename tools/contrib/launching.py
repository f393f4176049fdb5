"""Starts the launcher, sends signals, and finds what it leaves."""
import os
import pathlib
import signal
import subprocess
import time
import uuid

# How long something may take that has to happen, and how long is looked whether something happens that must not.
SECONDS = 30
PAUSE = 0.3
STEP = 0.01
# The variable by which each process is found that a launcher started, directly or not.
MARK = "CHECK_CONTRIB"


class Checks:
    """What is checked, in a room of its own."""

    def __init__(self, room, contrib, program):
        self.room, self.contrib, self.program = room, contrib, program
        self.launcher = contrib / "wulameron-hold"
        self.passed = self.failed = 0

    def counts(self, what, faults=()):
        """Counts one check and prints its line, with what is wrong, if anything is."""
        faults = [fault for fault in faults if fault]
        self.passed += not faults
        self.failed += bool(faults)
        print(f"wrong: {what}: {'; '.join(faults)}" if faults else f"right: {what}", flush=True)

    def folder(self):
        """A new folder."""
        folder = self.room / uuid.uuid4().hex
        folder.mkdir()
        return folder

    def script(self, text):
        """A new program for a shell."""
        path = self.folder() / "program"
        path.write_text(f"#!/bin/sh\n{text}\n", encoding="utf-8")
        path.chmod(0o755)
        return path

    def ran(self, words, **options):
        """Runs something to its end."""
        options = {"capture_output": True, "text": True, "timeout": SECONDS, "stdin": subprocess.DEVNULL} | options
        return subprocess.run([*map(str, words)], check=False, **options)


def differs(what, found, wanted):
    """What is wrong, if something isn't as it has to be."""
    return "" if found == wanted else f"{what} is {found!r}, and not {wanted!r}"


def until(holds, seconds=SECONDS):
    """Waits until something holds, and tells whether it does."""
    end = time.monotonic() + seconds
    while not holds():
        if time.monotonic() > end:
            return False
        time.sleep(STEP)
    return True


def marked(mark):
    """The processes whose environment has a mark. One that has ended and wasn't waited for has no environment."""
    found = []
    for path in pathlib.Path("/proc").glob("[0-9]*/environ"):
        try:
            if f"{MARK}={mark}".encode() in path.read_bytes().split(b"\0"):
                found.append(int(path.parent.name))
        except OSError:
            pass
    return found


def parent_of(process):
    """The parent of a process, or nothing if it has ended."""
    try:
        return int(pathlib.Path(f"/proc/{process}/stat").read_text(encoding="utf-8").rpartition(")")[2].split()[1])
    except OSError:
        return None


class Launched:
    """A launcher that was started, in a session and folders of its own."""

    def __init__(self, checks, words, program=None, command=None, **options):
        self.mark = uuid.uuid4().hex
        folder = checks.folder()
        self.home, self.temporary = folder / "home", folder / "temporary"
        self.out, self.err = folder / "out", folder / "err"
        self.home.mkdir()
        self.temporary.mkdir()
        environment = {name: text for name, text in os.environ.items() if not name.startswith("WULAMERON")}
        environment |= {MARK: self.mark, "HOME": str(self.home), "TMPDIR": str(self.temporary)}
        environment |= {"WULAMERON": str(program or checks.program)} | options.pop("environment", {})
        streams = {"stdin": subprocess.DEVNULL, "stdout": self.out.open("wb"), "stderr": self.err.open("wb")}
        options = streams | {"cwd": self.home, "env": environment, "start_new_session": True} | options
        self.process = subprocess.Popen([*map(str, command or [checks.launcher]), *words], **options)
        for stream in (streams["stdout"], streams["stderr"]):
            stream.close()

    def said(self):
        """What the program has written on the standard output."""
        return self.out.read_text(encoding="utf-8", errors="replace")

    def told(self):
        """What was written on the standard error."""
        return self.err.read_text(encoding="utf-8", errors="replace")

    def holds(self, text="\n"):
        """Waits until the program has written a text, and tells whether it has."""
        return until(lambda: text in self.said() or self.process.poll() is not None) and text in self.said()

    def holds_on(self):
        """Waits for a moment, and tells whether the launcher and its program go on."""
        time.sleep(PAUSE)
        return self.process.poll() is None and self.program() is not None

    def program(self):
        """The process of the program, or nothing."""
        found = [process for process in marked(self.mark) if parent_of(process) == self.process.pid]
        return found[0] if found else None

    def send(self, sent, to):
        """Sends a signal to the launcher, to its program, or to all processes of its group, as a terminal does."""
        process = {"group": -self.process.pid, "launcher": self.process.pid}.get(to) or self.program()
        try:
            if process:
                os.kill(process, sent)
        except ProcessLookupError:
            # What this leads to is looked at later.
            pass

    def ended(self):
        """The status, once the launcher has ended. If it doesn't end, all is killed."""
        try:
            return self.process.wait(SECONDS)
        except subprocess.TimeoutExpired:
            self.kill()
            self.process.wait()
            return "none: it doesn't end"

    def all_ended(self):
        """Waits until the launcher and all others have ended, if nothing but time is needed for that."""
        self.ended()
        until(lambda: not marked(self.mark))

    def kill(self):
        """Kills all that is left."""
        for process in marked(self.mark):
            try:
                os.kill(process, signal.SIGKILL)
            except ProcessLookupError:
                pass

    def faults(self, status, files=()):
        """What is wrong once the launcher has ended: another status, a process or a file that is left."""
        faults = [differs("its status", self.ended(), status)]
        left = marked(self.mark)
        faults.append(f"{len(left)} processes are left" if left else "")
        self.kill()
        faults.append(differs("what it leaves in TMPDIR", sorted(os.listdir(self.temporary)), []))
        faults.append(differs("what it leaves in its folder", sorted(os.listdir(self.home)), sorted(files)))
        return faults
