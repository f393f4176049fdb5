"""The launcher over scripts that end in each way a program may end."""
import fcntl
import os
import pathlib
import random
import signal
import termios
import time

from contrib.launching import PAUSE, Launched, differs

INT, TERM, HUP, KILL = signal.SIGINT, signal.SIGTERM, signal.SIGHUP, signal.SIGKILL
# Writes its arguments, holds until its input ends, and ends with a status of its own.
HOLDS = """printf '<%s>' "$@" "${WULAMERON-unset}"; echo
echo "$(wc -c) bytes"
echo closed >&2
exit 5"""
WORDS = ["event", "a  b", "", "--at=x"]
HELD = "<hold><event><a  b><><--at=x><unset>\n"
# The same, but it is slow to end.
SLOW = "echo held; cat >/dev/null; sleep 1; echo closed; exit 5"
# One process, which holds.
PLAIN = "echo held; exec cat >/dev/null"
STATUS = 5
# How often a signal is sent right after the start, and how long after it at most, in times of a start.
STARTS = 20
MOST_STARTS = 1.5


def closed_in_order(launched):
    """What is wrong once a script that holds was ended: it has read nothing, and has come to its end."""
    faults = launched.faults(STATUS)
    wrote = differs("its output", launched.said(), f"{HELD}0 bytes\n")
    return [*faults, wrote, differs("its error output", launched.told(), "closed\n")]


def held(checks, **options):
    """A launcher whose script holds."""
    launched = Launched(checks, WORDS, checks.script(HOLDS), **options)
    launched.holds(HELD)
    return launched


def signals(checks):
    """Each signal, to the launcher alone and to all processes of its group."""
    for sent in (INT, TERM, HUP):
        for to in ("launcher", "group"):
            launched = held(checks)
            launched.send(sent, to)
            checks.counts(f"{sent.name} to the {to} ends the program in order", closed_in_order(launched))


def inputs(checks):
    """Each kind of input: the program holds, and reads nothing of it."""
    reading, writing = os.pipe()
    os.write(writing, b"text\n")
    kinds = {
        "no input": {},
        "a closed input": {"stdin": None, "preexec_fn": lambda: os.close(0)},
        "an input with a text": {"stdin": reading},
    }
    for kind, options in kinds.items():
        launched = held(checks, **options)
        goes_on = launched.holds_on()
        launched.send(TERM, "launcher")
        checks.counts(f"with {kind} it holds", ["" if goes_on else "it ended", *closed_in_order(launched)])
    os.close(reading)
    os.close(writing)


def ends(checks):
    """Programs that end by themselves, and programs that can't be started. No signal is sent."""
    plain = checks.folder() / "plain"
    plain.write_text("", encoding="utf-8")
    kinds = {
        "refuses at once": (checks.script("echo refused >&2; exit 1"), 1, "refused\n"),
        "ends by itself": (checks.script(f"sleep {PAUSE}; echo over >&2; exit 7"), 7, "over\n"),
        "kills itself": (checks.script("kill -KILL $$"), 128 + KILL, ""),
        "isn't there": (plain.parent / "absent", 127, None),
        "can't be run": (plain, 126, None),
    }
    for kind, (program, status, told) in kinds.items():
        launched = Launched(checks, WORDS, program)
        faults = launched.faults(status)
        wanted = launched.told() if told is None and str(program) in launched.told() else told
        checks.counts(f"a program that {kind}", [*faults, differs("its error output", launched.told(), wanted)])


def more_signals(checks):
    """Signals to the program, several signals, and kills."""
    launched = held(checks)
    for sent in (INT, TERM, HUP):
        launched.send(sent, "program")
    goes_on = launched.holds_on()
    launched.send(TERM, "launcher")
    faults = ["" if goes_on else "it ended", *closed_in_order(launched)]
    checks.counts("the program ignores INT, TERM and HUP", faults)

    launched = Launched(checks, WORDS, checks.script(PLAIN))
    launched.holds("held\n")
    with open(f"/proc/{launched.program() or launched.process.pid}/status", encoding="utf-8") as file:
        masks = dict(line.split() for line in file if line.startswith("Sig") and "/" not in line)
    wanted = sum(1 << sent - 1 for sent in (INT, TERM, HUP))
    faults = [differs(name, int(masks[name], 16), mask) for name, mask in (("SigIgn:", wanted), ("SigBlk:", 0))]
    launched.send(TERM, "launcher")
    checks.counts("the program ignores no other signal, and none is blocked", [*faults, *launched.faults(0)])

    launched = Launched(checks, WORDS, checks.script(SLOW))
    launched.holds("held\n")
    for sent in (TERM, TERM, INT, HUP):
        launched.send(sent, "group")
        time.sleep(PAUSE / 3)
    faults = [*launched.faults(STATUS), differs("its output", launched.said(), "held\nclosed\n")]
    checks.counts("further signals change nothing", faults)

    launched = Launched(checks, WORDS, checks.script(PLAIN))
    launched.holds("held\n")
    launched.send(KILL, "program")
    checks.counts("a program that is killed", launched.faults(128 + KILL))

    launched = held(checks)
    launched.send(KILL, "launcher")
    launched.all_ended()
    wrote = differs("its output", launched.said(), f"{HELD}0 bytes\n")
    checks.counts("if the launcher is killed, the program ends in order", [*launched.faults(-KILL), wrote])


def writes(process, pipe):
    """Whether a process has a writing end of a pipe."""
    try:
        for file in pathlib.Path(f"/proc/{process}/fd").iterdir():
            if os.readlink(file) == pipe:
                told = pathlib.Path(f"/proc/{process}/fdinfo/{file.name}").read_text(encoding="utf-8")
                if int(told.partition("flags:")[2].split()[0], 8) & os.O_ACCMODE != os.O_RDONLY:
                    return True
    except OSError:
        # The process has ended.
        pass
    return False


def writing_end(checks):
    """Which processes of this machine have the writing end of the pipe that is the program's input."""
    launched = held(checks)
    program = launched.program()
    pipe = os.readlink(f"/proc/{program}/fd/0") if program else "none"
    processes = [int(path.name) for path in pathlib.Path("/proc").glob("[0-9]*")]
    found = [process for process in processes if writes(process, pipe)]
    faults = [differs("who has it", found, [launched.process.pid])]
    launched.send(TERM, "launcher")
    checks.counts("the launcher alone has the input's writing end", [*faults, *closed_in_order(launched)])


def ignoring(sent):
    """Has the launcher start while a signal is ignored."""
    return {"preexec_fn": lambda: signal.signal(sent, signal.SIG_IGN)}


def ignored(checks):
    """Launchers that are started while a signal is ignored or blocked."""
    for sent in (HUP, INT):
        launched = held(checks, **ignoring(sent))
        launched.send(sent, "group")
        goes_on = launched.holds_on()
        launched.send(TERM, "launcher")
        faults = ["" if goes_on else "it ended", *closed_in_order(launched)]
        checks.counts(f"{sent.name} stays ignored if it was, and TERM ends it", faults)
    launched = Launched(checks, WORDS, checks.script("exit 7"), **ignoring(signal.SIGCHLD))
    checks.counts("a program ends by itself, and CHLD was ignored", launched.faults(7))
    blocked = {"preexec_fn": lambda: signal.pthread_sigmask(signal.SIG_BLOCK, {TERM})}
    launched = held(checks, **blocked)
    launched.send(TERM, "launcher")
    checks.counts("TERM ends it, and was blocked", closed_in_order(launched))


def path(checks):
    """The program that no variable names."""
    folder = checks.folder()
    (folder / "wulameron").symlink_to(checks.script(HOLDS))
    environment = {"WULAMERON": "", "PATH": f"{folder}:{os.environ['PATH']}"}
    launched = Launched(checks, WORDS, environment=environment)
    launched.holds(HELD)
    launched.send(TERM, "launcher")
    checks.counts("without the variable it finds wulameron on the path", closed_in_order(launched))


def starts(checks):
    """A signal right after the start: the program wasn't started, or has ended in order."""
    begin, launched = time.monotonic(), held(checks)
    most = MOST_STARTS * (time.monotonic() - begin)
    launched.send(TERM, "launcher")
    drawn, faults, statuses = random.Random(7), closed_in_order(launched), []
    script = checks.script(HOLDS)
    for _ in range(STARTS):
        launched = Launched(checks, WORDS, script)
        time.sleep(drawn.random() * most)
        launched.send(TERM, "launcher")
        # What starts the launcher's interpreter may have processes of its own, which end soon.
        launched.all_ended()
        status = launched.ended()
        statuses.append(status)
        wanted = {STATUS: f"{HELD}0 bytes\n", -TERM: ""}
        faults += [*launched.faults(status), differs("its output", launched.said(), wanted.get(status, "another one"))]
    began = statuses.count(STATUS)
    checks.counts(f"TERM right after the start, {STARTS} times, {began} of them with the program started", faults)


def at_terminal(checks, words, program, text):
    """A launcher at a terminal of its own whose program has written a text, and our end of the terminal."""
    ours, theirs = os.openpty()

    def take():
        os.setsid()
        fcntl.ioctl(theirs, termios.TIOCSCTTY, 0)

    launched = Launched(checks, words, program, stdin=theirs, start_new_session=False, preexec_fn=take)
    os.close(theirs)
    launched.holds(text)
    return launched, ours


def terminals(checks):
    """Ctrl-C in a terminal, and the end of the terminal."""
    launched, terminal = at_terminal(checks, WORDS, checks.script(HOLDS), HELD)
    os.write(terminal, b"\x03")
    checks.counts("Ctrl-C ends the program in order", closed_in_order(launched))
    os.close(terminal)
    launched, terminal = at_terminal(checks, WORDS, checks.script(HOLDS), HELD)
    os.close(terminal)
    checks.counts("the end of the terminal ends the program in order", closed_in_order(launched))


def over_scripts(checks):
    """All of these."""
    for part in (signals, inputs, ends, more_signals, writing_end, ignored, path, starts, terminals):
        part(checks)
