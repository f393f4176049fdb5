"""The launcher over the program itself, and the unit of systemd, whose lines are run as systemd runs them."""
import os
import re
import shutil
import signal

from contrib.launching import Launched, differs
from contrib.scripts import at_terminal

INT, TERM, HUP, KILL = signal.SIGINT, signal.SIGTERM, signal.SIGHUP, signal.SIGKILL
CALL = ["event", "create", "lamps", "max_nodes=2"]
WORDS = ["--at", "log", "--node", "1", *CALL]
# The last line of what was agreed.
AGREED = "* differs from the default of a create\n"
# What a hold of node 1 leaves: the log, and the file of the node.
FILES = ("log", "log.node-1")
# What the commands print while the service is held, once it was closed, and once its node has died.
HELD = "event    lamps  1/2    1        0\n1 services\n"
# The same where the node that holds it is dead.
LEFT = (
    "event    lamps  1/2    1        0  1 dead\n1 services\n"
    "1 with dead nodes; run `wulameron clean` to release them\n"
)
NO_SERVICES = "PATTERN  NAME  NODES  CREATOR  NUMBER\n0 services\n"
CLEANED = "node 1: 1 releases, 3 removals\n"


class Log:
    """What the commands of the program say of the log of a launcher."""

    def __init__(self, checks, path):
        self.checks, self.path = checks, path

    def printed(self, *words):
        """What a command prints."""
        ran = self.checks.ran([self.checks.program, *words, "--at", self.path])
        return ran.stdout + ran.stderr

    def faults(self, services, node, owed=""):
        """What is wrong with the list of services, the state of node 1, and what a cleaning would release."""
        listed = self.printed("list")
        return [
            "" if listed.endswith(services) else differs("the list", listed, services),
            differs("the nodes", self.printed("nodes"), node),
            differs("what is left to release", self.printed("clean", "--dry-run"), owed),
        ]

    def held(self):
        """What is wrong while the service is held."""
        return self.faults(HELD, "node 1 alive\n")

    def closed(self):
        """What is wrong once the service was closed in order."""
        return self.faults(NO_SERVICES, "node 1 ended\n")

    def killed(self):
        """What is wrong once the node has died."""
        return self.faults(LEFT, "node 1 dead\n", "node 1: would be 1 releases, 3 removals\n")


def holding(checks, words=WORDS, **options):
    """A launcher whose program holds the service, its log, and what is wrong with it."""
    launched = Launched(checks, words, **options)
    agreed = launched.holds(AGREED)
    log = Log(checks, launched.home / "log")
    return launched, log, [*log.held(), "" if agreed else f"nothing was agreed: {launched.told()}"]


def in_order(checks, what, end, **options):
    """The service is held, and closed by something that ends the launcher."""
    launched, log, faults = holding(checks, **options)
    end(launched)
    faults += [*launched.faults(0, FILES), differs("its error output", launched.told(), ""), *log.closed()]
    checks.counts(what, faults)


def signals(checks):
    """Each signal, to the launcher alone and to the group, with no input and with a closed one, and Ctrl-C."""
    for sent in (INT, TERM, HUP):
        for to in ("launcher", "group"):
            in_order(checks, f"wulameron: {sent.name} to the {to} closes the service",
                     lambda launched, sent=sent, to=to: launched.send(sent, to))
    in_order(checks, "wulameron: with a closed input it holds, and TERM closes the service",
             lambda launched: launched.holds_on() and launched.send(TERM, "launcher"),
             stdin=None, preexec_fn=lambda: os.close(0))


def terminal(checks):
    """Ctrl-C in a terminal."""
    launched, ours = at_terminal(checks, WORDS, checks.program, AGREED)
    log = Log(checks, launched.home / "log")
    faults = log.held()
    os.write(ours, b"\x03")
    checks.counts("wulameron: Ctrl-C closes the service", [*faults, *launched.faults(0, FILES), *log.closed()])
    os.close(ours)


def kills(checks):
    """The program is killed, and the launcher is."""
    launched, log, faults = holding(checks)
    launched.send(KILL, "program")
    faults += [*launched.faults(128 + KILL, FILES), *log.killed()]
    faults += [differs("clean", log.printed("clean", "1"), CLEANED), *log.closed()]
    checks.counts("wulameron: a program that is killed leaves a dead node, and clean releases what it had", faults)

    launched, log, faults = holding(checks)
    launched.send(KILL, "launcher")
    launched.all_ended()
    checks.counts("wulameron: if the launcher is killed, the program closes the service",
                  [*faults, *launched.faults(-KILL, FILES), *log.closed()])


def refusals(checks):
    """Calls that are refused, and words that are no call: the launcher ends at once."""
    refused = "EventOpenError::DoesNotExist"
    kinds = {
        "a call that is refused": (WORDS[:4] + ["event", "open", "lamps"], 1, refused, FILES),
        "words that are no call": ([*WORDS, "max_node=2"], 2, "max_node", ()),
    }
    for kind, (words, status, told, files) in kinds.items():
        launched = Launched(checks, words)
        faults = [*launched.faults(status, files), differs("its output", launched.said(), "")]
        faults.append("" if told in launched.told() else f"it says {launched.told()!r}")
        checks.counts(f"wulameron: {kind}", faults)

    launched, log, faults = holding(checks)
    second = Launched(checks, ["--at", log.path, *WORDS[2:]])
    faults += [*second.faults(3), *log.held()]
    faults.append("" if "node 1 is alive" in second.told() else f"it says {second.told()!r}")
    launched.send(TERM, "launcher")
    checks.counts("wulameron: a node that is alive", [*faults, *launched.faults(0, FILES), *log.closed()])

    with open("/dev/full", "wb") as full:
        launched = Launched(checks, WORDS, stdout=full)
    faults = [*launched.faults(3, FILES), *Log(checks, launched.home / "log").closed()]
    checks.counts("wulameron: an output that refuses", faults)

    launched = Launched(checks, ["--help"])
    faults = [*launched.faults(0), "" if "Usage: wulameron hold" in launched.said() else "it prints no usage"]
    checks.counts("wulameron: the help of the launcher is that of hold", faults)


# ---- The unit


class Unit:
    """The unit, as systemd reads it for one instance, with the programs and the log's folder of this check."""

    def __init__(self, checks, call):
        path = checks.contrib / "wulameron-hold@.service"
        programs, runtime = checks.folder(), checks.folder()
        (programs / "wulameron-hold").symlink_to(checks.launcher)
        (programs / "wulameron").symlink_to(checks.program)
        (runtime / "wulameron").mkdir(mode=0o700)
        text = path.read_text(encoding="utf-8").replace("/usr/local/bin/", f"{programs}/")
        self.text = text.replace("%t", str(runtime)).replace("%i", "lamps")
        self.environment = dict(value.split("=", 1) for value in self.values("Environment"))
        self.environment |= {"NODE": "1", "CALL": call, "PATH": f"{programs}:{os.environ['PATH']}"}
        self.checks, self.log = checks, Log(checks, self.environment["WULAMERON_LOG"])

    def values(self, name):
        """What the unit sets by a name."""
        return re.findall(rf"^{name}=(.*)$", self.text, re.MULTILINE)

    def words(self, name):
        """The words of a command line: ${X} is one word, and $X as many as it has."""
        (line,) = self.values(name)
        found = []
        for word in line.removeprefix("-").split():
            whole, parted = re.fullmatch(r"\$\{(\w+)\}", word), re.fullmatch(r"\$(\w+)", word)
            if whole:
                found.append(self.environment[whole[1]])
            else:
                found += self.environment[parted[1]].split() if parted else [word]
        return found

    def start(self):
        """Runs the line that starts it. There is no input."""
        launcher, *words = self.words("ExecStart")
        return Launched(self.checks, words, command=[launcher], environment=self.environment)

    def clean(self):
        """Runs the line that is run after a stop, and gives its status and what it prints."""
        ran = self.checks.ran(self.words("ExecStopPost"), env=self.environment)
        return ran.returncode, ran.stdout + ran.stderr


def unit_lines(checks):
    """The unit's lines are run: after a stop, after kills, and with words that are no call."""
    for sent, status in ((TERM, 0), (KILL, -KILL)):
        # Each has a log of its own, in which the service has the first number.
        unit = Unit(checks, " ".join(CALL))
        closed = unit.log.killed if sent == KILL else unit.log.closed
        launched = unit.start()
        launched.holds(AGREED)
        faults = unit.log.held()
        launched.send(sent, "group")
        if sent == KILL:
            launched.all_ended()
        faults += [*launched.faults(status), *closed()]
        faults.append(differs("what ExecStopPost does", unit.clean(), (0, CLEANED if sent == KILL else "")))
        checks.counts(f"unit: {sent.name} to all of it, and ExecStopPost", [*faults, *unit.log.closed()])

    unit = Unit(checks, "event create lamps max_node=2")
    faults = unit.start().faults(2)
    faults.append(differs("RestartPreventExitStatus", unit.values("RestartPreventExitStatus"), ["2"]))
    status, printed = unit.clean()
    faults.append(differs("what ExecStopPost does", (status, "there is no log" in printed), (3, True)))
    (line,) = unit.values("ExecStopPost")
    faults.append("" if line.startswith("-") else "ExecStopPost may not fail")
    checks.counts("unit: wrong words, which aren't tried again", faults)


def verified(checks, text):
    """What systemd-analyze says of a unit."""
    path = checks.folder() / "wulameron-hold@.service"
    path.write_text(text, encoding="utf-8")
    ran = checks.ran(["systemd-analyze", "verify", "--man=no", path])
    return ran.returncode, ran.stdout + ran.stderr


def unit_text(checks):
    """systemd finds nothing wrong with the unit, and something with a unit that is wrong."""
    if not shutil.which("systemd-analyze"):
        print("not tried: systemd-analyze isn't here")
        return
    text = Unit(checks, "").text
    checks.counts("unit: systemd-analyze verify", [differs("what it says", verified(checks, text), (0, ""))])
    _, said = verified(checks, text.replace("RestartSec=", "RestartSecs="))
    checks.counts("unit: systemd-analyze verify finds a wrong name", ["" if "RestartSecs" in said else "it doesn't"])


def over_program(checks):
    """The launcher over the program."""
    for part in (signals, terminal, kills, refusals):
        part(checks)


def unit(checks):
    """The unit."""
    unit_lines(checks)
    unit_text(checks)
