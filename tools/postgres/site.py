"""Where a check works: its servers, and the program under the launcher."""
import copy
import os
import pathlib
import signal
import subprocess
import threading
from dataclasses import dataclass

from logs.whole_calls import REFUSED
from postgres.checks import SECONDS
from postgres.server import IMMEDIATE, LAUNCHER, Server

# The plain driver, which is a program of the same words.
PLAIN = pathlib.Path(__file__).resolve().parent / "plain"
# For how many milliseconds a call waits for a log that others hold.
PATIENCE = 30000
# What else the launcher has begun: its keeper, what has a program end with it, and the feeder of a `hold`, at first a bash.
NOT_PROGRAMS = ("bash", "setpriv", "cat")
# The commands that take a log or a node, which others may have a moment longer.
TAKING = ("run", "hold", "clean")
# How a program ends that can't use its log any more, and what the launcher tells where it has ended the program, since that
# didn't ask for another session in place of one that had ended.
FAULT = 3
LOST = "wulameron-postgres: postgres:{}: the session was lost, and others may take what this process held; start it again\n"
# What it tells as it wakes a `hold`.
WOKEN = "wulameron-postgres: postgres:{}: the session was lost, and others may take what this process holds; connecting again\n"
# For how many seconds a node is lost.
LOST_FOR = 3
# What another session has, and whether it does nothing meanwhile, by the name that it goes under.
AT_WORK = """select a.state, a.wait_event, a.pid, exists (select from pg_locks l where l.pid = a.pid
    and locktype = 'advisory' and classid = 'wulameron.logs'::regclass and granted), a.state_change
    from pg_stat_activity a where application_name = '{}' and backend_type = 'client backend'"""


@dataclass(frozen=True)
class Ran:
    """How a run of the program ended."""

    status: int
    out: list
    err: str


class Site:
    """The check's own folder, with servers that are ended in the end, and runs of the program."""

    def __init__(self, checks, program, programs, room):
        self.checks, self.program, self.programs, self.room = checks, program, programs, room
        self.servers, self.server = [], None
        # Of how many idle holders the session ends.
        self.ends = 0
        # Whether some processes of a storm are the plain driver.
        self.is_mixed = False

    def part(self, checks):
        """The same site with checks of its own."""
        found = copy.copy(self)
        found.checks = checks
        return found

    def begin(self):
        """Makes the server of the parts that have none of their own."""
        self.server = self.add(Server(self.programs, self.room / "server")).make()

    def add(self, server):
        """Has a server ended in the end."""
        self.servers.append(server)
        return server

    def end(self):
        """Ends all servers, of which none is begun any more."""
        for server in self.servers:
            server.stop(IMMEDIATE)

    @property
    def is_plain(self):
        """Whether the program is the plain driver."""
        return self.program == PLAIN

    def environment(self, server=None, **others):
        """That of the launcher. Nothing connects again, and nothing waits while a node is lost, where nothing else is said."""
        own = {"WULAMERON": str(self.program), "WULAMERON_RECONNECT": "0", "PGOPTIONS": "-c wulameron.now=on"}
        return (server or self.server).environment(**own | others)

    def words(self, command, name, *words):
        """The words by which a command is run at a log. It waits long for it where nothing else is said."""
        return [str(LAUNCHER), command, *waiting(command, words), "--at", f"postgres:{name}"]

    def ran(self, command, name, *words, lines=(), server=None, **others):
        """Runs a command to its end."""
        return self.finished(self.words(command, name, *words), lines, self.environment(server, **others))

    def finished(self, words, lines, environment):
        """Runs these words to their end."""
        self.checks.count("processes")
        given = "".join(f"{line}\n" for line in lines)
        try:
            ran = subprocess.run(words, input=given, capture_output=True, text=True, timeout=SECONDS, env=environment)
        except subprocess.TimeoutExpired:
            return Ran(-signal.SIGALRM, [], f"it ran for {SECONDS} seconds")
        return Ran(ran.returncode, ran.stdout.splitlines(), ran.stderr)

    def living(self, name, node, server=None, *words, **others):
        """A process that is given line after line, and whose session goes under a name of its own."""
        words = self.words("run", name, "--node", str(node), *words)
        return self.living_of(words, name, node, self.environment(server, **others))

    def living_of(self, words, name, node, environment):
        """The same by these words."""
        return Living(self.checks, words, environment | {"PGAPPNAME": f"{name}-{node}"})


def waiting(command, words):
    """The words behind a command, with how long it waits for its log."""
    return [*words, "--wait", str(PATIENCE)] if command in TAKING and "--wait" not in words else words


def is_refused(reply):
    """Whether a call was refused since its log refused; a process that ends may have no reply."""
    return not reply or any(word in reply for word in REFUSED)


def session_of(owner, process):
    """What the session of a process is at, as the owner sees it: its state, what it waits for, the server's process for
    it, whether it has a gate, and since when; nothing where there is none."""
    told = owner.call(AT_WORK.format(process.title))
    return told[0].split("|") if told else None


class Living:
    """A process of the program under the launcher."""

    def __init__(self, checks, words, environment):
        self.checks, self.title = checks, environment["PGAPPNAME"]
        streams = {name: subprocess.PIPE for name in ("stdin", "stdout", "stderr")}
        self.process = subprocess.Popen(words, env=environment, text=True, **streams)
        self.timer = None
        self.watch()
        checks.count("processes")

    def watch(self):
        """Has it killed where it takes too long from now on."""
        if self.timer:
            self.timer.cancel()
        self.timer = threading.Timer(2 * SECONDS, self.process.kill)
        self.timer.daemon = True
        self.timer.start()

    @property
    def pid(self):
        """The number of the launcher."""
        return self.process.pid

    def program(self):
        """The process of the program, which the launcher has begun."""
        return child(self.pid, *NOT_PROGRAMS)

    def say(self, *lines):
        """Gives it lines, and reads no reply."""
        self.watch()
        self.process.stdin.write("".join(f"{line}\n" for line in lines))
        self.process.stdin.flush()

    def reply(self, line):
        """The reply's last line; nothing where it ends before."""
        self.checks.count("calls")
        try:
            self.say(line)
        except BrokenPipeError:
            return None
        return self.hear(line == "list")

    def hear(self, is_list=False):
        """A line that it replies, or the last one of a list; nothing where it ends before."""
        text = self.process.stdout.readline()
        while is_list and text and not text.endswith(" services\n"):
            text = self.process.stdout.readline()
        return text.rstrip("\n") if text else None

    def listing(self):
        """All lines of a list."""
        self.say("list")
        lines = [self.hear()]
        while lines[-1] and not lines[-1].endswith(" services"):
            lines.append(self.hear())
        return lines

    def end(self):
        """Has it end by itself, and gives what it wrote since then."""
        self.watch()
        out, err = self.process.communicate()
        self.timer.cancel()
        return Ran(self.process.returncode, out.splitlines(), err)

    def ended(self):
        """Waits until it has ended while its input is open, and gives what it wrote since then."""
        self.watch()
        self.process.wait()
        return self.end()

    def kill(self, how=signal.SIGKILL):
        """Kills it."""
        self.checks.count("kills")
        self.process.send_signal(how)
        return self.end()

    def keeper(self):
        """The process of the launcher's keeper; nothing where there is none."""
        return child(self.pid, wanted="bash")

    def psql(self):
        """The process of its psql, which the keeper has begun; nothing where there is none."""
        keeper = self.keeper()
        return child(keeper, wanted="psql") if keeper else None

    def watcher(self):
        """The process of its watcher, which the keeper has begun."""
        return child(self.keeper(), "psql")


def child(pid, *others, wanted=None):
    """The process that another one has begun, and that runs this program, or where none is named another one than these;
    nothing where there is none."""
    for name in filter(str.isdigit, os.listdir("/proc")):
        try:
            stat = pathlib.Path(f"/proc/{name}/stat").read_text(encoding="utf-8", errors="replace")
        except OSError:
            continue
        program, _, rest = stat.partition("(")[2].rpartition(")")
        fits = program == wanted if wanted else program not in others
        if fits and rest.split()[1] == str(pid):
            return int(name)
    return None


def check_over(checks, ran, name, what):
    """It ended since its log can't be used any more, and tells that in a line, or the launcher tells it."""
    begins = f"wulameron: postgres:{name}: "
    fine = ran.status == FAULT and (ran.err == LOST.format(name) or ran.err.startswith(begins) and ran.err.count("\n") == 1)
    checks.count("sessions ended")
    return checks.need(fine, f"{what}: status {ran.status}: {ran.err!r}")
