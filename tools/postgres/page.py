"""The lines of docs/POSTGRES.md, run as they are: on a server, and on two machines, which are network namespaces with
their own addresses, or this machine twice where none can be made.

A fenced block `console` has lines such as `one$ COMMAND`, `two$ ..`, `server$ ..`, and `each$ ..` for both machines. What
the command has to print stands behind it, and `? STATUS` where that isn't 0. A `hold` that is granted stays, and has the
rest of its machine's terminal.
"""
import os
import re
import shutil
import signal
import subprocess
import threading

from postgres.checks import SECONDS, until
from postgres.networks import Network
from postgres.server import LAUNCHER, OWNER, PAUSE, TOP, Server

PAGE = TOP / "docs/POSTGRES.md"
BLOCK = re.compile(r"^```console\n(.*?)^```$", re.MULTILINE | re.DOTALL)
PROMPT = re.compile(r"(server|one|two|each)\$ (.*)")
HOSTS = {"server": ["server"], "one": ["one"], "two": ["two"], "each": ["one", "two"]}
# What the page has in place of what is one's own.
SERVER, PASSWORD, PROGRAM = "db.example", "PASSWORD", "proved/wulameron"
NETWORK = "10.0.0.0/8"
# How many sessions there are, and how long one may take to end.
SESSIONS, ENDING = "select count(*) from pg_stat_activity where usename = 'robots'", 10
DONE = "this was its status:"
# A command that looks at what sessions are at, and one after which the server reads its files again.
LOOKING, RELOADING = re.compile(r"select .*(wulameron\.nodes|pg_stat_activity|pg_locks)"), "pg_reload_conf"


def commands(text):
    """Each command with its hosts, the lines that it has to print, and its status."""
    found = []
    for line in (line for block in BLOCK.findall(text) for line in block.splitlines()):
        if prompt := PROMPT.fullmatch(line):
            found.append((HOSTS[prompt[1]], prompt[2], [], [0]))
        elif line.startswith("? "):
            found[-1][3][0] = int(line[2:])
        else:
            found[-1][2].append(line)
    return [(hosts, command, printed, status[0]) for hosts, command, printed, status in found]


class Terminal:
    """A shell on a host, which is given command after command."""

    def __init__(self, front, folder, environment):
        folder.mkdir()
        environment |= {"HOME": str(folder), "PATH": f"{folder}/.local/bin:{os.environ['PATH']}", "LC_ALL": "C.UTF-8"}
        environment.pop("WULAMERON", None)
        streams = {"stdin": subprocess.PIPE, "stdout": subprocess.PIPE, "stderr": subprocess.STDOUT}
        self.process = subprocess.Popen([*front, "bash"], cwd=TOP, env=environment, text=True, start_new_session=True,
                                        **streams)
        self.stays = False

    def run(self, command, count, stays):
        """What a command prints, and its status; of one that stays so many lines, and no status."""
        self.stays = stays
        timer = threading.Timer(SECONDS, os.killpg, [self.process.pid, signal.SIGKILL])
        timer.daemon = True
        timer.start()
        self.process.stdin.write(f"{command}\n" if stays else f"{command}\necho '{DONE}' $?\n")
        self.process.stdin.flush()
        lines = []
        while not stays or len(lines) < count:
            line = self.process.stdout.readline()
            if not line:
                break
            if line.startswith(DONE):
                timer.cancel()
                return lines, int(line.split()[-1])
            lines.append(line.rstrip("\n"))
        timer.cancel()
        return lines, 0

    def end(self):
        """Ends its input, and gives its status."""
        self.process.stdin.close()
        try:
            return self.process.wait(SECONDS)
        except subprocess.TimeoutExpired:
            os.killpg(self.process.pid, signal.SIGKILL)
            return self.process.wait()


def own_words(site, command, address, network):
    """A command with what is one's own in place of what the page has."""
    own = {SERVER: address, NETWORK: network, PROGRAM: str(site.program)}
    for word, value in own.items():
        command = command.replace(word, value)
    return command


def check_page(site, server, terminals, addresses, network):
    """Each command of the page prints what the page has, on each of its hosts."""
    for hosts, command, printed, status in commands(PAGE.read_text(encoding="utf-8")):
        for host in hosts:
            terminal = terminals[host]
            if terminal.stays:
                site.checks.need(False, f"the page gives {host} a command while another one stays: {command}")
                continue
            stays = command.startswith("wulameron-postgres hold ") and status == 0
            own = own_words(site, command, addresses[host], network)
            found = terminal.run(own, len(printed), stays)
            if LOOKING.search(command) and found != (printed, status):
                # That a session has ended, or has given back, is seen a little later.
                found = until(lambda: (one := terminal.run(own, 0, False)) == (printed, status) and one, pause=PAUSE) or found
            site.checks.same(found, (printed, status), f"on {host}: {command}")
            if RELOADING in command:
                server.reload()
            if LAUNCHER.name in command:
                # A node is another session's until that has ended.
                count = str(sum(one.stays for one in terminals.values()))
                until(lambda: server.told(SESSIONS) == [count], ENDING, PAUSE)
    for host, terminal in terminals.items():
        site.checks.same(terminal.end(), 0, f"the status of the last command on {host}")
    wanted = ["1 dead", "2 dead"]
    look = lambda: server.told("select wulameron.nodes('building')", database="services")
    until(lambda: look() == wanted, pause=PAUSE)
    site.checks.same(look(), wanted, "the nodes behind the page's commands")


def page(site):
    """The page's lines."""
    if site.is_plain:
        return "left out, since the plain driver has no such commands"
    try:
        network = Network().__enter__()
    except (OSError, subprocess.CalledProcessError):
        network = None
    try:
        if network:
            addresses = ",".join(["127.0.0.1", *(machine.server for machine in network.machines)])
            server = site.add(Server(site.programs, site.room / "page", addresses, (), network.hub)).make()
            fronts = [["ip", "netns", "exec", machine.name] for machine in network.machines]
            found = dict(zip(("one", "two"), (machine.server for machine in network.machines)))
        else:
            server = site.add(Server(site.programs, site.room / "page", "127.0.0.1")).make()
            fronts, found = [[], []], {"one": "127.0.0.1", "two": "127.0.0.1"}
        plain = {name: value for name, value in server.environment().items() if not name.startswith("PG")}
        terminals = {"server": Terminal([], site.room / "at-server", server.environment(OWNER))}
        for host, front in zip(("one", "two"), fronts):
            terminals[host] = Terminal(front, site.room / f"at-{host}", plain | {"PGPORT": str(server.port)})
        check_page(site, server, terminals, found | {"server": "localhost"}, NETWORK if network else "127.0.0.0/8")
        server.stop()
    finally:
        if network:
            network.__exit__()
    checks = site.checks
    told = f"{checks.counts['checks']} checks, {len(checks.wrong)} wrong, on one machine, since no network namespace"
    return None if network else f"{told} can be made"
