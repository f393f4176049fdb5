"""A server of one's own: in a folder of its own, of an ordinary user, at a socket there, and at addresses with a free
port where some are asked for."""
import os
import pathlib
import pwd
import shutil
import signal
import socket
import subprocess

from postgres.checks import SECONDS, until

TOP = pathlib.Path(__file__).resolve().parent.parent.parent
SCHEMA = TOP / "postgres/schema.sql"
LAUNCHER = TOP / "postgres/wulameron-postgres"
OLDEST = 15
OWNER, DATABASE, ROLE = "owner", "logs", "lamps"
# The user who has the server where a check runs as root, whom the server refuses.
ORDINARY = "nobody"
# Nothing here tests what a crash of the machine leaves, so nothing waits for the disk.
SETTINGS = {"fsync": "off", "shared_buffers": "'32MB'", "max_connections": "60", "log_statement": "'none'"}
FAST, IMMEDIATE = signal.SIGINT, signal.SIGQUIT
# The port of a server at its socket alone, where no other server can have it.
PORT = 5432
# How often a server is started at another port, where one was taken since it was found free.
PORTS = 5
# How long a client tries for a session, and how often at most a server is asked about its state.
CONNECT, PAUSE = 30, 0.1
# A small commit, and what a session waits for that waits for a replica within one.
COMMIT, IN_COMMIT = "select pg_logical_emit_message(true, '', '')", "SyncRep"


def binaries():
    """The folder of the server's programs, of version 15 or later; nothing where there is none."""
    folders = sorted(pathlib.Path("/usr/lib/postgresql").glob("*/bin"), key=lambda path: -float(path.parent.name))
    if found := shutil.which("initdb"):
        folders.append(pathlib.Path(found).resolve().parent)
    for folder in folders:
        if (folder / "initdb").exists() and (folder / "postgres").exists() and version(folder / "postgres") >= OLDEST:
            return folder
    return None


def version(program):
    """The version of a program of the database."""
    words = subprocess.run([program, "--version"], capture_output=True, text=True, check=True).stdout.split()
    return int(words[2].split(".")[0])


def free_port():
    """A port at which nobody is."""
    with socket.socket() as found:
        found.bind(("127.0.0.1", 0))
        return found.getsockname()[1]


def as_ordinary():
    """As whom the server's programs run."""
    if os.geteuid() != 0:
        return {}
    user = pwd.getpwnam(ORDINARY)
    return {"user": user.pw_uid, "group": user.pw_gid, "extra_groups": []}


class Server:
    """A server that is started, and ended with its folder's user."""

    def __init__(self, programs, folder, addresses="", networks=(), namespace=None, **settings):
        self.programs, self.folder, self.data = programs, folder, folder / "data"
        self.port = free_port() if addresses else PORT
        self.addresses, self.settings, self.namespace = addresses, SETTINGS | settings, namespace
        self.networks = networks
        self.process, self.log = None, folder / "server.log"
        folder.mkdir()
        folder.chmod(0o755)
        if os.geteuid() == 0:
            shutil.chown(folder, ORDINARY)

    def run(self, program, *words, **others):
        """Runs a program of the server to its end."""
        words = [str(self.programs / program), *map(str, words)]
        return subprocess.run(words, cwd=self.folder, capture_output=True, text=True, check=True, timeout=SECONDS,
                              **as_ordinary(), **others)

    def make(self):
        """Makes the server's files, with a database that has the schema, and a login role of a node; starts it."""
        self.run("initdb", "--pgdata", self.data, "--username", OWNER, "--auth", "trust", "--encoding", "UTF8",
                 "--locale", "C", "--no-sync", "--no-instructions")
        self.admit(*(f"host all all {network} trust" for network in self.networks),
                   *(f"host replication all {network} trust" for network in self.networks))
        self.start_anywhere()
        self.script("postgres", f"create database {DATABASE}")
        self.script(DATABASE, f"\\i {SCHEMA}", f"create role {ROLE} login in role wulameron_node")
        return self

    def admit(self, *lines):
        """Writes lines before those that say who is let in."""
        path = self.data / "pg_hba.conf"
        path.write_text("".join(f"{line}\n" for line in lines) + path.read_text())

    def write_settings(self):
        """Writes its settings."""
        settings = self.settings | {"port": self.port, "listen_addresses": f"'{self.addresses}'"}
        settings |= {"unix_socket_directories": f"'{self.folder}'"}
        path = self.data / "own.conf"
        path.write_text("".join(f"{name} = {value}\n" for name, value in settings.items()))
        path.chmod(0o644)

    def set(self, name, value):
        """Changes a setting while it runs, and waits until that is known."""
        self.settings[name] = f"'{value}'"
        self.write_settings()
        self.process.send_signal(signal.SIGHUP)
        if not until(lambda: self.told(f"show {name}") == [value], pause=PAUSE):
            raise RuntimeError(f"{name} doesn't become {value}")

    def reload(self):
        """Has it read its files again, and waits until each session that begins has what they say."""
        query = "select pg_conf_load_time()"
        before = self.told(query)
        self.process.send_signal(signal.SIGHUP)
        if not until(lambda: self.told(query) != before, pause=PAUSE):
            raise RuntimeError("the server doesn't read its files again")

    def delay_commits(self):
        """Has each commit wait for a replica that isn't there. One is tried, since a session that shows the setting isn't
        who heeds it."""
        self.set("synchronous_standby_names", "none")
        state = "select pid from pg_stat_activity where application_name = 'delayed' and wait_event = '{}'"
        words = [self.programs / "psql", "-XAtqw", "-c", COMMIT]
        environment = self.environment(OWNER, PGAPPNAME="delayed")
        for _ in range(SECONDS):
            with subprocess.Popen(words, env=environment, stdout=subprocess.DEVNULL, stderr=subprocess.DEVNULL) as tried:
                found = until(lambda: tried.poll() is not None or self.told(state.format(IN_COMMIT)), pause=PAUSE)
                if isinstance(found, list) and found:
                    self.told(f"select pg_terminate_backend({found[0]})")
                    return
        raise RuntimeError("commits don't wait")

    def wait_gone(self, pids):
        """Waits until these sessions have ended, with all that they had; tells whether they have."""
        query = f"select pid from pg_stat_activity where pid in ({', '.join(map(str, pids))})"
        return until(lambda: not self.told(query), pause=PAUSE)

    def wait_dead(self, name):
        """Waits until each node of a log is dead or lost, as those are whose processes have ended; gives the ones that aren't."""
        query = f"select * from wulameron.nodes('{name}') as one where one like '% alive'"
        until(lambda: not self.told(query), pause=PAUSE)
        return self.told(query)

    def processes(self):
        """Its own processes, which are others when it has begun anew; nothing while it lets no session begin."""
        return self.ask("select pid from pg_stat_activity where backend_type = 'checkpointer'").stdout

    def reason(self, pid):
        """Why it ended a session, as its log has it; nothing where it has nothing of that."""
        lines = [line for line in self.log.read_text(errors="replace").splitlines() if f" [{pid}] FATAL: " in line]
        return lines[-1].partition("FATAL: ")[2].strip() if lines else None

    def start(self):
        """Starts it, and waits until it answers."""
        self.write_settings()
        words = [str(self.programs / "postgres"), "-D", str(self.data), "-c", f"config_file={self.data}/own.conf"]
        words += ["-c", f"hba_file={self.data}/pg_hba.conf"]
        if self.namespace:
            words = ["ip", "netns", "exec", self.namespace, "setpriv", f"--reuid={ORDINARY}", "--regid=nogroup",
                     "--clear-groups", *words]
        user = {} if self.namespace else as_ordinary()
        with open(self.log, "ab") as log:
            streams = {"stdout": log, "stderr": log, "start_new_session": True}
            self.process = subprocess.Popen(words, cwd=self.folder, **streams, **user)
        until(lambda: self.process.poll() is not None or self.answers(), pause=PAUSE)
        if self.process.poll() is not None or not self.answers():
            raise RuntimeError(f"the server doesn't start: {self.log.read_text()[-2000:]}")
        return self

    def start_anywhere(self):
        """Starts it, at another port where another program has taken this one meanwhile."""
        for left in reversed(range(PORTS)):
            try:
                return self.start()
            except RuntimeError as error:
                if not left or "Address already in use" not in str(error):
                    raise
            self.port = free_port()
        raise AssertionError

    def answers(self):
        """Whether it lets a session begin."""
        return self.ask("select 1", database="postgres").returncode == 0

    def is_running(self):
        """Whether it was started, and hasn't ended."""
        return self.process is not None and self.process.poll() is None

    def stop(self, how=FAST):
        """Ends it, and with it all its sessions."""
        if self.is_running():
            self.process.send_signal(how)
            self.process.wait(SECONDS)

    def environment(self, role=ROLE, database=DATABASE, **others):
        """By what a client's library knows this server."""
        kept = {name: value for name, value in os.environ.items() if not name.startswith("PG")}
        kept |= {"PGHOST": str(self.folder), "PGPORT": str(self.port), "PGUSER": role, "PGDATABASE": database}
        # What Debian has before psql, to choose a version, takes longer than psql.
        kept["PATH"] = f"{self.programs}:{kept['PATH']}"
        return kept | {"PGCONNECT_TIMEOUT": str(CONNECT)} | others

    def ask(self, text, role=OWNER, database=DATABASE):
        """Has psql ask one thing in a session of its own."""
        words = [self.programs / "psql", "-XAtqw", "-v", "ON_ERROR_STOP=1", "-c", text]
        return subprocess.run(words, env=self.environment(role, database), capture_output=True, text=True,
                              timeout=SECONDS)

    def told(self, text, role=OWNER, database=DATABASE):
        """The lines of the answer to one question."""
        ran = self.ask(text, role, database)
        if ran.returncode:
            raise RuntimeError(f"{text}: {ran.stderr}")
        return ran.stdout.splitlines()

    def script(self, database, *lines):
        """Has psql run some lines as the owner."""
        text = "".join(line if line.startswith("\\") else f"{line};" for line in (f"{one}\n" for one in lines))
        ran = subprocess.run([self.programs / "psql", "-Xqw", "-v", "ON_ERROR_STOP=1"], input=text, text=True, timeout=SECONDS,
                             env=self.environment(OWNER, database), capture_output=True)
        if ran.returncode:
            raise RuntimeError(ran.stderr)


def replica(server, folder, name="replica", **settings):
    """A server that follows another one, and may take over."""
    other = Server(server.programs, folder, addresses=server.addresses, **{**server.settings, **settings})
    server.run("pg_basebackup", "--pgdata", other.data, "--checkpoint", "fast", "--no-sync", "--host", server.folder,
               "--port", server.port, "--username", OWNER, "--wal-method", "stream")
    (other.data / "standby.signal").touch()
    whom = f"host={server.folder} port={server.port} user={OWNER} application_name={name}"
    other.settings |= {"primary_conninfo": f"'{whom}'", "hot_standby": "on"}
    return other.start()
