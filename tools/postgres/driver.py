"""A handle of a log over `psql` and two pipes: the plain driver, a second writer and reader beside the crate."""
import hashlib
import os
import signal
import subprocess

from postgres import texts

# As the launcher starts it.
PSQL = ["psql", "--no-psqlrc", "--quiet", "--no-align", "--tuples-only", "--no-password", "--set", "VERBOSITY=sqlstate"]
PSQL += ["--set", "ON_ERROR_STOP=0", "--set", "FETCH_COUNT=0"]
PIECE = 64
VERSION = "3"
BUSY = "55P03"


class Ended(Exception):
    """The lines have ended, or can't be written."""


class Other(Exception):
    """Something else was told: the lines of a reply, of which the last one has the state."""

    def __init__(self, lines):
        super().__init__("; ".join(lines))
        self.lines, self.state = lines, lines[-1].split(" ")[-1]


class Session:
    """The two pipes of a session."""

    def __init__(self, questions, replies):
        self.questions, self.replies = questions, replies

    def say(self, text):
        """Writes some text."""
        try:
            self.questions.write(text.encode())
            self.questions.flush()
        except OSError as error:
            raise Ended(str(error)) from None

    def hear(self, word):
        """The lines of a reply, the one that begins with its word included."""
        lines = []
        while not lines or not lines[-1].startswith(word):
            line = self.replies.readline()
            if not line.endswith(b"\n"):
                raise Ended("; ".join(lines))
            lines.append(line.decode().rstrip("\n"))
        # So psql says it whose server was ended at once.
        if lines[-1] == f"{word} ":
            raise Ended("; ".join(lines))
        return lines

    def ask(self, text, word):
        """Writes a question, and reads its reply."""
        self.say(text)
        return self.hear(word)

    def told(self, text, word):
        """The lines of a reply that ends without an error."""
        lines = self.ask(text, word)
        if lines[-1] != f"{word} 00000":
            raise Other(lines)
        return lines[:-1]

    def call(self, text):
        """The same of a statement."""
        return self.told(f"{text};\n\\echo told :SQLSTATE\n", "told")

    def state(self, text):
        """With which state a statement ends."""
        return self.ask(f"{text};\n\\echo told :SQLSTATE\n", "told")[-1].split(" ")[1]


class Client(Session):
    """A session of one's own `psql`."""

    def __init__(self, environment):
        streams = {"stdin": subprocess.PIPE, "stdout": subprocess.PIPE, "stderr": subprocess.STDOUT}
        self.process = subprocess.Popen(PSQL, env=environment, start_new_session=True, **streams)
        super().__init__(self.process.stdin, self.process.stdout)

    def end(self, how=None):
        """Ends its input, or kills it, and gives its status."""
        if how:
            self.process.send_signal(how)
        try:
            self.questions.close()
        except OSError:
            pass
        status = self.process.wait()
        self.replies.close()
        return status

    def kill(self):
        """Kills it, as it may be."""
        self.end(signal.SIGKILL)


def of_pipes(paths):
    """The session of `QUESTIONS:REPLIES`, and of what begins so."""
    questions, replies = paths.split(":")[:2]
    session = Session(open(questions, "wb", buffering=0), open(replies, "rb"))
    session.say("\n")
    return session


class Keeper:
    """The launcher's keeper, by the two pipes behind those of the first session."""

    def __init__(self, paths):
        again, told = paths.split(":")[2:]
        self.again, self.told = open(again, "wb", buffering=0), open(told, "rb")

    def renewed(self):
        """Another session, in place of one that has ended."""
        self.again.write(b"\n")
        paths = self.told.readline().decode().rstrip("\n")
        if not paths:
            raise Ended("there is no other session")
        return of_pipes(paths)


class Log:
    """A handle of a log: as far as it has read, and whether it holds it."""

    def __init__(self, session, name, makes=True, patience=30000):
        self.session, self.name = session, name
        told = session.told(texts.opening(name, makes, patience), "opened")
        if not told:
            raise Other(["there is no such log"])
        self.begin(told[0])

    def begin(self, line):
        """Stands at the begin of the generation that was told."""
        version, self.log, self.generation, self.counter, self.snapshot, chain = line.split(" ")
        if version != VERSION:
            raise Other([f"the tables are of version {version}; use a program of that version"])
        self.log, self.generation = int(self.log), int(self.generation)
        self.counter, self.snapshot = int(self.counter), int(self.snapshot)
        self.number, self.chain = 0, chain

    def rows(self, lines):
        """The rows of a reading, behind the own place, and the number of the last row there is."""
        cells = [line.split(" ") for line in lines]
        if not lines or cells[0][:2] != [str(self.number), self.chain]:
            raise Other(["another history"])
        # A server that is shut down may tell so behind a reply that ends without an error.
        if any(len(one) != 3 or one[0] != str(number) for number, one in enumerate(cells, self.number)):
            raise Other(lines)
        return cells[1:], int(cells[0][2])

    def take(self, lines):
        """Takes some rows over, and what is behind them; gives their bytes by their numbers."""
        rows, last = self.rows(lines)
        found = []
        while True:
            for number, chain, digits in rows:
                self.number, self.chain = self.number + 1, chain
                found.append((self.number, bytes.fromhex(digits)))
            if self.number >= last:
                return found
            reading = texts.looking(self.log, self.generation, self.number, last)
            rows, _ = self.rows(self.session.told(reading, "read"))

    def hold(self):
        """Takes the gate, and what is new."""
        lines = self.session.told(texts.holding(self.log, self.generation, self.number), "held")
        if lines[:1] != [""]:
            raise Other([*lines, "held 00000"])
        return self.take(lines[1:])

    def look(self):
        """Takes what is new, without the gate."""
        return self.take(self.session.told(texts.looking(self.log, self.generation, self.number), "read"))

    def append(self, data):
        """Appends an entry, of which the commit was told."""
        told = self.session.told(texts.appending(self.log, self.generation, self.number + 1, data), "appended")
        cells = told[0].split(" ") if len(told) == 1 else []
        if cells[:1] != [str(self.number + 1)]:
            raise Other([*told, "appended 00000"])
        self.number, self.chain = self.number + 1, cells[1]

    def let_go(self):
        """Gives the gate back."""
        self.session.say(texts.letting_go(self.log))

    def compact(self, entries):
        """Makes the next generation of these entries, with the mark before them."""
        mark, *entries = entries
        ask, log, after = self.session.told, self.log, self.generation + 1
        told = ask(texts.moving(log, self.generation, self.number + 1, mark), "moved")
        chain = hashlib.sha256(bytes.fromhex(self.chain) + mark).hexdigest()
        if told != [f"{self.number + 1} {chain}", f"0 {chain}"]:
            raise Other([*told, "moved 00000"])
        for begin in range(0, len(entries), PIECE):
            part = list(enumerate(entries[begin : begin + PIECE], begin + 1))
            told = ask(texts.copying(log, after, part), "copied")
            if [line.split(" ")[::2] for line in told] != [[str(number), data.hex()] for number, data in part]:
                raise Other([*told, "copied 00000"])
        told = ask(texts.going_on(log, after, len(entries)), "went")
        if told != ["t"]:
            raise Other([*told, "went 00000"])
        self.rejoin()

    def rejoin(self):
        """Goes to the current generation, whose entries are then unread."""
        self.begin(self.session.told(texts.reopening(self.name), "opened")[0])

    def place(self):
        """The number and the chain of the last entry taken."""
        return self.generation, self.number, self.chain


def signal_group(process, how):
    """Sends a signal to a process and its group."""
    os.killpg(process.pid, how)
