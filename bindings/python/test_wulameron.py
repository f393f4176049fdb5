"""Tests of wulameron.py: what the pages tell, by `python3 -m unittest` in this folder, after `tools/build-c`.

Those over a log need the program `wulameron`, which WULAMERON names, or else is crates/wulameron/out/wulameron.
"""
import hashlib
import os
import pathlib
import re
import struct
import subprocess
import sys
import tempfile
import time
import unittest

import wulameron as w

HERE = pathlib.Path(__file__).resolve().parent
os.environ.setdefault("WULAMERON", str(HERE.parent.parent / "crates/wulameron/out/wulameron"))


# A program for sessions that knows nodes.
KNOWING = """#!/bin/sh
echo 'ready 3 5'
while read -r line; do echo 'nodes 2 4,lost 5,alive'; done
"""

# A program for sessions that grants two calls, and loses its session at the next line.
LOSING = """#!/bin/sh
echo 'ready 3 5'
read -r line; echo 'ok 3 number=0'
read -r line; echo 'ok 4 number=1'
read -r line; echo lost; exit 3
"""


def numbers_of_header():
    """The numbers that wulameron.h defines, by their names without the prefix."""
    text = (HERE.parent / "c/wulameron.h").read_text(encoding="utf-8")
    return {name: int(number) for name, number in re.findall(r"^#define WULAMERON_(\w+) (\d+)u\b", text, re.MULTILINE)}


class Calls(unittest.TestCase):
    """Calls in a session."""

    def create_lamps(self, session):
        """A service of events with room for four listeners and two nodes."""
        session.begin(w.EVENT, w.CREATE, 7, "lamps")
        wanted = {w.MAX_NOTIFIERS: 2, w.MAX_LISTENERS: 4, w.EVENT_ID_MAX_VALUE: 255, w.MAX_NODES: 2}
        for setting, value in wanted.items():
            session.set_number(setting, value)
        session.add_attribute("place", "attic")
        return session.send(0)

    def test_agrees(self):
        """Another node gets what was agreed on, and is refused what doesn't fit."""
        with w.Session() as session:
            self.assertEqual(self.create_lamps(session), 0)
            session.begin(w.EVENT, w.OPEN, 8, "lamps")
            session.set_number(w.MAX_LISTENERS, 3)
            session.send(1)
            self.assertEqual(session.number(1, w.MAX_LISTENERS), 4)
            self.assertEqual(session.attributes(1), [("place", "attic")])
            session.begin(w.EVENT, w.OPEN, 8, "lamps")
            session.set_number(w.MAX_LISTENERS, 5)
            with self.assertRaises(w.Refused) as refused:
                session.send(2)
            self.assertEqual(refused.exception.refusal, 1013)
            session.close(0)
            session.close(1)
            self.assertEqual(session.list(), 0)

    def test_bytes(self):
        """The description is written as docs/BYTE_FORM.md tells, put together here by the page."""
        with w.Session() as session:
            self.create_lamps(session)
            for setting in (w.NOTIFIER_CREATED_EVENT, w.NOTIFIER_DROPPED_EVENT, w.NOTIFIER_DEAD_EVENT, w.DEADLINE):
                self.assertIsNone((session.duration if setting == w.DEADLINE else session.number)(0, setting))
            hash_of = hashlib.sha1(b"elamps").digest()
            wanted = b"IOX2\2" + struct.pack(">Q", 7) + hash_of + b"\0\5lamps\0\1\0\5place\0\5attic\1"
            wanted += struct.pack(">QQQQ", 2, 4, 255, 2) + b"\0\0\0\0"
            self.assertEqual(session.hash(0), hash_of)
            self.assertEqual(session.bytes(0), wanted)

    def test_types(self):
        """The types of messages are read as they were set."""
        with w.Session() as session:
            session.begin(w.REQUEST_RESPONSE, w.OPEN_OR_CREATE, 1, "oven")
            session.set_type(w.REQUEST_PAYLOAD, w.FIXED_SIZE, "Heat", 8, 8)
            session.send(0)
            self.assertEqual(session.type_of(0, w.REQUEST_PAYLOAD), (w.FIXED_SIZE, "Heat", 8, 8))
            self.assertEqual(session.name(0), "oven")

    def test_errors(self):
        """Each call that isn't done raises its code."""
        with w.Session() as session:
            for code, call in (
                (15, lambda: session.send(0)),
                (13, lambda: session.begin(9, w.OPEN, 1, "lamps")),
                (7, lambda: session.begin(w.EVENT, w.OPEN, 1, "")),
                (18, lambda: session.close(3)),
                (16, lambda: session.close(64)),
            ):
                with self.assertRaises(w.WulameronError) as error:
                    call()
                self.assertEqual(error.exception.code, code)
            with self.assertRaises(OverflowError):
                session.begin(w.EVENT, w.OPEN, -1, "lamps")
            with self.assertRaises(w.WulameronError) as error:
                session.nodes()
            self.assertIs(error.exception.code, w.Code.ONLY_OVER_LOG)

    def test_refusals(self):
        """A refusal has the class of its enum, its name and its texts, which `tools/write-refusals` prints too."""
        with w.Session() as session:
            session.begin(w.PUBLISH_SUBSCRIBE, w.OPEN, 1, "camera")
            with self.assertRaises(w.PublishSubscribeOpenError) as refused:
                session.send(0)
            error = refused.exception
            self.assertEqual((error.code, error.refusal, error.value), (w.Code.REFUSED, 4001, "DoesNotExist"))
            self.assertEqual(error.name, "PublishSubscribeOpenError::DoesNotExist")
        row = subprocess.run([HERE.parent.parent / "tools/write-refusals", "4001"], check=True, capture_output=True, text=True)
        texts = f"  comes when: {error.text}\n  what can be done: {error.advice}\n"
        self.assertEqual(row.stdout, f"4001 {error.name}\n{texts}")

    def test_numbers(self):
        """The numbers here are those of the header, and so are the codes."""
        header = numbers_of_header()
        for name, number in header.items():
            if hasattr(w, name):
                self.assertEqual(getattr(w, name), number, name)
        for code in w.Code:
            self.assertEqual(header[code.name], code, code.name)
        self.assertGreater(len(header), 90)


class Looks(unittest.TestCase):
    """The services, the lines and the nodes of a session, alike over a table and over a log."""

    def looks(self, session, node):
        """What stands is seen, and lines have the replies of docs/PROGRAM.md."""
        session.begin(w.EVENT, w.CREATE, node, "lamps")
        session.set_number(w.MAX_NODES, 2)
        session.send(0)
        hash_of = hashlib.sha1(b"elamps").digest()
        self.assertEqual(session.entries(), [w.Entry(w.PUBLISHED, w.EVENT, 0, 1, 2, "lamps", hash_of)])
        self.assertTrue(session.line(f"rr create {node} 1 oven max_servers=3").startswith("ok 1 number="))
        self.assertEqual(session.number(1, w.MAX_SERVERS), 3)
        self.assertEqual({entry.name for entry in session.entries()}, {"lamps", "oven"})
        self.assertIn("lamps", session.line("list"))
        self.assertEqual(session.line("").strip(), "")
        self.assertEqual(session.line("close 1").strip(), "closed 1")
        with self.assertRaises(w.WulameronError) as error:
            session.line("event crate 1 0 lamps")
        self.assertIs(error.exception.code, w.Code.BAD_LINE)
        self.assertIn("create", error.exception.message)
        session.close(0)
        self.assertEqual(session.entries(), [])

    def test_table(self):
        """Over a table, which has no nodes."""
        with w.Session() as session:
            self.looks(session, 7)
            for call in (session.nodes, session.clean, lambda: session.node):
                with self.assertRaises(w.WulameronError) as error:
                    call()
                self.assertIs(error.exception.code, w.Code.ONLY_OVER_LOG)

    def test_log(self):
        """Over a log, whose path and program are given."""
        with tempfile.TemporaryDirectory(prefix="wulameron-") as folder:
            words = {"path": pathlib.Path(folder) / "log", "program": os.environ["WULAMERON"]}
            with w.Session(node=5, **words) as session:
                self.looks(session, 5)
                with w.Session(node=9, **words):
                    alive = w.NodeState.ALIVE
                    self.assertEqual(session.nodes(), [(5, alive), (9, alive)])
                    for node, code in ((9, w.Code.NODE_ALIVE), (10, w.Code.NO_SUCH_ITEM)):
                        with self.assertRaises(w.WulameronError) as error:
                            session.clean(node)
                        self.assertIs(error.exception.code, code)
                self.assertEqual(session.nodes(), [(5, alive), (9, w.NodeState.ENDED)])
                self.assertEqual([node.is_alive for node in session.nodes()], [True, False])
                self.assertEqual(session.clean(dry_run=True), w.Cleaned(0, 0, 0))
                self.assertEqual(session.clean(9), w.Cleaned(0, 0, 0))


CREATOR = """
import sys, wulameron as w
with w.Session(sys.argv[1]) as session:
    session.begin(w.EVENT, w.CREATE, session.node, "lamps")
    session.set_number(w.MAX_LISTENERS, 4)
    print(session.send(0), session.node, flush=True)
    sys.stdin.read()
"""


class OverLog(unittest.TestCase):
    """Sessions over a log that processes share."""

    def setUp(self):
        folder = tempfile.TemporaryDirectory(prefix="wulameron-")
        self.addCleanup(folder.cleanup)
        self.path = pathlib.Path(folder.name) / "log"

    def creator(self):
        """Another process that holds the service of events `lamps` for four listeners."""
        words = [sys.executable, "-B", "-c", CREATOR, str(self.path)]
        other = subprocess.Popen(words, cwd=HERE, stdin=subprocess.PIPE, stdout=subprocess.PIPE, text=True)
        self.addCleanup(other.stdout.close)
        self.addCleanup(other.communicate)
        self.assertEqual(other.stdout.readline(), "0 0\n")
        return other

    def test_processes_meet(self):
        """Two processes agree, and the second is refused what doesn't fit."""
        other = self.creator()
        with w.Session(self.path, node=5) as session:
            self.assertEqual(session.node, 5)
            session.begin(w.EVENT, w.OPEN, 5, "lamps")
            session.set_number(w.MAX_LISTENERS, 3)
            session.send(0)
            self.assertEqual(session.number(0, w.MAX_LISTENERS), 4)
            session.begin(w.EVENT, w.OPEN, 5, "lamps")
            session.set_number(w.MAX_LISTENERS, 5)
            with self.assertRaises(w.EventOpenError) as refused:
                session.send(1)
            self.assertEqual(refused.exception.value, "DoesNotSupportRequestedAmountOfListeners")
            self.assertEqual(session.nodes(), [(0, w.NodeState.ALIVE), (5, w.NodeState.ALIVE)])
            self.assertEqual([entry.nodes for entry in session.entries()], [2])
            other.communicate()
            self.assertEqual([entry.nodes for entry in session.entries()], [1])
            self.assertEqual(session.nodes(), [(0, w.NodeState.ENDED), (5, w.NodeState.ALIVE)])
            with self.assertRaises(w.WulameronError) as error:
                session.begin(w.EVENT, w.OPEN, 6, "lamps")
            self.assertIs(error.exception.code, w.Code.OTHER_NODE)

    def test_caller_dies(self):
        """The program of a caller that is killed closes what it has."""
        other = self.creator()
        with w.Session(self.path) as session:
            self.assertEqual(session.node, 1)
            self.assertEqual(session.list(), 1)
            other.kill()
            other.wait()
            end = time.monotonic() + 20
            while session.nodes()[0] != (0, w.NodeState.ENDED) and time.monotonic() < end:
                time.sleep(0.02)
            self.assertEqual(session.nodes()[0], (0, w.NodeState.ENDED))
            self.assertEqual(session.list(), 0)
            self.assertEqual(session.clean(), w.Cleaned(0, 0, 0))

    def program(self, text):
        """The path of a program with this text."""
        program = self.path.parent / "program"
        program.write_text(text, encoding="utf-8")
        program.chmod(0o700)
        return str(program)

    def test_lost_node(self):
        """A node of which only its own process may know whether it goes on."""
        session = w.Session(self.path, program=self.program(KNOWING))
        self.assertEqual(session.nodes(), [(4, w.NodeState.LOST), (5, w.NodeState.ALIVE)])
        self.assertFalse(session.nodes()[0].is_alive)
        # Its end isn't that of a program which has closed all.
        with self.assertRaises(w.WulameronError) as ended:
            session.close_session()
        self.assertIs(ended.exception.code, w.Code.ENDED)

    def test_session_lost(self):
        """A program whose session with a database is lost tells so, and the caller learns what it held."""
        with self.assertRaises(w.SessionLost) as lost, w.Session(self.path, program=self.program(LOSING)) as session:
            for slot, name in ((3, "two lamps"), (4, "doors")):
                session.begin(w.EVENT, w.OPEN, session.node, name)
                session.send(slot)
            session.list()
        self.assertEqual(lost.exception.services, ["two lamps", "doors"])
        self.assertIs(lost.exception.code, w.Code.LOST)
        self.assertEqual(str(lost.exception), "the session was lost; open again: two lamps, doors")

    def test_refused_opens(self):
        """What can't be opened is named."""
        with w.Session(self.path, node=3):
            for code, call in (
                (w.Code.NODE_IN_USE, lambda: w.Session(self.path, node=3)),
                (w.Code.NO_PROGRAM, lambda: w.Session(self.path, program="/not/here")),
                (w.Code.LOG, lambda: w.Session(self.path.parent / "not/here")),
            ):
                with self.assertRaises(w.WulameronError) as error:
                    call()
                self.assertIs(error.exception.code, code)
                self.assertGreater(len(error.exception.message), 0)
        with self.assertRaises(ValueError):
            w.Session("a\0b")


if __name__ == "__main__":
    unittest.main()
