#!/usr/bin/env python3
"""Tests of `tools/caviar desk` against a desk that says what a test wants. A real one is in tests/desk-readme.

    python3 tools/test_desk.py
"""

import os
import socket
import sys
import tempfile
import threading
import unittest
from pathlib import Path

sys.dont_write_bytecode = True
ROOT = Path(__file__).resolve().parent.parent
sys.path.insert(0, str(ROOT / "tools"))

from caviar_tool import desk, typed  # noqa: E402
from caviar_tool.rules import Problem  # noqa: E402

SETTINGS = ("settings dates 2 sessions 2 times 2 visitors 3 meetings 2 rooms 2 dining 1 hotels 2 transports 1 "
            "capacities 4")
SETTINGS_LINE = "0000000200000002000000020000000300000002000000020000000100000002000000010000000000000004"
DONE = "0" * 24


def answer(*words):
    return "".join(f"{word:08x}" for word in words)


class FakeDesk:
    """Serves one client: tells the settings, then each of the replies to a line, and keeps the lines."""

    def __init__(self, replies):
        self.folder = tempfile.TemporaryDirectory()
        self.replies, self.lines = replies, []
        self.door = socket.socket(socket.AF_UNIX)
        self.door.bind(os.path.join(self.folder.name, "sock"))
        self.door.listen()
        self.thread = threading.Thread(target=self.serve)
        self.thread.start()

    def serve(self):
        stream, _ = self.door.accept()
        with stream, stream.makefile("r", encoding="ascii", newline="\n") as sent:
            for reply in [SETTINGS_LINE, *self.replies]:
                self.lines.append(sent.readline().rstrip("\n"))
                stream.sendall(f"{reply}\n".encode())

    def __enter__(self):
        return self

    def __exit__(self, *_):
        self.thread.join(timeout=10)
        self.door.close()
        self.folder.cleanup()


class DeskTest(unittest.TestCase):
    maxDiff = None

    def talk(self, text, *replies):
        """What a typed text is told, and the lines that the desk got."""
        with FakeDesk(replies) as fake:
            told = desk.conversation(fake.folder.name, typed.parse_text(text, calls=True))
        self.assertEqual(fake.lines[0], "s")
        return told, fake.lines[1:]

    def told(self, text, reply):
        """The sentence for one call."""
        (echoed, sentence), _ = self.talk(text, reply)
        self.assertEqual(echoed, text)
        return sentence.strip()

    def complains(self, message, text, *replies):
        with self.assertRaises(Problem) as caught:
            self.talk(text, *replies)
        self.assertIn(message, str(caught.exception))

    def test_each_sort_has_its_line(self):
        text = ("add-leave visitor 1 dates 0..1\norder 17 add-leave visitor 1 date 0\nask add-leave visitor 1 date 0\n"
                "commit 5 add-leave visitor 1 date 0\nparty meeting 1 visitor 0 sessions 1..2, visitor 2 session 3\nraw x\n")
        replies = [DONE, DONE, DONE + answer(4), DONE, DONE, answer(23, 0, 0)]
        leave = answer(1, 0, 1, 0, 0, 0, 0)
        _, lines = self.talk(text, *replies)
        self.assertEqual(lines, [answer(1, 0, 1, 0, 1, 0, 0), leave + answer(17), "a" + leave, "c" + answer(5) + leave,
                                 "p" + answer(1, 0, 1, 2, 2, 3, 3), "x"])

    def test_what_is_told(self):
        cases = {
            ("add-leave visitor 1 date 0", DONE): "Done: visitor 1 has leave on date 0.",
            ("ask add-leave visitor 1 date 0", DONE + answer(4)): "Would be done at count 4: visitor 1 has leave on date 0.",
            ("party meeting 1 visitor 0 session 1", DONE): "Done: the one guest attends meeting 1.",
        }
        for (text, reply), sentence in cases.items():
            self.assertEqual(self.told(text, reply), sentence)
        refusals = {
            ("order 17 add-leave visitor 1 date 0", 28, 0): "Refused by 28: order 17 came with another request before. [",
            ("commit 5 add-leave visitor 1 date 0", 29, 0): "Refused by 29: the change count is not 5 any more; ask again. [",
            ("party meeting 1 visitor 0 session 1", 9, 1): "Refused by 9 at slot 1. [",
            ("party meeting 1 visitor 0 session 1", 27, 0): "Refused by 27: ",
            ("add-hotel room 0 visitor 1 date 1", 9, 1): "Refused by 9: visitor 1 has no leave on date 1. [",
        }
        for (text, number, place), beginning in refusals.items():
            self.assertTrue(self.told(text, answer(number, place, 0)).startswith(beginning), (text, number))

    def test_settings_may_stand_before_and_must_be_the_desks(self):
        told, lines = self.talk(f"{SETTINGS}\nadd-leave visitor 1 date 0\n", DONE)
        self.assertEqual((len(told), len(lines)), (2, 1))
        self.complains("the desk's site is another one", SETTINGS.replace("dates 2", "dates 3"))

    def test_a_long_text_goes_in_parts(self):
        count = 3 * desk.TOGETHER + 1
        told, lines = self.talk("add-leave visitor 1 date 0\n" * count, *[DONE] * count)
        self.assertEqual((len(told), len(lines)), (2 * count, count))

    def test_a_desk_that_goes_is_told(self):
        two = "add-leave visitor 1 date 0\nadd-leave visitor 2 date 0\n"
        self.complains("before it answers call 2: stopped: the disk is full", two, DONE, "! stopped: the disk is full")
        self.complains("call 2 and those behind it have no answer", two, DONE)
        self.complains("the desk told", "add-leave visitor 1 date 0", answer(9, 0, 5))

    def test_no_desk(self):
        patience, desk.PATIENCE_SECONDS = desk.PATIENCE_SECONDS, 0.1
        try:
            with tempfile.TemporaryDirectory() as folder, self.assertRaises(Problem) as caught:
                desk.conversation(folder, [])
            self.assertIn("no desk answers at", str(caught.exception))
        finally:
            desk.PATIENCE_SECONDS = patience

    def test_a_charge_has_no_line(self):
        self.complains("a desk has no line for a charge", "charge meeting 0 date 0 room 1 seat 1")


if __name__ == "__main__":
    unittest.main()
