"""Typed calls to a desk (docs/DESK.md): its lines, its socket, and what it tells."""

import contextlib
import itertools
import os
import socket
import time

from .explain import echo, question, sentence, sentence_alone
from .lines import line_of, settings_in, words_of, written
from .rules import Ask, Charge, Commit, Order, Party, Problem, Settings

# Lines that are sent before their answers are read; a client may have up to 1,000 unanswered.
TOGETHER = 500
# A desk that was just started may not listen yet.
PATIENCE_SECONDS = 3
GUESTS_WITHOUT_NAME = (0, 27, 30)


def line_for(entry):
    """The desk's line for a call."""
    if isinstance(entry, Ask):
        return "a" + line_of(entry.request)
    if isinstance(entry, Commit):
        return "c" + line_of((entry.count, *entry.request))
    if isinstance(entry, Party):
        return "p" + line_of((entry.meeting, *itertools.chain.from_iterable(entry.guests)))
    if isinstance(entry, Charge):
        raise Problem("a desk has no line for a charge; `caviar charge` takes a typed site")
    return written(entry)


class Desk:
    """A connection to the desk of a folder."""

    def __init__(self, folder):
        path = os.path.join(folder, "sock")
        self.socket = socket.socket(socket.AF_UNIX)
        last = time.monotonic() + PATIENCE_SECONDS
        while True:
            try:
                self.socket.connect(path)
                break
            except OSError as error:
                if time.monotonic() > last:
                    self.socket.close()
                    raise Problem(f"no desk answers at {path}: {error.strerror or error}") from None
                time.sleep(0.05)
        self.answers = self.socket.makefile("r", encoding="ascii", errors="replace", newline="\n")

    def told(self, lines):
        """The words of the reply to each line."""
        replies = []
        for at in range(0, len(lines), TOGETHER):
            some = lines[at:at + TOGETHER]
            try:
                self.socket.sendall("".join(line + "\n" for line in some).encode("utf-8", "surrogateescape"))
                replies += [self.reply(at + number) for number in range(1, len(some) + 1)]
            except OSError as error:
                raise Problem(f"the desk has closed the connection: {error.strerror}; {len(replies)} calls were "
                              "answered") from None
        return replies

    def reply(self, at):
        line = self.answers.readline()
        if line.startswith("!"):
            raise Problem(f"the desk says before it answers call {at}: {line[1:].strip()}")
        words = words_of(line.rstrip("\n"))
        if not line.endswith("\n") or not words:
            raise Problem(f"the desk has closed the connection; call {at} and those behind it have no answer")
        return words

    def close(self):
        self.answers.close()
        self.socket.close()

    def settings(self):
        return settings_in(line_of(self.told(["s"])[0]))


def said(settings, entry, answer):
    """What a reply says to its call. The desk tells neither the guest of a refused party nor the count of a commit that
    comes too late, and of an order's first request only that it was another."""
    number = answer[0]
    if number == 23:
        return sentence_alone(answer)
    if isinstance(entry, Order):
        if number == 28:
            return f"Refused by 28: order {entry.order} came with another request before. {question(28)}"
        return sentence(settings, entry.request, answer)
    if isinstance(entry, Party):
        if number in GUESTS_WITHOUT_NAME:
            return sentence(settings, entry, (*answer, 0))
        return f"{sentence_alone(answer)} Nobody was added."
    if isinstance(entry, Commit) and number == 29:
        return f"Refused by 29: the change count is not {entry.count} any more; ask again. {question(29)}"
    return sentence(settings, entry, answer)


def conversation(folder, entries):
    """Each call as it would be typed, and what the desk told it. Settings before them must be the desk's own."""
    with contextlib.closing(Desk(folder)) as desk:
        settings = desk.settings()
        if entries and isinstance(entries[0], Settings):
            if entries[0] != settings:
                raise Problem(f"the desk's site is another one: {echo(settings)}")
            entries = entries[1:]
        replies = desk.told([line_for(entry) for entry in entries])
    lines = []
    for entry, reply in zip(entries, replies):
        try:
            lines += [echo(entry), f"    {said(settings, entry, reply)}"]
        except Problem as problem:
            raise Problem(f"the desk told {line_of(reply)}, and {problem}") from None
    return lines
