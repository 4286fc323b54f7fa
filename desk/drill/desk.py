"""A desk that a drill runs: started, signalled, ended, and its other commands."""

import ctypes
import os
import signal
import struct
import subprocess
import time
from pathlib import Path
from typing import NamedTuple

from judge import Loss, Trouble, lawful
from reader import DAMAGED, Folder, words_of
from traffic import SMALL, hexed

PATIENCE = 20


class Setting(NamedTuple):
    """What a drill is given: the desk's program, a folder to work in, a seed, how many rounds, and whether it is the long run."""

    desk: Path
    work: Path
    seed: int
    rounds: int
    long: bool


def die_with_parent():
    """A desk does not outlive its drill (PR_SET_PDEATHSIG)."""
    ctypes.CDLL(None).prctl(1, signal.SIGKILL)


class Desk:
    """A desk that serves a folder."""

    running = []

    def __init__(self, setting, folder, *options, env=None, said="desk.out"):
        self.folder, self.said = Path(folder), setting.work / said
        with open(self.said, "wb") as out:
            command = [setting.desk, "serve", folder, *map(str, options)]
            self.process = subprocess.Popen(command, stdout=out, stderr=out, stdin=subprocess.DEVNULL,
                                            env={**os.environ, **(env or {})}, preexec_fn=die_with_parent)
        self.running.append(self)

    def text(self):
        return self.said.read_text(errors="replace")

    def listens(self):
        """Waits until it listens; False if it ended before."""
        end = time.monotonic() + PATIENCE
        while time.monotonic() < end:
            if "listening\n" in self.text():
                return True
            if self.process.poll() is not None:
                return "listening\n" in self.text()
            time.sleep(0.002)
        self.kill()
        raise Loss(f"the desk neither listens nor ends in {PATIENCE} seconds")

    def started(self):
        if not self.listens():
            raise Loss(f"the desk does not start, {self.code()}: {self.text().strip()}")
        return self

    def signal(self, number):
        if self.process.poll() is None:
            self.process.send_signal(number)

    def kill(self):
        self.signal(signal.SIGKILL)
        return self.code()

    def end(self):
        self.signal(signal.SIGTERM)
        return self.code()

    def code(self):
        """Its exit code, once it has ended."""
        try:
            code = self.process.wait(PATIENCE)
            if self in self.running:
                self.running.remove(self)
            return code
        except subprocess.TimeoutExpired:
            self.process.kill()
            self.process.wait()
            raise Loss(f"the desk does not end in {PATIENCE} seconds") from None


def end_all():
    """Ends the desks that a drill has left."""
    for desk in list(Desk.running):
        desk.kill()


def command(setting, *words, given=b"", env=None):
    """Runs a command of the desk: its exit code, what it wrote, and its messages."""
    try:
        done = subprocess.run([setting.desk, *map(str, words)], input=given, capture_output=True, timeout=PATIENCE, check=False,
                              env={**os.environ, **(env or {})})
    except subprocess.TimeoutExpired:
        raise Loss(f"desk {words[0]} does not end in {PATIENCE} seconds") from None
    return done.returncode, done.stdout, done.stderr.decode(errors="replace")


def new_site(setting, name, settings=SMALL, words=None):
    """Makes a site, from settings or from the words of a book."""
    folder = setting.work / name
    made = ("import", struct.pack(f"<{len(words)}I", *words)) if words else ("init", settings_line(settings))
    code, _, why = command(setting, made[0], folder, given=made[1])
    if code:
        raise Trouble(f"desk {made[0]} ends with {code}: {why}")
    return folder


def settings_line(settings):
    return hexed(settings).encode() + b"\n"


def book_at(setting, folder, seq):
    """The words that `desk replay` gives."""
    code, book, why = command(setting, "replay", folder, "--to", seq)
    if code:
        raise Loss(f"desk replay --to {seq} ends with {code}: {why}")
    return words_of(book)


def judged(setting, folder, judge, clients, thorough=True):
    """Judges a site behind a round: by the reader and the engine, and thoroughly by the desk's own commands too."""
    found = Folder(folder)
    start = found.start(lawful)
    code, _, why = command(setting, "check", folder) if thorough else (0, "", "")
    if start.verdict == DAMAGED or code:
        raise Loss(f"the site is damaged: reader says {start.verdict} {start.why}, desk check ends with {code}: {why.strip()}")
    judge.judge(found, clients)
    if thorough and book_at(setting, folder, len(judge.calls)) != judge.engine.words():
        raise Loss("desk replay gives another book than the engine's list from fresh")
    return found
