"""Odd: clients that send junk, half lines, 50 MB in one line, lines of every wrong length, thousands at once; that read nothing; more
clients than there is room for; a second desk; another site's journal. Others are served meanwhile and get right answers."""

import random
import shutil
import socket
import subprocess
import time

from clients import Client, connect, drain, finish, talk, turn
from desk import Desk, command, settings_line
from drillsite import Site
from judge import Loss
from reader import HEAD, ORDER, Folder, crc32c, read_mark
from traffic import FRAME, NO_FRAME, Line, hexed

ROOM, PATIENCE = 12, 2
LONG_LINE = 50_000_000


class Crowd:
    """A desk, its usual clients, and the odd ones."""

    def __init__(self, setting, chance):
        self.site, self.random = Site(setting, "odd", setting.seed), chance
        options = ("--clients", ROOM, "--patience", PATIENCE, "--every", 60, "--tcp", "127.0.0.1:0")
        self.desk = self.site.serve(*options).started()
        self.port = int(self.desk.text().split("tcp 127.0.0.1:")[1].split()[0])
        self.usual, self.odd, self.copied = self.site.clients((1, 4, 30)), [], []

    def newcomer(self, where=None):
        self.odd.append(Client(where or self.site.folder))
        return self.odd[-1]

    def meanwhile(self, done, what, most=20):
        """The usual clients talk on until `done`; all of them must get answers."""
        start = time.monotonic()
        before = [client.told for client in self.usual]
        served = False
        while not (done() and served):
            talk(self.usual + [client for client in self.odd if client.open], 0.02)
            served = True
            if time.monotonic() - start > most:
                raise Loss(f"{what}: not done in {most} seconds")
        finish(self.usual)
        if any(client.told == told for client, told in zip(self.usual, before)):
            raise Loss(f"{what}: another client was not served meanwhile")

    def end(self):
        self.desk.end()
        drain(self.usual + self.odd)
        self.site.judged(self.usual + self.odd)
        if self.copied != self.site.judge.calls[:len(self.copied)]:
            raise Loss("a backup has other calls than the site")
        return sum(client.told for client in self.usual + self.odd)


def strange_lines(crowd):
    """Lines of all lengths and beginnings; parties of all sizes; answers as the rules say, over TCP as well."""
    chance = crowd.random
    frame = hexed(crowd.site.traffic[0].wild())
    texts = [frame[:1] * n for n in range(0, 70)] + [(frame * 2)[:n] for n in range(50, 70)]
    texts += [first + (frame * 2)[:n] for first in "acpsA! " for n in (0, 8, 55, 56, 57, 63, 64, 65, 72)]
    texts += ["p" + "00000000" + "000000000000000000000000" * guests for guests in (0, 63, 64, 65, 66, 67)]
    texts += [frame + "\r", frame.upper(), " " + frame, frame + " ", "s ", "S", "\0", "\xff" * 56, "x" * 1569, "x" * 1570]
    texts += ["".join(map(chr, chance.choices([n for n in range(256) if n != 10], k=chance.randrange(200)))) for _ in range(200)]
    # Orders are kept, and these would be nobody's.
    texts = [text for text in texts if Line(text).sort != FRAME or Line(text).call.call != ORDER]
    chance.shuffle(texts)
    for client in (crowd.newcomer(), crowd.newcomer(crowd.port)):
        client.send(*texts)
        crowd.meanwhile(lambda: not client.waiting(), "strange lines")
        client.close()


def long_line(crowd):
    client = crowd.newcomer()
    client.send("s", "f" * LONG_LINE, "s")
    crowd.meanwhile(lambda: not client.waiting(), "50 MB in a line")
    if client.lines[1].told != NO_FRAME:
        raise Loss(f"50 MB in a line were told {client.lines[1].told}")
    client.close()


def half_lines(crowd):
    """What the end of a connection leaves unfinished is dropped, also where it would be a frame."""
    frame = hexed((1, 0, 0, 0, 0, 0, 0)).encode()
    for text in (frame, frame + b"0000", b"s", b"p" + frame[:8], b"\0"):
        with connect(crowd.site.folder) as sock:
            sock.sendall(text)
            sock.shutdown(socket.SHUT_WR)
            sock.settimeout(5)
            if sock.recv(100):
                raise Loss(f"the unfinished line {text} was answered")
        with connect(crowd.site.folder) as sock:
            sock.sendall(text)
    start = time.monotonic()
    crowd.meanwhile(lambda: time.monotonic() - start > 0.1, "half lines")


def ends_early(crowd):
    """A client that sends no more still gets all its answers, also of lines that are for later batches; then the connection ends."""
    client = crowd.newcomer()
    client.send(*("s" for _ in range(100)), "junk", *("a" + hexed(crowd.site.traffic[2].request()) for _ in range(100)))
    while client.out:
        client.write()
    client.sock.shutdown(socket.SHUT_WR)
    crowd.meanwhile(lambda: not client.open, "a client that sends no more")
    if client.waiting():
        raise Loss(f"a client that sends no more lacks {client.waiting()} answers")
    client.close()


def no_newline(crowd):
    with connect(crowd.site.folder) as sock:
        sock.sendall(b"f" * 3000)
        start = time.monotonic()
        crowd.meanwhile(lambda: time.monotonic() - start > 0.3, "a line without an end")
        sock.sendall(b"\n")
        sock.settimeout(5)
        if sock.recv(100) != NO_FRAME.encode() + b"\n":
            raise Loss("a long line that ended at last was not told 23")


def thousands(crowd):
    """Thousands of lines at once; the client reads when all are sent, or no more are taken."""
    client = crowd.newcomer()
    client.send(*(crowd.random.choice(("s", "junk", hexed(crowd.site.traffic[1].wild()))) for _ in range(6000)))
    start = time.monotonic()
    while client.out and time.monotonic() - start < PATIENCE / 4:
        client.write()
        turn(crowd.usual, 0.001)
    crowd.meanwhile(lambda: not client.waiting(), "thousands of lines")
    client.close()


def reads_nothing(crowd):
    """A client that takes no answers is dropped when patience ends, and not before."""
    with connect(crowd.site.folder) as sock:
        sock.setblocking(False)
        lines, start = b"s\n" * 1000, time.monotonic()

        def dropped():
            try:
                sock.send(lines)
            except BlockingIOError:
                pass
            except OSError:
                return True
            return False

        crowd.meanwhile(dropped, "a client that reads nothing")
        if time.monotonic() - start < PATIENCE:
            raise Loss("a client that reads nothing was dropped before patience ended")


def too_many(crowd):
    """More clients than there is room for are told so; when one goes, there is room."""
    socks = [connect(crowd.site.folder) for _ in range(ROOM - len(crowd.usual))]
    for sock in socks:
        sock.sendall(b"s\n")
        sock.settimeout(5)
        if not sock.recv(200).startswith(hexed(crowd.site.judge.settings).encode()):
            raise Loss("a client for whom there is room was not let in")
    with connect(crowd.site.folder) as sock:
        sock.settimeout(5)
        if sock.recv(100) != b"! full\n" or sock.recv(100):
            raise Loss("a client for whom there is no room was not told that")
    talk(crowd.usual, 0.05)
    for sock in socks:
        sock.close()
    end = time.monotonic() + 5
    while not let_in(crowd.site.folder):
        talk(crowd.usual, 0.05)
        if time.monotonic() > end:
            raise Loss("clients have gone, and there is still no room for others")


def let_in(folder):
    with connect(folder) as sock:
        sock.settimeout(5)
        sock.sendall(b"s\n")
        return not sock.recv(200).startswith(b"!")


def read_meanwhile(crowd):
    """The commands that only read do so while the site is served, and find nothing wrong."""
    setting, folder = crowd.site.setting, crowd.site.folder
    for words in [("check", folder), ("audit", folder), ("replay", folder, "--to", 20)] * 6:
        reading = subprocess.Popen([setting.desk, *map(str, words)], stdout=subprocess.DEVNULL, stderr=subprocess.PIPE)
        crowd.meanwhile(lambda: reading.poll() is not None, f"desk {words[0]}")
        why = reading.stderr.read().decode()
        reading.stderr.close()
        if reading.returncode:
            raise Loss(f"desk {words[0]} of a site that is served ends with {reading.returncode}: {why}")


def backup(crowd):
    """The site is copied while it is served, as the README says: the copy is good, has all that was answered before, and, which is
    judged in the end, nothing that the site has not. A copy that falls into a write is refused, and made again."""
    setting, folder = crowd.site.setting, crowd.site.folder
    copy, least, code, why = setting.work / "backup", read_mark(folder / "mark").seq, 3, ""
    copies = "; ".join(f"cp {folder}/{name} {copy}" for name in ("mark", "snap-*", "log-*"))
    for _ in range(5):
        shutil.rmtree(copy, ignore_errors=True)
        copy.mkdir()
        copying = subprocess.Popen(["sh", "-c", copies], stderr=subprocess.DEVNULL)
        crowd.meanwhile(lambda: copying.poll() is not None, "a backup")
        code, _, why = command(setting, "check", copy)
        if code != 3:
            break
    crowd.copied = Folder(copy).calls() if code == 0 else []
    if code or len(crowd.copied) < least:
        raise Loss(f"a backup with {len(crowd.copied)} calls, {least} were answered before: desk check ends with {code}: {why}")
    shutil.rmtree(copy)


def second_desk(crowd):
    second = Desk(crowd.site.setting, crowd.site.folder, said="second.out")
    if second.listens() or second.code() != 4:
        raise Loss(f"a second desk serves the site, or ends with {second.kill()}: {second.text().strip()}")


def other_site(setting, site):
    """Another site's journal in the folder is no journal of this site."""
    twin, other = site.copy("mixed"), Site(setting, "other", setting.seed)
    other.serve().started().end()
    head = bytearray((other.folder / "log-0000000000000000").read_bytes()[:HEAD])
    last = max(twin.folder.glob("log-*"))
    head[32:52] = last.read_bytes()[32:52]
    head[60:64] = crc32c(head[:60]).to_bytes(4, "little")
    last.write_bytes(head)
    (twin.folder / "mark").unlink()
    desk = twin.serve()
    if desk.listens() or desk.code() != 3:
        raise Loss(f"with another site's journal the desk ended with {desk.code()}: {desk.text().strip()}")


def wrong_usage(setting, site):
    for words in (("serve",), ("serve", setting.work / "none"), ("serve", site.folder, "--tcp", "0.0.0.0:0"), ("dance", site.folder),
                  ("serve", site.folder, "--every", "x"), ("replay", site.folder), ("replay", site.folder, "--to", 1 << 60), ("init", site.folder)):
        code, _, why = command(setting, *words, given=settings_line(site.judge.settings))
        if code != 2 or not why.startswith("desk: "):
            raise Loss(f"desk {words} ended with {code}: {why}")


def run(setting):
    chance, answers = random.Random(setting.seed), 0
    parts = (strange_lines, long_line, half_lines, ends_early, no_newline, thousands, reads_nothing, too_many, second_desk, read_meanwhile, backup)
    for number in range(setting.rounds):
        crowd = Crowd(setting, chance)
        for part in parts:
            part(crowd)
        answers += crowd.end()
        other_site(setting, crowd.site)
        wrong_usage(setting, crowd.site)
        shutil.rmtree(crowd.site.folder)
        shutil.rmtree(setting.work / "other")
    return f"{setting.rounds} times {len(parts) + 2} oddities, {answers} answers judged"
