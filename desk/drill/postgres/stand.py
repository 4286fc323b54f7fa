"""A site on trial: two folders of it, the desks that serve them over a server, its clients, and the judge."""

import random
import shutil
import signal
import struct
import time

from clients import Client, drain, finish, talk
from desk import Desk, command, new_site
from judge import Judge, Loss
from reader import EDITION, JOURNAL, ORDER, Folder, Place, crc32c, read_record
from traffic import CLIENTS, SMALL, Traffic, owner

RUNNING = []
WINDOW = 6
LATE = 5.0


def end_all():
    """No desk goes on behind its drill."""
    while RUNNING:
        RUNNING.pop().kill()


class Rows:
    """The journal of a site as the server has it, in the shape of reader.Folder."""

    def __init__(self):
        self.data, self.read, self.snapshots = [], [], {}

    def take(self, rows, folders):
        """Reads the rows: those of before are the same, and each new one is a record that follows."""
        if rows[:len(self.data)] != self.data:
            raise Loss(f"the table has {len(rows)} rows, and not the {len(self.data)} that it had before")
        for first, data in rows[len(self.data):]:
            place = self.read[-1].after() if self.read else Place(0, 0)
            record = read_record(data, 0)
            if not record or record.end != len(data) or record.place != place or first != place.seq:
                raise Loss(f"the row of call {first} is no record that follows call {place.seq}")
            self.read.append(record)
        self.data = rows
        self.snapshots = {seq: snapshot for folder in folders for seq, snapshot in Folder(folder).snapshots.items()}

    def records(self):
        return self.read

    def calls(self):
        return [call for record in self.read for call in record.calls]


class Stand:
    def __init__(self, setting, server, name="site"):
        self.setting, self.server = setting, server
        self.random = random.Random(f"{setting.seed} {name}")
        self.works = [setting.work / f"{name}-{letter}" for letter in "ab"]
        for work in self.works:
            work.mkdir()
        first = new_site(setting._replace(work=self.works[0]), "site")
        self.folders = [first, self.works[1] / "site"]
        shutil.copytree(first, self.folders[1])
        self.number = Folder(first).snapshots[0].head.site
        self.judge, self.rows = Judge(SMALL, owner), Rows()
        self.traffic = [Traffic(client, setting.seed) for client in range(CLIENTS)]
        self.lines = [[] for _ in range(CLIENTS)]
        self.again = [[] for _ in range(CLIENTS)]
        self.answered = 0

    def desk(self, which, connection=None):
        """A desk on one of the folders; it may lead or follow."""
        setting = self.setting._replace(work=self.works[which])
        desk = Desk(setting, self.folders[which], "--pg", connection or self.server.connection(), "--every", 400)
        RUNNING.append(desk)
        return desk

    def pair(self):
        """A desk that leads and one that follows."""
        leads = self.desk(0).started()
        return leads, follows(self.desk(1))

    def connect(self, desk):
        """All clients, each with what it is to send again."""
        clients = [Client(desk.folder, traffic, WINDOW, again) for traffic, again in zip(self.traffic, self.again)]
        self.again = [[] for _ in clients]
        return clients

    def work(self, desk, seconds):
        """Clients that have been at it for so long."""
        clients = self.connect(desk)
        talk(clients, seconds)
        return clients

    def hang_up(self, clients):
        """What the clients sent and were told is to be judged; what was not answered, and some that was, is sent again."""
        for index, client in enumerate(clients):
            self.lines[index] += client.lines
            orders = [line for line in client.lines if line.call and line.call.call == ORDER]
            some = self.random.sample(orders, min(3, len(orders)))
            again = [line for line in orders if line.told is None or line in some]
            self.again[index] += [line.text for line in again]
            self.answered += client.told

    def judged(self):
        """All that was answered is in the rows, and the rows are what the engine says."""
        self.rows.take(self.server.rows(self.number), self.folders)
        self.judge.judge(self.rows, self.lines)
        self.lines = [[] for _ in self.lines]

    def finished(self, leads, *others):
        """A last round: what is to be sent again is; then the desks are told to end."""
        clients = self.work(leads, 0.1)
        for client in clients:
            client.traffic = None
        finish(clients)
        self.hang_up(clients)
        for client in clients:
            client.close()
        for desk in (*others, leads):
            ended(desk, 0, signal.SIGTERM)
        self.judged()
        self.audited(leads.folder)

    def audited(self, folder):
        """The rows, put together as a segment beside the snapshots, are a site in files that the desk itself finds right."""
        copy = self.setting.work / "audited"
        shutil.copytree(folder, copy, ignore=shutil.ignore_patterns("elsewhere", "lock", "sock"))
        head = struct.pack("<8sII16s28x", JOURNAL, EDITION, 0, self.number)
        records = b"".join(data for _, data in self.rows.data)
        (copy / ("log-" + 16 * "0")).write_bytes(head + struct.pack("<I", crc32c(head)) + records)
        code, _, why = command(self.setting, "audit", copy)
        if code:
            raise Loss(f"desk audit of the rows ends with {code}: {why}")
        shutil.rmtree(copy)


def follows(desk):
    """Waits until a desk follows."""
    end = time.monotonic() + 20
    while "follows" not in desk.text():
        if desk.process.poll() is not None or time.monotonic() > end:
            raise Loss(f"a second desk does not follow: {desk.text().strip()}")
        time.sleep(0.002)
    return desk


def ended(desk, code, number=None):
    """The desk ends, after a signal or by itself, with this exit code."""
    if number:
        desk.signal(number)
    found = desk.code()
    if found != code:
        raise Loss(f"the desk ended with {found} instead of {code}: {desk.text().strip()}")
    return desk


def stopped(clients):
    """All connections end; the desk has said why, if it said anything."""
    try:
        drain(clients, LATE)
    except Loss:
        raise Loss("the desk serves on where it had to end") from None
    for client in clients:
        if client.message and not client.message.startswith("! stopped: "):
            raise Loss(f"a client was told {client.message}")
