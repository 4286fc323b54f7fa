"""A site under drill: its folder, its judge, its clients' traffic, and what they are to send again."""

import copy
import random
import shutil
import signal
import time

from clients import Client, drain, finish
from desk import Desk, judged, new_site
from judge import Judge
from traffic import CLIENTS, SMALL, Traffic, owner


def to_send_again(client, before):
    """The orders that a client did not come to send again, those without an answer, and those that were new and answered: each
    of these once."""
    before = set(before)
    orders = [line for line in client.lines if line.is_order()]
    lost = [line.text for line in orders if line.told is None]
    new = dict.fromkeys(line.text for line in orders if line.told is not None and line.text not in before)
    return [*client.first, *lost, *new]


class Site:
    def __init__(self, setting, name, seed, settings=SMALL, words=None):
        self.setting, self.folder = setting, new_site(setting, name, settings, words)
        self.judge = Judge(settings, owner, words)
        self.traffic = [Traffic(client, f"{seed} {name}", settings) for client in range(CLIENTS)]
        self.again = [[] for _ in self.traffic]
        self.random = random.Random(f"{seed} {name} site")

    def copy(self, name):
        """The same site once more, under another name."""
        twin = copy.copy(self)
        twin.folder = self.setting.work / name
        shutil.rmtree(twin.folder, ignore_errors=True)
        shutil.copytree(self.folder, twin.folder, ignore=shutil.ignore_patterns("sock"))
        twin.judge = self.judge.copy()
        twin.traffic = [traffic.copy() for traffic in self.traffic]
        twin.again, twin.random = copy.deepcopy((self.again, self.random))
        return twin

    def remove(self):
        shutil.rmtree(self.folder)

    def serve(self, *options, env=None):
        return Desk(self.setting, self.folder, *options, env=env)

    def clients(self, windows=(1, 4, 30, 200)):
        """All clients, connected; each will first send again what it has to."""
        return [Client(self.folder, traffic, self.random.choice(windows), again)
                for traffic, again in zip(self.traffic, self.again)]

    def grown(self, count, *options, how=signal.SIGKILL):
        """Each client sends so many lines and has its answers; then the desk ends in this way."""
        desk = self.serve(*options).started()
        clients = self.clients((1,))
        for client in clients:
            client.send(*client.first, *(client.traffic.line() for _ in range(count)))
        finish(clients)
        desk.signal(how)
        drain(clients)
        desk.code()
        return self.judged(clients)

    def judged(self, clients, thorough=True):
        """Judges the site behind a round; all its orders are then sent again."""
        lines = [client.lines for client in clients] or [[] for _ in self.traffic]
        found = judged(self.setting, self.folder, self.judge, lines, thorough)
        for index, client in enumerate(clients[:len(self.again)]):
            self.again[index] = to_send_again(client, self.again[index])
        return found


def take_snapshot(desk, seconds=0.3):
    """Asks for a snapshot, and waits until it is there, or the desk has ended, or none comes."""
    before, end = set(desk.folder.glob("snap-*")), time.monotonic() + seconds
    desk.signal(signal.SIGUSR1)
    while set(desk.folder.glob("snap-*")) <= before and desk.process.poll() is None and time.monotonic() < end:
        time.sleep(0.002)
