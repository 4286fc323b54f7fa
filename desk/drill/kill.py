"""Kill: clients send lines of every sort, the desk is killed at a random moment (now and then ended by SIGTERM), and starts
again on the same folder. Behind each round the files and all answers are judged; then all its orders, answered or not, are
sent again."""

import random
import signal
import threading

from clients import drain, finish, talk
from desk import book_at, command
from drillsite import Site
from judge import Engine, Loss
from reader import Folder

ROUNDS_OF_A_SITE = 25


def meanwhile(desk, chance, seconds):
    """Now and then a snapshot is asked for, and now and then the desk stands still, so that a large batch gathers."""
    at, then = sorted((chance.uniform(0, seconds), chance.uniform(0, seconds)))
    snapshot = [(at, lambda: desk.signal(signal.SIGUSR1))]
    still = [(at, lambda: desk.signal(signal.SIGSTOP)), (then, lambda: desk.signal(signal.SIGCONT))]
    return chance.choice((snapshot, still, [], []))


def one_round(site, chance, seconds):
    """Serves, kills or ends, judges; what the clients sent."""
    desk = site.serve("--every", 50, "--patience", 10).started()
    clients = site.clients()
    gently = chance.random() < 0.2
    blow = threading.Timer(seconds, desk.signal, [signal.SIGTERM if gently else signal.SIGKILL])
    blow.start()
    talk(clients, seconds, meanwhile(desk, chance, seconds))
    blow.join()
    desk.signal(signal.SIGCONT)
    drain(clients)
    code = desk.code()
    if code != (0 if gently else -signal.SIGKILL):
        raise Loss(f"the desk ended with {code}: {desk.text().strip()}")
    found = site.judged(clients)
    if found.mark is None or found.mark.seq < site.judge.answered:
        raise Loss(f"{site.judge.answered} calls were answered, and the mark says {found.mark}")
    return clients


def settle(site):
    """A last round in peace: everything that is to be sent again is answered."""
    desk = site.serve("--every", 50).started()
    clients = site.clients()
    for client in clients:
        client.send(*client.first)
    finish(clients)
    desk.end()
    drain(clients)
    if any(line.told is None for client in clients for line in client.lines):
        raise Loss("a line that was sent again is not answered")
    site.judged(clients)
    code, _, why = command(site.setting, "audit", site.folder)
    if code:
        raise Loss(f"desk audit ends with {code}: {why}")
    snapshots = sorted(Folder(site.folder).snapshots)
    if snapshots[0] != 0 or len(snapshots) > 3 or snapshots[-1] != len(site.judge.calls):
        raise Loss(f"behind the end there are the snapshots {snapshots}, and {len(site.judge.calls)} calls")
    for seq in (site.random.randrange(len(site.judge.calls) + 1) for _ in range(3)):
        engine = Engine(site.judge.settings)
        engine.do_all(site.judge.calls[:seq])
        if book_at(site.setting, site.folder, seq) != engine.words():
            raise Loss(f"desk replay --to {seq} gives another book than the engine's list from fresh")


def run(setting):
    chance = random.Random(setting.seed)
    lines = answers = calls = 0
    for first in range(0, setting.rounds, ROUNDS_OF_A_SITE):
        site = Site(setting, f"kill{first}", setting.seed)
        for _ in range(min(ROUNDS_OF_A_SITE, setting.rounds - first)):
            clients = one_round(site, chance, chance.choice((0.003, 0.02, 0.06, 0.12)) * chance.random())
            lines += sum(len(client.lines) for client in clients)
            answers += sum(client.told for client in clients)
        settle(site)
        calls += len(site.judge.calls)
        site.remove()
    return f"{setting.rounds} rounds, {lines} lines sent, {answers} answered, {calls} calls kept"
