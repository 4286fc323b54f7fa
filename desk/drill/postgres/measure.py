"""What storing a batch takes over PostgreSQL, beside the journal in files: the desk's own figures, on one disk and in one run."""

import re
import signal
import statistics
import time

from clients import Client, turn
from desk import Desk, new_site
from server import Server
from stand import RUNNING, ended
from traffic import SMALL, Traffic, hexed

SECONDS, PASSES, CLIENTS = 0.8, 5, (1, 32)


def talk_for(folder, clients, seed):
    """Clients send a new order each and wait, for so long; how many were answered in a second."""
    traffic, order = Traffic(0, seed, SMALL), 0
    callers = [Client(folder) for _ in range(clients)]
    end = time.monotonic() + SECONDS
    while time.monotonic() < end:
        for caller in callers:
            if not caller.waiting():
                order += 1
                caller.send(hexed((*traffic.request(), order)))
                caller.write()
        turn(callers, 0.1)
    for caller in callers:
        caller.close()
    return round(sum(caller.told for caller in callers) / SECONDS)


def stored(setting, name, clients, *options):
    """Microseconds that storing a batch takes, and lines answered in a second. Every batch has something to store."""
    setting = setting._replace(work=setting.work / name)
    setting.work.mkdir()
    folder = new_site(setting, "site")
    desk = Desk(setting, folder, "--figures", *options).started()
    RUNNING.append(desk)
    lines = talk_for(folder, clients, setting.seed)
    ended(desk, 0, signal.SIGTERM)
    return int(re.search(r"store (\d+)", desk.text())[1]), lines


def figures(setting):
    """Files, a server, a server with a synchronous standby; one client and many. Passes take turns, for the disk is not ours alone."""
    servers = {}
    for name in ("alone", "primary"):
        servers[name] = Server(setting.work, name)
        servers[name].make()
    servers["primary"].standby("standby")
    places = {"files": (), "one server": ("--pg", servers["alone"].connection()),
              "server and standby": ("--pg", servers["primary"].connection())}
    found = {}
    for turn_of in range(PASSES):
        for clients in CLIENTS:
            for place, options in places.items():
                got = stored(setting, f"{place} {clients} {turn_of}".replace(" ", "-"), clients, *options)
                found.setdefault((clients, place), []).append(got)
    for (clients, place), passes in found.items():
        times, lines = zip(*passes)
        ratio = statistics.median(time / files[0] for time, files in zip(times, found[clients, "files"]))
        print(f"    {clients} clients, {place}: {min(times)} to {max(times)} microseconds a batch, {ratio:.1f} of files; "
              f"{min(lines)} to {max(lines)} lines a second")
    return f"{PASSES} passes, ratios are medians"
