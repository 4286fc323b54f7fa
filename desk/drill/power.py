"""Power: from the trace of a session the disks are made that a power cut could leave at each point of it. What was synced is
there; of what was not, each sector of 512 bytes and each name comes or not. On each such disk the desk must start, with all
answers that were sent before the cut, and the next session goes on from one of them."""

import random
import shutil

import faults
from calls import session
from clients import drain, finish
from desk import command, settings_line
from drillsite import Site
from judge import Loss
from traffic import SMALL, Line

SECTOR = 512
CUTS_OF_A_SESSION = 16
SESSIONS_OF_A_SITE = 5
# The socket and the lock are a process's own.
NOT_DATA = ("sock", "lock")


class File:
    """A file's bytes that are on disk for sure, and what was done to it since: ("W", where, bytes) and ("T", length)."""

    def __init__(self, data=b""):
        self.data, self.since = bytearray(data), []

    def sync(self):
        for change in self.since:
            self.change(self.data, change)
        self.since = []

    @staticmethod
    def change(data, change):
        if change[0] == "T":
            del data[change[1]:]
            data.extend(bytes(change[1] - len(data)))
            return
        _, at, new = change
        data.extend(bytes(max(0, at - len(data))))
        data[at:at + len(new)] = new

    def cut(self, comes):
        """The bytes behind a power cut; `comes` says of each thing whether it came to the disk."""
        data = bytearray(self.data)
        for change in self.since:
            if change[0] == "T":
                if comes():
                    self.change(data, change)
                continue
            _, at, new = change
            while new:
                length = SECTOR - at % SECTOR
                if comes():
                    self.change(data, ("W", at, new[:length]))
                at, new = at + length, new[length:]
        return bytes(data)


class Disk:
    """A folder while events come: the names as they are, those that are on disk for sure, and what was done to names since."""

    def __init__(self, folder):
        self.names = {path.name: File(path.read_bytes()) for path in folder.iterdir() if not path.name.startswith(NOT_DATA)}
        self.sure, self.since = dict(self.names), []

    def event(self, event):
        name = event.name
        if name.startswith(NOT_DATA) or event.op in "AF":
            return
        if event.op == "C" and name not in self.names:
            self.rename(None, name, File())
        elif event.op in "CT":
            if event.op == "T" or event.number:
                self.names[name].since.append(("T", 0 if event.op == "C" else event.number))
        elif event.op == "W":
            self.names[name].since.append(("W", event.number, event.data))
        elif event.op == "S":
            self.names[name].sync()
        elif event.op in "RU":
            self.rename(name, event.data.decode() if event.op == "R" else None, self.names[name])
        elif event.op == "D":
            self.sure, self.since = dict(self.names), []

    def rename(self, old, new, file):
        self.apply(self.names, (old, new, file))
        self.since.append((old, new, file))

    @staticmethod
    def apply(names, change):
        old, new, file = change
        if names.get(old) is file:
            del names[old]
        if new:
            names[new] = file

    def cut(self, folder, chance):
        """Writes a folder that a power cut could leave."""
        names, comes = dict(self.sure), chooser(chance)
        for change in self.since:
            if comes():
                self.apply(names, change)
        shutil.rmtree(folder, ignore_errors=True)
        folder.mkdir()
        for name, file in names.items():
            (folder / name).write_bytes(file.cut(chooser(chance)))


def answers_before(events, count):
    """How many lines each client was sent in the first so many events."""
    sent = {}
    for event in events[:count]:
        if event.op == "A":
            sent[event.number] = sent.get(event.number, b"") + event.data
    return {client: sum(not line.startswith(b"!") for line in data.split(b"\n")[:-1]) for client, data in sent.items()}


class Known:
    """What is known of a client at the cut: its lines, and so many answers."""

    def __init__(self, client, answers):
        self.first, self.lines = client.first, [Line(line.text) for line in client.lines]
        for line, sent in zip(self.lines[:answers], client.lines):
            line.told = sent.told


def chooser(chance):
    """What comes to the disk of one file, or of the names: nothing, everything, or by some odds."""
    odds = chance.choice((0, 1, 0, 1, 0.5, 0.1, 0.9))
    return lambda: chance.random() < odds


def points(events, chance, count):
    """Where the power goes: anywhere, and as often right behind something that is not synced yet."""
    behind = [at for at, event in enumerate(events, 1) if event.op in "WTCRU"]
    return sorted(chance.choice(behind) if chance.random() < 0.5 else chance.randrange(len(events) + 1) for _ in range(count))


def starts(site):
    """The desk starts, answers what is sent again, and is killed."""
    desk = site.serve().started()
    clients = site.clients()
    for client in clients:
        client.send(*client.first, "s", client.traffic.party())
    finish(clients)
    desk.kill()
    drain(clients)
    site.judged(clients, thorough=False)


def one_session(site, chance, cuts):
    """A session, and the power cuts that could have happened in it; the site behind one of them."""
    before, trace = site.copy("before"), site.setting.work / "trace"
    trace.unlink(missing_ok=True)
    _, clients, code = session(site, faults.variables(site.folder, trace), turns=6, lines=1)
    if code:
        raise Loss(f"a desk whose calls are only written down ended with {code}")
    events, disk, passed, after = faults.read_trace(trace), Disk(before.folder), 0, None
    for point in points(events, chance, cuts):
        for event in events[passed:point]:
            disk.event(event)
        passed = point
        after = before.copy("cut")
        disk.cut(after.folder, chance)
        after.traffic = [traffic.copy() for traffic in site.traffic]
        try:
            answers = answers_before(events, point)
            after.judged([Known(client, answers.get(number, 0)) for number, client in enumerate(clients, 1)], thorough=False)
            starts(after)
        except Loss as loss:
            last = events[point - 1][:3] if point else "the start"
            raise Loss(f"power cut at event {point} of {len(events)}, behind {last}: {loss}") from None
    return after


def cut_init(setting, chance):
    """The power goes while a site is made: behind it there is a site or none, and then one can be made; one that was said to be made is
    there. Gives the number of cuts."""
    folder, trace = setting.work / "init", setting.work / "trace"
    trace.unlink(missing_ok=True)
    made, _, why = command(setting, "init", folder, given=settings_line(SMALL), env=faults.variables(folder, trace))
    if made:
        raise Loss(f"desk init ends with {made}: {why}")
    shutil.rmtree(folder)
    folder.mkdir()
    events, disk = faults.read_trace(trace), Disk(folder)
    for point in range(len(events) + 1):
        disk.cut(folder, chance)
        code, _, why = command(setting, "check", folder)
        if code == 2 and point < len(events):
            code, _, why = command(setting, "init", folder, given=settings_line(SMALL))
        if code:
            raise Loss(f"power cut at event {point} of {len(events)} of desk init, and then {code}: {why}")
        if point < len(events):
            disk.event(events[point])
    return len(events) + 1


def run(setting):
    chance, sessions, site = random.Random(setting.seed), 0, None
    cuts = cut_init(setting, chance)
    while cuts < setting.rounds:
        if sessions % SESSIONS_OF_A_SITE == 0:
            site = Site(setting, f"power{sessions}", setting.seed)
        count = min(CUTS_OF_A_SESSION, setting.rounds - cuts)
        site = one_session(site.copy("session"), chance, count)
        cuts, sessions = cuts + count, sessions + 1
    return f"{cuts} power cuts, in {sessions} sessions and in making a site"
