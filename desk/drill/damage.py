"""Damage: of a site that was ended and of one that was killed a copy is damaged (a bit flipped, bytes zeroed, a file cut off) in
the last 4 KiB of the journal's records, in the mark, in a snapshot. The desk then either ends with 3 and leaves every byte as it was,
or serves everything that was answered; and it agrees with reader.py which of the two it is."""

import collections
import random
import re
import signal

import faults
from clients import drain, finish
from desk import book_at, command
from drillsite import Site
from judge import Loss, lawful
from reader import DAMAGED, HEAD, STARTS, Folder

LAST = 4096


def base(setting, name, how):
    """A site with several segments and snapshots."""
    site = Site(setting, name, setting.seed)
    for every in (40, 60, 10000):
        site.grown(40, "--every", every, how=how)
    return site


def targets(folder):
    """What may be damaged, each as a file and the first and last byte."""
    found = Folder(folder)
    segments = [segment for segment in found.segments.values() if segment.records]
    last = segments[-1]
    yield "journal", last.name, max(HEAD, last.end - LAST), last.end + 40
    if last.rest:
        yield "behind the journal", last.name, last.end, last.end + LAST
    yield "newest segment", max(path.name for path in folder.glob("log-*")), 0, LAST
    yield "mark", "mark", 0, 16
    for which, path in zip(("newest snapshot", "older snapshot"), sorted(folder.glob("snap-*"), reverse=True)):
        yield which, path.name, 0, path.stat().st_size
    # Every change count is lawful: only the sum tells.
    newest = max(found.snapshots)
    count = HEAD + 4 * len(found.snapshots[newest].book)
    yield "newest snapshot's change count", f"snap-{newest:016x}", count - 4, count


def damaged(path, first, last, chance):
    """Damages a file between two bytes; says how."""
    data = bytearray(path.read_bytes())
    at = chance.randrange(first, max(first + 1, min(last, len(data))))
    how = chance.choice(("flip", "flip", "zeros", "zero sector", "cut"))
    if how == "cut":
        del data[at:]
    elif how == "flip":
        data[at] ^= 1 << chance.randrange(8)
    else:
        at, length = (at, 9) if how == "zeros" else (at // 512 * 512, 512)
        data[at:at + length] = bytes(len(data[at:at + length]))
    path.write_bytes(data)
    return f"{how} at byte {at} of {path.name}"


def contents(folder):
    return {path.name: path.read_bytes() for path in folder.iterdir() if not path.name.startswith(("lock", "sock"))}


def serves(site, start, what):
    """The desk listens: all answered calls are in the book that it serves, and no others than before."""
    seq, whole = start.place.seq, site.judge.calls
    if not site.judge.answered <= seq <= len(whole):
        raise Loss(f"{what}: {site.judge.answered} calls were answered, {seq} are served")
    site.judge.again(whole[:seq])
    if book_at(site.setting, site.folder, seq) != site.judge.engine.words():
        raise Loss(f"{what}: another book is served than the engine's of {seq} calls")


def refused(site, desk, before, what):
    """The desk has ended with 3, and nothing was written."""
    if desk.code() != 3:
        raise Loss(f"{what}: the desk ends with {desk.code()}: {desk.text().strip()}")
    if contents(site.folder) != before:
        raise Loss(f"{what}: the desk ended with 3 and has changed files")
    return re.search(r"--accept-loss (\d+)", desk.text())


def accepted(site, seq, before, what, chance):
    """A person accepts the loss of the message, and no other one: the site goes on with the first calls, and keeps the rest aside. The
    desk that puts it aside may die at it."""
    wrong = site.serve("--accept-loss", seq + 1)
    if wrong.listens() or wrong.code() != 3 or contents(site.folder) != before:
        raise Loss(f"{what}: a loss was accepted that is not the one of the message")
    env = faults.variables(site.folder, at=chance.randrange(1, 20), how=chance.choice(("before", "half", "after")))
    desk = site.serve("--accept-loss", seq, env=chance.choice((env, None)))
    desk.listens()
    desk.kill()
    desk = site.serve("--accept-loss", seq).started()
    desk.kill()
    calls = Folder(site.folder).calls()
    if len(calls) != seq or calls != site.judge.calls[:seq]:
        raise Loss(f"{what}: --accept-loss {seq} does not serve the first {seq} calls")
    for name, data in before.items():
        if name.startswith(("log-", "snap-")) and not still_there(site.folder, name, data.rstrip(b"\0")):
            raise Loss(f"{what}: {name} is not kept aside")
    site.judge.again(calls)
    site.grown(3)
    return "accepted"


def still_there(folder, name, data):
    """Whether the bytes of a file are there: under its name or one that begins with lost-, or its first under the one and its last under
    the other."""
    if any(path.read_bytes().rstrip(b"\0") == data for path in folder.glob(f"*{name}*")):
        return True
    for path in folder.glob(f"lost-{name}-*"):
        end = int(path.name.split("-")[3])
        if ((folder / name).read_bytes()[:end] + path.read_bytes()).rstrip(b"\0") == data:
            return True
    return False


def one_damage(site, chance):
    choices = list(targets(site.folder))
    snapshots = [choice for choice in choices if choice[0].endswith("snapshot")]
    several = snapshots if chance.random() < 0.1 else [chance.choice(choices)]
    what = ", ".join(f"{what}: {damaged(site.folder / name, first, last, chance)}" for what, name, first, last in several)
    before, expects = contents(site.folder), Folder(site.folder).start(lawful)
    code, _, why = command(site.setting, "check", site.folder)
    if (code == 3) != (expects.verdict == DAMAGED) or contents(site.folder) != before:
        raise Loss(f"{what}: desk check ends with {code}, {why}; reader.py says {expects.verdict} {expects.why}")
    desk = site.serve()
    if not desk.listens():
        if expects.verdict != DAMAGED:
            raise Loss(f"{what}: the desk does not start, and reader.py says that it could: {desk.text().strip()}")
        offer = refused(site, desk, before, what)
        return accepted(site, int(offer[1]), before, what, chance) if offer and chance.random() < 0.5 else "refused"
    if expects.verdict == DAMAGED:
        raise Loss(f"{what}: the desk starts, and reader.py says: {expects.why}")
    desk.kill()
    if Folder(site.folder).start(lawful).verdict != STARTS:
        raise Loss(f"{what}: the desk has started, and the torn end is still there")
    serves(site, expects, what)
    again(site)
    return "passed over" if expects.notes else expects.verdict


def again(site):
    """It is served, by whichever snapshot it takes, and gives the same answers."""
    desk = site.serve().started()
    clients = site.clients()
    for client in clients:
        client.send(*client.first, *("a" + line.text for line in (client.traffic.line() for _ in range(3)) if len(line.text) == 56))
    finish(clients)
    desk.kill()
    drain(clients)
    site.judge.follow(Folder(site.folder).calls_from(len(site.judge.calls)), [client.lines for client in clients])


def run(setting):
    chance, seen = random.Random(setting.seed), collections.Counter()
    sites = [base(setting, "ended", signal.SIGTERM), base(setting, "killed", signal.SIGKILL)]
    for number in range(setting.rounds):
        site = sites[number % 2].copy("damaged")
        seen[one_damage(site, chance)] += 1
    return f"{setting.rounds} damages: " + ", ".join(f"{count} {what}" for what, count in seen.items())
