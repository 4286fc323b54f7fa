"""Calls: a short session (start with a torn end, lines, snapshot, lines, end), and each system call of it that changes a
file or sends an answer is once the one before which, in which, or behind which the desk dies, or the one that fails."""

import collections
import errno
import random
import signal

import faults
from clients import drain, finish
from desk import command, settings_line
from judge import Loss
from drillsite import Site, take_snapshot
from traffic import SMALL

HOWS = ("before", "half", "after", errno.EIO, errno.ENOSPC)
# What a failed call does, by its letter and the beginning of the file's name: the journal and its mark stop the desk.
STOPS = (("W", "log"), ("S", "log"), ("T", "log"), ("C", "log"), ("R", "log"), ("W", "mark"), ("S", "mark"), ("C", "mark"), ("T", "mark"))
GOES_ON = (("W", "snap"), ("S", "snap"), ("C", "snap"), ("R", "snap"), ("A", ""))


def base(setting, number):
    """A site that was killed, with a record that was half written at the end of its journal."""
    site = Site(setting, f"calls{number}", setting.seed)
    found = site.grown(40, "--every", 40)
    last = found.segments[max(found.segments)]
    with open(site.folder / last.name, "r+b") as log:
        log.seek(last.end)
        log.write(random.Random(setting.seed).randbytes(90))
    return site


def session(site, env, turns=1, lines=4):
    """The desk, its clients, and how it ended; the session goes as far as the desk lives."""
    desk = site.serve("--every", 10000, env=env)
    clients = []
    if desk.listens():
        try:
            clients = site.clients()
        except OSError:
            desk.code()
    for turn in range(2 * turns if clients else 0):
        for client in clients:
            client.send(*client.first, *(client.traffic.line() for _ in range(lines)))
            client.first = []
        finish(clients)
        if turn + 1 == turns:
            take_snapshot(desk)
    desk.signal(signal.SIGTERM)
    drain(clients)
    return desk, clients, desk.code()


def expected(desk, clients, code, failed):
    """Whether the desk did what is promised when a call failed."""
    if not failed:
        return code == 0
    kind = (failed[0].data.decode(), failed[0].name[:4].rstrip("-."))
    if any(kind[0] == op and kind[1].startswith(name) for op, name in STOPS):
        told = all(client.message and client.message.startswith("! stopped") for client in clients if client.told < len(client.lines))
        return code == 5 and told
    if kind in GOES_ON and "listening\n" in desk.text():
        return code == 0 and (kind[0] == "A" or not any(client.waiting() for client in clients))
    return code in (0, 5)


def one_case(site, at, how):
    """One call breaks; then the site is judged, served again and judged again."""
    trace = site.setting.work / "trace"
    trace.unlink(missing_ok=True)
    desk, clients, code = session(site, faults.variables(site.folder, trace, at, how))
    failed = [event for event in faults.read_trace(trace) if event.op == "F"]
    if isinstance(how, int) and not expected(desk, clients, code, failed):
        raise Loss(f"call {at} failed with {errno.errorcode[how]} ({failed}), and the desk ended with {code}: {desk.text().strip()}")
    if how == "before" and code not in (0, -signal.SIGKILL):
        raise Loss(f"the desk was to die before call {at}, and ended with {code}: {desk.text().strip()}")
    site.judged(clients, thorough=at % 4 == 0)
    desk, clients, code = session(site, None)
    if code:
        raise Loss(f"after call {at} ({how}) the next desk ended with {code}: {desk.text().strip()}")
    site.judged(clients, thorough=False)
    if isinstance(how, int):
        return f"failed {failed[0].data.decode()} of {failed[0].name.split('-')[0] or 'a socket'}" if failed else "not reached"
    return f"died {how}"


def whole(first):
    """The number of calls that are counted in a session in which none breaks."""
    site, trace = first.copy("whole"), first.setting.work / "trace"
    trace.unlink(missing_ok=True)
    _, clients, code = session(site, faults.variables(site.folder, trace))
    if code:
        raise Loss(f"the session ended with {code}")
    site.judged(clients)
    return len(faults.read_trace(trace))


def broken_init(setting):
    """A site is made, and each call of this breaks in each way: behind it there is a site, or one can be made."""
    at, broken = 1, True
    while broken:
        for how in HOWS:
            folder = setting.work / f"init{at}{how}"
            broken, _, why = command(setting, "init", folder, given=settings_line(SMALL), env=faults.variables(folder, at=at, how=how))
            if broken not in (0, 5 if isinstance(how, int) else -signal.SIGKILL):
                raise Loss(f"call {at} of desk init was to break ({how}), and it ended with {broken}: {why}")
            code, _, why = command(setting, "check", folder)
            if code == 2 and broken:
                code, _, why = command(setting, "init", folder, given=settings_line(SMALL))
            if code:
                raise Loss(f"behind call {at} of desk init ({how}) there is no site: {code}, {why}")
        at += 1
    return at - 2


def run(setting):
    chance, seen = random.Random(setting.seed), collections.Counter()
    sites, made = 0, broken_init(setting)
    while sum(seen.values()) < setting.rounds:
        first = base(setting, sites)
        cases = [(at, how) for at in range(1, whole(first) + 1) for how in HOWS]
        cases = chance.sample(cases, min(len(cases), setting.rounds - sum(seen.values())))
        for at, how in sorted(cases, key=str):
            try:
                seen[one_case(first.copy("call"), at, how)] += 1
            except Loss as loss:
                raise Loss(f"call {at}, {how}: {loss}") from None
        sites += 1
    return f"{sum(seen.values())} calls broken in {sites} sessions, and all {made} of making a site: " + ", ".join(f"{count} {what}" for what, count in sorted(seen.items()))
