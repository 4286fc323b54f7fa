"""Memory: a bit of the book is flipped in the memory of a desk that serves. The next batch's check must stop it with 6, and the next
start has everything; or the book is still a lawful one, and then `desk audit` must find it in the snapshot that follows."""

import collections
import random
import struct

from clients import drain, finish
from desk import command
from drillsite import Site
from judge import Loss, Trouble
from reader import Folder, Wrong
from traffic import hexed


def places(pid, book):
    """Where the book's bytes stand in the memory of a process."""
    data, found = struct.pack(f"<{len(book)}I", *book), []
    with open(f"/proc/{pid}/maps", encoding="ascii") as maps, open(f"/proc/{pid}/mem", "rb", buffering=0) as memory:
        for line in maps:
            span, rights = line.split()[:2]
            if not rights.startswith("rw"):
                continue
            start, end = (int(number, 16) for number in span.split("-"))
            try:
                memory.seek(start)
                region = memory.read(end - start)
            except OSError:
                continue
            at = region.find(data)
            while at >= 0:
                found.append(start + at)
                at = region.find(data, at + 1)
    return found


def flip(pid, book, chance):
    """Flips a bit of a word, in every copy of the book; which word."""
    word, bit = chance.randrange(len(book)), chance.randrange(32)
    starts = places(pid, book)
    if not starts:
        raise Trouble("the book is not found in the desk's memory")
    with open(f"/proc/{pid}/mem", "r+b", buffering=0) as memory:
        for start in starts:
            memory.seek(start + 4 * word)
            memory.write(struct.pack("<I", book[word] ^ 1 << bit))
    return word


def lawful_flip(site, desk, clients, word):
    """The desk answers on: a kept call and an end write a snapshot, in which the audit finds the word, unless that call wrote it."""
    clients[0].send(hexed((*clients[0].traffic.request(), (1 << 24) - 1)))
    finish(clients)
    code = desk.end()
    drain(clients)
    if code == 6:
        return "stopped at the next order"
    if code:
        raise Loss(f"word {word} was changed, and the desk ended with {code}: {desk.text().strip()}")
    audit, _, why = command(site.setting, "audit", site.folder)
    found = Folder(site.folder)
    newest = found.snapshots[max(found.snapshots)]
    site.judge.again(found.calls())
    same = not isinstance(newest, Wrong) and newest.book == site.judge.engine.words()
    if audit not in (0, 3) or (audit == 0) != same:
        raise Loss(f"word {word} was changed, and desk audit ends with {audit}: {why}")
    return "healed" if same else "found by the audit"


def one_flip(site, chance):
    desk = site.serve().started()
    clients = site.clients()
    for client in clients:
        client.send(*(client.traffic.line() for _ in range(5)))
    finish(clients)
    site.judged(clients)
    for client in clients:
        client.lines, client.told, client.first = [], 0, []
    word = flip(desk.process.pid, site.judge.engine.words(), chance)
    clients[1].send("a" + hexed(clients[1].traffic.request()))
    finish(clients)
    if clients[1].lines[0].told is not None:
        return lawful_flip(site, desk, clients, word)
    drain(clients)
    if desk.code() != 6 or not clients[1].message:
        raise Loss(f"word {word} was changed, and the desk ended with {desk.code()}: {desk.text().strip()}")
    site.judged(clients)
    site.serve().started().end()
    return "stopped at once"


def run(setting):
    chance, seen = random.Random(setting.seed), collections.Counter()
    first = Site(setting, "memory", setting.seed)
    first.grown(200)
    for _ in range(setting.rounds):
        seen[one_flip(first.copy("flipped"), chance)] += 1
    return f"{setting.rounds} flipped bits: " + ", ".join(f"{count} {what}" for what, count in seen.items())
