#!/usr/bin/env python3
"""A second reader of a site's folder, written from docs/DESK.md and from nothing else.

    desk/drill/reader.py DIR

prints the snapshots, the segments of the journal and the mark, and what a start would find: a site that starts, one
whose torn end is cut off first, or one that is damaged. It changes nothing and does no call: whether a book is lawful,
and what a call is answered, is asked of the engine by judge.py.
"""

import struct
import sys
from pathlib import Path
from typing import NamedTuple

HEAD, RECORD_HEAD, EDITION, ORDER_WORDS = 64, 28, 1, 11
SNAPSHOT, JOURNAL = b"CAVSNAP1", b"CAVJRNL1"
REQUEST, ORDER, PARTY, COMMIT = 1, 2, 3, 4
STARTS, TORN, DAMAGED = "starts", "torn end", "damaged"


def crc_table():
    table = []
    for rest in range(256):
        for _ in range(8):
            rest = rest >> 1 ^ (0x82F63B78 if rest & 1 else 0)
        table.append(rest)
    return table


TABLE = crc_table()


def crc32c(data, before=0):
    """CRC-32C, begun and ended inverted; `before` is the sum of the bytes before."""
    table, rest = TABLE, before ^ 0xFFFFFFFF
    for byte in data:
        rest = table[(rest ^ byte) & 255] ^ rest >> 8
    return rest ^ 0xFFFFFFFF


def words_of(data):
    return struct.unpack(f"<{len(data) // 4}I", data)


class Wrong(Exception):
    """A file that is not what it should be, and why."""


class Place(NamedTuple):
    """Where the list of kept calls stands."""

    seq: int
    chain: int


class Call(NamedTuple):
    """A kept call: which, and its words."""

    call: int
    words: tuple


class Head(NamedTuple):
    site: bytes
    place: Place
    words: int
    sum: int
    orders: int


class Snapshot(NamedTuple):
    head: Head
    book: tuple
    orders: list


class Record(NamedTuple):
    at: int
    end: int
    place: Place
    answers: int
    sum: int
    calls: list

    def after(self):
        return Place(self.place.seq + len(self.calls), self.sum)


class Segment(NamedTuple):
    """A file of the journal: its records, where they end, the bytes behind them, and how many before there are only zeros."""

    name: str
    head: Head
    records: list
    end: int
    rest: bytes
    behind: int

    def after(self):
        return self.records[-1].after() if self.records else self.head.place


class Start(NamedTuple):
    """What a start finds: a verdict, why, the place that it serves from, the snapshot that it takes, notes."""

    verdict: str
    why: str
    place: Place
    snapshot: int
    notes: list


def read_head(data, magic, seq):
    if len(data) < HEAD or data[:8] != magic or crc32c(data[:60]) != struct.unpack_from("<I", data, 60)[0]:
        raise Wrong("its head is damaged")
    edition, zero, site, its_seq, words, chain, total, orders = struct.unpack_from("<II16sQQIII", data, 8)
    if edition != EDITION or zero:
        raise Wrong(f"it is of edition {edition}")
    if its_seq != seq:
        raise Wrong("its name is not that of its head")
    if magic == JOURNAL and (words or total or orders):
        raise Wrong("its head has numbers that a journal does not have")
    return Head(site, Place(its_seq, chain), words, total, orders)


def read_snapshot(data, seq):
    head = read_head(data, SNAPSHOT, seq)
    body = data[HEAD:]
    if len(body) != 4 * (head.words + ORDER_WORDS * head.orders):
        raise Wrong("its length is not that of its head")
    if crc32c(body) != head.sum:
        raise Wrong("its sum is not that of its words")
    words = words_of(body)
    orders = [words[at:at + ORDER_WORDS] for at in range(head.words, len(words), ORDER_WORDS)]
    return Snapshot(head, words[:head.words], orders)


def read_calls(body, count):
    """The calls of a record, or None if the words are not so many calls."""
    words, at, calls = words_of(body), 0, []
    while at < len(words):
        call, length = words[at] >> 16, words[at] & 0xFFFF
        of = words[at + 1:at + 1 + length]
        fits = {REQUEST: length == 7, ORDER: length == 8 and of[-1:] != (0,), PARTY: length % 3 == 1, COMMIT: length == 8}
        if len(of) != length or not fits.get(call):
            return None
        calls.append(Call(call, of))
        at += 1 + length
    return calls if len(calls) == count else None


def read_record(data, at):
    """The record that stands at a byte, or None if no whole one does."""
    if at + RECORD_HEAD > len(data):
        return None
    length, count, seq, answers, chain, total = struct.unpack_from("<IIQIII", data, at)
    if count == 0 or length < RECORD_HEAD + 4 * count or length % 4 or at + length > len(data):
        return None
    body = data[at + RECORD_HEAD:at + length]
    if crc32c(body, crc32c(data[at:at + 24])) != total:
        return None
    calls = read_calls(body, count)
    return calls and Record(at, at + length, Place(seq, chain), answers, total, calls)


def read_segment(name, data):
    head = read_head(data, JOURNAL, int(name[4:], 16))
    records, at, place = [], HEAD, head.place
    while True:
        record = read_record(data, at)
        if not record or record.place != place:
            return Segment(name, head, records, at, data[at:], len(data[at:].rstrip(b"\0")))
        records.append(record)
        at, place = record.end, record.after()


def later_record(segment):
    """Whether a whole record of a later place stands behind the first one that is not right. All lengths are of whole words."""
    rest, seq = segment.rest, segment.after().seq
    for at in range(4, min(segment.behind, len(rest) - RECORD_HEAD), 4):
        if struct.unpack_from("<Q", rest, at + 8)[0] > seq and read_record(rest, at):
            return True
    return False


def read_mark(path):
    try:
        data = path.read_bytes()
    except FileNotFoundError:
        return None
    if len(data) != 16 or crc32c(data[:12]) != struct.unpack_from("<I", data, 12)[0]:
        return None
    return Place(*struct.unpack_from("<QI", data))


def numbered(folder, beginning):
    """The names that begin so and end in a place's seq, rising."""
    names = (path.name for path in Path(folder).iterdir())
    digits = set("0123456789abcdef")
    return sorted(name for name in names
                  if name.startswith(beginning) and len(name) == len(beginning) + 16 and set(name[-16:]) <= digits)


def attempt(function, *args):
    """What a reading gives, or what is wrong with it."""
    try:
        return function(*args)
    except Wrong as wrong:
        return wrong


class Folder:
    """All that stands in a site's folder."""

    def __init__(self, path):
        path = Path(path)
        self.snapshots = {int(name[5:], 16): attempt(read_snapshot, (path / name).read_bytes(), int(name[5:], 16))
                          for name in numbered(path, "snap-")}
        self.segments = {int(name[4:], 16): attempt(read_segment, name, (path / name).read_bytes())
                         for name in numbered(path, "log-")}
        self.mark = read_mark(path / "mark")

    def calls(self):
        """All calls from the first on, as far as the segments join."""
        return [call for record in self.records() for call in record.calls]

    def calls_from(self, seq):
        """The calls behind a place, by the segments that are good, whether all those before are or not."""
        segments = (segment for segment in self.segments.values() if not isinstance(segment, Wrong))
        records = (record for segment in segments for record in segment.records if record.place.seq >= seq)
        return [call for record in records for call in record.calls]

    def records(self):
        place, records = Place(0, 0), []
        for segment in self.segments.values():
            if isinstance(segment, Wrong) or segment.head.place != place:
                break
            records += segment.records
            place = segment.after()
        return records

    def start(self, lawful=lambda book: True):
        """What a start finds (3.1); `lawful` says whether a book may be taken."""
        notes = []
        for seq, snapshot in sorted(self.snapshots.items(), reverse=True):
            if not isinstance(snapshot, Wrong) and lawful(snapshot.book):
                break
            notes.append(f"snap-{seq:016x} is passed over: {snapshot if isinstance(snapshot, Wrong) else 'unlawful'}")
        else:
            return Start(DAMAGED, "no good snapshot", None, None, notes)
        try:
            place, segment = self.followed(snapshot.head)
            torn = self.torn(place, segment)
        except Wrong as wrong:
            return Start(DAMAGED, str(wrong), None, seq, notes)
        return Start(TORN if torn else STARTS, torn, place, seq, notes)

    def followed(self, taken):
        """The place behind the last right record from a snapshot's place on, and the last segment."""
        seqs = sorted(self.segments)
        first = max((seq for seq in seqs if seq <= taken.place.seq), default=None)
        if first is None and seqs:
            raise Wrong("the journal begins behind the snapshot")
        place, segment = None, None
        for seq in seqs[seqs.index(first):] if seqs else []:
            if segment and segment.behind:
                raise Wrong(f"{segment.name} is damaged at byte {segment.end}, and a segment stands behind it")
            segment = self.segments[seq]
            if isinstance(segment, Wrong):
                raise Wrong(f"log-{seq:016x}: {segment}")
            if segment.head.site != taken.site or place not in (None, segment.head.place):
                raise Wrong(f"{segment.name} is of another site or does not follow")
            place = segment.after()
            if seq == first and not self.passes(segment, taken.place):
                raise Wrong(f"{segment.name} does not come by the snapshot's place")
        return place or taken.place, segment

    @staticmethod
    def passes(segment, place):
        """Whether the segment begins at the place, or has a record that ends there."""
        return place == segment.head.place or any(record.after() == place for record in segment.records)

    def torn(self, place, segment):
        """Where the torn end is, or nothing; a Wrong if answered changes are lost there."""
        if self.mark and (self.mark.seq > place.seq or self.mark.seq == place.seq and self.mark != place):
            raise Wrong(f"{self.mark.seq} calls were answered, {place.seq} are here")
        if not segment or not segment.behind:
            return ""
        if not self.mark:
            raise Wrong(f"{segment.name} has bytes behind byte {segment.end}, and there is no readable mark")
        if later_record(segment):
            raise Wrong(f"{segment.name} is damaged at byte {segment.end}: a whole record stands behind it")
        return f"{segment.name} at byte {segment.end}"


def show(path):
    folder = Folder(path)
    for seq, snapshot in folder.snapshots.items():
        good = not isinstance(snapshot, Wrong)
        print(f"snap-{seq:016x}", f"{len(snapshot.book)} words, {len(snapshot.orders)} orders" if good else snapshot)
    for seq, segment in folder.segments.items():
        if isinstance(segment, Wrong):
            print(f"log-{seq:016x}", segment)
        else:
            print(segment.name, f"{len(segment.records)} records to {segment.after().seq}, {segment.end} bytes,",
                  f"{segment.behind} bytes behind them" if segment.behind else "nothing behind them")
    print("mark", folder.mark.seq if folder.mark else "none that can be read")
    start = folder.start()
    for note in start.notes:
        print("note:", note)
    print(f"{start.verdict}:", start.why or f"serves {start.place.seq} calls from snap-{start.snapshot:016x}")
    return 0 if start.verdict != DAMAGED else 3


def main():
    if len(sys.argv) != 2 or not Path(sys.argv[1]).is_dir():
        print("usage: reader.py DIR, the folder of a site", file=sys.stderr)
        return 2
    return show(sys.argv[1])


if __name__ == "__main__":
    sys.exit(main())
