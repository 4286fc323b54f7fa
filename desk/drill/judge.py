"""The engine as judge: which book a journal gives from fresh, and what each client had to be told at which place of it.

The journal is a list of calls in one order. A client's lines were done in the order of its lines, each at some place of
that list. So the judge goes along the list, the engine doing call after call, and looks for each client whether its
lines can be laid along the list: a line whose call is kept stands at the place of this call and has its answer; any
other line (a refusal, an ask, an order sent again) stands at some place where the engine says what the client was told.
"""

import copy
import ctypes
import functools
from pathlib import Path

from reader import COMMIT, ORDER, ORDER_WORDS, PARTY, REQUEST, Place, Wrong, crc32c
from traffic import ASK, JUNK, NO_FRAME, SETTINGS, hexed, kept

ROOT = Path(__file__).resolve().parent.parent.parent
LIBRARY = ROOT / "target" / "lib" / "libcaviar.so"
REMEMBERED = 65536
WORD, WORDS, LENGTH = ctypes.c_uint32, ctypes.POINTER(ctypes.c_uint32), ctypes.c_size_t


class Loss(Exception):
    """What a desk must never do, and did."""


class Trouble(Exception):
    """What keeps a drill from running; it says nothing about the desk."""


class Answer(ctypes.Structure):
    _fields_ = [("number", WORD), ("place", WORD), ("value", WORD)]


class Asked(ctypes.Structure):
    _fields_ = [*Answer._fields_, ("count", WORD)]


class RequestWords(ctypes.Structure):
    _fields_ = [(field, WORD) for field in ("kind", "a", "b", "first", "last", "n", "info")]


class Guest(ctypes.Structure):
    _fields_ = [("visitor", WORD), ("first", WORD), ("last", WORD)]


@functools.lru_cache(maxsize=None)
def library():
    try:
        lib = ctypes.CDLL(str(LIBRARY))
    except OSError as error:
        raise Trouble(f"no library to judge by, `tools/build-library` makes it: {error}") from None
    lib.caviar_book_len.argtypes, lib.caviar_book_len.restype = [WORDS, LENGTH], ctypes.c_uint64
    lib.caviar_lay.argtypes = [WORDS, LENGTH] * 2
    lib.caviar_check.argtypes = [WORDS, LENGTH]
    lib.caviar_order.argtypes = [WORDS, LENGTH, WORD, RequestWords]
    lib.caviar_orders.argtypes = [WORDS, LENGTH] * 3
    lib.caviar_party.argtypes = [WORDS, LENGTH, WORD, ctypes.POINTER(Guest), LENGTH]
    lib.caviar_commit.argtypes = [WORDS, LENGTH, WORD, RequestWords]
    lib.caviar_ask.argtypes, lib.caviar_ask.restype = [WORDS, LENGTH, RequestWords], Asked
    for function in (lib.caviar_lay, lib.caviar_check, lib.caviar_order, lib.caviar_orders, lib.caviar_party,
                     lib.caviar_commit):
        function.restype = Answer
    return lib


def array(words):
    return (WORD * len(words))(*words)


def lawful(words):
    return library().caviar_check(array(words), len(words)).number == 0


class Engine:
    """A book: from fresh, or from the words that a site was made from."""

    def __init__(self, settings, words=None):
        self.settings = array(settings)
        self.book = (WORD * library().caviar_book_len(self.settings, len(settings)))()
        if library().caviar_lay(self.settings, len(settings), self.book, len(self.book)).number:
            raise Trouble("the engine refuses the settings of this drill")
        if words:
            self.book[:] = words

    def copy(self):
        twin = copy.copy(self)
        twin.book = type(self.book).from_buffer_copy(self.book)
        return twin

    def words(self):
        return tuple(self.book)

    def ask(self, request):
        told = library().caviar_ask(self.book, len(self.book), RequestWords(*request))
        return told.number, told.place, told.value, told.count

    def do(self, call, book=None):
        """The answer to a call, which the book (this one, or another) is moved along by."""
        book = book or self.book
        if call.call == PARTY:
            guests = [Guest(*call.words[at:at + 3]) for at in range(1, len(call.words), 3)]
            done = library().caviar_party(book, len(book), call.words[0], (Guest * len(guests))(*guests), len(guests))
        elif call.call == COMMIT:
            done = library().caviar_commit(book, len(book), call.words[0], RequestWords(*call.words[1:]))
        else:
            order = call.words[7] if call.call == ORDER else 0
            done = library().caviar_order(book, len(book), order, RequestWords(*call.words[:7]))
        return done.number, done.place, done.value

    def would(self, call):
        """The answer that a call would get, found on a copy."""
        return self.do(call, type(self.book).from_buffer_copy(self.book))

    def do_all(self, calls):
        """The answers to all calls; requests and orders that stand in a row are one list."""
        answers, run = [], []
        for call in calls:
            if call.call in (REQUEST, ORDER):
                run.append(call.words if call.call == ORDER else call.words + (0,))
                continue
            answers += self.do_list(run) + [self.do(call)]
            run = []
        return answers + self.do_list(run)

    def do_list(self, orders):
        flat = array([word for order in orders for word in order])
        answers = (WORD * (3 * len(orders)))()
        if library().caviar_orders(self.book, len(self.book), flat, len(flat), answers, len(answers)).number:
            raise Loss("the engine refuses the book that the journal gives")
        return [tuple(answers[at:at + 3]) for at in range(0, len(answers), 3)]


class Remembered:
    """The orders that a desk remembers (4.6): the last 65,536, with their words and first answers."""

    def __init__(self, words=None):
        self.orders = {}
        ring = words[-706:-1] if words else ()
        for place in range(ring[-1], ring[-1] + 64) if ring else ():
            number, *entry = ring[place % 64 * ORDER_WORDS:][:ORDER_WORDS]
            if number:
                self.orders[number] = (tuple(entry[:7]), tuple(entry[7:]))

    def copy(self):
        twin = Remembered()
        twin.orders = dict(self.orders)
        return twin

    def add(self, call, answer):
        number = call.words[7]
        if number in self.orders:
            raise Loss(f"order {number:08x} was stored twice")
        self.orders[number] = (call.words[:7], answer)
        if len(self.orders) > REMEMBERED:
            del self.orders[next(iter(self.orders))]

    def told(self, words):
        """What an order that is remembered is told, None for one that is not."""
        kept = self.orders.get(words[7])
        return kept and (kept[1] if kept[0] == words[:7] else (28, 0, 0))

    def entries(self):
        return [(number, *words, *answer) for number, (words, answer) in self.orders.items()]


class Trail:
    """The lines of one client in one round, laid along the journal.

    `at` has each number n of lines such that the first n can be accounted for up to here.
    """

    def __init__(self, name, lines):
        self.name, self.lines, self.at = name, lines, {0}
        self.answered = sum(line.told is not None for line in lines)

    def passed(self, judge):
        """Lays lines that are not kept at the present place, as many as can be there. An order that is laid here as sent again may also
        be a new one further on, behind 65,536 others, if it got the same answer there: both ways are followed."""
        fresh = sorted(self.at)
        for at in fresh:
            if at == len(self.lines):
                continue
            line = self.lines[at]
            told = None if line.was_kept() else judge.unkept(line)
            if told is None or line.told not in (None, told):
                continue
            if line.told is not None and not line.is_order():
                self.at.discard(at)
            if at + 1 not in self.at:
                self.at.add(at + 1)
                fresh.append(at + 1)

    def stored(self, call, answer):
        """Lays the line of a call that the journal has here."""
        told = hexed(answer)
        self.at = {at + 1 for at in self.at
                   if at < len(self.lines) and self.lines[at].call == call and self.lines[at].told in (None, told)}
        return self.at

    def told_last(self):
        """Whether the line that was laid last was answered."""
        return min(self.at) <= self.answered

    def ended(self):
        """Whether all answered lines are accounted for; the others may have been done or not."""
        return max(self.at) >= self.answered


class Judge:
    """The journal of one site as far as it was judged, and the engine's book there."""

    def __init__(self, settings, owner, words=None):
        self.settings, self.owner, self.words = settings, owner, words
        self.line = hexed(settings)
        self.begin()

    def begin(self):
        """`answered` is how many calls there are up to the last one whose line was answered."""
        self.engine, self.remembered = self.fresh()
        self.calls, self.answered = [], 0

    def fresh(self):
        return Engine(self.settings, self.words), Remembered(self.words)

    def copy(self):
        twin = copy.copy(self)
        twin.engine, twin.calls, twin.remembered = self.engine.copy(), list(self.calls), self.remembered.copy()
        return twin

    def again(self, calls):
        """Begins again, with calls that were judged before."""
        self.begin()
        for call in calls:
            self.take(call, self.engine.do(call))

    def take(self, call, answer):
        self.calls.append(call)
        if call.call == ORDER:
            self.remembered.add(call, answer)

    def unkept(self, line):
        """What a line is told here if nothing is kept of it; None if something would be."""
        if line.sort in (JUNK, SETTINGS):
            return NO_FRAME if line.sort == JUNK else self.line
        if line.sort == ASK:
            return hexed(self.engine.ask(line.call.words))
        if line.call.call == ORDER:
            answer = self.remembered.told(line.call.words)
        elif line.call.call == REQUEST:
            answer = self.engine.ask(line.call.words)[:3]
        else:
            answer = self.engine.would(line.call)
        if answer is None or line.call.call != ORDER and kept(line.call, answer):
            return None
        return hexed(answer)

    def follow(self, calls, clients):
        """Goes along the calls behind those that were judged before; `clients` are the lines that each sent meanwhile."""
        trails = [Trail(name, lines) for name, lines in enumerate(clients)]
        for trail in trails:
            trail.passed(self)
        for call in calls:
            answer, owner = self.engine.do(call), self.owner(call)
            if not kept(call, answer):
                raise Loss(f"call {len(self.calls)} is stored and should not be: {call}, answered {answer}")
            if not trails[owner].stored(call, answer):
                raise Loss(f"call {len(self.calls)} was not sent by client {owner}, or was told something else, "
                           f"or a line before it is missing: {call}, answered {answer}")
            self.take(call, answer)
            self.answered = len(self.calls) if trails[owner].told_last() else self.answered
            for trail in trails:
                trail.passed(self)
        for trail in trails:
            if not trail.ended():
                raise Loss(f"client {trail.name} was told what the journal does not bear out: line "
                           f"{max(trail.at)} of {trail.answered}: {trail.lines[max(trail.at)]}")

    def judge(self, folder, clients):
        """Judges the files of a site behind a round: the calls of before are there, the new ones are the clients'."""
        calls = folder.calls()
        if calls[:len(self.calls)] != self.calls:
            raise Loss(f"the journal has {len(calls)} calls, and not the {len(self.calls)} that it had before")
        self.follow(calls[len(self.calls):], clients)
        self.from_fresh(folder)

    def from_fresh(self, folder):
        """The engine's list from fresh: the same book, the sums of the answers, the books and orders of the snapshots."""
        engine, remembered = self.fresh()
        self.same_snapshot(folder, Place(0, 0), engine, remembered)
        for record in folder.records():
            answers = engine.do_all(record.calls)
            if crc32c(bytes(array([word for answer in answers for word in answer]))) != record.answers:
                raise Loss(f"record {record.place.seq} has another sum of answers than the engine gives")
            for call, answer in zip(record.calls, answers):
                if call.call == ORDER:
                    remembered.add(call, answer)
            self.same_snapshot(folder, record.after(), engine, remembered)
        if engine.words() != self.engine.words():
            raise Loss("the book of the journal from fresh is not the one that was served")

    @staticmethod
    def same_snapshot(folder, place, engine, remembered):
        snapshot = folder.snapshots.get(place.seq)
        if snapshot is None or isinstance(snapshot, Wrong):
            return
        if snapshot.head.place != place or snapshot.book != engine.words():
            raise Loss(f"snapshot {place.seq} has another book or place than the journal gives")
        if snapshot.orders != remembered.entries():
            raise Loss(f"snapshot {place.seq} has other orders than the journal gives")
