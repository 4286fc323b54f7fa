"""Lines: what each means, and clients' lines at random.

Each client books for visitors and meetings of its own (those whose number leaves the client's when divided by how many
clients there are) and counts its orders in a range of its own, so that a kept call tells which client sent it.
"""

import copy
import random
import string
from typing import NamedTuple, Optional

from reader import COMMIT, ORDER, PARTY, REQUEST, Call

FRAME, ASK, SETTINGS, JUNK = "frame", "ask", "settings", "junk"
MOST_LINE = 1569
NO_FRAME = "000000170000000000000000"
DIGITS = set("0123456789abcdef")

# Dates, sessions and times of a date, visitors, meetings, conference, dining and hotel rooms, transports, early times, seats.
SMALL = (6, 2, 4, 16, 8, 4, 2, 8, 4, 1, 30, 12)
CLIENTS = 4
OWN_ORDERS = 1 << 24


def hexed(words):
    return "".join(f"{word:08x}" for word in words)


def meaning(text):
    """The sort of a line and its call (4.1); text is without its byte 10."""
    if text == "s":
        return SETTINGS, None
    first, digits = (text[:1], text[1:]) if text[:1] in ("a", "c", "p") and len(text) % 8 == 1 else ("", text)
    if len(text) > MOST_LINE or not digits or len(digits) % 8 or not set(digits) <= DIGITS:
        return JUNK, None
    words = tuple(int(digits[at:at + 8], 16) for at in range(0, len(digits), 8))
    if first == "a":
        return (ASK, Call(REQUEST, words)) if len(words) == 7 else (JUNK, None)
    if first == "c":
        return (FRAME, Call(COMMIT, words)) if len(words) == 8 else (JUNK, None)
    if first == "p":
        return (FRAME, Call(PARTY, words)) if len(words) % 3 == 1 else (JUNK, None)
    if len(words) == 7 or len(words) == 8 and words[7] == 0:
        return FRAME, Call(REQUEST, words[:7])
    return (FRAME, Call(ORDER, words)) if len(words) == 8 else (JUNK, None)


def kept(call, answer):
    """Whether a call that got this answer is kept (3.3); of orders, new ones are meant."""
    if call.call in (ORDER, PARTY):
        return call.call == ORDER or answer[0] == 0
    kind = call.words[0] if call.call == REQUEST else call.words[1]
    return answer[0] == 0 and kind <= 16


class Line:
    """A line that a client sent, and what it was told, None if nothing."""

    __slots__ = ("text", "sort", "call", "told")

    def __init__(self, text):
        self.text, self.told = text, None
        self.sort, self.call = meaning(text)

    def is_order(self):
        return self.sort == FRAME and self.call.call == ORDER

    def was_kept(self):
        """Whether the answer says that the call was kept; of orders it does not say it."""
        return (self.told is not None and self.sort == FRAME and self.call.call != ORDER
                and kept(self.call, (int(self.told[:8], 16),)))

    def __repr__(self):
        return f"{self.text[:80]} told {self.told}"


def owner(call):
    """The client that a kept call is of."""
    if call.call == ORDER:
        return call.words[7] // OWN_ORDERS % CLIENTS
    if call.call == PARTY:
        return call.words[0] % CLIENTS
    kind, a, b = call.words[:3] if call.call == REQUEST else call.words[1:4]
    return (a if kind in (8, 9) else b) % CLIENTS


class Request(NamedTuple):
    kind: int
    a: int = 0
    b: int = 0
    first: int = 0
    last: int = 0
    n: int = 0
    info: int = 0


class Traffic:
    """Random lines of one client."""

    def __init__(self, client, seed, settings=SMALL):
        self.client, self.random = client, random.Random(f"{seed} {client}")
        self.limits, self.next_order = settings, OWN_ORDERS * client + 1
        self.count: Optional[int] = None
        self.sent_orders = []

    def copy(self):
        twin = copy.copy(self)
        twin.random, twin.sent_orders = copy.deepcopy(self.random), list(self.sent_orders)
        return twin

    def own(self, limit):
        return self.random.randrange(self.client, limit, CLIENTS)

    def run(self, slots, longest=2):
        first = self.random.randrange(slots)
        return first, min(slots - 1, first + self.random.randrange(longest))

    def request(self):
        """A request that may well be done."""
        dates, sessions, times, visitors, meetings, confs, dinings, hotels, transports = self.limits[:9]
        pick = self.random.randrange
        kind = self.random.choice((1, 1, 1, 2, 3, 4, 4, 4, 5, 6, 6, 6, 7, 8, 8, 8, 9, 10, 10, 10, 11, 12, 12, 12, 13, 14, 14, 15, 16,
                                   17, 18, 19, 20))
        visitor, meeting = self.own(visitors), self.own(meetings)
        on = self.run({6: dates * times, 7: dates * times}.get(kind, dates if kind in (1, 2, 3, 4, 5, 14, 15, 18, 19) else
                                                                dates * sessions), 4 if kind in (1, 8) else 2)
        if kind in (17, 18, 19):
            on = on[0], on[0]
        fields = {1: (0, visitor), 4: (pick(hotels), visitor), 6: (pick(transports), visitor), 8: (meeting, 0),
                  10: (pick(meetings), visitor), 12: (pick(confs), meeting), 13: (0, meeting),
                  14: (pick(dinings), meeting), 17: (0, visitor), 18: (0, 0), 19: (pick(dinings), 0), 20: (0, 0)}
        same = {2: 1, 3: 1, 5: 4, 7: 6, 9: 8, 11: 10, 15: 14, 16: 13}
        a, b = fields[same.get(kind, kind)]
        seats = pick(1, 8) if kind == 14 else 0
        return Request(kind, a, b, *on, seats, pick(1 << 32) if kind in (12, 14) else 0)

    def wild(self):
        """A request that is refused."""
        words = list(self.request())
        words[self.random.choice((0, 1, 2, 4))] = (1 << 32) - 1 - self.random.randrange(9)
        return Request(*words)

    def order(self):
        """A frame with an order: a new one mostly, else one of before, or its number with other words."""
        if self.sent_orders and self.random.random() < 0.3:
            words = self.random.choice(self.sent_orders[-300:])
            return words if self.random.random() < 0.8 else (*self.request(), words[7])
        words = (*(self.request() if self.random.random() < 0.9 else self.wild()), self.next_order)
        self.next_order += 1
        self.sent_orders.append(words)
        return words

    def party(self):
        _, sessions, _, visitors, meetings = self.limits[:5]
        guests = [(self.random.randrange(visitors), *self.run(self.limits[0] * sessions))
                  for _ in range(self.random.choice((0, 1, 1, 1, 2, 2, 3, 5, 64, 65)))]
        return "p" + hexed([self.own(meetings), *(word for guest in guests for word in guest)])

    def junk(self):
        some = "".join(self.random.choices(string.printable.replace("\n", ""), k=self.random.randrange(90)))
        return self.random.choice((some, "", "0" * 57, "0" * 63, "a", "c" + "0" * 56, "p", "p" + "0" * 16, "S", "! full",
                                   "A" * 56, "f" * 1569, "f" * 3000))

    def text(self):
        """The next line."""
        turn = self.random.random()
        if turn < 0.42:
            return hexed(self.order())
        if turn < 0.70:
            return hexed(self.request()) + self.random.choice(("", "", "00000000"))
        if turn < 0.74:
            return hexed(self.wild())
        if turn < 0.82:
            return "a" + hexed(self.request())
        if turn < 0.90:
            count = (self.count or 0) + self.random.choice((0, 0, 0, 1, 2))
            return f"c{count:08x}" + hexed(self.request())
        if turn < 0.96:
            return self.party()
        return "s" if turn < 0.97 else self.junk()

    def line(self):
        return Line(self.text())
