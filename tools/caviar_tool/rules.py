"""The tables of docs/RULES.md: the limits of a site, the kinds of requests and the questions."""

from typing import NamedTuple, Optional

WORD_LIMIT = 2 ** 32

# The program keeps a book of at most so many words.
MOST_WORDS = 16_384

# A party has at most so many guests.
MOST_GUESTS = 64

# A book keeps so many orders, in so many words; behind them is one more, the change count.
KEPT_ORDERS = 64
RING_WORDS = 705
MOST_CHANGES = WORD_LIMIT - 1

# The ends of a tariff, in cents and percent.
MOST_RATE = 1_000_000
MOST_PERCENT = 100

# The one word of a request that may be left out.
INFO = "info"

# The limits in the order of the settings, each from 1 to its greatest.
LIMITS = {
    "dates": 400,
    "sessions": 16,
    "times": 96,
    "visitors": 512,
    "meetings": 128,
    "rooms": 64,
    "dining": 16,
    "hotels": 512,
    "transports": 128,
}
GREATEST_CAPACITY = 1000

# The number between limits and capacities: how many of the first times of a date belong to the date before. A typed
# site may leave it out.
EARLY = "early"


class Problem(Exception):
    """Something that the tool does not understand; the message says what."""


class Thing(NamedTuple):
    """What the number in a or b names: the word that is typed, the noun in a sentence, the limit in the settings."""

    word: str
    noun: str
    limit: str


VISITOR = Thing("visitor", "visitor", "visitors")
MEETING = Thing("meeting", "meeting", "meetings")
CONFERENCE_ROOM = Thing("room", "conference room", "rooms")
DINING_ROOM = Thing("dining", "dining room", "dining")
HOTEL_ROOM = Thing("room", "hotel room", "hotels")
TRANSPORT = Thing("transport", "transport", "transports")


class Kind(NamedTuple):
    """One line of the table of kinds. Every kind uses first and last."""

    number: int
    name: str
    does: str
    a: Optional[Thing]
    b: Optional[Thing]
    unit: str
    seats: bool = False
    info: bool = False
    one: bool = False

    def fields(self):
        """The words that a typed request of this kind takes, in their order, each with the fields that it fills."""
        taken = {thing.word: (field,) for field, thing in (("a", self.a), ("b", self.b)) if thing}
        taken[self.unit if self.one else self.unit + "s"] = ("first", "last")
        taken.update({"seats": ("n",)} if self.seats else {})
        taken.update({INFO: (INFO,)} if self.info else {})
        return taken

    def uses(self):
        """The words alone."""
        return list(self.fields())

    def lacks(self, given):
        """What a request with these fields leaves out and must say, by its word, or by its field if half is there."""
        missing = []
        for word, fields in self.fields().items():
            absent = [field for field in fields if field not in given and word != INFO]
            missing += [word] if len(absent) == len(fields) else absent
        return missing


KINDS = [
    Kind(1, "add-leave", "give the visitor leave", None, VISITOR, "date"),
    Kind(2, "end-leave", "end the visitor's leave", None, VISITOR, "date"),
    Kind(3, "remove-visitor", "end the visitor's leave, and erase all bookings of theirs on those dates",
         None, VISITOR, "date"),
    Kind(4, "add-hotel", "book the hotel room for the visitor", HOTEL_ROOM, VISITOR, "date"),
    Kind(5, "erase-hotel", "erase that booking", HOTEL_ROOM, VISITOR, "date"),
    Kind(6, "add-ride", "book the transport for the visitor", TRANSPORT, VISITOR, "time"),
    Kind(7, "erase-ride", "erase that booking", TRANSPORT, VISITOR, "time"),
    Kind(8, "add-standing", "let the meeting stand", MEETING, None, "session"),
    Kind(9, "end-standing", "let the meeting stand no longer; nobody attends it then", MEETING, None, "session"),
    Kind(10, "add-attend", "let the visitor attend the meeting", MEETING, VISITOR, "session"),
    Kind(11, "erase-attend", "erase that attendance", MEETING, VISITOR, "session"),
    Kind(12, "add-conf", "give the meeting the conference room", CONFERENCE_ROOM, MEETING, "session", info=True),
    Kind(13, "erase-conf", "take back the meeting's conference rooms", None, MEETING, "session"),
    Kind(14, "add-lunch", "reserve seats in the dining room for the meeting", DINING_ROOM, MEETING, "date",
         seats=True, info=True),
    Kind(15, "erase-lunch", "erase that lunch", DINING_ROOM, MEETING, "date"),
    Kind(16, "erase-conf-and-lunch", "take back its conference rooms, and its lunches on the dates of the sessions",
         None, MEETING, "session"),
    Kind(17, "which-meeting", "which meeting the visitor attends", None, VISITOR, "session", one=True),
    Kind(18, "count-leave", "how many visitors have leave", None, None, "date", one=True),
    Kind(19, "seats-left", "how many seats of the dining room are left", DINING_ROOM, None, "date", one=True),
    Kind(20, "free-room", "the lowest conference room that is free throughout", None, None, "session"),
]
BY_NUMBER = {kind.number: kind for kind in KINDS}
BY_NAME = {kind.name: kind for kind in KINDS}

# The questions of section 5, as what must be so, with the kinds that they are asked of; none where a line, a book,
# settings, a page, a party, an order, a commit or a charge are asked about.
EVERY = tuple(BY_NUMBER)
QUESTIONS = {
    1: ("the words must be as many as their settings ask for, and these settings in range", ()),
    2: ("every cell and every kept order must be well formed and every law kept", ()),
    3: ("a kind is a number from 1 to 20", ()),
    4: ("fields that the kind has no use for must be 0", EVERY),
    5: ("a must be something that the site has", (4, 5, 6, 7, 8, 9, 10, 11, 12, 14, 15, 19)),
    6: ("b must be something that the site has", (1, 2, 3, 4, 5, 6, 7, 10, 11, 12, 13, 14, 15, 16, 17)),
    7: ("the slots must run forward and end inside the site; kinds 17, 18 and 19 take one", EVERY),
    8: ("a lunch must have a seat, and no more of them than its dining room", (14,)),
    9: ("the visitor must have leave on the date of every slot", (4, 6, 10)),
    10: ("the meeting must stand in every slot; for a lunch, in one session of every date", (10, 12, 14)),
    11: ("the booking must not be there yet, in any slot", (4, 6, 10, 12, 14)),
    12: ("the room or transport must not be in use, in any slot", (4, 6, 12)),
    13: ("the visitor or meeting must have no other booking of this sort, in any slot", (4, 6, 10, 14)),
    14: ("the seats must fit beside those of other lunches, on every date", (14,)),
    15: ("the booking must be there, in every slot", (5, 7, 11, 15)),
    16: ("the meeting must hold a conference room, in every slot", (13, 16)),
    17: ("the meeting must have a lunch, on every date of the run", (16,)),
    18: ("the visitor must have no bookings left, on any of the dates", (2,)),
    19: ("the meeting must hold no conference room in the slot and have no lunch that day, for every slot", (9,)),
    20: ("the meeting whose standing ends must stand, in every slot", (9,)),
    21: ("the visitor must attend some meeting in that session", (17,)),
    22: ("some conference room must be free in all the slots", (20,)),
    23: ("a line must be a frame: 56 or 64 digits of lower-case hexadecimal", ()),
    24: ("settings must be complete and in range", ()),
    25: ("the book must have the length that its settings ask for; in the program, at most 16,384 words", ()),
    26: ("the page must have room for its lines, 31 bytes each", ()),
    27: ("a party must have a guest, and no more than 64 of them", ()),
    28: ("an order that is kept must come with the request that it is kept with", ()),
    29: ("the count of a commit must be the change count of the book", ()),
    30: ("a change must be counted: the change count must not be 4,294,967,295 before it", tuple(range(1, 17))),
    31: ("the rates of a tariff must be at most 1,000,000 cents, and its percentage at most 100", ()),
}


def has_place(number):
    """Is a place told with this number? Else it is 0."""
    return 9 <= number <= 21


class Settings(NamedTuple):
    """The limits in the order of rule 1.1, the number of early times, and the seat capacities."""

    limits: tuple
    early: int
    capacities: tuple

    def limit(self, name):
        return self.limits[list(LIMITS).index(name)]

    def slots(self, unit):
        """How many slots of the unit the site has."""
        return self.limit("dates") * self.per_date(unit)

    def per_date(self, unit):
        return 1 if unit == "date" else self.limit(unit + "s")

    def date_of(self, unit, slot):
        """The date of a slot (rule 2.2). Early times go to the date before; those of date 0 have none before it."""
        early = self.early if unit == "time" else 0
        return max(slot - early, 0) // self.per_date(unit)

    def words(self):
        return self.limits + (self.early,) + self.capacities

    def book_length(self):
        """How many words the book of this site has, region by region, the ring of orders and the change count."""
        dates, _, _, visitors, meetings, rooms, _, hotels, transports = self.limits
        sessions, times = self.slots("session"), self.slots("time")
        of_dates = dates * (-(-visitors // 32) + hotels + 3 * meetings)
        of_sessions = sessions * (-(-meetings // 32) + visitors + 2 * rooms)
        return len(self.words()) + of_dates + of_sessions + times * transports + RING_WORDS + 1


def settings_of(words):
    """The settings of these words, or a Problem that says what is wrong with them."""
    head = len(LIMITS) + 1
    if len(words) < head:
        raise Problem(f"there are {len(words)} numbers, and settings have {head} before the capacities")
    *limits, early = words[:head]
    capacities = tuple(words[head:])
    for (name, greatest), word in zip(LIMITS.items(), limits):
        if not 1 <= word <= greatest:
            raise Problem(f"{name} {word} is not from 1 to {greatest}")
    if early >= limits[2]:
        raise Problem(f"{EARLY} {early} is not from 0 to {limits[2] - 1}, one less than the times of a date")
    if len(capacities) != limits[6]:
        raise Problem(f"dining {limits[6]} wants as many capacities, and there are {len(capacities)}")
    for capacity in capacities:
        if not 1 <= capacity <= GREATEST_CAPACITY:
            raise Problem(f"capacity {capacity} is not from 1 to {GREATEST_CAPACITY}")
    return Settings(tuple(limits), early, capacities)


class Request(NamedTuple):
    """The seven words of a request."""

    kind: int
    a: int = 0
    b: int = 0
    first: int = 0
    last: int = 0
    n: int = 0
    info: int = 0


class Order(NamedTuple):
    """A request with the number of an order; 0 is the number of none."""

    order: int
    request: Request

    def words(self):
        return self.request + (self.order,)


class Ask(NamedTuple):
    """What a request would be answered, and the change count."""

    request: Request


class Commit(NamedTuple):
    """A request at a change count that was told."""

    count: int
    request: Request


class Charge(NamedTuple):
    """What a meeting costs over some dates, by the rates for a room in a session and for a seat, and a percentage."""

    meeting: int
    first: int
    last: int
    room: int
    seat: int
    percent: int


class Guest(NamedTuple):
    """A guest of a party."""

    visitor: int
    first: int
    last: int


class Party(NamedTuple):
    """Guests for one meeting, who are all added, or none."""

    meeting: int
    guests: tuple

    def requests(self):
        """The requests that add the guests one by one."""
        return [Request(BY_NAME["add-attend"].number, self.meeting, *guest) for guest in self.guests]


class Raw(NamedTuple):
    """A line that is taken as it stands."""

    text: str
