"""The words that a person types: settings and requests to their words, and back.

    settings dates 2 sessions 2 times 2 visitors 3 meetings 2 rooms 2 dining 1 hotels 2 transports 1 capacities 4
    settings .. transports 1 early 1 capacities 4     # the first time of a date belongs to the date before
    add-hotel room 0 visitor 1 dates 0..1      # a kind by name or number, then its fields in any order
    4 room 0 visitor 1 date 0                  # one slot
    add-leave b 1 first 0 last 1               # the request's own field names do as well
    order 17 add-hotel room 0 visitor 1 date 0 # a request with the number of an order
    party meeting 0 visitor 1 sessions 0..1, visitor 2 session 1     # all of these guests or none
    ask add-hotel room 0 visitor 1 date 0      # what it would be answered, and the change count
    commit 12 add-hotel room 0 visitor 1 date 0      # if the change count is still 12
    charge meeting 0 dates 0..2 room 12000 seat 850 percent 10      # what it costs; rates in cents

Every word that the kind takes must be there; only `info`, `early` of settings and `percent` of a charge may be left
out, and are then 0.
Settings come first. `raw TEXT` stands for the line TEXT as it is. Numbers are in base ten, or with 0x in base sixteen.
A party begins with its meeting. Parties, asks, commits and charges are for the commands of these names and for `caviar
page`, since the program has no lines for them.
The words are written as they are typed: whether a request is accepted is for the program to say.
"""

import difflib
import re

from .lines import text_lines
from .rules import (BY_NAME, BY_NUMBER, EARLY, LIMITS, WORD_LIMIT, Ask, Charge, Commit, Guest, Order, Party, Problem,
                    Raw, Request, Settings, settings_of)

FIELDS = ("a", "b", "first", "last", "n", "info")
RUN = ("first", "last")
AN_ORDER = "order 17 add-leave visitor 1 dates 0..1"
A_PARTY = "party meeting 0 visitor 1 sessions 0..1, visitor 2 session 1"
AN_ASK = "ask add-leave visitor 1 dates 0..1"
A_COMMIT = "commit 12 add-leave visitor 1 dates 0..1"
# What begins a line that is no request, and what the program has no line for.
HEADS = ("settings", "order", "party", "ask", "commit", "charge", "raw")
WITHOUT_LINE = {"party": "a party", "ask": "asking", "commit": "a commit", "charge": "a charge"}
CHARGE_WORDS = {"meeting": ("meeting",), "dates": RUN, "date": RUN, "first": ("first",), "last": ("last",),
                "room": ("room",), "seat": ("seat",), "percent": ("percent",)}
GUEST_WORDS = {"visitor": ("visitor",), "session": RUN, "sessions": RUN, "first": ("first",), "last": ("last",)}
UNITS = {"date": "date", "dates": "date", "session": "session", "sessions": "session", "time": "time", "times": "time"}
RAW = re.compile(r"\s*raw(?:\s(.*))?", re.DOTALL | re.IGNORECASE)


def number(text):
    """A 32-bit word, in base ten or with 0x in base sixteen."""
    if not re.fullmatch(r"[0-9]+|0x[0-9a-f]+", text, re.ASCII):
        raise Problem(f"'{text}' is not a number")
    value = int(text, 16 if text.startswith("0x") else 10)
    if value >= WORD_LIMIT:
        raise Problem(f"{text} does not fit in 32 bits")
    return value


def slots(text):
    """The first and the last slot of `3` or `0..1`."""
    ends = text.split("..")
    if len(ends) > 2 or "" in ends:
        raise Problem(f"'{text}' is neither a slot nor a run of slots first..last")
    return number(ends[0]), number(ends[-1])


def kind_of(text):
    """The number of a kind given by name or number."""
    if text in BY_NAME:
        return BY_NAME[text].number
    if re.fullmatch(r"[0-9]+|0x[0-9a-f]+", text, re.ASCII):
        return number(text)
    near = difflib.get_close_matches(text, list(BY_NAME) + list(HEADS), 1)
    hint = f"did you mean {near[0]}?" if near else "`caviar kinds` lists the kinds"
    raise Problem(f"there is no kind '{text}'; {hint}")


def called(kind_number):
    """The kind's name, or its number."""
    kind = BY_NUMBER.get(kind_number)
    return kind.name if kind else f"kind {kind_number}"


def fields_named(kind_number, word):
    """The request's fields that a word of this kind names."""
    kind = BY_NUMBER.get(kind_number)
    if word in FIELDS:
        return (word,)
    if word in UNITS:
        if kind and UNITS[word] != kind.unit:
            raise Problem(f"{kind.name} takes {kind.unit}s, not {UNITS[word]}s")
        if kind:
            return RUN
    names = kind.fields() if kind else {}
    if word not in names:
        takes = ", ".join(kind.uses()) if kind else ", ".join(FIELDS)
        raise Problem(f"{called(kind_number)} takes no '{word}'; it takes {takes}")
    return names[word]


def pairs(words):
    """The words two by two: a name and what comes after it."""
    if len(words) % 2:
        raise Problem(f"nothing comes after '{words[-1]}'")
    return zip(words[::2], words[1::2])


def fill(given, word, fields, text):
    """Puts what comes after a word into the fields that it names, each of them once."""
    values = slots(text) if len(fields) == 2 else (number(text),)
    for field, value in zip(fields, values):
        if field in given:
            raise Problem(f"'{word}' says again what was said before")
        given[field] = value


def parse_request(head, words):
    kind_number = kind_of(head)
    given = {}
    for word, text in pairs(words):
        fill(given, word, fields_named(kind_number, word), text)
    missing = BY_NUMBER[kind_number].lacks(given) if kind_number in BY_NUMBER else []
    if missing:
        raise Problem(f"{called(kind_number)} lacks {', '.join(missing)}")
    return Request(kind_number, **given)


def parse_order(words):
    """An order: its number, then its request."""
    if len(words) < 2:
        raise Problem(f"an order has a number and a request, as in: {AN_ORDER}")
    return Order(number(words[0]), parse_carried(words[1:], "an order carries a request"))


def parse_carried(words, why):
    """The request in a call that has one."""
    if words[0] in HEADS:
        raise Problem(f"there is no kind '{words[0]}'; {why}")
    return parse_request(words[0], words[1:])


def parse_ask(words):
    """Asking: the request that it is about."""
    if not words:
        raise Problem(f"asking is about a request, as in: {AN_ASK}")
    return Ask(parse_carried(words, "asking is about a request"))


def parse_commit(words):
    """A commit: the count, then its request."""
    if len(words) < 2:
        raise Problem(f"a commit has a count and a request, as in: {A_COMMIT}")
    return Commit(number(words[0]), parse_carried(words[1:], "a commit carries a request"))


def parse_guest(words):
    given = {}
    for word, text in pairs(words):
        if word not in GUEST_WORDS:
            raise Problem(f"a guest takes no '{word}'; it takes visitor, sessions")
        fill(given, word, GUEST_WORDS[word], text)
    missing = ["visitor"] * ("visitor" not in given)
    missing += [field for field in RUN if field not in given] if set(RUN) & set(given) else ["sessions"]
    if missing:
        raise Problem(f"a guest lacks {', '.join(missing)}")
    return Guest(**given)


def parse_party(words):
    """A party: its meeting, then its guests with a comma between two; there may be none."""
    if len(words) < 2 or words[0] != "meeting":
        raise Problem(f"a party begins with its meeting, as in: {A_PARTY}")
    meeting, *rest = " ".join(words[1:]).split(",")
    meeting, *first = meeting.split() or [""]
    guests = [first] * bool(first) + [guest.split() for guest in rest]
    if [] in guests:
        raise Problem("a comma stands between two guests")
    return Party(number(meeting), tuple(map(parse_guest, guests)))


def parse_charge(words):
    """A charge: its meeting, its dates and its tariff, in any order."""
    given = {}
    for word, text in pairs(words):
        if word not in CHARGE_WORDS:
            raise Problem(f"a charge takes no '{word}'; it takes meeting, dates, room, seat, percent")
        fill(given, word, CHARGE_WORDS[word], text)
    missing = ["meeting"] * ("meeting" not in given)
    missing += [field for field in RUN if field not in given] if set(RUN) & set(given) else ["dates"]
    missing += [word for word in ("room", "seat") if word not in given]
    if missing:
        raise Problem(f"a charge lacks {', '.join(missing)}")
    return Charge(**{"percent": 0, **given})


def parse_settings(words):
    given = {}
    at = words.index("capacities") if "capacities" in words else len(words)
    for word, text in pairs(words[:at]):
        if word not in (*LIMITS, EARLY):
            raise Problem(f"settings take no '{word}'; they take {', '.join(LIMITS)}, {EARLY}, capacities")
        if word in given:
            raise Problem(f"'{word}' says again what was said before")
        given[word] = number(text)
    missing = [name for name in LIMITS if name not in given] + ["capacities"] * (at == len(words))
    if missing:
        raise Problem(f"settings lack {', '.join(missing)}")
    head = [given[name] for name in LIMITS] + [given.get(EARLY, 0)]
    return settings_of(head + [number(text) for text in words[at + 1:]])


WITHOUT_LINE_PARSERS = {"party": parse_party, "ask": parse_ask, "commit": parse_commit, "charge": parse_charge}


def parse_line(line, first, calls=False):
    """What a typed line holds, or None for a blank line or a comment. Settings are for the first one; calls that the
    program has no line for are taken where they may be."""
    raw = RAW.fullmatch(line)
    if raw:
        return Raw(raw.group(1) or "")
    words = line.partition("#")[0].lower().split()
    if not words:
        return None
    if words[0] in WITHOUT_LINE:
        if not calls:
            what = WITHOUT_LINE[words[0]]
            raise Problem(f"the program has no line for {what}; `caviar page` and `caviar {words[0]}` take it")
        return WITHOUT_LINE_PARSERS[words[0]](words[1:])
    if words[0] == "order":
        return parse_order(words[1:])
    if words[0] != "settings":
        return parse_request(words[0], words[1:])
    if not first:
        raise Problem("settings come first, before every request")
    return parse_settings(words[1:])


def parse_text(text, calls=False):
    """What a typed text holds, with calls that the program has no line for where they are taken; a Problem names the
    line."""
    entries = []
    for at, line in enumerate(text_lines(text), 1):
        try:
            entry = parse_line(line, not entries, calls)
        except Problem as problem:
            raise Problem(f"line {at}: {problem}") from None
        if entry is not None:
            entries.append(entry)
    return entries


def is_typed(text):
    """Is this a typed text, and not lines of the program? Its first words tell."""
    for line in text_lines(text):
        words = line.partition("#")[0].lower().split()
        if words:
            by_number = re.fullmatch(r"[0-9]{1,10}", words[0], re.ASCII) and words[1:2] and words[1].isalpha()
            return bool(words[0] in BY_NAME or words[0] in HEADS or by_number)
    return True


def typed_slots(unit, first, last):
    return f" {unit} {first}" if first == last else f" {unit}s {first}..{last}"


def typed_request(request):
    """The request as it would be typed: its kind's words, and by the request's names whatever else is not 0."""
    kind = BY_NUMBER.get(request.kind)
    rest = request._asdict()
    text = kind.name if kind else str(request.kind)
    del rest["kind"]
    if kind:
        for field, thing in (("a", kind.a), ("b", kind.b)):
            text += f" {thing.word} {rest.pop(field)}" if thing else ""
        text += typed_slots(kind.unit, rest.pop("first"), rest.pop("last"))
        text += f" seats {rest.pop('n')}" if kind.seats else ""
    return text + "".join(f" {field} {value}" for field, value in rest.items() if value)


def typed_party(party):
    guests = [f" visitor {guest.visitor}{typed_slots('session', guest.first, guest.last)}" for guest in party.guests]
    return f"party meeting {party.meeting}{','.join(guests)}"


def typed(entry):
    """An entry as it would be typed."""
    if isinstance(entry, Raw):
        return f"raw {entry.text}" if entry.text else "raw"
    if isinstance(entry, Settings):
        limits = " ".join(f"{name} {limit}" for name, limit in zip(LIMITS, entry.limits))
        early = f" {EARLY} {entry.early}" if entry.early else ""
        return f"settings {limits}{early} capacities {' '.join(map(str, entry.capacities))}"
    if isinstance(entry, Order):
        return f"order {entry.order} {typed_request(entry.request)}"
    if isinstance(entry, Ask):
        return f"ask {typed_request(entry.request)}"
    if isinstance(entry, Commit):
        return f"commit {entry.count} {typed_request(entry.request)}"
    if isinstance(entry, Charge):
        of = f"charge meeting {entry.meeting}{typed_slots('date', entry.first, entry.last)}"
        percent = f" percent {entry.percent}" if entry.percent else ""
        return f"{of} room {entry.room} seat {entry.seat}{percent}"
    return typed_party(entry) if isinstance(entry, Party) else typed_request(entry)
