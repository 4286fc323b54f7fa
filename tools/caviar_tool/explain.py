"""Answers in sentences."""

from .lines import printable, settings_in
from .rules import (BY_NUMBER, KEPT_ORDERS, MEETING, MOST_CHANGES, MOST_GUESTS, MOST_PERCENT, MOST_RATE, MOST_WORDS,
                    QUESTIONS, Ask, Charge, Commit, Order, Party, Problem, Raw, Settings, has_place)
from .typed import typed

WIDEST_ECHO = 100
BEFORE = {"date": "on", "session": "in", "time": "at"}
CANNOT_RISE = f"the change count is {MOST_CHANGES} and cannot rise"


def run_of(unit, first, last):
    """`date 3` or `dates 3 to 5`."""
    return f"{unit} {first}" if first == last else f"{unit}s {first} to {last}"


class Scene:
    """A request in its site: the nouns and slots that a sentence about it needs."""

    def __init__(self, settings, request):
        self.settings = settings
        self.request = request
        self.kind = BY_NUMBER[request.kind]
        self.a = self.thing(self.kind.a, request.a)
        self.b = self.thing(self.kind.b, request.b)
        self.when = self.slots(request.first, request.last)

    @staticmethod
    def thing(thing, value):
        return f"{thing.noun} {value}" if thing else ""

    def slots(self, first, last):
        """`on date 0`, `in sessions 1 to 2 (dates 0 to 1)`."""
        return f"{BEFORE[self.kind.unit]} {run_of(self.kind.unit, first, last)}{self.dates(first, last)}"

    def dates(self, first, last):
        """The dates of slots that are no dates, in brackets."""
        if self.kind.unit == "date":
            return ""
        date_of = self.settings.date_of
        return f" ({run_of('date', date_of(self.kind.unit, first), date_of(self.kind.unit, last))})"

    def date_run(self):
        """`on dates 0 to 1`: the dates of the request's slots."""
        date_of = self.settings.date_of
        ends = (date_of(self.kind.unit, slot) for slot in (self.request.first, self.request.last))
        return f"on {run_of('date', *ends)}"

    def throughout(self):
        """`in session 2 (date 1)`, `throughout sessions 2 to 3 (date 1)`."""
        return self.when if self.request.first == self.request.last else self.when.replace("in", "throughout", 1)

    def leave_date(self, slot):
        """`on date 0`, `on date 0 (session 1)`: where a visitor lacks leave."""
        unit = self.kind.unit
        of = "" if unit == "date" else f" ({unit} {slot})"
        return f"on date {self.settings.date_of(unit, slot)}{of}"

    def info(self):
        return f", with information {self.request.info}" if self.request.info else ""


DONE = {
    1: "{x.b} has leave {x.when}",
    2: "{x.b} has no leave {x.when}",
    3: "{x.b} has neither leave nor bookings {x.when}; hotel, ride and attend entries erased: {value}",
    4: "{x.b} has {x.a} {x.when}",
    5: "{x.b} no longer has {x.a} {x.when}",
    6: "{x.b} has {x.a} {x.when}",
    7: "{x.b} no longer has {x.a} {x.when}",
    8: "{x.a} stands {x.when}",
    9: "{x.a} no longer stands {x.when}, and nobody attends it there",
    10: "{x.b} attends {x.a} {x.when}",
    11: "{x.b} no longer attends {x.a} {x.when}",
    12: "{x.b} has {x.a} {x.when}{info}",
    13: "{x.b} has no conference room {x.when}",
    14: "{x.b} has lunch for {x.request.n} in {x.a} {x.when}{info}",
    15: "{x.b} no longer has lunch in {x.a} {x.when}",
    16: "{x.b} has no conference room {x.when} and no lunch {dates}",
    17: "{x.b} attends meeting {value} {x.when}",
    18: "visitors with leave {x.when}: {value}",
    19: "seats left in {x.a} {x.when}: {value}",
    20: "conference room {value} is the lowest one that is free {throughout}",
}

# What 11 finds there, what 13 finds, and what 15 does not find.
HAS = {
    4: "{x.b} has {x.a} already",
    6: "{x.b} has {x.a} already",
    10: "{x.b} attends {x.a} already",
    12: "{x.b} has {x.a} already",
    14: "{x.b} has its lunch in {x.a} already",
}
HAS_OTHER = {
    4: "{x.b} has another hotel room",
    6: "{x.b} has another transport",
    10: "{x.b} attends another meeting",
    14: "{x.b} has its lunch in another dining room",
}
HAS_NOT = {
    5: "{x.b} does not have {x.a}",
    7: "{x.b} does not have {x.a}",
    11: "{x.b} does not attend {x.a}",
    15: "{x.b} does not have its lunch in {x.a}",
}


def said_done(scene, value):
    more = {"info": scene.info(), "dates": scene.date_run(), "throughout": scene.throughout()}
    return DONE[scene.kind.number].format(x=scene, value=value, **more)


def form(scene):
    """The questions 4 to 8 need nothing but settings and words: the first one answered no and why, or 0."""
    r, kind, settings = scene.request, scene.kind, scene.settings
    fields = {"a": kind.a, "b": kind.b, "n": kind.seats, "info": kind.info}
    extra = [f"{field} {getattr(r, field)}" for field, used in fields.items() if not used and getattr(r, field)]
    if extra:
        return 4, f"{kind.name} does not use {' and '.join(extra)}"
    for number, thing, noun, value in ((5, kind.a, scene.a, r.a), (6, kind.b, scene.b, r.b)):
        if thing and value >= settings.limit(thing.limit):
            return number, f"there is no {noun}; the {thing.noun}s here are 0 to {settings.limit(thing.limit) - 1}"
    if r.first > r.last:
        return 7, f"{kind.unit} {r.first} comes after {kind.unit} {r.last}"
    if r.last >= settings.slots(kind.unit):
        return 7, f"there is no {kind.unit} {r.last}; the {kind.unit}s here are 0 to {settings.slots(kind.unit) - 1}"
    if kind.one and r.first != r.last:
        return 7, f"{kind.name} asks about one {kind.unit}, not about {run_of(kind.unit, r.first, r.last)}"
    if kind.seats and not 1 <= r.n <= settings.capacities[r.a]:
        return 8, f"{r.n} seats are not from 1 to {settings.capacities[r.a]}, the capacity of {scene.a}"
    return 0, ""


def said_no(scene, number, place):
    """Why a request of good form was refused: questions 9 to 22, at their place, and 30."""
    kind = scene.kind.number
    there = f"on date {place}" if number == 17 else scene.slots(place, place)
    meeting = scene.b if kind == 12 else scene.a
    said = {
        9: f"{scene.b} has no leave {scene.leave_date(place)}",
        10: f"{scene.b} stands in no session of date {place}" if kind == 14 else f"{meeting} does not stand {there}",
        11: f"{HAS.get(kind)} {there}",
        12: f"{scene.a} is taken by another {'meeting' if kind == 12 else 'visitor'} {there}",
        13: f"{HAS_OTHER.get(kind)} {there}",
        14: f"{scene.request.n} more seats do not fit in {scene.a} {there}",
        15: f"{HAS_NOT.get(kind)} {there}",
        16: f"{scene.b} has no conference room {there}",
        17: f"{scene.b} has no lunch {there}",
        18: f"{scene.b} has a hotel, ride or attend entry {there}",
        19: f"{scene.a} has a conference room {there} or a lunch on that date",
        20: f"{scene.a} does not stand {there}, so that there is nothing to end",
        21: f"{scene.b} attends no meeting {there}",
        22: f"no conference room is free {scene.throughout()}",
        30: CANNOT_RISE,
    }
    return said[number].format(x=scene)


def fitting(scene, number, place, value):
    """Can the answer be one to this request of good form? Else the answers are those of other requests."""
    kind, r = scene.kind, scene.request
    if number and (number <= 8 or kind.number not in QUESTIONS[number][1]):
        raise Problem(f"{kind.name} with these words is not refused by {number}")
    ends = (r.first, r.last)
    if number == 17:
        ends = tuple(scene.settings.date_of(kind.unit, slot) for slot in ends)
    if has_place(number) and not ends[0] <= place <= ends[1]:
        raise Problem(f"place {place} is not a slot of this {kind.name}")
    if value and kind.number not in (3, 17, 18, 19, 20):
        raise Problem(f"{kind.name} has value 0")


def reason(settings, entry, number, place, value):
    """The answer to a request, in the words of its site."""
    if isinstance(entry, Raw):
        length = len(entry.text)
        expected, said = 23, f"the line is not 56 or 64 digits of lower-case hexadecimal; it has {length} characters"
    elif entry.kind not in BY_NUMBER:
        expected, said = 3, f"there is no kind {entry.kind}"
    else:
        scene = Scene(settings, entry)
        expected, said = form(scene)
    if not expected:
        fitting(scene, number, place, value)
        return said_no(scene, number, place) if number else said_done(scene, value)
    if number != expected:
        raise Problem(f"this line is refused by {expected}")
    return said


def checked(answer):
    """The three words of an answer, if the program can write them."""
    number, place, value = answer
    if number and number not in QUESTIONS:
        raise Problem(f"there is no question {number}")
    if number and value:
        raise Problem("a refusal has value 0")
    if place and not has_place(number):
        raise Problem("this answer has place 0" if number else "a done answer has place 0")
    return answer


def question(number):
    return f"[rule 5.{number}: {QUESTIONS[number][0]}]"


def sentence_alone(answer):
    """What an answer says without its request."""
    number, place, value = checked(answer)
    if not number:
        return f"Done, value {value}."
    where = f" at {'date' if number in (17, 18) else 'slot'} {place}" if has_place(number) else ""
    return f"Refused by {number}{where}. {question(number)}"


def sentence_of_party(settings, party, answer):
    """What an answer says to a party; behind its three words is the guest whom it is for."""
    number, place, value = checked(answer[:3])
    guests, at = len(party.guests), answer[3]
    if not number:
        who = {1: "the one guest attends", 2: "both guests attend"}.get(guests, f"all {guests} guests attend")
        return f"Done: {who} meeting {party.meeting}."
    if number == 27:
        return f"Refused by 27: {guests} guests are not from 1 to {MOST_GUESTS}. {question(27)}"
    if number == 30:
        return f"Refused by 30: {CANNOT_RISE}; nobody was added. {question(30)}"
    said = reason(settings, party.requests()[at - 1], number, place, value)
    return f"Refused by {number} at guest {at} of {guests}: {said}; nobody was added. {question(number)}"


def sentence_of_ask(settings, ask, answer):
    """What asking tells: what would be done, or why not, and behind the answer's three words the change count."""
    number, place, value = checked(answer[:3])
    said = reason(settings, ask.request, number, place, value)
    if not number:
        return f"Would be done at count {answer[3]}: {said}."
    return f"Would be refused by {number} at count {answer[3]}: {said}. {question(number)}"


def sentence_of_commit(settings, commit, answer):
    """What an answer says to a commit; behind its three words is the change count of the book."""
    if answer[0] != 29:
        return sentence(settings, commit.request, answer[:3])
    return f"Refused by 29: the change count is {answer[3]} by now, not {commit.count}. {question(29)}"


def money(cents):
    """`1,234.50`: cents as hundreds of them, with commas."""
    return f"{cents // 100:,}.{cents % 100:02}"


def fault_of_charge(settings, charge):
    """The number that refuses a charge on a good book, and why; 0 for none."""
    dates = settings.limit("dates")
    if charge.meeting >= settings.limit(MEETING.limit):
        return 6, f"there is no meeting {charge.meeting}; the meetings here are 0 to {settings.limit('meetings') - 1}"
    if charge.first > charge.last:
        return 7, f"date {charge.first} comes after date {charge.last}"
    if charge.last >= dates:
        return 7, f"there is no date {charge.last}; the dates here are 0 to {dates - 1}"
    for what, cents in (("room", charge.room), ("seat", charge.seat)):
        if cents > MOST_RATE:
            return 31, f"{cents} cents for a {what} are over {MOST_RATE:,}"
    if charge.percent > MOST_PERCENT:
        return 31, f"{charge.percent} percent are over {MOST_PERCENT}"
    return 0, ""


def sentence_of_charge(settings, charge, answer):
    """What an answer says to a charge: the cents, as money too."""
    number, _, cents = answer
    expected, why = fault_of_charge(settings, charge)
    if number != expected:
        raise Problem(f"this charge is refused by {expected}" if expected else "this charge is done")
    if number:
        return f"Refused by {number}: {why}. {question(number)}"
    return f"Done: meeting {charge.meeting} costs {money(cents)} ({cents} cents) on {run_of('date', *charge[1:3])}."


OF_CALLS = {Party: sentence_of_party, Ask: sentence_of_ask, Commit: sentence_of_commit, Charge: sentence_of_charge}


def sentence(settings, entry, answer):
    """What an answer says to its request, or to a call of another sort."""
    if type(entry) in OF_CALLS:
        return OF_CALLS[type(entry)](settings, entry, answer)
    number, place, value = checked(answer)
    said = reason(settings, entry, number, place, value)
    if not number:
        return f"Done: {said}."
    return f"Refused by {number}: {said}. {question(number)}"


class Kept:
    """The orders that the book keeps, with their requests and answers, the oldest first."""

    def __init__(self):
        self.orders = {}

    def sentence(self, settings, entry, answer):
        """What an answer says to an order after those before; the first one of a number is kept."""
        if not entry.order:
            return sentence(settings, entry.request, answer)
        if entry.order not in self.orders:
            told = sentence(settings, entry.request, answer)
            self.orders[entry.order] = (entry.request, answer)
            if len(self.orders) > KEPT_ORDERS:
                del self.orders[next(iter(self.orders))]
            return told
        request, first = self.orders[entry.order]
        if request != entry.request:
            if checked(answer)[0] != 28:
                raise Problem("this line is refused by 28")
            said = f"order {entry.order} is kept with another request, {typed(request)}"
            return f"Refused by 28: {said}. {question(28)}"
        if answer != first:
            raise Problem(f"order {entry.order} was answered otherwise the first time")
        return f"Sent again, and answered as the first time: {sentence(settings, request, answer)}"


def fault_of_settings(entry):
    """The number that refuses a first line, and why; 0 for none."""
    if isinstance(entry, Raw):
        try:
            settings_in(entry.text)
        except Problem as problem:
            return 24, f"these are not good settings, {problem}"
    elif entry.book_length() > MOST_WORDS:
        return 25, f"the book of these settings has {entry.book_length():,} words, more than {MOST_WORDS:,}"
    return 0, ""


def sentence_of_settings(entry, answer):
    """What the only answer to a refused settings line says."""
    number, said = fault_of_settings(entry)
    if number != checked(answer)[0]:
        raise Problem(f"line 1: these settings are not refused by {answer[0]}; is this the answer to these requests?")
    return f"Refused by {number}: {said}. {question(number)}"


def echo(entry):
    """The entry as it would be typed, in one line that a terminal can show."""
    text = printable(typed(entry))
    return text[:WIDEST_ECHO] + " .." if isinstance(entry, Raw) and len(text) > WIDEST_ECHO else text


def explained(entries, answers):
    """The sentences of the answers to the entries of an input, each after its request as it would be typed."""
    first = entries[0] if entries else Raw("")
    requests = entries[1:]
    if len(answers) == 1 and answers[0][0] in (24, 25):
        return [echo(first) + "\n    " + sentence_of_settings(first, answers[0])]
    if answers and not isinstance(first, Settings):
        raise Problem("the requests do not begin with good settings, and are answered with 24 alone")
    if len(answers) > len(requests):
        raise Problem(f"there are {len(answers)} answers and {len(requests)} requests")
    told, kept = [], Kept()
    for at, (entry, answer) in enumerate(zip(requests, answers), 1):
        try:
            say = kept.sentence if isinstance(entry, Order) else sentence
            told.append(echo(entry) + "\n    " + say(first, entry, answer))
        except Problem as problem:
            raise Problem(f"line {at}: {problem}; are these the answers to these requests?") from None
    return told
