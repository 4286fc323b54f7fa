"""The proved functions of include/caviar.h, called in the shared library that tools/build-library makes."""

import ctypes
import functools
import itertools
from pathlib import Path

from .lines import WORDS_OF_ANSWER, WORDS_OF_ORDER
from .rules import Ask, Charge, Commit, Order, Party, Problem, Request

PATH = Path(__file__).resolve().parent.parent.parent / "target" / "lib" / "libcaviar.so"
LINE_BYTES = 31

WORD, WORDS, LENGTH = ctypes.c_uint32, ctypes.POINTER(ctypes.c_uint32), ctypes.c_size_t


class Answer(ctypes.Structure):
    """The three words of an answer."""

    _fields_ = [("number", WORD), ("place", WORD), ("value", WORD)]


class Asked(ctypes.Structure):
    """The three words of an answer, and the change count."""

    _fields_ = [*Answer._fields_, ("count", WORD)]


class RequestWords(ctypes.Structure):
    """The seven words of a request."""

    _fields_ = [(field, WORD) for field in Request._fields]


class Tariff(ctypes.Structure):
    """Two rates in cents, and a percentage."""

    _fields_ = [("room", WORD), ("seat", WORD), ("percent", WORD)]


class Charged(ctypes.Structure):
    """A number, a place, and a value of 64 bits."""

    _fields_ = [("number", WORD), ("place", WORD), ("value", ctypes.c_uint64)]


class Guest(ctypes.Structure):
    """A guest of a party."""

    _fields_ = [("visitor", WORD), ("first", WORD), ("last", WORD)]


@functools.lru_cache(maxsize=None)
def loaded():
    """The library with the types of its functions, or a Problem that says how to make it."""
    try:
        library = ctypes.CDLL(str(PATH))
        library.caviar_lay.argtypes = [WORDS, LENGTH] * 2
        library.caviar_orders.argtypes = [WORDS, LENGTH] * 3
        library.caviar_page.argtypes = [WORDS, LENGTH, WORD, ctypes.POINTER(ctypes.c_uint8), LENGTH]
        library.caviar_party.argtypes = [WORDS, LENGTH, WORD, ctypes.POINTER(Guest), LENGTH]
        library.caviar_ask.argtypes = [WORDS, LENGTH, RequestWords]
        library.caviar_commit.argtypes = [WORDS, LENGTH, WORD, RequestWords]
        library.caviar_charge.argtypes = [WORDS, LENGTH, WORD, WORD, WORD, Tariff]
        library.caviar_ask.restype = Asked
        library.caviar_charge.restype = Charged
        for function in (library.caviar_lay, library.caviar_orders, library.caviar_page, library.caviar_party,
                         library.caviar_commit):
            function.restype = Answer
    except (OSError, AttributeError) as error:
        raise Problem(f"no library with these functions, `tools/build-library` makes it: {error}") from None
    return library


def array(words):
    return (WORD * len(words))(*words)


def taken(done, what):
    """A call that nothing can refuse here was done."""
    if done.number:
        raise Problem(f"the library refuses {what} by {done.number}")


def laid(settings):
    """The fresh book of the settings."""
    words = array(settings.words())
    book = (WORD * settings.book_length())()
    taken(loaded().caviar_lay(words, len(words), book, len(book)), "these settings")
    return book


def answered(book, requests):
    """The answer to each of the requests, with or without orders, which the book is moved along by."""
    orders = [request if isinstance(request, Order) else Order(0, request) for request in requests]
    flat = array([word for order in orders for word in order.words()])
    assert len(flat) == WORDS_OF_ORDER * len(requests)
    answers = (WORD * (WORDS_OF_ANSWER * len(requests)))()
    taken(loaded().caviar_orders(book, len(book), flat, len(flat), answers, len(answers)), "this book")
    return [tuple(answers[at:at + WORDS_OF_ANSWER]) for at in range(0, len(answers), WORDS_OF_ANSWER)]


def admitted(book, party):
    """The answer to a party, and which guest it is for, counted from 1; 0 for none.

    The answer does not name the guest. It is the first one who is refused when they are added one by one to a copy,
    at count 0, so that each of them can be counted.
    """
    copy = type(book).from_buffer_copy(book)
    copy[len(copy) - 1] = 0
    guests = (Guest * len(party.guests))(*party.guests)
    done = loaded().caviar_party(book, len(book), party.meeting, guests, len(guests))
    singly = answered(copy, party.requests()) if done.number not in (0, 27, 30) else []
    refused = next((at for at, answer in enumerate(singly, 1) if answer[0]), 0)
    return done.number, done.place, done.value, refused


def asked(book, ask):
    """What a request would be answered, and the change count."""
    told = loaded().caviar_ask(book, len(book), RequestWords(*ask.request))
    return told.number, told.place, told.value, told.count


def committed(book, commit):
    """The answer to a commit, and the change count of the book behind it."""
    done = loaded().caviar_commit(book, len(book), commit.count, RequestWords(*commit.request))
    return done.number, done.place, done.value, book[len(book) - 1]


def charged(book, charge):
    """What a meeting costs: a number, a place and the cents."""
    meeting, first, last, *tariff = charge
    told = loaded().caviar_charge(book, len(book), meeting, first, last, Tariff(*tariff))
    return told.number, told.place, told.value


# The calls that are made one by one; requests and orders go as a list.
SINGLY = {Party: admitted, Ask: asked, Commit: committed, Charge: charged}


def played(settings, calls):
    """The book of the settings after the calls, and the answer to each."""
    book, answers = laid(settings), []
    for single, run in itertools.groupby(calls, lambda call: SINGLY.get(type(call))):
        answers += [single(book, call) for call in run] if single else answered(book, list(run))
    return book, answers


def page(settings, book, date):
    """The number that refuses the page of a date, 0 for none, and its bytes."""
    room = LINE_BYTES * settings.per_date("session") * settings.limit("rooms")
    lent = (ctypes.c_uint8 * room)()
    done = loaded().caviar_page(book, len(book), date, lent, len(lent))
    return done.number, bytes(lent[:LINE_BYTES * done.value])
