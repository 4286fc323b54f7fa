"""Lines of lower-case hexadecimal, eight digits a word, and what they hold."""

import re

from .rules import LIMITS, Order, Problem, Raw, Request, Settings, settings_of

WORDS_OF_REQUEST = 7
WORDS_OF_ORDER = 8
WORDS_OF_ANSWER = 3


def text_lines(text):
    """The lines of a text (rule 11.1)."""
    lines = text.split("\n")
    return lines[:-1] if lines[-1] == "" else lines


def line_of(words):
    return "".join(f"{word:08x}" for word in words)


def words_of(line):
    """The words of a line, or None."""
    if len(line) % 8 or not re.fullmatch(r"[0-9a-f]*", line):
        return None
    return [int(line[at:at + 8], 16) for at in range(0, len(line), 8)]


def written(entry):
    """The line of settings, of a request, of an order, or of a line taken as it stands."""
    if isinstance(entry, Raw):
        return entry.text
    return line_of(entry.words() if isinstance(entry, (Settings, Order)) else entry)


def settings_in(line):
    """The settings of a first line, or a Problem that says why it has none."""
    words = words_of(line)
    if not words:
        raise Problem("it is not whole words of lower-case hexadecimal")
    if len(words) > len(LIMITS) and len(words) == len(LIMITS) + words[6]:
        raise Problem(f"there are {len(words)} numbers, one too few: nine limits, then early, then dining capacities")
    return settings_of(words)


def read_first(line):
    """The settings of a first line, or the line as it stands."""
    try:
        return settings_in(line)
    except Problem:
        return Raw(line)


def read_request(line):
    """The request or the order of a later line, or the line as it stands."""
    words = words_of(line) or []
    if len(words) == WORDS_OF_ORDER:
        return Order(words[-1], Request(*words[:-1]))
    return Request(*words) if len(words) == WORDS_OF_REQUEST else Raw(line)


def read_lines(text):
    """What the lines of an input of the program hold: the settings line first, then requests."""
    lines = text_lines(text)
    return [read_first(line) for line in lines[:1]] + [read_request(line) for line in lines[1:]]


def read_answer(line):
    """The number, the place and the value of an answer line."""
    words = words_of(line)
    if not words or len(words) != WORDS_OF_ANSWER:
        raise Problem("not an answer line, which is 24 lower-case hexadecimal digits")
    return words


def printable(text):
    """The text with everything that a terminal cannot show escaped."""
    return "".join(letter if letter.isprintable() else ascii(letter)[1:-1] for letter in text)
