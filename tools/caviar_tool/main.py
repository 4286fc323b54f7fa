"""The commands."""

import argparse
import os
import sys
from pathlib import Path

from . import library
from . import typed as words_typed
from .desk import conversation
from .explain import echo, explained, question, sentence, sentence_alone, sentence_of_settings
from .lines import printable, read_answer, read_lines, text_lines, written
from .rules import INFO, KINDS, QUESTIONS, Ask, Charge, Problem, Raw, Settings

BAD_INPUT = 2

ABOUT = """The booking book for people: typed requests to the lines that the program reads, its answers to sentences.

    caviar frame < site.txt > requests
    frames < requests > answers
    caviar explain --with site.txt < answers

The porter's page of a date, and what a party, an ask, a commit or a charge is told, come from the site alone, by the
library that tools/build-library makes:

    caviar page 0 < site.txt
    caviar party meeting 0 visitor 1 sessions 0..1, visitor 2 session 1 < site.txt
    caviar ask add-hotel room 0 visitor 1 date 0 < site.txt
    caviar charge meeting 0 dates 0..2 room 12000 seat 850 percent 10 < site.txt

Where a desk serves a site (docs/DESK.md), its folder takes the place of the site:

    caviar desk FOLDER ask add-hotel room 0 visitor 1 date 0
    caviar desk FOLDER < requests.txt
"""

PAGE = """
The site is settings and requests, typed or in the program's lines, and parties and commits where it is typed. The page
has a line for each session and conference room in use: session, room, meeting, visitors who attend, information. What
is refused is told on standard error; the page is that of the book which the rest makes.
"""

PARTY = """
A party is a meeting and guests with a comma between two, each a visitor with their sessions. All of them are added, or
where one is refused none; the sentence says which one and why.

    caviar party meeting 3 visitor 1 sessions 4..5, visitor 2 session 4 < site.txt

The site is settings and requests, typed or in the program's lines, and parties and commits where it is typed. What of
it is refused is told on standard error. The same words as a line of a typed site let the party join it.
"""

ASK = """
Says what the request would be answered on the site, and at which change count; nothing is changed. Each request of
kinds 1 to 16 that is done raises the count by one, and so does each party.

    caviar ask add-hotel room 0 visitor 1 dates 0..1 < site.txt
    caviar commit 2 add-hotel room 0 visitor 1 dates 0..1 < site.txt
"""

COMMIT = """
The request at a change count: what `caviar ask` told at that count is what it is answered. If the site's count is
another by now, the commit is refused by 29, and nothing changes. As a line of a typed site it joins the site.
"""


CHARGE = """
What a meeting costs on the site over some dates: rates in cents for a conference room in a session and for a lunch
seat, and by how many percent the rooms are less from ten room-sessions on. Without percent they are not.

    caviar charge meeting 0 dates 0..2 room 12000 seat 850 percent 10 < site.txt
"""


DESK = """
Requests, orders, asks, commits and parties as they are typed elsewhere, one in the arguments or many on standard input.
Settings may stand before them and must be those of the site.

    caviar desk mysite add-leave visitor 1 dates 0..1
    caviar desk mysite < requests.txt
"""


def complain(*lines):
    """Says on standard error what is wrong, so that a terminal can show it."""
    shown = "\n".join(map(printable, lines))
    sys.stderr.buffer.write(f"caviar: {shown}\n".encode())


def text_of(data):
    """Bytes that are no text pass through as they are."""
    return data.decode("utf-8", "surrogateescape")


def standard_input():
    return text_of(sys.stdin.buffer.read())


def frame(options):
    """The lines of a typed text: of the arguments, or of standard input."""
    arguments = options.words
    if not arguments:
        text = standard_input()
    elif any(len(argument.split()) > 1 for argument in arguments):
        text = "\n".join(arguments)
    else:
        text = " ".join(arguments)
    return [written(entry) for entry in words_typed.parse_text(text)]


def words(_):
    """The typed words of the program's input lines."""
    return [words_typed.typed(entry) for entry in read_lines(standard_input())]


def answers_of(text):
    """The answers of a text of answer lines; a Problem names the line."""
    answers = []
    for at, line in enumerate(text_lines(text), 1):
        try:
            answers.append(read_answer(line))
            sentence_alone(answers[-1])
        except Problem as problem:
            raise Problem(f"line {at}: {problem}") from None
    return answers


def entries_in(text, calls=False):
    """The entries of a text of requests, typed or in lines; of calls of other sorts too where they are taken."""
    return words_typed.parse_text(text, calls) if words_typed.is_typed(text) else read_lines(text)


def requests_of(path):
    """The entries of a file of requests."""
    try:
        text = text_of(Path(path).read_bytes())
    except OSError as error:
        raise Problem(f"{path}: {error.strerror}") from None
    try:
        return entries_in(text)
    except Problem as problem:
        raise Problem(f"{path}: {problem}") from None


def explain(options):
    """The sentences of the answer lines on standard input."""
    entries = requests_of(options.requests) if options.requests else None
    answers = answers_of(standard_input())
    if entries is None:
        return [sentence_alone(answer) for answer in answers]
    lines = explained(entries, answers)
    unanswered = max(len(entries) - 1, 0) - len(answers)
    refused = len(answers) == 1 and answers[0][0] in (24, 25)
    return lines + [f"Requests without an answer here: {unanswered}."] * (unanswered > 0 and not refused)


def answered(entries):
    """The book that the entries of a site lead to, and the answer to each, as the program would give it to a line."""
    first = entries[0] if entries else Raw("")
    if not isinstance(first, Settings):
        raise Problem(sentence_of_settings(Raw(written(first)), (24, 0, 0)))
    book, answers = library.played(first, [entry for entry in entries[1:] if not isinstance(entry, Raw)])
    given = iter(answers)
    return book, [(23, 0, 0) if isinstance(entry, Raw) else next(given) for entry in entries[1:]]


def tell_refused(entries, answers, where):
    """Says on standard error what of a site was refused."""
    of_calls = zip(explained(entries, answers), entries[1:], answers)
    refused = [told for told, entry, answer in of_calls if answer[0] and not isinstance(entry, (Ask, Charge))]
    if refused:
        told = [line for sentence in refused for line in text_lines(sentence)]
        complain(f"requests that were refused and left no mark on this {where}: {len(refused)}", *told)


def page(options):
    """The lines of the porter's page. What of the site was refused is told on standard error."""
    date = words_typed.number(options.date)
    entries = entries_in(standard_input(), calls=True)
    book, answers = answered(entries)
    number, lines = library.page(entries[0], book, date)
    if number:  # 7: the book is a good one, and the page has room for every line
        there = f"the dates here are 0 to {entries[0].limit('dates') - 1}"
        raise Problem(f"Refused by {number}: there is no date {date}; {there}. {question(number)}")
    tell_refused(entries, answers, "page")
    return text_lines(text_of(lines))


def single(parse):
    """The command of one call: the call as it would be typed, and what it is told. What of the site was refused is told
    on standard error."""

    def run(options):
        call = parse(" ".join(options.words).lower().split())
        entries = entries_in(standard_input(), calls=True)
        book, answers = answered(entries)
        told = sentence(entries[0], call, library.SINGLY[type(call)](book, call))
        tell_refused(entries, answers, "book")
        return [echo(call), f"    {told}"]

    return run


def desk(options):
    """What the desk of a folder tells to typed calls."""
    text = " ".join(options.words) if options.words else standard_input()
    return conversation(options.folder, words_typed.parse_text(text, calls=True))


def table(_):
    """The refusal numbers with their rules in words."""
    lines = []
    for number, (question, asked) in QUESTIONS.items():
        of = f"  (kind{'s' * (len(asked) > 1)} {', '.join(map(str, asked))})" if 8 <= number <= 22 else ""
        lines.append(f"{number:2}  {question}{of}")
    return lines + [
        "",
        "A refusal has the number n of the first rule 5.n of docs/RULES.md that is not kept; 28 and 29 come after 2.",
        "Its place is the lowest slot where it is not kept (9 to 16 and 19 to 21), a date (17 and 18) or 0. a is the",
        "hotel, conference or dining room, the transport, or the meeting of kinds 8 to 11. b is the visitor, or the",
        "meeting of kinds 12 to 16. 30 is for kinds 1 to 16 and for a party.",
    ]


def kinds(_):
    """The table of kinds, with what may be left out in brackets."""
    takes = [" ".join(f"[{word}]" if word == INFO else word for word in kind.uses()) for kind in KINDS]
    name, words = max(len(kind.name) for kind in KINDS), max(map(len, takes))
    return [f"{kind.number:2}  {kind.name:{name}}  {taken:{words}}  {kind.does}" for kind, taken in zip(KINDS, takes)]


def parser():
    plain = argparse.RawDescriptionHelpFormatter
    top = argparse.ArgumentParser(prog="caviar", description=ABOUT, formatter_class=plain)
    commands = top.add_subparsers(title="commands", metavar="COMMAND", required=True)

    def command(run, name, summary, more=""):
        added = commands.add_parser(name, help=summary, description=f"{summary}\n{more}", formatter_class=plain)
        added.set_defaults(run=run)
        return added

    typing = words_typed.__doc__.partition("\n")[2]
    framing = command(frame, "frame", "write the program's lines from typed settings and requests", typing)
    framing.add_argument("words", nargs="*", metavar="WORD",
                         help="one typed line, or several quoted ones; else standard input")
    command(words, "words", "write typed settings and requests from the program's lines on standard input")
    explaining = command(explain, "explain", "say each answer line on standard input in a sentence")
    explaining.add_argument("--with", dest="requests", metavar="REQUESTS",
                            help="the file that was answered, typed or in lines; sentences then say what and when")
    paging = command(page, "page", "print the porter's page of a date, from the site on standard input", PAGE)
    paging.add_argument("date", metavar="DATE", help="the date, from 0")
    joining = command(single(words_typed.parse_party), "party",
                      "say what a party is answered, on the site on standard input", PARTY)
    joining.add_argument("words", nargs="+", metavar="WORD", help="meeting N, then visitor N sessions N..N, ..")
    asking = command(single(words_typed.parse_ask), "ask",
                     "say what a request would be answered, on the site on standard input", ASK)
    asking.add_argument("words", nargs="+", metavar="WORD", help="a typed request")
    committing = command(single(words_typed.parse_commit), "commit",
                         "say what a commit is answered, on the site on standard input", COMMIT)
    committing.add_argument("words", nargs="+", metavar="WORD", help="the count, then a typed request")
    charging = command(single(words_typed.parse_charge), "charge",
                       "say what a meeting costs, on the site on standard input", CHARGE)
    charging.add_argument("words", nargs="+", metavar="WORD", help="meeting N dates N..N room N seat N [percent N]")
    talking = command(desk, "desk", "send typed requests to the desk of a folder, and say what it tells", DESK)
    talking.add_argument("folder", metavar="FOLDER", help="the folder of the site that the desk serves")
    talking.add_argument("words", nargs="*", metavar="WORD", help="one typed call; else standard input")
    command(table, "table", "print the refusal numbers 1 to 31 with their rules")
    command(kinds, "kinds", "print the kinds of requests and the words that each takes")
    return top


def main(arguments):
    """Runs one command. It writes when everything is understood, and else nothing but what is wrong."""
    options = parser().parse_args(arguments)
    try:
        lines = options.run(options)
    except Problem as problem:
        complain(str(problem))
        return BAD_INPUT
    try:
        sys.stdout.buffer.write("".join(line + "\n" for line in lines).encode("utf-8", "surrogateescape"))
        sys.stdout.buffer.flush()
    except BrokenPipeError:
        os.dup2(os.open(os.devnull, os.O_WRONLY), sys.stdout.fileno())
    return 0
