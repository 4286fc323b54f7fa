#!/usr/bin/env python3
"""Tests of tools/caviar against the second program and the proved program and library, which must be built.

    tools/build-frames
    tools/build-library
    python3 tools/test_caviar.py

The files of tools/conversations hold settings, requests as they are typed, and indented below each one the sentence
that its answer is to become.
"""

import os
import random
import re
import shutil
import subprocess
import sys
import tempfile
import unittest
from pathlib import Path

sys.dont_write_bytecode = True
ROOT = Path(__file__).resolve().parent.parent
sys.path.insert(0, str(ROOT / "tools"))

from caviar_tool import explain, library, lines, main, rules, typed  # noqa: E402
from caviar_tool.rules import Ask, Charge, Commit, Guest, Order, Party, Problem, Raw, Request  # noqa: E402

CAVIAR = ROOT / "tools" / "caviar"
CARGO_TARGET = Path(os.environ.get("CARGO_TARGET_DIR", ROOT / "target" / "cargo"))
PROVED = ROOT / "target" / "bin" / "frames"
SETTINGS = ("settings dates 2 sessions 2 times 2 visitors 3 meetings 2 rooms 2 dining 1 hotels 2 transports 1 "
            "capacities 4")
SETTINGS_LINE = "0000000200000002000000020000000300000002000000020000000100000002000000010000000000000004"
# The same with a number of early times.
EARLY = SETTINGS.replace(" capacities", " early {} capacities")
# The settings without the number of early times, and with as many of them as there are times.
WITHOUT_EARLY = SETTINGS_LINE[:72] + SETTINGS_LINE[80:]
TOO_EARLY = SETTINGS_LINE[:72] + "00000002" + SETTINGS_LINE[80:]
SEEDS = [1, 2, 3, 4, 5, 12, 22]
LINES_A_SEED = 800


def built(name):
    """A program of the second package."""
    return CARGO_TARGET / "release" / name


def programs():
    """The programs that answer: the second one and the proved one."""
    return [built("frames"), PROVED]


def setUpModule():
    if not os.access(PROVED, os.X_OK):
        raise RuntimeError(f"there is no program {PROVED}; `tools/build-frames` builds it")
    if not library.PATH.exists():
        raise RuntimeError(f"there is no library {library.PATH}; `tools/build-library` builds it")
    cargo = shutil.which("cargo") or str(Path.home() / ".cargo" / "bin" / "cargo")
    command = [cargo, "build", "--quiet", "--offline", "--locked", "--release", "--bins"]
    environment = dict(os.environ, CARGO_TARGET_DIR=str(CARGO_TARGET))
    subprocess.run(command, cwd=ROOT / "tests" / "second", env=environment, check=True)
    print("programs:", ", ".join(os.path.relpath(program, ROOT) for program in programs()), flush=True)


def caviar(*arguments, given=b""):
    """Runs the tool: its status, what it wrote, what it complained about."""
    given = given.encode() if isinstance(given, str) else given
    done = subprocess.run([CAVIAR, *arguments], input=given, capture_output=True)
    return done.returncode, done.stdout, done.stderr.decode()


def answered(program, requests):
    return subprocess.run([program], input=requests, capture_output=True, check=True).stdout


class Tested(unittest.TestCase):
    """What the tests ask of the tool again and again."""

    maxDiff = None

    def wrote(self, *arguments, given=b""):
        """What the tool wrote, having understood everything."""
        status, out, complaint = caviar(*arguments, given=given)
        self.assertEqual((status, complaint), (0, ""))
        return out

    def complains(self, message, *arguments, given=b""):
        """The tool writes nothing, says what is wrong, and ends with status 2."""
        self.assertEqual(caviar(*arguments, given=given), (2, b"", f"caviar: {message}\n"))

    def explained(self, requests, answers):
        """The sentences with a file of requests."""
        with tempfile.NamedTemporaryFile() as file:
            file.write(requests)
            file.flush()
            return self.wrote("explain", "--with", file.name, given=answers)


class Conversations(Tested):
    """Typed, framed, answered, explained."""

    def converses(self, name, typed_text=None):
        settings, _, expected = (ROOT / "tools" / "conversations" / name).read_text().partition("\n")
        requests = [line for line in expected.splitlines() if not line.startswith(" ")]
        typed_text = typed_text or "\n".join([settings, *requests])
        framed = self.wrote("frame", given=typed_text)
        for program in programs():
            answers = answered(program, framed)
            self.assertEqual(self.explained(typed_text.encode(), answers).decode(), expected)
            self.assertEqual(self.explained(framed, answers).decode(), expected, "the lines do as well")
            self.assertEqual(len(answers.splitlines()), len(requests))
        words = self.wrote("words", given=framed).decode()
        self.assertEqual(words, "\n".join([settings, *requests, ""]), "words are the way back")
        return expected

    def test_the_example_site(self):
        self.converses("site.txt", (ROOT / "examples" / "site.txt").read_text())

    def test_every_kind_is_done(self):
        said = self.converses("kinds.txt")
        done = re.findall(r"^(\S+) .*\n    Done: ", said, re.MULTILINE)
        self.assertEqual(sorted(done), sorted(kind.name for kind in rules.KINDS))

    def test_every_refusal_of_a_request(self):
        said = self.converses("refusals.txt")
        found = re.findall(r"^(\S+).*\n    Refused by (\d+): ", said, re.MULTILINE)
        refused = {(int(number), name) for name, number in found}
        self.assertEqual({number for number, _ in refused}, set(range(3, 24)))
        for number in range(8, 23):
            kinds = {rules.BY_NUMBER[kind].name for kind in rules.QUESTIONS[number][1]}
            self.assertEqual({name for at, name in refused if at == number}, kinds, f"question {number}")

    def test_orders(self):
        said = self.converses("orders.txt")
        self.assertEqual(said.count("Sent again, and answered as the first time: "), 4)

    def test_the_taxis_before_breakfast(self):
        """A guest who checked out on date 0 rides at the first time of date 1, and at no later one."""
        said = self.converses("taxis.txt", (ROOT / "examples" / "taxis.txt").read_text())
        self.assertIn("\n    Done: visitor 0 has transport 0 at time 4 (date 0).\n", said)
        self.assertIn("\n    Refused by 9: visitor 0 has no leave on date 1 (time 5). ", said)

    def test_early_times_may_be_left_out(self):
        self.assertEqual(self.wrote("frame", EARLY.format(0)), self.wrote("frame", SETTINGS))
        line = SETTINGS_LINE[:72] + "00000001" + SETTINGS_LINE[80:]
        self.assertEqual(self.wrote("frame", EARLY.format(1)).decode(), line + "\n")
        self.assertEqual(self.wrote("words", given=line).decode(), EARLY.format(1) + "\n")
        self.assertEqual(self.wrote("words", given=SETTINGS_LINE).decode(), SETTINGS + "\n")
        first = SETTINGS.replace("settings", "settings early 1")
        self.assertEqual(self.wrote("frame", first).decode(), line + "\n", "in any order")

    def test_the_dates_of_times(self):
        """The date that the tool tells of each time is the one whose leave the programs ask for."""
        of_time = rules.settings_of([3, 1, 3, 1, 1, 1, 1, 1, 1, 2, 4])
        self.assertEqual([of_time.date_of("time", time) for time in range(9)], [0, 0, 0, 0, 0, 1, 1, 1, 2])
        self.assertEqual([of_time.date_of("session", session) for session in range(3)], [0, 1, 2])
        asked = 0
        for dates, times in ((1, 1), (1, 4), (3, 1), (2, 3), (4, 2), (3, 5)):
            for early in range(times):
                settings = rules.settings_of([dates, 1, times, 1, 1, 1, 1, 1, 1, early, 4])
                for date in range(dates):
                    rides = [Request(6, 0, 0, time, time) for time in range(dates * times)]
                    framed = "\n".join(map(lines.written, [settings, Request(1, 0, 0, date, date), *rides]))
                    expected = [(0, 0, 0)] + [(0, 0, 0) if settings.date_of("time", time) == date else (9, time, 0)
                                              for time in range(dates * times)]
                    for program in programs():
                        answers = answered(program, framed.encode()).decode().splitlines()
                        self.assertEqual([tuple(lines.read_answer(answer)) for answer in answers], expected)
                        asked += 1
        self.assertGreater(asked, 70)

    def test_the_sixty_fifth_order_is_answered_anew(self):
        """Order 1 is kept while 63 others come after it, and no longer."""
        asked = [f"order {number} count-leave date 0" for number in range(1, 65)]
        late = ["add-leave visitor 0 date 0", asked[0], "order 65 count-leave date 0", asked[0]]
        text = "\n".join([SETTINGS, *asked, *late])
        framed = self.wrote("frame", given=text)
        for program in programs():
            said = self.explained(text.encode(), answered(program, framed)).decode().splitlines()[-8:]
            again = "Sent again, and answered as the first time: "
            counts = [again + "Done: visitors with leave on date 0: 0.", "Done: visitors with leave on date 0: 1.",
                      "Done: visitors with leave on date 0: 1."]
            self.assertEqual(said[3::2], ["    " + count for count in counts])

    def test_the_example_of_the_rules(self):
        typed_text = SETTINGS + "\nadd-leave visitor 1 dates 0..1\nraw zz\n"
        framed = self.wrote("frame", given=typed_text)
        leave = "00000001000000000000000100000000000000010000000000000000"
        self.assertEqual(framed.decode(), f"{SETTINGS_LINE}\n{leave}\nzz\n")
        for program in programs():
            answers = answered(program, framed)
            self.assertEqual(answers, b"000000000000000000000000\n000000170000000000000000\n")
            self.assertEqual(self.wrote("explain", given=answers).decode(), "Done, value 0.\nRefused by 23. "
                             "[rule 5.23: a line must be a frame: 56 or 64 digits of lower-case hexadecimal]\n")

    def test_refused_settings(self):
        refused = "\n    Refused by 24: these are not good settings, {}. [rule 5.24: {}]\n"
        not_words = "it is not whole words of lower-case hexadecimal"
        one_more = f"raw {SETTINGS_LINE}00000004"
        cases = {
            "": ("raw", not_words),
            "raw 0000001": ("raw 0000001", not_words),
            "raw 00000002": ("raw 00000002", "there are 1 numbers, and settings have 10 before the capacities"),
            f"raw {WITHOUT_EARLY}": (f"raw {WITHOUT_EARLY}", "there are 10 numbers, one too few: nine limits, then "
                                                             "early, then dining capacities"),
            f"raw {TOO_EARLY}": (f"raw {TOO_EARLY}", "early 2 is not from 0 to 1, one less than the times of a date"),
            one_more + "\nadd-leave visitor 0 date 0": (one_more, "dining 1 wants as many capacities, and there are 2"),
        }
        for typed_text, (shown, why) in cases.items():
            self.refused_at_once(typed_text, shown + refused.format(why, rules.QUESTIONS[24][0]))

    def test_settings_of_the_largest_book_and_of_one_too_large(self):
        wide = SETTINGS.replace("visitors 3", "visitors 478").replace("sessions 2", "sessions 16")
        largest = wide.replace("hotels 2", "hotels 82").replace("dining 1", "dining 2") + " 4"
        over = largest.replace("dining 2", "dining 3") + " 4"
        for program in programs():
            self.assertEqual(answered(program, self.wrote("frame", given=largest)), b"")
        why = "the book of these settings has 16,385 words, more than 16,384"
        self.refused_at_once(over, f"{over}\n    Refused by 25: {why}. [rule 5.25: {rules.QUESTIONS[25][0]}]\n")

    def refused_at_once(self, typed_text, expected):
        framed = self.wrote("frame", given=typed_text)
        for program in programs():
            self.assertEqual(self.explained(typed_text.encode(), answered(program, framed)).decode(), expected)


class Frame(Tested):
    """Words to lines."""

    def test_arguments_and_lines_say_the_same(self):
        line = b"00000004000000000000000100000000000000010000000000000000\n"
        self.assertEqual(self.wrote("frame", "add-hotel", "room", "0", "visitor", "1", "dates", "0..1"), line)
        self.assertEqual(self.wrote("frame", "4 room 0 visitor 1 dates 0..1"), line)
        by_fields = "add-hotel b 1 a 0 last 1 first 0"
        self.assertEqual(self.wrote("frame", "4 visitor 1 dates 0..1 room 0", by_fields), line + line)
        shouted = "\n # nothing\n\tADD-HOTEL  Room 0 Visitor 0x1 date 0..1 # two\n"
        self.assertEqual(self.wrote("frame", given=shouted), line)
        as_it_stands = self.wrote("frame", given="raw\nRAW\t# as it  stands \n raw raw\n")
        self.assertEqual(as_it_stands, b"\n# as it  stands \nraw\n")

    def test_names_and_numbers_are_the_same_kinds(self):
        for kind in rules.KINDS:
            fields = " ".join(f"{word} 1" for word in kind.uses())
            by_name, by_number = (typed.parse_line(f"{head} {fields}", False) for head in (kind.name, kind.number))
            self.assertEqual(by_name, by_number)

    def lacks(self, line, kind, words):
        with self.assertRaises(Problem) as caught:
            typed.parse_line(line, False)
        self.assertEqual(str(caught.exception), f"{kind.name} lacks {', '.join(words)}")

    def test_every_word_that_a_kind_takes_is_asked_for(self):
        """Each word left out alone, and all of them; information alone may be left out, and is 0."""
        asked = 0
        for kind in rules.KINDS:
            words = kind.uses()
            for left_out in words:
                line = " ".join([kind.name] + [f"{word} 1" for word in words if word != left_out])
                if left_out == "info":
                    self.assertEqual(typed.parse_line(line, False).info, 0)
                else:
                    asked += 1
                    self.lacks(line, kind, [left_out])
            self.lacks(kind.name, kind, [word for word in words if word != "info"])
        fields = [(kind.a, kind.b, True, kind.seats) for kind in rules.KINDS]
        self.assertEqual(asked, sum(bool(used) for of_kind in fields for used in of_kind))
        self.complains("line 1: add-hotel lacks visitor, dates", "frame", "add-hotel room 9")
        self.complains("line 1: add-lunch lacks last", "frame", "add-lunch dining 0 meeting 0 first 0 seats 1")
        self.complains("line 1: add-leave lacks first", "frame", "add-leave visitor 0 last 0")
        self.assertEqual(typed.parse_line("21 b 1", False), Request(21, b=1), "a kind that is none asks for nothing")

    def test_every_complaint(self):
        cases = {
            "setings dates 2": "there is no kind 'setings'; did you mean settings?",
            "pary meeting 0": "there is no kind 'pary'; did you mean party?",
            "ordr 1 add-leave": "there is no kind 'ordr'; did you mean order?",
            "order": f"an order has a number and a request, as in: {typed.AN_ORDER}",
            "order 5": f"an order has a number and a request, as in: {typed.AN_ORDER}",
            "order x add-leave visitor 1 date 0": "'x' is not a number",
            "order 4294967296 add-leave visitor 1 date 0": "4294967296 does not fit in 32 bits",
            "order 5 add-leave visitor 1": "add-leave lacks dates",
            "order 5 party meeting 0": "there is no kind 'party'; an order carries a request",
            "party meeting 0": "the program has no line for a party; `caviar page` and `caviar party` take it",
            "ask 18 date 0": "the program has no line for asking; `caviar page` and `caviar ask` take it",
            "commit 1 18 date 0": "the program has no line for a commit; `caviar page` and `caviar commit` take it",
            "comit 1 18 date 0": "there is no kind 'comit'; did you mean commit?",
            "charge meeting 0": "the program has no line for a charge; `caviar page` and `caviar charge` take it",
            "add-hotl": "there is no kind 'add-hotl'; did you mean add-hotel?",
            "frobnicate 3": "there is no kind 'frobnicate'; `caviar kinds` lists the kinds",
            "4294967296": "4294967296 does not fit in 32 bits",
            "add-leave floor 3": "add-leave takes no 'floor'; it takes visitor, dates",
            "add-leave seats 3": "add-leave takes no 'seats'; it takes visitor, dates",
            "add-lunch visitor 3": "add-lunch takes no 'visitor'; it takes dining, meeting, dates, seats, info",
            "21 room 1": "kind 21 takes no 'room'; it takes a, b, first, last, n, info",
            "21 dates 1": "kind 21 takes no 'dates'; it takes a, b, first, last, n, info",
            "add-hotel sessions 0..1": "add-hotel takes dates, not sessions",
            "which-meeting time 1": "which-meeting takes sessions, not times",
            "add-leave visitor": "nothing comes after 'visitor'",
            "add-leave visitor one": "'one' is not a number",
            "add-leave visitor -1": "'-1' is not a number",
            "add-leave visitor 0x": "'0x' is not a number",
            "add-leave visitor 1_0": "'1_0' is not a number",
            "add-leave visitor ١": "'١' is not a number",
            "add-leave visitor 4294967296": "4294967296 does not fit in 32 bits",
            "add-leave date x": "'x' is not a number",
            "add-leave dates 0..x": "'x' is not a number",
            "add-leave dates 0..": "'0..' is neither a slot nor a run of slots first..last",
            "add-leave dates ..1": "'..1' is neither a slot nor a run of slots first..last",
            "add-leave dates 0..1..2": "'0..1..2' is neither a slot nor a run of slots first..last",
            "add-leave visitor 1 visitor 2": "'visitor' says again what was said before",
            "add-leave visitor 1 b 1": "'b' says again what was said before",
            "add-leave dates 0..1 last 2": "'last' says again what was said before",
            SETTINGS.replace("hotels 2 ", "").replace("dates 2 ", ""): "settings lack dates, hotels",
            SETTINGS.replace(" capacities 4", ""): "settings lack capacities",
            SETTINGS.replace("dates 2", "dates"): "nothing comes after '1'",
            SETTINGS.replace("dates", "days"): "settings take no 'days'; they take dates, sessions, times, visitors, "
                                               "meetings, rooms, dining, hotels, transports, early, capacities",
            SETTINGS.replace("sessions 2", "dates 2"): "'dates' says again what was said before",
            SETTINGS.replace("dates 2", "dates 401"): "dates 401 is not from 1 to 400",
            SETTINGS.replace("times 2", "times 0"): "times 0 is not from 1 to 96",
            EARLY.format(2): "early 2 is not from 0 to 1, one less than the times of a date",
            EARLY.format(0xffffffff): "early 4294967295 is not from 0 to 1, one less than the times of a date",
            EARLY.format(1).replace("times 2", "times 1"):
                "early 1 is not from 0 to 0, one less than the times of a date",
            EARLY.format("x"): "'x' is not a number",
            EARLY.format("1 early 1"): "'early' says again what was said before",
            SETTINGS + " 5": "dining 1 wants as many capacities, and there are 2",
            SETTINGS + "x": "'4x' is not a number",
            SETTINGS.replace("capacities 4", "capacities 1001"): "capacity 1001 is not from 1 to 1000",
            "bell\a": "there is no kind 'bell\\x07'; `caviar kinds` lists the kinds",
        }
        for line, message in cases.items():
            self.complains(f"line 1: {message}", "frame", given=line)
        self.complains("line 5: settings come first, before every request", "frame",
                       given=f"# one\n\n{SETTINGS}\n  # four\n{SETTINGS}\n")
        self.complains("line 3: 'x' is not a number", "frame",
                       given=f"{SETTINGS}\ncount-leave date 0\nadd-leave visitor x\n4\n")
        self.complains("line 2: 'x' is not a number", "frame", SETTINGS, "add-leave visitor x")


class RoundTrips(Tested):
    """Lines to words and back, and answers to all sorts of lines."""

    def test_every_request_has_its_words(self):
        rng = random.Random(20_261_115)
        for _ in range(20_000):
            kind = rng.choice([rng.randrange(24), rng.randrange(24), rng.randrange(2 ** 32)])
            fields = [rng.choice([0, 0, rng.randrange(9), rng.randrange(2 ** 32)]) for _ in range(6)]
            request = Request(kind, *fields)
            self.assertEqual(typed.parse_line(typed.typed(request), False), request)
            self.assertEqual(lines.read_request(lines.written(request)), request)
            order = Order(rng.choice([0, rng.randrange(9), rng.randrange(2 ** 32)]), request)
            self.assertEqual(typed.parse_line(typed.typed(order), False), order)
            self.assertEqual(lines.read_request(lines.written(order)), order)

    def test_seeded_streams(self):
        numbers, kinds, count = set(), set(), 0
        for seed in SEEDS:
            for damage in ([], ["damaged"]):
                command = [built("gen"), str(seed), str(LINES_A_SEED), *damage]
                stream = subprocess.run(command, capture_output=True, check=True).stdout
                words, sentences = self.there_and_back(stream)
                refused = map(re.compile(r" +Refused by (\d+)").match, sentences)
                numbers |= {int(found.group(1)) for found in refused if found}
                kinds |= {line.split()[0] for line in words.decode("utf-8", "replace").splitlines() if line}
                count += len(sentences)
        print(f"seeds {', '.join(map(str, SEEDS))}: {count} answers explained, numbers {sorted(numbers)}", flush=True)
        self.assertEqual(numbers, {*range(3, 26), 28})
        self.assertLessEqual({kind.name for kind in rules.KINDS}, kinds)

    def there_and_back(self, stream):
        """The words of a stream of lines give it back, and its answers have their sentences."""
        words = self.wrote("words", given=stream)
        whole = stream if stream.endswith(b"\n") or not stream else stream + b"\n"
        self.assertEqual(self.wrote("frame", given=words), whole)
        answers = [answered(program, stream) for program in programs()]
        self.assertEqual(set(answers), {answers[0]})
        told = self.explained(stream, answers[0])
        self.assertEqual(self.explained(words, answers[0]), told)
        sentences = [line for line in told.decode().splitlines() if line.startswith("    ")]
        self.assertEqual(len(sentences), len(answers[0].splitlines()))
        return words, sentences


class Explain(Tested):
    """Answers that stand alone, and answers that cannot be."""

    def test_answers_without_their_requests(self):
        given = "".join(f"{number:08x}{place:08x}{value:08x}\n" for number, place, value in
                        [(0, 0, 0), (0, 0, 7), (1, 0, 0), (2, 0, 0), (8, 0, 0), (9, 3, 0), (17, 2, 0), (22, 0, 0)])
        said = self.wrote("explain", given=given).decode().splitlines()
        starts = ["Done, value 0.", "Done, value 7.", "Refused by 1. [rule 5.1: ", "Refused by 2. [rule 5.2: ",
                  "Refused by 8. [rule 5.8: ", "Refused by 9 at slot 3. [rule 5.9: ",
                  "Refused by 17 at date 2. [rule 5.17: ", "Refused by 22. [rule 5.22: "]
        self.assertEqual(len(said), len(starts))
        for sentence, start in zip(said, starts):
            self.assertTrue(sentence.startswith(start), sentence)

    def test_no_answers_and_fewer_answers(self):
        self.assertEqual(self.wrote("explain"), b"")
        requests = f"{SETTINGS}\nadd-leave visitor 0 date 0\nadd-leave visitor 0 date 1\n".encode()
        self.assertEqual(self.explained(requests, b""), b"Requests without an answer here: 2.\n")
        self.assertEqual(self.explained(requests, b"0" * 24), b"add-leave visitor 0 date 0\n"
                         b"    Done: visitor 0 has leave on date 0.\nRequests without an answer here: 1.\n")

    def test_every_complaint(self):
        no_line = "not an answer line, which is 24 lower-case hexadecimal digits"
        cases = {
            "zz": no_line, "": no_line, "0" * 23: no_line, "0" * 32: no_line, "A" * 24: no_line,
            "00000020" + "0" * 16: "there is no question 32",
            "000000090000000000000001": "a refusal has value 0",
            "000000000000000100000000": "a done answer has place 0",
            "000000080000000100000000": "this answer has place 0",
        }
        for line, message in cases.items():
            self.complains(f"line 2: {message}", "explain", given="0" * 24 + "\n" + line + "\n")

    def test_every_complaint_about_requests(self):
        whose = "; are these the answers to these requests?"
        done = "0" * 24
        leave, hotel = "add-leave visitor 0 date 0", "add-hotel room 0 visitor 0 date 0"
        cases = [
            (SETTINGS, done, "there are 1 answers and 0 requests"),
            (leave, done, "the requests do not begin with good settings, and are answered with 24 alone"),
            (SETTINGS, "00000018" + "0" * 16,
             "line 1: these settings are not refused by 24; is this the answer to these requests?"),
            (f"{SETTINGS}\n{leave}", "000000080000000000000000",
             "line 1: add-leave with these words is not refused by 8" + whose),
            (f"{SETTINGS}\n{hotel}", "0000000f0000000000000000",
             "line 1: add-hotel with these words is not refused by 15" + whose),
            (f"{SETTINGS}\n{hotel}", "000000090000000100000000",
             "line 1: place 1 is not a slot of this add-hotel" + whose),
            (f"{SETTINGS}\n16 meeting 0 sessions 2..3", "000000110000000200000000",
             "line 1: place 2 is not a slot of this erase-conf-and-lunch" + whose),
            (f"{SETTINGS}\n{hotel}", "000000000000000000000001", "line 1: add-hotel has value 0" + whose),
            (f"{SETTINGS}\nadd-hotel room 2 visitor 0 date 0", done, "line 1: this line is refused by 5" + whose),
            (f"{SETTINGS}\n21", done, "line 1: this line is refused by 3" + whose),
            (f"{SETTINGS}\nraw zz", done, "line 1: this line is refused by 23" + whose),
            (f"{SETTINGS}\norder 1 {leave}", "0000001c" + "0" * 16,
             "line 1: add-leave with these words is not refused by 28" + whose),
            (f"{SETTINGS}\n{leave}", "0000001d" + "0" * 16,
             "line 1: add-leave with these words is not refused by 29" + whose),
            (f"{SETTINGS}\ncount-leave date 0", "0000001e" + "0" * 16,
             "line 1: count-leave with these words is not refused by 30" + whose),
            (f"{SETTINGS}\norder 1 {leave}\norder 1 {hotel}", done + "\n" + done,
             "line 2: this line is refused by 28" + whose),
            (f"{SETTINGS}\norder 1 {hotel}\norder 1 {hotel}", "000000090000000000000000\n" + done,
             "line 2: order 1 was answered otherwise the first time" + whose),
        ]
        for requests, answers, message in cases:
            with tempfile.NamedTemporaryFile("w") as file:
                file.write(requests)
                file.flush()
                self.complains(message, "explain", "--with", file.name, given=answers)
                file.write("\nadd-leave room 1")
                file.flush()
                at = requests.count("\n") + 2
                self.complains(f"{file.name}: line {at}: add-leave takes no 'room'; it takes visitor, dates",
                               "explain", "--with", file.name, given=answers)
        self.complains("no/such/file: No such file or directory", "explain", "--with", "no/such/file", given=done)


class Page(Tested):
    """The porter's page of a date, out of a site and its requests."""

    REFUSED = "caviar: requests that were refused and left no mark on this page: {}\n"

    def paged(self, date, given):
        """The page, and what was said of refused requests."""
        status, out, said = caviar("page", str(date), given=given)
        self.assertEqual(status, 0, said)
        return out.decode(), said

    def test_the_example_site(self):
        text = (ROOT / "examples" / "site.txt").read_text()
        told = (ROOT / "tools" / "conversations" / "site.txt").read_text().partition("\n")[2]
        refused = "".join(re.findall(r"^\S.*\n    Refused by .*\n", told, re.MULTILINE))
        said = self.REFUSED.format(2) + refused
        self.assertEqual(self.paged(0, text), ("    1   0   0     0          0\n", said))
        pages = "    2   0   0     1          0\n    2   1   0     1         12\n"
        self.assertEqual(self.paged(1, text), (pages, said))
        self.assertEqual(self.paged("0x1", self.wrote("frame", given=text)), (pages, said), "the lines do as well")

    def test_nothing_in_use(self):
        self.assertEqual(self.paged(0, SETTINGS), ("", ""))
        conf = "add-conf room 1 meeting 1 session 3 info 4294967295"
        elsewhere = f"{SETTINGS}\nadd-standing meeting 1 sessions 2..3\n{conf}\n"
        self.assertEqual(self.paged(0, elsewhere), ("", ""))
        self.assertEqual(self.paged(1, elsewhere), ("    3   1   1     0 4294967295\n", ""))

    def test_lines_that_are_no_requests(self):
        requests = ["raw zz", "add-standing meeting 0 session 0", "raw", "add-conf room 1 meeting 0 session 0"]
        out, said = self.paged(0, "\n".join([SETTINGS, *requests]))
        self.assertEqual(out, "    0   1   0     0          0\n")
        expected = [self.REFUSED.format(2).strip(), "raw zz", "    Refused by 23: {}2 characters. [rule 5.23: {}]",
                    "raw", "    Refused by 23: {}0 characters. [rule 5.23: {}]"]
        why = "the line is not 56 or 64 digits of lower-case hexadecimal; it has "
        self.assertEqual(said.splitlines(), [line.format(why, rules.QUESTIONS[23][0]) for line in expected])

    def test_a_site_too_large_for_the_program(self):
        wide = SETTINGS.replace("dates 2", "dates 400").replace("sessions 2", "sessions 16")
        wide = wide.replace("visitors 3", "visitors 512")
        typed_text = f"{wide}\nadd-leave visitor 511 date 399\nadd-standing meeting 1 sessions 6383..6399\n" \
                     "add-attend meeting 1 visitor 511 session 6399\nadd-conf room 1 meeting 1 session 6399 info 8\n"
        self.assertGreater(typed.parse_line(wide, True).book_length(), rules.MOST_WORDS)
        self.assertEqual(self.paged(399, typed_text), (" 6399   1   1     1          8\n", ""))
        self.assertEqual(self.paged(398, typed_text), ("", ""))

    def test_seeded_streams(self):
        """The pages of sites of all sizes are the second program's."""
        count, dates = 0, 0
        for seed in SEEDS:
            for damage in ([], ["damaged"]):
                command = [built("gen"), str(seed), "300", *damage]
                stream = subprocess.run(command, capture_output=True, check=True).stdout
                settings = (lines.read_lines(stream.decode("utf-8", "surrogateescape")) or [None])[0]
                good = isinstance(settings, rules.Settings) and settings.book_length() <= rules.MOST_WORDS
                for date in range(min(settings.limit("dates"), 6) if good else 0):
                    expected = subprocess.run([built("page"), str(date)], input=stream, capture_output=True, check=True)
                    page, _ = self.paged(date, stream)
                    self.assertEqual(page, expected.stdout.decode())
                    count, dates = count + len(page.splitlines()), dates + 1
        print(f"seeds {', '.join(map(str, SEEDS))}: pages of {dates} dates, {count} lines", flush=True)
        self.assertGreater(count, 30)

    def test_every_complaint(self):
        past = "Refused by 7: there is no date {}; the dates here are 0 to 1. [rule 5.7: " + rules.QUESTIONS[7][0] + "]"
        for date in ("2", "4294967295"):
            self.complains(past.format(date), "page", date, given=SETTINGS)
        bad = "Refused by 24: these are not good settings, {}. [rule 5.24: " + rules.QUESTIONS[24][0] + "]"
        few = "there are 7 numbers, and settings have 10 before the capacities"
        cases = {"": "it is not whole words of lower-case hexadecimal", "raw 00000002":
                 "there are 1 numbers, and settings have 10 before the capacities", "add-leave visitor 0 date 0": few}
        for given, why in cases.items():
            self.complains(bad.format(why), "page", "0", given=given)
        self.complains("'x' is not a number", "page", "x", given=SETTINGS)
        self.complains("4294967296 does not fit in 32 bits", "page", "4294967296", given=SETTINGS)
        self.complains("line 2: add-leave lacks dates", "page", "0", given=f"{SETTINGS}\nadd-leave visitor 0")
        self.complains("line 1: dates 401 is not from 1 to 400", "page", "0",
                       given=SETTINGS.replace("dates 2", "dates 401"))

    def test_no_library(self):
        with tempfile.TemporaryDirectory() as place:
            shutil.copytree(ROOT / "tools", Path(place) / "tools")
            command = [Path(place) / "tools" / "caviar", "page", "0"]
            done = subprocess.run(command, input=SETTINGS.encode(), capture_output=True)
        self.assertEqual((done.returncode, done.stdout), (2, b""))
        start = "caviar: no library with these functions, `tools/build-library` makes it: "
        self.assertTrue(done.stderr.decode().startswith(start), done.stderr)


class Parties(Tested):
    """Guests of a meeting, all or none, on a site."""

    def test_the_conversation(self):
        """A site with parties is answered as written down, and so is each party by the command, on what comes before."""
        settings, _, told = (ROOT / "tools" / "conversations" / "parties.txt").read_text().partition("\n")
        asked, numbers = [settings], set()
        for request, sentence in re.findall(r"^(\S.*)\n(    .*\n)", told, re.MULTILINE):
            if request.startswith("party "):
                status, out, _ = caviar(*request.split(), given="\n".join(asked))
                self.assertEqual((status, out.decode()), (0, f"{request}\n{sentence}"))
                numbers |= {int(number) for number in re.findall(r"Refused by (\d+)", sentence)}
            asked.append(request)
        self.assertEqual(numbers, {5, 6, 7, 9, 10, 11, 13, 27})
        entries = typed.parse_text("\n".join(asked), calls=True)
        self.assertEqual([typed.typed(entry) for entry in entries], asked)
        self.assertEqual("".join(line + "\n" for line in explain.explained(entries, main.answered(entries)[1])), told)

    def test_sizes(self):
        site = f"{SETTINGS}\nadd-leave visitor 0 dates 0..1\n"
        guests = ["visitor 0 session 1"] * 65
        said_of = {0: "0 guests are not", 65: "65 guests are not", 64: "guest 1 of 64: meeting 0 does"}
        for count, said in said_of.items():
            out = self.wrote("party", "meeting 0 " + ", ".join(guests[:count]), given=site).decode().splitlines()
            self.assertEqual(out[0].count("visitor"), count)
            self.assertIn(said, out[1])

    def test_a_party_in_a_site(self):
        """The page counts the guests of parties that were done; those that were refused are told."""
        site = [SETTINGS, "add-leave visitor 0 date 1", "add-standing meeting 1 sessions 2..3",
                "add-conf room 0 meeting 1 session 2", "party meeting 1 visitor 0 session 2",
                "party meeting 1, visitor 0 session 3, visitor 1 session 3"]
        status, out, said = caviar("page", "1", given="\n".join(site))
        self.assertEqual((status, out), (0, b"    2   0   1     1          0\n"))
        why = "Refused by 9 at guest 2 of 2: visitor 1 has no leave on date 1 (session 3); nobody was added."
        refused = ["caviar: requests that were refused and left no mark on this page: 1",
                   "party meeting 1 visitor 0 session 3, visitor 1 session 3", f"    {why} {explain.question(9)}"]
        self.assertEqual(said.splitlines(), refused)

    def test_every_party_has_its_words(self):
        rng = random.Random(20_261_116)
        for _ in range(2000):
            draw = [rng.choice([rng.randrange(9), rng.randrange(2 ** 32)]) for _ in range(1 + 3 * rng.randrange(6))]
            guests = tuple(Guest(*draw[at:at + 3]) for at in range(1, len(draw), 3))
            party = Party(draw[0], guests)
            self.assertEqual(typed.parse_line(typed.typed(party), False, calls=True), party)

    def test_seeded_sites(self):
        """Parties on sites of all sizes have the second program's answers, and sentences that fit them."""
        rng, numbers = random.Random(20_261_117), []
        for seed in SEEDS:
            stream = subprocess.run([built("gen"), str(seed), "300"], capture_output=True, check=True).stdout
            entries = lines.read_lines(stream.decode())
            book, _ = library.played(entries[0], entries[1:])
            for _ in range(40):
                party = self.drawn(rng, entries)
                words = [str(word) for word in (party.meeting, *(word for guest in party.guests for word in guest))]
                expected = subprocess.run([built("party"), *words], input=stream, capture_output=True, check=True)
                copy = type(book).from_buffer_copy(book)
                answer = library.admitted(copy, party)
                self.assertEqual(list(answer[:3]), lines.read_answer(expected.stdout.decode().strip()))
                self.assertTrue(explain.sentence_of_party(entries[0], party, answer))
                self.assertEqual(bytes(copy) == bytes(book), answer[0] != 0)
                numbers.append(answer[0])
        print(f"seeds {', '.join(map(str, SEEDS))}: {len(numbers)} parties, numbers {sorted(set(numbers))}", flush=True)
        self.assertLessEqual({0, 6, 7, 9, 10, 11, 27}, set(numbers))

    @staticmethod
    def drawn(rng, entries):
        """A party near what the requests of kind 10 of a site ask for."""
        requests = [entry.request if isinstance(entry, Order) else entry for entry in entries]
        asked = [entry for entry in requests if isinstance(entry, Request) and entry.kind in (8, 10)]
        meeting = rng.choice(asked).a
        near = [entry for entry in asked if entry.a == meeting]
        visitors = entries[0].limit("visitors")
        guests = []
        for _ in range(rng.choice([0, 1, 1, 1, 2, 3])):
            first, last = rng.choice(near)[3:5]
            visitor = rng.choice([rng.randrange(visitors), rng.randrange(visitors), visitors + rng.randrange(2)])
            guests.append(Guest(visitor, *rng.choice([(first, first), (first, last), (last, last), (last, first)])))
        return Party(meeting, tuple(guests))

    def test_every_complaint(self):
        begins = f"a party begins with its meeting, as in: {typed.A_PARTY}"
        cases = {
            "meeting": begins, "visitor 1 session 0 meeting 0": begins, "0 visitor 1": begins,
            "meeting x visitor 1 session 0": "'x' is not a number",
            "meeting 0 visitor 1": "a guest lacks sessions",
            "meeting 0 session 1": "a guest lacks visitor",
            "meeting 0 visitor 1 first 1": "a guest lacks last",
            "meeting 0 visitor 1 dates 0": "a guest takes no 'dates'; it takes visitor, sessions",
            "meeting 0 visitor 1 session 0 last 1": "'last' says again what was said before",
            "meeting 0 visitor 1 session": "nothing comes after 'session'",
            "meeting 0 visitor 1 session 0,": "a comma stands between two guests",
            "meeting 0 visitor 1 session 0,, visitor 2 session 0": "a comma stands between two guests",
            "meeting 0 visitor 4294967296 session 0": "4294967296 does not fit in 32 bits",
        }
        for words, message in cases.items():
            self.complains(message, "party", words, given=SETTINGS)
            self.complains(f"line 2: {message}", "page", "0", given=f"{SETTINGS}\nparty {words}")
        why = "these are not good settings, it is not whole words of lower-case hexadecimal"
        self.complains(f"Refused by 24: {why}. {explain.question(24)}", "party", "meeting", "0")


class Asking(Tested):
    """What a request would be answered, and the request at a count."""

    def test_the_conversation(self):
        """A site with asks and commits is told what is written down, and so is each of them by its command."""
        settings, _, told = (ROOT / "tools" / "conversations" / "offices.txt").read_text().partition("\n")
        site, kinds = [settings], []
        for call, sentence in re.findall(r"^(\S.*)\n(    .*\n)", told, re.MULTILINE):
            if call.startswith(("ask ", "commit ")):
                status, out, _ = caviar(*call.split(), given="\n".join(site))
                self.assertEqual((status, out.decode()), (0, f"{call}\n{sentence}"))
                told_so = re.match(r" +(Done|Would be done|Refused by 29|\S+)", sentence).group(1)
                kinds.append((call.split()[0], told_so))
            site.append(call)
        wanted = {("ask", "Would be done"), ("ask", "Would"), ("commit", "Done"), ("commit", "Refused by 29"),
                  ("commit", "Refused")}
        self.assertLessEqual(wanted, set(kinds))
        entries = typed.parse_text("\n".join(site), calls=True)
        self.assertEqual([typed.typed(entry) for entry in entries], site)
        self.assertEqual("".join(line + "\n" for line in explain.explained(entries, main.answered(entries)[1])), told)

    def test_asks_leave_no_mark(self):
        """The page of a site with asks, also refused ones, is that of the site without; a commit joins the site."""
        site = [SETTINGS, "add-standing meeting 1 sessions 2..3"]
        asks = ["ask add-conf room 0 meeting 1 session 2", "ask add-conf room 9 meeting 1 session 2"]
        self.assertEqual(caviar("page", "1", given="\n".join(site + asks)), (0, b"", ""))
        commits = ["commit 1 add-conf room 0 meeting 1 session 2", "commit 1 add-conf room 1 meeting 1 session 2"]
        status, out, said = caviar("page", "1", given="\n".join(site + asks + commits))
        self.assertEqual((status, out), (0, b"    2   0   1     0          0\n"))
        refused = ["caviar: requests that were refused and left no mark on this page: 1", commits[1],
                   f"    Refused by 29: the change count is 2 by now, not 1. {explain.question(29)}"]
        self.assertEqual(said.splitlines(), refused)

    def test_the_greatest_count(self):
        """No list of lines reaches it, so the book's last word is changed; the sentences say why nothing is counted."""
        settings = typed.parse_line(SETTINGS, True)
        site = [Request(1, 0, 0, 0, 1), Request(8, 1, 0, 0, 3)]
        book, _ = library.played(settings, site)
        book[len(book) - 1] = rules.MOST_CHANGES
        leave, query, attend = Request(1, 0, 1, 0, 0), Request(18), Request(10, 1, 1, 0, 0)
        cannot = "the change count is 4294967295 and cannot rise"
        self.assertEqual(library.answered(book, [leave, query]), [(30, 0, 0), (0, 0, 1)])
        told = explain.sentence(settings, leave, (30, 0, 0))
        self.assertEqual(told, f"Refused by 30: {cannot}. {explain.question(30)}")
        told = explain.sentence(settings, Ask(leave), library.asked(book, Ask(leave)))
        self.assertEqual(told, f"Would be refused by 30 at count 4294967295: {cannot}. {explain.question(30)}")
        told = explain.sentence(settings, Ask(attend), library.asked(book, Ask(attend)))
        self.assertTrue(told.startswith("Would be refused by 9 at count 4294967295: "), told)
        done = Party(1, (Guest(0, 0, 1), Guest(0, 2, 2)))
        told = explain.sentence(settings, done, library.admitted(book, done))
        self.assertEqual(told, f"Refused by 30: {cannot}; nobody was added. {explain.question(30)}")
        second = Party(1, (Guest(0, 0, 1), Guest(1, 2, 2)))
        told = explain.sentence(settings, second, library.admitted(book, second))
        self.assertTrue(told.startswith("Refused by 9 at guest 2 of 2: "), told)
        self.assertEqual(library.committed(book, Commit(rules.MOST_CHANGES, leave)), (30, 0, 0, rules.MOST_CHANGES))

    def test_every_ask_and_commit_has_its_words(self):
        rng = random.Random(20_261_118)
        for _ in range(3000):
            request = Request(rng.randrange(24), *(rng.choice([0, rng.randrange(2 ** 32)]) for _ in range(6)))
            for call in (Ask(request), Commit(rng.choice([0, rng.randrange(2 ** 32)]), request)):
                self.assertEqual(typed.parse_line(typed.typed(call), False, calls=True), call)

    def test_seeded_sites(self):
        """What asking tells on sites of all sizes is what the second program answers to the request as a further line,
        and a commit at the count that was told is answered so. The book, its count included, is the second program's."""
        rng, numbers = random.Random(20_261_119), []
        for seed in SEEDS:
            stream = subprocess.run([built("gen"), str(seed), "300"], capture_output=True, check=True).stdout
            entries = lines.read_lines(stream.decode())
            requests = [entry.request if isinstance(entry, Order) else entry for entry in entries[1:]]
            book, _ = library.played(entries[0], entries[1:])
            for request in rng.sample(requests, 30):
                number, place, value, count = library.asked(book, Ask(request))
                line = lines.written(request).encode() + b"\n"
                expected = answered(built("frames"), stream + line).decode().splitlines()[-1]
                self.assertEqual([number, place, value], lines.read_answer(expected))
                self.assertTrue(explain.sentence(entries[0], Ask(request), (number, place, value, count)))
                copy = type(book).from_buffer_copy(book)
                self.assertEqual(library.committed(copy, Commit(count + 1, request)), (29, 0, 0, count))
                self.assertEqual(bytes(copy), bytes(book))
                self.assertEqual(library.committed(copy, Commit(count, request))[:3], (number, place, value))
                numbers.append(number)
            traced = subprocess.run([built("trace")], input=stream, capture_output=True, check=True).stdout.decode()
            self.assertEqual(list(book), lines.words_of(traced.splitlines()[-1]))
        print(f"seeds {', '.join(map(str, SEEDS))}: {len(numbers)} asks, numbers {sorted(set(numbers))}", flush=True)
        self.assertGreater(len(set(numbers)), 8)

    def test_every_complaint(self):
        asking = {
            "party meeting 0": "there is no kind 'party'; asking is about a request",
            "order 5 18 date 0": "there is no kind 'order'; asking is about a request",
            "add-leave visitor 1": "add-leave lacks dates",
            "add-hotl": "there is no kind 'add-hotl'; did you mean add-hotel?",
        }
        committing = {
            "5": f"a commit has a count and a request, as in: {typed.A_COMMIT}",
            "x 18 date 0": "'x' is not a number",
            "4294967296 18 date 0": "4294967296 does not fit in 32 bits",
            "5 ask 18 date 0": "there is no kind 'ask'; a commit carries a request",
            "5 add-leave dates 0": "add-leave lacks visitor",
        }
        for command, cases in (("ask", asking), ("commit", committing)):
            for words, message in cases.items():
                self.complains(message, command, *words.split(), given=SETTINGS)
                self.complains(f"line 2: {message}", "page", "0", given=f"{SETTINGS}\n{command} {words}")
        lacking = f"line 2: asking is about a request, as in: {typed.AN_ASK}"
        self.complains(lacking, "page", "0", given=f"{SETTINGS}\nask")


class Charges(Tested):
    """What a meeting costs."""

    def test_the_conversation(self):
        """A site with charges is told what is written down, and so is each charge by the command."""
        settings, _, told = (ROOT / "tools" / "conversations" / "bill.txt").read_text().partition("\n")
        site, numbers = [settings], set()
        for call, sentence in re.findall(r"^(\S.*)\n(    .*\n)", told, re.MULTILINE):
            if call.startswith("charge "):
                status, out, _ = caviar(*call.split(), given="\n".join(site))
                self.assertEqual((status, out.decode()), (0, f"{call}\n{sentence}"))
                numbers |= {int(number) for number in re.findall(r"Refused by (\d+)", sentence)}
            site.append(call)
        self.assertEqual(numbers, {6, 7, 31})
        entries = typed.parse_text("\n".join(site), calls=True)
        self.assertEqual([typed.typed(entry) for entry in entries], site)
        self.assertEqual("".join(line + "\n" for line in explain.explained(entries, main.answered(entries)[1])), told)

    def test_money(self):
        shown = {0: "0.00", 1: "0.01", 99: "0.99", 100: "1.00", 123456: "1,234.56", 409_600_000_000: "4,096,000,000.00"}
        for cents, text in shown.items():
            self.assertEqual(explain.money(cents), text)

    def test_a_charge_of_64_bits(self):
        site = [SETTINGS.replace("dates 2", "dates 5").replace("capacities 4", "capacities 1000"),
                "add-standing meeting 0 sessions 0..9", "add-lunch dining 0 meeting 0 dates 0..4 seats 1000"]
        call = "charge meeting 0 dates 0..4 room 0 seat 1000000"
        told = "Done: meeting 0 costs 50,000,000.00 (5000000000 cents) on dates 0 to 4."
        self.assertEqual(self.wrote(*call.split(), given="\n".join(site)).decode(), f"{call}\n    {told}\n")

    def test_every_charge_has_its_words(self):
        rng = random.Random(20_261_120)
        for _ in range(2000):
            charge = Charge(*(rng.choice([0, rng.randrange(9), rng.randrange(2 ** 32)]) for _ in range(6)))
            self.assertEqual(typed.parse_line(typed.typed(charge), False, calls=True), charge)
            by_fields = " ".join(f"{field} {value}" for field, value in reversed(charge._asdict().items()))
            self.assertEqual(typed.parse_line(f"charge {by_fields}", False, calls=True), charge)

    def test_answers_that_cannot_be(self):
        settings = typed.parse_line(SETTINGS, True)
        good, bad = Charge(0, 0, 1, 1, 1, 0), Charge(0, 0, 1, 1, 1, 101)
        with self.assertRaisesRegex(Problem, "this charge is done"):
            explain.sentence(settings, good, (31, 0, 0))
        with self.assertRaisesRegex(Problem, "this charge is refused by 31"):
            explain.sentence(settings, bad, (0, 0, 7))

    def test_every_complaint(self):
        cases = {
            "meeting 0": "a charge lacks dates, room, seat",
            "dates 0..1 room 1 seat 1": "a charge lacks meeting",
            "meeting 0 first 1 room 1 seat 1": "a charge lacks last",
            "meeting 0 dates 0 room 1": "a charge lacks seat",
            "meeting 0 dates 0 room 1 seat 1 seats 3":
                "a charge takes no 'seats'; it takes meeting, dates, room, seat, percent",
            "meeting 0 dates 0 room 1 seat 1 last 1": "'last' says again what was said before",
            "meeting 0 dates 0 room x seat 1": "'x' is not a number",
            "meeting 0 dates 0 room 1 seat 4294967296": "4294967296 does not fit in 32 bits",
            "meeting 0 dates": "nothing comes after 'dates'",
        }
        for words, message in cases.items():
            self.complains(message, "charge", *words.split(), given=SETTINGS)
            self.complains(f"line 2: {message}", "page", "0", given=f"{SETTINGS}\ncharge {words}")


class Commands(Tested):
    """The tables, the help, and commands that are none."""

    def test_the_tables(self):
        table = self.wrote("table").decode().splitlines()
        self.assertEqual([int(line.split()[0]) for line in table[:31]], list(range(1, 32)))
        self.assertTrue(all(question in line for line, (question, _) in zip(table, rules.QUESTIONS.values())))
        kinds = self.wrote("kinds").decode().splitlines()
        self.assertEqual([line.split()[:2] for line in kinds], [[str(kind.number), kind.name] for kind in rules.KINDS])

    def test_help(self):
        for arguments in ([], ["frame"], ["words"], ["explain"], ["page"], ["party"], ["ask"], ["commit"],
                          ["charge"], ["table"], ["kinds"]):
            self.assertIn(b"usage: caviar " + " ".join(arguments).encode(), self.wrote(*arguments, "--help"))

    def test_commands_that_are_none(self):
        for arguments in ([], ["fram"], ["table", "1"], ["explain", "--with"], ["explain", "--without"], ["page"],
                          ["page", "0", "1"], ["party"], ["ask"], ["commit"], ["charge"]):
            status, out, complaint = caviar(*arguments)
            self.assertEqual((status, out), (2, b""))
            self.assertTrue(complaint.startswith("usage: caviar"), complaint)

    def test_nobody_reads(self):
        reading, writing = os.pipe()
        os.close(reading)
        done = subprocess.run([CAVIAR, "kinds"], stdout=writing, stderr=subprocess.PIPE)
        os.close(writing)
        self.assertEqual((done.returncode, done.stderr), (0, b""))

    def test_the_length_of_a_book(self):
        self.assertEqual(typed.parse_line(SETTINGS, True).book_length(), 771)
        largest = rules.settings_of(list(rules.LIMITS.values()) + [95] + [1000] * 16)
        self.assertEqual(largest.book_length(), 9_402_332)
        self.assertEqual(lines.read_first("zz"), Raw("zz"))
        self.assertRaises(Problem, lines.settings_in, "zz")


class Documents(Tested):
    """The tables of the documents are those of the tool."""

    @staticmethod
    def rows(path, pattern):
        """What a pattern finds in a document, line by line."""
        return re.findall(pattern, (ROOT / path).read_text(), re.MULTILINE)

    @staticmethod
    def asked(kind):
        """The questions of a kind past 7."""
        return [number for number in range(8, 23) if kind.number in rules.QUESTIONS[number][1]]

    def test_the_table_of_kinds_in_the_rules(self):
        expected = []
        for kind in rules.KINDS:
            slots = f"one {kind.unit}" if kind.one else f"{kind.unit}s"
            also = ", ".join(["n"] * kind.seats + ["info"] * kind.info)
            nouns = [thing.noun if thing else "" for thing in (kind.a, kind.b)]
            expected.append([str(kind.number), kind.name, *nouns, slots, also, ", ".join(map(str, self.asked(kind)))])
        found = self.rows("docs/RULES.md", r"^\| (\d+) \| ([a-z-]+) \|(.*)\|$")
        self.assertEqual([[number, name, *map(str.strip, rest.split("|"))] for number, name, rest in found], expected)

    def test_the_kinds_of_the_questions(self):
        """Rules 5.8 to 5.22 and the header's table of numbers say of which kinds a question is asked."""
        for path, pattern in (("docs/RULES.md", r"^\*\*5\.(\d+)\*\* [^.(]*\(([\d, ]+)\)"),
                              ("include/caviar.h", r"^ \* +(\d+)  [^(\n]*\(([\d, ]+)\)")):
            found = {int(number): tuple(map(int, kinds.split(", "))) for number, kinds in self.rows(path, pattern)}
            found[10] = (10, 12, 14)
            self.assertEqual(found, {number: rules.QUESTIONS[number][1] for number in range(8, 23)}, path)

    def test_the_limits(self):
        for path, pattern in (("docs/RULES.md", r"^\| \d \| [A-Z] \| .* \| 1 \| (\d+) \|$"),
                              ("include/caviar.h", r"^ \*     \d  [A-Z]   .* (\d+)$")):
            self.assertEqual([int(most) for most in self.rows(path, pattern)], list(rules.LIMITS.values()), path)

    def test_the_tour_of_the_readme(self):
        told = (ROOT / "tools" / "conversations" / "site.txt").read_text().partition("\n")[2]
        indented = "".join(f"    {line}\n" for line in told.splitlines())
        self.assertIn(indented, (ROOT / "README.md").read_text())

    def test_the_page_of_the_readme_and_of_the_rules(self):
        status, page, _ = caviar("page", "1", given=(ROOT / "examples" / "site.txt").read_bytes())
        self.assertEqual(status, 0)
        indented = "".join(f"    {line}\n" for line in page.decode().splitlines())
        command = "    $ tools/caviar page 1 < examples/site.txt 2> refused\n"
        self.assertIn(f"{command}{indented}\n", (ROOT / "README.md").read_text())
        self.assertIn(f"\n\n{indented}", (ROOT / "docs" / "RULES.md").read_text())

    def as_shown(self, words, site, count):
        """So many commands of the README on a site, each with what it writes, as the README shows it."""
        command = rf"^    \$ tools/caviar ((?:{words}) .*) < (examples/{site})\n((?:    .*\n)+?)(?=\n|    \$)"
        shown = re.findall(command, (ROOT / "README.md").read_text(), re.MULTILINE)
        self.assertEqual(len(shown), count)
        for typed, lent, expected in shown:
            out = self.wrote(*typed.split(), given=(ROOT / lent).read_bytes()).decode()
            self.assertEqual("".join(f"    {line}\n" for line in out.splitlines()), expected)

    def test_the_parties_of_the_readme(self):
        self.as_shown("party", "coach.txt", 2)

    def test_the_offices_of_the_readme(self):
        self.as_shown("ask|commit", "offices.txt", 3)

    def test_the_bill_of_the_readme(self):
        self.as_shown("charge", "bill.txt", 2)

    def test_the_orders_of_the_readme(self):
        typed_text = (ROOT / "examples" / "orders.txt").read_bytes()
        told = self.explained(typed_text, answered(PROVED, self.wrote("frame", given=typed_text))).decode()
        indented = "".join(f"    {line}\n" for line in told.splitlines())
        command = "    $ tools/caviar explain --with examples/orders.txt < answers\n"
        self.assertIn(f"{command}{indented}\n", (ROOT / "README.md").read_text())

    def test_the_taxis_of_the_readme(self):
        """The site as it is typed, without its comments, and its answers in words."""
        readme = (ROOT / "README.md").read_text()
        typed_text = (ROOT / "examples" / "taxis.txt").read_text()
        settings = next(line for line in typed_text.splitlines() if line.startswith("settings"))
        self.assertIn(f"    {settings}\n", readme)
        framed = self.wrote("frame", given=typed_text)
        for program in programs():
            told = self.explained(typed_text.encode(), answered(program, framed)).decode()
            indented = "".join(f"    {line}\n" for line in told.splitlines())
            command = "    $ tools/caviar explain --with examples/taxis.txt < answers\n"
            self.assertIn(f"{command}{indented}\n", readme)

    def test_the_settings_of_the_readme(self):
        """The tour's first lines are those that the tool writes, and the example of the rules begins with the same."""
        framed = self.wrote("frame", given=(ROOT / "examples" / "site.txt").read_bytes()).decode().splitlines()
        self.assertEqual(framed[0], SETTINGS_LINE)
        head = "".join(f"    {line}\n" for line in framed[:3])
        self.assertIn(f"    $ head -n 3 lines\n{head}", (ROOT / "README.md").read_text())
        self.assertIn(f"    {SETTINGS_LINE}\n", (ROOT / "docs" / "RULES.md").read_text())

    def test_the_early_times_of_the_rules(self):
        """The table of rule 13.5."""
        rule = (ROOT / "docs" / "RULES.md").read_text().partition("**13.5** Settings ")[2].partition("\n## ")[0]
        settings = rules.settings_of([int(word) for word in rule.partition(":")[0].split()])
        rows = re.findall(r"^\| ((?:\d+ ){6}\d+) \| (\d+) (\d+) (\d+) \|", rule, re.MULTILINE)
        self.assertEqual((settings.early, len(rows)), (1, 11))
        requests = [Request(*map(int, words.split())) for words, *_ in rows]
        expected = [tuple(map(int, answer)) for _, *answer in rows]
        self.assertEqual(main.answered([settings, *requests])[1], expected)

    def test_the_orders_of_the_rules(self):
        """The table of rule 18.8."""
        rows = self.rows("docs/RULES.md", r"^\| (\d+) \| ((?:\d+ ){6}\d+) \| (\d+) (\d+) (\d+) \|")
        self.assertEqual(len(rows), 10)
        orders = [Order(int(order), Request(*map(int, words.split()))) for order, words, *_ in rows]
        entries = [typed.parse_line(SETTINGS, True), *orders]
        expected = [tuple(map(int, answer)) for _, _, *answer in rows]
        self.assertEqual(main.answered(entries)[1], expected)
        book, _ = library.played(entries[0], orders)
        self.assertEqual((book[65:76], book[109], book[769]), ([16, 4, 0, 1, 0, 1, 0, 0, 9, 0, 0], 20, 5))

    def test_the_offices_of_the_rules(self):
        """The table of rule 19.7."""
        rule = (ROOT / "docs" / "RULES.md").read_text().partition("**19.7** ")[2]
        row = r"^\| (ask|request|commit) \| (\d*) ?\| ((?:\d+ ){6}\d+) \| (\d+) (\d+) (\d+)(?:, (\d+))? \|"
        calls, expected = [], []
        for sort, count, words, *told in re.findall(row, rule, re.MULTILINE):
            request = Request(*map(int, words.split()))
            calls.append({"ask": Ask(request), "request": request}.get(sort) or Commit(int(count), request))
            expected.append(tuple(map(int, filter(None, told))))
        self.assertEqual(len(calls), 13)
        book, answers = library.played(typed.parse_line(SETTINGS, True), calls)
        told = [answer if isinstance(call, Ask) else answer[:3] for call, answer in zip(calls, answers)]
        self.assertEqual((told, book[len(book) - 1]), (expected, 5))

    def test_the_bill_of_the_rules(self):
        """The table of rule 20.7, on the site of examples/bill.txt, whose requests are those that the rule names."""
        rule = (ROOT / "docs" / "RULES.md").read_text().partition("**20.7** ")[2]
        row = r"^\| (\d+) \| (\d+) to (\d+) \| (\d+) (\d+) (\d+) \| (\d+) (\d+) \|"
        rows = [tuple(map(int, words)) for words in re.findall(row, rule, re.MULTILINE)]
        self.assertEqual(len(rows), 14)
        entries = typed.parse_text((ROOT / "examples" / "bill.txt").read_text())
        named = rule.partition("`examples/bill.txt`")[0].replace("\n", " ")
        found = [tuple(map(int, words.split())) for words in re.findall(r"\b((?:\d+ ){6}\d+)(?=[,;: ]|$)", named)]
        self.assertEqual(found[-8:], [tuple(entry) for entry in entries[1:]])
        book, answers = library.played(entries[0], entries[1:])
        self.assertEqual(answers, [(0, 0, 0)] * 8)
        told = [library.charged(book, Charge(*words[:6])) for words in rows]
        self.assertEqual(told, [(number, 0, value) for *_, number, value in rows])

    def test_the_numbers_of_the_documents(self):
        """The tables of refusal numbers go as far as the tool's."""
        numbers = list(rules.QUESTIONS)
        self.assertEqual(sorted({int(number) for number in self.rows("docs/RULES.md", r"^\*\*5\.(\d+)\*\*")}), numbers)
        header = (ROOT / "include" / "caviar.h").read_text().partition("number  means")[2].partition("\n *\n")[0]
        self.assertEqual([int(number) for number in re.findall(r"^ \* {5,6}(\d+)  ", header, re.MULTILINE)], numbers)
        readme = (ROOT / "README.md").read_text().partition("| number | means |")[2].partition("\n\n")[0]
        self.assertEqual([int(number) for row in re.findall(r"^\| ([\d, ]+) \|", readme, re.MULTILINE)
                          for number in row.split(", ")], numbers)


if __name__ == "__main__":
    unittest.main()
