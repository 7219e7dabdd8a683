"""Every call of the module, its refusals and limits, and both examples."""

import copy
import ctypes
import doctest
import os
import pickle
import re
import shutil
import subprocess
import sys
import tempfile
import threading
import unittest
from concurrent.futures import ThreadPoolExecutor
from contextlib import suppress
from itertools import combinations_with_replacement, product
from pathlib import Path
from typing import Any, Callable, Dict, List, NamedTuple, Optional
from unittest import mock

PYTHON = Path(__file__).resolve().parents[1]
LIBRARY = PYTHON.parent
EXAMPLES = LIBRARY.parent / "examples"
OFFICES = ("purchasing", "leave", "access", "access-strict")

sys.path.insert(0, str(PYTHON))

import placelist  # noqa: E402
from placelist import (  # noqa: E402
    Balances, End, Judgement, LogSize, MissingToken, Place, Refusal, RefusalKind, Rejected, Run,
    Settings, Variant, Verdict, Version, check, judge, reduce, replay, report, search, summarize,
    version, write,
)

# M1, M4, M7 and M11 of the written scope.
STRAIGHT = b"00000001000203040501\n"
REPEATED = b"0000000100040202030301\n"
FOUR_LINES = b"0000001F0002030401\n0000001B0003020401\n000000170002030501\n000000130003020501\n"
SHORT = b"00000001000201\n"
SHORT_SETTINGS = Settings(activities=3, inputs=2, outputs=2, threshold=0)
SHORT_FOUND = [Place(1, 2), Place(4, 2), Place(5, 6), Place(1, 4)]
PLACE = Place(1, 2)

# Every place fits at this threshold, so the list is soon full.
FULL = b"10020203E8\n000000010001\n"

SONAME = placelist._SONAME

# Numbers that no type holds; each but the last would wrap around to one that is in range.
UNFIT_BYTES = (256 + 3, 256 - 253 - 256, 2**64 + 3, 2**64)
UNFIT_HALVES = (65536, -65536, 2**64, -1)
UNFIT_SETS = (65536 + 1, 1 - 65536, 2**64 + 1, -1)


class Done(NamedTuple):
    """A program that ended."""

    returncode: int
    stdout: Optional[str]
    stderr: str


def execute(*arguments: object, cwd: Optional[Path] = None, stdout: Any = subprocess.PIPE,
            **variables: str) -> Done:
    """Runs Python with these arguments and further variables."""
    run = subprocess.run(
        [sys.executable, *map(str, arguments)], stdout=stdout, stderr=subprocess.PIPE, cwd=cwd,
        env={**os.environ, "PYTHONDONTWRITEBYTECODE": "1", **variables},
    )
    text = None if run.stdout is None else run.stdout.decode()
    return Done(run.returncode, text, run.stderr.decode())


MAPS = "/proc/self/maps"


def library_of(maps: str) -> Path:
    """The file of the shared object, from the memory map of a process that has loaded it."""
    return Path(next(line for line in maps.splitlines() if SONAME in line).split(maxsplit=5)[5])


class Worked(unittest.TestCase):
    """The worked cases of the written scope."""

    def test_balances(self) -> None:
        for activities, log, place, expected in [
            (6, STRAIGHT, Place(0x0001, 0x0004), (0, 0, None)),
            (6, STRAIGHT, Place(0x0004, 0x0030), (-1, -1, 4)),
            (6, STRAIGHT, Place(0x0030, 0x0002), (0, 1, None)),
            (6, REPEATED, Place(0x0004, 0x0030), (-1, 1, 1)),
            (6, REPEATED, Place(0x0001, 0x0004), (-1, -1, 3)),
            (3, SHORT, Place(0x0004, 0x0004), (-1, 0, 1)),
        ]:
            with self.subTest(log=log, place=place):
                self.assertEqual(replay(activities, log, place), Balances(*expected))

    def test_threshold(self) -> None:
        self.assertEqual(check(6, FOUR_LINES), LogSize(frames=4, cases=100))
        for threshold, verdict in [(419, Verdict.OVERFED), (420, Verdict.FITTING)]:
            answer = judge(6, threshold, FOUR_LINES, Place(0x0001, 0x0010))
            self.assertEqual(answer, Judgement(58, 0, 42, 0, verdict, None))
            self.assertIs(type(answer.verdict), Verdict)

    def test_cache_sizes(self) -> None:
        for cache, stored, replays in [(15, 15, 19), (40, 15, 19), (1, 1, 34), (0, 0, 36)]:
            run = search(SHORT_SETTINGS, SHORT, budget=36, cache=cache, room=6)
            self.assertEqual(run, Run(End.COMPLETE, SHORT_FOUND, run.rejected, replays, 36))
            self.assertEqual(len(run.rejected), stored)

    def test_rejected_places(self) -> None:
        run = search(SHORT_SETTINGS, SHORT)
        self.assertEqual(len(run.rejected), 15)
        for rejected in run.rejected:
            self.assertIs(type(rejected), Rejected)
            self.assertIs(rejected.mark, judge(3, 0, SHORT, rejected.place).verdict)
            self.assertIsNot(rejected.mark, Verdict.FITTING)

    def test_search_stops_early(self) -> None:
        run = search(SHORT_SETTINGS, SHORT, budget=4, cache=4, room=4)
        self.assertEqual((run.end, run.replays, run.visits), (End.BUDGET_SPENT, 4, 18))
        run = search(SHORT_SETTINGS, SHORT, 36, 15, 0)
        self.assertEqual((run.end, run.found, run.replays, run.visits), (End.LIST_FULL, [], 5, 19))
        run = search(SHORT_SETTINGS, SHORT, budget=0)
        self.assertEqual(run, Run(End.BUDGET_SPENT, [], [], 0, run.visits))

    def test_reduction_and_writing(self) -> None:
        kept = [Place(1, 2), Place(4, 2), Place(1, 4)]
        self.assertEqual(reduce(SHORT_FOUND), kept)
        self.assertEqual(reduce(iter(SHORT_FOUND)), kept)
        self.assertEqual(write(kept), b"00010002\n00040002\n00010004\n")
        self.assertEqual((reduce([]), write([])), ([], b""))

    def test_report(self) -> None:
        for input, output in [
            (b"0303010000\n000000010001\n",
             b"00010002\n00050002\n00040004\n000000000C0000000F\n"),
            (b"", b"FF0100000000\n"),
            (b"030301000\n000000010001\n", b"FF0100000000\n"),
            (b"1103010000\n000000010001\n", b"FF0100000000\n"),
            (b"0303010000\n", b"FF0600000000\n"),
            (b"0303010000\n000000010001\n000000010201\n", b"FF0400000001\n"),
            (b"0" * placelist.MOST_INPUT, b"FF0100000000\n"),
            (b"0" * (placelist.MOST_INPUT + 1), b"FF0500000000\n"),
        ]:
            with self.subTest(input=input[:40]):
                self.assertEqual(report(input), output)

    def test_report_on_the_offices(self) -> None:
        for office in OFFICES:
            expected = (EXAMPLES / f"{office}.list").read_bytes()
            self.assertEqual(report((EXAMPLES / f"{office}.log").read_bytes()), expected, office)

    def test_docstrings(self) -> None:
        self.assertEqual(doctest.testmod(placelist).failed, 0)


class MissingTokens(unittest.TestCase):
    """Where the first token is missing."""

    def in_trace(self, log: bytes, place: Place) -> Optional[int]:
        balances = replay(16, log, place)
        self.assertIs(type(balances), Balances)
        self.assertEqual(balances.first_missing is None, balances.least == 0)
        return balances.first_missing

    def in_log(self, log: bytes, place: Place) -> Optional[MissingToken]:
        """It is the same at every threshold."""
        least, *others = (judge(16, threshold, log, place) for threshold in (0, 1, 500, 1000))
        first = least.first_underfed
        self.assertEqual(first is None, least.underfed + least.both == 0)
        self.assertIn(type(first), (MissingToken, type(None)))
        self.assertEqual([other.first_underfed for other in others], [first] * 3)
        return first

    def test_first_line(self) -> None:
        for place, expected in [
            (Place(0x0001, 0x0002), None),
            (Place(0x0001, 0x0010), None),
            (Place(0x0002, 0x0001), (0, 0)),
            (Place(0x0008, 0x0004), (0, 1)),
            (Place(0x0004, 0x0008), (1, 1)),
            (Place(0x0010, 0x0002), (2, 4)),
            (Place(0x0006, 0x0008), (1, 1)),  # both underfed and overfed
        ]:
            with self.subTest(place=place):
                self.assertEqual(self.in_log(FOUR_LINES, place), expected)

    def test_threshold(self) -> None:
        for threshold, verdict in [(419, Verdict.UNDERFED), (420, Verdict.FITTING)]:
            answer = judge(6, threshold, FOUR_LINES, Place(0x0010, 0x0002))
            token = MissingToken(line=2, event=4)
            self.assertEqual(answer, Judgement(58, 42, 0, 0, verdict, token))

    def test_largest_indices(self) -> None:
        longest = b"0000000100" + b"02" * 252 + b"01\n"
        place = Place(0x0008, 0x0002)
        self.assertEqual(self.in_trace(longest, place), 253)
        log = b"00000001000301\n" * 4095 + longest
        self.assertEqual(self.in_log(log, place), (4095, 253))

    def plainly(self, line: bytes, place: Place) -> Optional[int]:
        """The first event of a line at which a token is missing, by the definition."""
        codes = bytes.fromhex(line[8:].decode())
        balance = 0
        for event, code in enumerate(codes):
            balance -= code in place.output_codes
            if balance < 0:
                return event
            balance += code in place.input_codes
        return None

    def expect_plainly(self, log: bytes, place: Place) -> None:
        events = [self.plainly(line, place) for line in log.splitlines()]
        tokens = (token for token in enumerate(events) if token[1] is not None)
        self.assertEqual(self.in_trace(log, place), events[0])
        self.assertEqual(self.in_log(log, place), next(tokens, None))

    def test_offices(self) -> None:
        inputs = combinations_with_replacement(range(11), 2)
        outputs = [{1}, {3}, {4, 5}, {0, 9}]
        for office, *codes in product(OFFICES[:3], inputs, outputs):
            log = (EXAMPLES / f"{office}.log").read_bytes()[11:]
            with self.subTest(office=office, codes=codes):
                self.expect_plainly(log, Place.from_codes(*codes))


class Variants(unittest.TestCase):
    """The summary of a log: what is of one variant, and the order of variants."""

    def test_worked_cases(self) -> None:
        for log, expected in [
            (b"000000010001\n", [(0, 1, 1)]),
            # one variant in three orders
            (b"000000010002030401\n000000020004030201\n000000030003020401\n", [(0, 3, 6)]),
            # the same activities, but not equally often
            (b"000000030002020301\n000000020002030301\n000000010002030201\n",
             [(0, 2, 4), (1, 1, 2)]),
            # falling cases, those of all frames of a variant
            (b"00000005000201\n00000001000301\n0000000300020301\n0000000300030201\n",
             [(2, 2, 6), (0, 1, 5), (1, 1, 1)]),
            # equal cases
            (b"000000010001\n00000001000301\n00000002000201\n00000001000301\n",
             [(1, 2, 2), (2, 1, 2), (0, 1, 1)]),
        ]:
            with self.subTest(log=log):
                answer = summarize(16, log)
                self.assertEqual(answer, expected)
                self.assertEqual({type(variant) for variant in answer}, {Variant})

    def test_largest_logs(self) -> None:
        """Of one variant, and of as many as a log can have."""
        most = placelist.MOST_FRAMES
        same = summarize(3, b"FFFFFFFF000201\n" * most)
        self.assertEqual(same, [Variant(0, most, most * (2**32 - 1))])
        frames = [b"0000000100" + b"02" * few + b"03" * some + b"04" * many + b"01\n"
                  for few, some, many in product(range(16), repeat=3)]
        different = summarize(5, b"".join(frames))
        self.assertEqual(different, [Variant(line, 1, 1) for line in range(most)])

    def plainly(self, log: bytes) -> List[Variant]:
        """The summary of a log, by the sorted activities of each frame."""
        variants: Dict[Any, Variant] = {}
        for line, frame in enumerate(log.splitlines()):
            activities = tuple(sorted(frame[at:at + 2] for at in range(8, len(frame), 2)))
            first, frames, cases = variants.get(activities, (line, 0, 0))
            variants[activities] = Variant(first, frames + 1, cases + int(frame[:8], 16))
        return sorted(variants.values(), key=lambda it: (-it.cases, it.first_line))

    def test_offices(self) -> None:
        for office in OFFICES:
            log = (EXAMPLES / f"{office}.log").read_bytes()[11:]
            answer = summarize(16, log)
            self.assertEqual(answer, self.plainly(log), office)
            _, frames, cases = map(sum, zip(*answer))
            self.assertEqual(check(16, log), LogSize(frames, cases))


class CaseCounts(unittest.TestCase):
    """Case counts of eight digits, and numbers of cases above 32 bits."""

    def counted(self, log: bytes, fitting: int, overfed: int, threshold: int) -> None:
        """That a log of cases 0, 2, 1, which fit a place, and of cases 0, 1, which overfeed it, has
        so many of each, and that this is the least threshold at which the place is not overfed.
        """
        self.assertEqual(check(3, log).cases, fitting + overfed)
        cases = [variant.cases for variant in summarize(3, log)]
        self.assertEqual(cases, sorted([fitting, overfed], reverse=True))
        for at, verdict in [(threshold - 1, Verdict.OVERFED), (threshold, Verdict.FITTING)]:
            answer = judge(3, at, log, Place(0x0001, 0x0004))
            self.assertEqual(answer, Judgement(fitting, 0, overfed, 0, verdict, None))

    def test_large_counts(self) -> None:
        most, more, less = 2**32 - 1, 2**31, 2**31 - 1
        for log, fitting, overfed, threshold in [
            (b"0000FFFF000201\n000100000001\n", 65535, 65536, 501),
            (b"FFFFFFFF000201\nFFFFFFFF0001\n", most, most, 500),
            (b"FFFFFFFF000201\n" * 2 + b"FFFFFFFF0001\n" * 2, 2 * most, 2 * most, 500),
            # of 2**32 - 1 cases one decides
            (b"80000000000201\n7FFFFFFF0001\n", more, less, 500),
            (b"7FFFFFFF000201\n800000000001\n", less, more, 501),
        ]:
            with self.subTest(log=log):
                self.counted(log, fitting, overfed, threshold)

    def test_large_counts_move_no_search(self) -> None:
        few, many = SHORT, b"FFFFFFFF000201\n"
        self.assertEqual(check(3, many), LogSize(1, 2**32 - 1))
        self.assertEqual(search(SHORT_SETTINGS, many), search(SHORT_SETTINGS, few))
        settings = b"0302020000\n"
        self.assertEqual(report(settings + many), report(settings + few))


class Refusals(unittest.TestCase):
    """Every refusal, its value, and the order of the checks."""

    def refused(self, number: int, value: int, call: Callable[..., Any], *arguments: Any) -> None:
        with self.subTest(call=call.__name__, arguments=str(arguments)[:200]):
            with self.assertRaises(Refusal) as caught:
                call(*arguments)
            self.assertEqual((caught.exception.number, caught.exception.value), (number, value))

    def log_refused(self, activities: int, log: bytes, number: int, value: int = 0) -> None:
        """That every call that reads a log refuses this one so."""
        self.refused(number, value, check, activities, log)
        self.refused(number, value, replay, activities, log, PLACE)
        self.refused(number, value, judge, activities, 0, log, PLACE)
        self.refused(number, value, summarize, activities, log)
        self.refused(number, value, search, SHORT_SETTINGS._replace(activities=activities), log)

    def test_settings(self) -> None:
        for activities in (0, 1, 17, 255, *UNFIT_BYTES):
            self.log_refused(activities, SHORT, 1)
            self.log_refused(activities, b"", 1)
        for size in (0, 4, 255, *UNFIT_BYTES):
            self.refused(1, 0, search, SHORT_SETTINGS._replace(inputs=size), b"")
            self.refused(1, 0, search, SHORT_SETTINGS._replace(outputs=size), b"")
        for threshold in (1001, 65535, *UNFIT_HALVES):
            self.refused(1, 0, judge, 3, threshold, b"", Place(0, 0))
            self.refused(1, 0, search, SHORT_SETTINGS._replace(threshold=threshold), b"")

    def test_malformed_frames(self) -> None:
        self.log_refused(3, b"00000001000201", 2)
        self.log_refused(3, b"00000001000201\n00000001000201", 2, 1)
        self.log_refused(3, b"00000001000201\n\n", 2, 1)
        self.log_refused(3, b"0000000100201\n", 2)
        self.log_refused(3, b"0000000100\n", 2)
        self.log_refused(3, b"00000001000\n", 2)
        self.log_refused(3, b"0000000100010\n", 2)
        self.log_refused(3, b"00000000000201\n", 2)
        self.log_refused(16, b"0000000a000201\n", 2)
        self.log_refused(3, b"00000001000201\r\n", 2)
        self.log_refused(3, b"00000001000201\n\0", 2, 1)

    def test_four_digit_case_counts(self) -> None:
        """As version 1 read them: a frame of two or three activities is too short, and a longer one
        does not begin with 00.
        """
        self.log_refused(3, b"00010001\n", 2)
        self.log_refused(3, b"0001000201\n0001000201\n", 2)
        self.log_refused(4, b"000100020301\n", 4)
        self.log_refused(6, b"0001000203040501\n", 4)

    def test_activities_and_ends(self) -> None:
        self.log_refused(3, b"00000001000201\n00000001000301\n", 3, 1)
        self.log_refused(2, SHORT, 3)
        self.log_refused(3, b"000000010201\n", 4)
        self.log_refused(3, b"000000010002\n", 4)
        self.log_refused(3, b"0000000100000201\n", 4)
        self.log_refused(3, b"0000000100010201\n", 4)

    def test_sizes(self) -> None:
        def frame(activities: int) -> bytes:
            return b"0000000100" + b"02" * (activities - 2) + b"01\n"

        self.assertEqual(check(3, b"000000010001\n"), LogSize(1, 1))
        self.assertEqual(len(frame(254)), placelist.MOST_FRAME_BYTES)
        self.assertEqual(check(3, frame(254)), LogSize(1, 1))
        self.log_refused(3, frame(255), 5)
        full = SHORT * placelist.MOST_FRAMES
        self.assertEqual(check(3, full), LogSize(4096, 4096))
        self.log_refused(3, full + b"x", 5, 4096)
        longest = frame(254) * placelist.MOST_FRAMES
        self.assertEqual(len(longest), placelist.MOST_LOG_BYTES)
        self.assertEqual(check(3, longest), LogSize(4096, 4096))

    def test_empty_log(self) -> None:
        self.log_refused(3, b"", 6)

    def test_places(self) -> None:
        pairs = [(0, 2), (1, 0), (8, 2), (1, 8)]
        pairs += [(unfit, 2) for unfit in UNFIT_SETS] + [(1, unfit) for unfit in UNFIT_SETS]
        for pair in pairs:
            place = Place(*pair)
            self.refused(7, 0, replay, 3, SHORT, place)
            self.refused(7, 0, judge, 3, 0, SHORT, place)
            # before the log, after the settings
            self.refused(7, 0, replay, 3, b"", place)
            self.refused(7, 0, judge, 3, 0, b"", place)
            self.refused(1, 0, replay, 1, SHORT, place)
            self.refused(1, 0, judge, 3, 1001, SHORT, place)

    def test_lists(self) -> None:
        good = [PLACE, Place(0x8000, 0x8000)]
        self.assertEqual(write(good), b"00010002\n80008000\n")
        wrong = [Place(0, 2), Place(1, 0)]
        wrong += [Place(unfit, 2) for unfit in UNFIT_SETS]
        wrong += [Place(1, unfit) for unfit in UNFIT_SETS]
        for place in wrong:
            for call in (reduce, write):
                self.refused(7, 2, call, [*good, place, Place(0, 0)])

    def test_words(self) -> None:
        words = [f"{kind.value} {Refusal(kind, 3)}" for kind in RefusalKind]
        expected = (LIBRARY / "tests" / "refusals.txt").read_text(encoding="ascii")
        self.assertEqual(words, expected.splitlines())

    def test_exception(self) -> None:
        first = Refusal(4, 7)
        for refusal in (first, copy.copy(first), copy.deepcopy(first),
                        pickle.loads(pickle.dumps(first))):
            self.assertEqual((refusal.number, refusal.value), (4, 7))
            self.assertIs(refusal.kind, RefusalKind.MISPLACED_ENDPOINT)
            self.assertEqual((str(refusal), refusal.text), (str(first), str(first)))
            self.assertEqual(repr(refusal), "Refusal(4, 7)")
        for number in (0, 9):
            self.assertRaises(ValueError, Refusal, number)


class Arguments(unittest.TestCase):
    """What the calls take."""

    def test_kinds_of_logs(self) -> None:
        spread = memoryview(b"".join(bytes([byte, 0xFF]) for byte in SHORT))[::2]
        for log in (SHORT, bytearray(SHORT), memoryview(SHORT), spread):
            self.assertEqual(check(3, log), LogSize(1, 1))
            self.assertEqual(summarize(3, log), [Variant(0, 1, 1)])
            self.assertEqual(search(SHORT_SETTINGS, log).found, SHORT_FOUND)
        input = bytearray(b"0303010000\n000000010001\n")
        self.assertEqual(report(input), report(bytes(input)))

    def test_bytes_with_a_false_length(self) -> None:
        class Long(bytes):
            def __len__(self) -> int:
                return 1 << 40

        self.assertEqual(check(3, Long(SHORT)), LogSize(1, 1))

    def test_a_text_is_no_log(self) -> None:
        text: Any = SHORT.decode()
        for call in (
            lambda: check(99, text), lambda: replay(3, text, PLACE),
            lambda: judge(3, 0, text, PLACE), lambda: summarize(3, text),
            lambda: search(SHORT_SETTINGS, text), lambda: report(text),
        ):
            with self.assertRaisesRegex(TypeError, "a log is bytes, not str: open the file in bin"):
                call()
        for other in (None, 5, [48, 49], open):
            self.assertRaises(TypeError, check, 3, other)

    def test_numbers_of_a_search(self) -> None:
        for name in ("budget", "cache", "room"):
            for number in (-1, 2**32, 2**64 + 1):
                with self.assertRaisesRegex(ValueError, f"{name} is 0 to 4294967295, not {number}"):
                    search(SHORT_SETTINGS, b"", **{name: number})
        most = 2**32 - 1  # a buffer of so many words is not made
        run = search(SHORT_SETTINGS, SHORT, budget=most, cache=most, room=most)
        self.assertEqual((run.end, run.replays), (End.COMPLETE, 19))

    def test_buffers_for_every_candidate(self) -> None:
        """Every place fits, and is listed."""
        for activities in (2, 3, 4):
            sets = 2**activities - 1
            settings = Settings(activities, activities, activities, 1000)
            run = search(settings, b"000000010001\n", room=2**32 - 1)
            self.assertEqual((run.end, len(run.found)), (End.COMPLETE, sets * sets))
            small = settings._replace(inputs=1, outputs=2)
            run = search(small, b"000000010001\n", room=2**32 - 1)
            pairs = activities * (activities + 1) // 2
            self.assertEqual((run.end, len(run.found)), (End.COMPLETE, activities * pairs))

    def test_no_numbers(self) -> None:
        for wrong in (3.0, "3", None):
            value: Any = wrong
            self.assertRaises(TypeError, check, value, SHORT)
            self.assertRaises(TypeError, judge, 3, value, SHORT, PLACE)
            self.assertRaises(TypeError, replay, 3, SHORT, Place(value, 2))
            self.assertRaises(TypeError, summarize, value, SHORT)
            self.assertRaises(TypeError, reduce, [Place(1, value)])
            self.assertRaises(TypeError, write, [value])
            self.assertRaises(TypeError, write, [(1, 2, value)])
            self.assertRaises(TypeError, search, SHORT_SETTINGS._replace(inputs=value), SHORT)
            self.assertRaises(TypeError, search, SHORT_SETTINGS, SHORT, value)

    def test_no_places(self) -> None:
        for wrong in ({1, 2}, [1, 2], b"\1\2", "12", {1: 2, 2: 1}, (1,), (1, 2, 3), 0x00020001):
            value: Any = wrong
            self.assertRaises(TypeError, replay, 3, SHORT, value)
            self.assertRaises(TypeError, judge, 3, 0, SHORT, value)
            self.assertRaises(TypeError, reduce, [value])
            self.assertRaises(TypeError, write, [PLACE, value])
        self.assertEqual(write([(1, 2)]), write([PLACE]))

    def test_words_and_codes(self) -> None:
        place = Place.from_codes({0, 2}, [1, 2, 2])
        self.assertEqual(place, Place(inputs=0x0005, outputs=0x0006))
        self.assertEqual(place.word, 0x00060005)
        self.assertEqual(Place.from_word(place.word), place)
        self.assertEqual((place.input_codes, place.output_codes), ({0, 2}, {1, 2}))
        self.assertEqual(Place.from_codes(range(16), ()), Place(0xFFFF, 0))
        for word in (-1, 2**32):
            self.assertRaises(ValueError, Place.from_word, word)
        for code in (-1, 16, 10**12):
            self.assertRaises(ValueError, Place.from_codes, {code}, {1})
            self.assertRaises(ValueError, Place.from_codes, {0}, {code})
        for unfit in UNFIT_SETS:
            self.assertRaises(ValueError, lambda: Place(unfit, 2).word)
            self.assertRaises(ValueError, lambda: Place(1, unfit).word)
            self.assertRaises(ValueError, lambda: Place(unfit, 2).input_codes)
            self.assertRaises(ValueError, lambda: Place(1, unfit).output_codes)


class Header(unittest.TestCase):
    """That the module says what the header says."""

    TYPES = {
        "uint8_t": ctypes.c_uint8,
        "uint16_t": ctypes.c_uint16,
        "uint32_t": ctypes.c_uint32,
        "size_t": ctypes.c_size_t,
        "const uint8_t *": ctypes.c_char_p,
        "const uint32_t *": ctypes.POINTER(ctypes.c_uint32),
        "uint8_t *": ctypes.POINTER(ctypes.c_uint8),
        "int16_t *": ctypes.POINTER(ctypes.c_int16),
        "int32_t *": ctypes.POINTER(ctypes.c_int32),
        "uint32_t *": ctypes.POINTER(ctypes.c_uint32),
        "uint64_t *": ctypes.POINTER(ctypes.c_uint64),
    }

    def setUp(self) -> None:
        text = (LIBRARY / "placelist.h").read_text(encoding="utf-8")
        self.text = re.sub(r"/\*.*?\*/", " ", text, flags=re.DOTALL)

    def type_of(self, parameter: str) -> Any:
        """The type of a parameter; an array is a pointer."""
        kind, star, _, row = re.fullmatch(
            r"((?:const )?\w+)\s+(\*?)(\w+)(\[\w+\])?", parameter.strip()
        ).groups()
        return self.TYPES[f"{kind} *" if star or row else kind]

    def test_limits(self) -> None:
        macros = dict(re.findall(r"#define PLACELIST_(\w+) +(\d+)\s", self.text))
        for name in placelist.__all__:
            if name.isupper():
                self.assertEqual(getattr(placelist, name), int(macros[name]), name)
        limits = {name for name in macros if re.match("LEAST_|MOST_|LINE_|PROGRAM_", name)}
        self.assertEqual(limits - set(placelist.__all__), set())

    def test_numbers(self) -> None:
        values = dict(re.findall(r"PLACELIST_(\w+) = (\d+)", self.text))
        for kind in (Verdict, End, RefusalKind):
            for member in kind:
                self.assertEqual(member.value, int(values[member.name]), member)
            name = {RefusalKind: "refusal", End: "end", Verdict: "verdict"}[kind]
            body = re.search(rf"enum placelist_{name} \{{(.*?)\}}", self.text, re.DOTALL)[1]
            numbers = {int(number) for number in re.findall(r"= (\d+)", body)}
            self.assertEqual(numbers - {0}, {member.value for member in kind} - {0})
        none = re.search(r"#define PLACELIST_NONE \((-\d+)\)", self.text)[1]
        self.assertEqual(placelist._NONE, int(none))

    def test_entries(self) -> None:
        body = re.search(r"enum placelist_variant_index \{(.*?)\}", self.text, re.DOTALL)[1]
        words = re.findall(r"PLACELIST_VARIANT_(\w+) = (\d+)", body)
        names = [*Variant._fields, "length"]
        self.assertEqual(words, [(name.upper(), str(at)) for at, name in enumerate(names)])

    def test_calls(self) -> None:
        declared = re.findall(r"^uint8_t\s+placelist_(\w+)\(([^)]*)\)[^;{]*;", self.text, re.M)
        self.assertEqual({name for name, _ in declared}, set(placelist._PARAMETERS))
        self.assertLessEqual(set(placelist._PARAMETERS), set(placelist.__all__))
        for name, parameters in declared:
            types = tuple(map(self.type_of, parameters.split(",")))
            call = getattr(placelist._library, f"placelist_{name}")
            self.assertEqual(tuple(call.argtypes), types, name)
            self.assertIs(call.restype, ctypes.c_uint8)

    def test_version(self) -> None:
        macros = dict(re.findall(r"#define PLACELIST_VERSION_(\w+) (\d+)\s", self.text))
        self.assertEqual(version(), tuple(int(macros[p]) for p in ("MAJOR", "MINOR", "PATCH")))
        self.assertIs(type(version()), Version)
        self.assertIn("uint32_t placelist_version(void);", self.text)


class Threads(unittest.TestCase):
    """Calls from several threads."""

    def test_calls_at_once(self) -> None:
        inputs = [(EXAMPLES / f"{office}.log").read_bytes() for office in OFFICES] * 10
        alone = [report(input) for input in inputs]
        with ThreadPoolExecutor(8) as pool:
            self.assertEqual(list(pool.map(report, inputs)), alone)

    def test_a_log_that_changes_meanwhile(self) -> None:
        """The answer is that for one of the two logs between which another thread changes."""
        settings = Settings(11, 2, 2, 0)
        logs = [(EXAMPLES / f"{office}.log").read_bytes()[11:] for office in OFFICES[:2]]
        alone = [search(settings, log) for log in logs]
        self.assertNotEqual(*alone)
        shared, done = bytearray(logs[0]), threading.Event()

        def change() -> None:
            while not done.is_set():
                for log in logs:
                    with suppress(BufferError):  # while it is copied it keeps its length
                        shared[:] = log

        thread = threading.Thread(target=change)
        thread.start()
        try:
            for _ in range(100):
                self.assertIn(search(settings, shared), alone)
        finally:
            done.set()
            thread.join()


class Loading(unittest.TestCase):
    """Where the shared object is looked for, and what is said where there is none."""

    def setUp(self) -> None:
        folder = tempfile.TemporaryDirectory()
        self.addCleanup(folder.cleanup)
        self.root = Path(folder.name).resolve()
        self.python = self.root / "library" / "python"
        self.python.mkdir(parents=True)
        shutil.copy(PYTHON / "placelist.py", self.python)

    def put(self, folder: str) -> Path:
        """A folder of the test with a copy of the shared object."""
        path = self.root / folder
        path.mkdir(parents=True)
        shutil.copy(library_of(Path(MAPS).read_text()), path / SONAME)
        return path

    def loaded(self, **variables: str) -> Path:
        """The folder of what the module's copy loads, with these variables."""
        variables = {"PLACELIST_LIB_DIR": "", **variables}
        code = f"import placelist; print(open('{MAPS}').read())"
        run = execute("-c", code, cwd=self.python, **variables)
        self.assertEqual(run.stderr, "")
        return library_of(run.stdout).parent

    def test_order(self) -> None:
        searched, named = self.put("searched"), self.put("named")
        self.assertEqual(self.loaded(LD_LIBRARY_PATH=str(searched)), searched)
        built = self.put("target/library/lib")
        self.assertEqual(self.loaded(LD_LIBRARY_PATH=str(searched)), built)
        self.assertEqual(self.loaded(PLACELIST_LIB_DIR=str(named)), named)

    def test_missing(self) -> None:
        """The folder that the variable names is the only one that counts."""
        self.put("target/library/lib")
        empty = self.root / "empty"
        empty.mkdir()
        run = execute("-c", "import placelist", cwd=self.python, PLACELIST_LIB_DIR=str(empty))
        said = run.stderr.splitlines()[-1]
        self.assertEqual(run.returncode, 1)
        self.assertRegex(said, f"^ImportError: cannot load {SONAME} ")
        self.assertRegex(said, ": run library/install, or set PLACELIST_LIB_DIR to the folder ")

    def test_another_library(self) -> None:
        (self.root / SONAME).write_bytes(b"no library")
        run = execute("-c", "import placelist", cwd=self.python, PLACELIST_LIB_DIR=str(self.root))
        self.assertRegex(run.stderr, f"ImportError: cannot load {SONAME} .*: run ")

    def test_another_version(self) -> None:
        library = mock.MagicMock()
        major = placelist._MAJOR
        with mock.patch("ctypes.CDLL", return_value=library):
            library.placelist_version.return_value = (major << 16) + 0xFFFF
            self.assertIs(placelist._load(), library)
            for other in (major - 1, major + 1):
                library.placelist_version.return_value = (other << 16) + 0x0902
                said = rf"has version {other}\.9\.2, and this module needs {major}\.x"
                with self.assertRaisesRegex(ImportError, said):
                    placelist._load()


class Places(unittest.TestCase):
    """The example places.py."""

    ENDS = {"00": "complete", "01": "stopped, the budget was spent",
            "02": "stopped, the list was full"}

    def places(self, *arguments: object, **options: Any) -> Done:
        return execute(PYTHON / "examples" / "places.py", *arguments, **options)

    def on(self, text: bytes, **options: Any) -> Done:
        """Runs the example on a file with this text."""
        with tempfile.NamedTemporaryFile() as file:
            file.write(text)
            file.flush()
            return self.places(file.name, **options)

    def listed(self, text: bytes, last: str) -> List[str]:
        """The places that are written for an input, whose answer has this last line."""
        run = self.on(text)
        size, search, rejected, *lines = run.stdout.splitlines()
        cases = re.fullmatch(r"log: \d+ frames, (\d+) cases", size)[1]
        counts = f"{int(last[2:10], 16)} replays, {int(last[10:], 16)} visits"
        end = self.ENDS[last[:2]]
        self.assertRegex(search, rf"^search: {end}; \d+ places found, {counts}$")
        self.assertRegex(rejected, r"^rejected: \d+ underfed, \d+ overfed, \d+ both$")
        if last[:2] == "00":
            self.assertEqual(lines.pop(0), f"reduced: {len(lines)} places")
        missing = r"; first missing token: line \d+, event \d+"
        for line in lines:
            self.assertRegex(line, rf"^[0-9A-F]{{8}}: \d+ of {cases} cases fit({missing})?$")
        self.assertEqual((run.returncode, run.stderr), (0 if last[:2] == "00" else 4, ""))
        return [line[:8] for line in lines]

    def test_offices(self) -> None:
        for office in OFFICES:
            *lines, last = (EXAMPLES / f"{office}.list").read_text(encoding="ascii").splitlines()
            log = (EXAMPLES / f"{office}.log").read_bytes()
            self.assertEqual(self.listed(log, last), lines, office)

    def test_full_list(self) -> None:
        *lines, last = report(FULL).decode().splitlines()
        self.assertEqual((len(lines), last[:2]), (placelist.PROGRAM_FOUND, "02"))
        self.assertEqual(self.listed(FULL, last), lines)

    def test_orders(self) -> None:
        folder = LIBRARY / "examples"
        run = self.places(folder / "orders.log")
        self.assertEqual((run.returncode, run.stderr), (0, ""))
        self.assertEqual(run.stdout, (folder / "orders.out").read_text(encoding="ascii"))
        run = self.on(b"04" + (folder / "orders.log").read_bytes()[2:])
        self.assertEqual((run.returncode, run.stdout), (3, ""))
        self.assertEqual(run.stderr, (folder / "orders.refused").read_text(encoding="ascii"))

    def test_refused_search(self) -> None:
        run = self.on(b"0300010000\n" + SHORT)
        said = "places: the search was refused: a setting is out of its range (number 1)\n"
        self.assertEqual(tuple(run), (3, "log: 1 frames, 1 cases\n", said))

    def test_usage(self) -> None:
        for arguments in ((), ("a", "b")):
            self.assertEqual(tuple(self.places(*arguments)), (2, "", "usage: places FILE\n"))

    def test_unreadable_file(self) -> None:
        for name in ("no such file", str(EXAMPLES), ""):
            self.assertEqual(tuple(self.places(name)), (1, "", f"places: cannot read {name}\n"))

    def test_settings_line(self) -> None:
        said = "places: the first line is no settings line\n"
        for text in (b"", STRAIGHT, b"0302020000", b"03020200000\n", b"0302020000\r\n",
                     b"030202000a\n"):
            self.assertEqual(tuple(self.on(text)), (3, "", said))
        said = "places: the check was refused: the log is empty (number 6)\n"
        self.assertEqual(tuple(self.on(b"0302020000\n")), (3, "", said))

    def test_output_that_fails(self) -> None:
        with open("/dev/full", "wb") as full:
            for text in ((EXAMPLES / "purchasing.log").read_bytes(), FULL):
                run = self.on(text, stdout=full)
                self.assertEqual((run.returncode, run.stderr), (1, ""))


class Rules(unittest.TestCase):
    """The example rules.py."""

    def rules(self, *arguments: object) -> Done:
        return execute(PYTHON / "examples" / "rules.py", *arguments)

    def office(self, name: str, legend: Optional[str]) -> Done:
        files = [EXAMPLES / f"{name}.log"] + ([EXAMPLES / f"{legend}.legend"] if legend else [])
        return self.rules(*files)

    def test_offices(self) -> None:
        either = "approved by the team lead or approved by the director"
        for name, legend, rules, expected in [
            ("purchasing", "purchasing", 22, f"{either} -> order sent  (438 of 438 cases)"),
            ("leave", "leave", 12, "stand-in found -> leave approved  (252 of 252 cases)"),
            ("leave", "leave", 12,
             "dates entered -> leave approved or leave refused or request withdrawn"
             "  (252 of 252 cases)"),
            ("access", "access", 19,
             "security has answered -> account created or access denied  (241 of 244 cases)"),
            ("purchasing", None, 22, "03 or 04 -> 05  (438 of 438 cases)"),
            ("purchasing", "leave", 22, "request withdrawn -> 09  (438 of 438 cases)"),
        ]:
            run = self.office(name, legend)
            self.assertEqual((run.returncode, run.stderr), (0, ""))
            *heading, empty = run.stdout.splitlines()[:4]
            self.assertRegex(heading[2], f"^Complete: {rules} rules; ")
            self.assertEqual((empty, len(run.stdout.splitlines())), ("", 4 + rules))
            self.assertIn(expected, run.stdout.splitlines())

    def test_heading(self) -> None:
        lines = self.office("access", "access").stdout.splitlines()
        self.assertEqual(lines[:3], [
            "244 cases in 7 lines of the log.",
            "Rules with up to 1 input and 2 outputs; up to 20 in 1,000 cases may deviate either "
            "way.",
            "Complete: 19 rules; any other of that size is several of these side by side.",
        ])

    def not_complete(self, run: Done, why: str) -> None:
        """That the program says so, and why."""
        self.assertEqual((run.returncode, run.stderr), (4, ""))
        line = run.stdout.splitlines()[2]
        self.assertEqual(line, f"NOT COMPLETE: {why}; others may be missing, so do not rebuild "
                         "from this list.")

    def test_replays_used_up(self) -> None:
        why = "the allowance of 1,000,000 replays was used up. Found: 0 rules"
        self.not_complete(self.office("purchasing-wide", "purchasing"), why)

    def test_full_list(self) -> None:
        with tempfile.NamedTemporaryFile() as file:
            file.write(FULL)
            file.flush()
            why = "the list of 4,096 rules was full. Found: 4,096 rules"
            self.not_complete(self.rules(file.name), why)

    def test_legends(self) -> None:
        log = EXAMPLES / "leave.log"
        with tempfile.TemporaryDirectory() as folder:
            legend = Path(folder) / "legend"
            for text, said in [
                ("00 a\n01\n", "line 1 of the legend is no code and name"),
                ("0 a\n", "line 0 of the legend is no code and name"),
                ("00 a\n00 b\n", "line 1 of the legend names code 00 again"),
            ]:
                legend.write_text(text, encoding="utf-8")
                self.assertEqual(tuple(self.rules(log, legend)), (3, "", f"rules: {said}\n"))
            legend.write_bytes(b"00 \xff\n")
            said = "rules: the legend is no UTF-8 text\n"
            self.assertEqual(tuple(self.rules(log, legend)), (3, "", said))
            legend.write_text("\ufeff00 ge\u00f6ffnet\r\n", encoding="utf-8")
            self.assertIn("ge\u00f6ffnet -> 01  (252 of", self.rules(log, legend).stdout)

    def test_other_failures(self) -> None:
        self.assertEqual(tuple(self.rules()), (2, "", "usage: rules FILE [LEGEND]\n"))
        log = EXAMPLES / "leave.log"
        self.assertEqual(tuple(self.rules(log, "none")), (1, "", "rules: cannot read none\n"))
        self.assertEqual(tuple(self.rules("none")), (1, "", "rules: cannot read none\n"))


if __name__ == "__main__":
    unittest.main()
