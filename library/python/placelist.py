"""The places of a case log, from a library that is proved.

A *place* has a set of input activities, which each put a token in, and a set of output activities,
which each take one out. This module checks a log, replays and judges a place on it, saying where
the first token is missing, summarizes its variants, searches all places that the log fits, reduces
a list of places and writes it. Every call of the library is proved to answer what its written scope
says, whose own word for a thing stands in brackets; this module hands arguments and answers over.

An activity is a code from 0 to 15: 0 is the start of a case, 1 its end. A set is a number of 16
bits, with the bit `1 << code` for each activity. A log is bytes, a frame for each line: eight
hexadecimal digits of how many cases went this way, two for each activity, a line feed. Lines count
from 0, and so do the events of a trace, one for each activity of its frame.

>>> log = b"00000001000201\\n"  # one case: 0, 2, 1
>>> check(3, log)
LogSize(frames=1, cases=1)
>>> run = search(Settings(activities=3, inputs=2, outputs=2, threshold=0), log)
>>> run.end is End.COMPLETE, len(run.found)
(True, 4)
>>> kept = reduce(run.found)
>>> write(kept)
b'00010002\\n00040002\\n00010004\\n'
>>> kept[0].input_codes, kept[0].output_codes
({0}, {1})
>>> judge(3, 0, log, kept[0]).fitting
1
>>> judge(3, 0, log, Place.from_codes({1}, {2})).first_underfed  # 2 before any 1
MissingToken(line=0, event=1)
>>> summarize(3, log)
[Variant(first_line=0, frames=1, cases=1)]
>>> check(2, log)
Traceback (most recent call last):
    ...
placelist.Refusal: line 0 of the log has an unknown activity

Every call takes and gives plain Python values, and makes the buffers that it needs, so refusal 8
does not happen here. A log may be any bytes-like object; one that can change is copied first, so
another thread may change it meanwhile. Calls may run in several threads at once; one whose stack
is made small (threading.stack_size) needs MOST_STACK bytes beside what Python takes.

A number that does not fit its C type never wraps around. A setting is out of its range then
(refusal 1), a set has a code beyond every bound (refusal 7), each in its place in the order of the
checks. `budget`, `cache` and `room` are 0 to 2**32 - 1, as there are fewer places than that; beyond
it is a ValueError. A value of a wrong type is a TypeError. Both come before every refusal.

The shared object, libplacelist.so with the module's major version, is taken from the folder that
the variable PLACELIST_LIB_DIR names; if it names none, from target/library/lib of the repository
that holds this module; if it is not there, from where the loader looks. Importing this module
without it is an ImportError.
"""

import ctypes
import os
from ctypes import POINTER, byref, c_char_p, c_int16, c_int32, c_size_t
from ctypes import c_uint8, c_uint16, c_uint32, c_uint64
from enum import IntEnum
from math import comb
from operator import index
from typing import Any, Iterable, List, NamedTuple, Optional, Set, Tuple, Union

__all__ = [
    "LEAST_ACTIVITIES", "MOST_ACTIVITIES", "MOST_THRESHOLD",
    "MOST_FRAMES", "MOST_FRAME_ACTIVITIES", "MOST_FRAME_BYTES", "MOST_LOG_BYTES", "LINE_BYTES",
    "MOST_INPUT", "MOST_OUTPUT", "PROGRAM_REJECTED", "PROGRAM_FOUND", "PROGRAM_BUDGET",
    "MOST_STACK",
    "Verdict", "End", "RefusalKind", "Refusal",
    "Settings", "Place", "LogSize", "Balances", "MissingToken", "Judgement", "Variant", "Rejected",
    "Run", "Version", "Log",
    "check", "replay", "judge", "summarize", "search", "reduce", "write", "report", "version",
]

# ---- Limits ----

LEAST_ACTIVITIES = 2  # the least activity bound
MOST_ACTIVITIES = 16  # the largest activity bound
MOST_THRESHOLD = 1000  # the largest threshold, in thousandths

MOST_FRAMES = 4096  # frames of a log
MOST_FRAME_ACTIVITIES = 254  # activities of a frame
MOST_FRAME_BYTES = 517  # bytes of the longest frame: 8 + 2 * 254 + 1
MOST_LOG_BYTES = 2117632  # bytes of the longest log: 4,096 * 517

LINE_BYTES = 9  # bytes of a place in a written list

# The program placelist, and so report.
MOST_INPUT = 65536  # the most bytes of input that it takes
MOST_OUTPUT = 36883  # the most bytes of its output: 4,096 lines of 9 and one of 19
PROGRAM_REJECTED = 1024  # rejected places that it remembers
PROGRAM_FOUND = 4096  # places in its list
PROGRAM_BUDGET = 1000000  # its replay budget

MOST_STACK = 114688  # bytes of a thread's stack that suffice for every call of the library

# The largest numbers of the C types.
_BYTE = 0xFF
_HALF = 0xFFFF
_WORD = 0xFFFFFFFF

# ---- Values ----


class Verdict(IntEnum):
    """The verdict on a place over a log, and why a place was rejected, which is never FITTING."""

    FITTING = 0
    UNDERFED = 1
    OVERFED = 2
    BOTH = 3


class End(IntEnum):
    """How a search ended."""

    COMPLETE = 0  # every fitting place was found
    BUDGET_SPENT = 1  # a candidate needed a replay, and the budget was used up
    LIST_FULL = 2  # a candidate fitted, and the list had no room for it


class RefusalKind(IntEnum):
    """The numbers of the refusals."""

    INVALID_SETTING = 1
    MALFORMED_FRAME = 2
    UNKNOWN_ACTIVITY = 3
    MISPLACED_ENDPOINT = 4
    TOO_LARGE = 5
    EMPTY_LOG = 6
    INVALID_PLACE = 7
    BUFFER_TOO_SMALL = 8


_WORDS = {
    RefusalKind.INVALID_SETTING: "a setting is out of its range",
    RefusalKind.MALFORMED_FRAME: "line {} of the log is no frame",
    RefusalKind.UNKNOWN_ACTIVITY: "line {} of the log has an unknown activity",
    RefusalKind.MISPLACED_ENDPOINT:
        "line {} of the log does not run from 00 to 01 with neither in between",
    RefusalKind.TOO_LARGE: "line {} of the log is too long or one too many",
    RefusalKind.EMPTY_LOG: "the log is empty",
    RefusalKind.INVALID_PLACE: "word {} stands for no place",
    RefusalKind.BUFFER_TOO_SMALL: "the buffer to be written is too short",
}


class Refusal(Exception):
    """Why a call was refused: its number, 1 to 8, as an int and as a kind, a value, and the text.

    The value is a line for 2 to 5, the index in the list or 0 for 7, else 0. Where several hold,
    the first of this order is given: 1; 7; 8; 6; then what the first line with a fault has, 5 for
    its index before 2, then 5 for its length, 3, 4.
    """

    def __init__(self, number: int, value: int = 0) -> None:
        super().__init__(number, value)
        self.kind = RefusalKind(number)
        self.number = int(number)
        self.value = value
        self.text = _WORDS[self.kind].format(value)

    def __str__(self) -> str:
        return self.text


class Settings(NamedTuple):
    """The settings of a search."""

    activities: int  # the activity bound, 2 to 16: codes run from 0 to activities - 1
    inputs: int  # the most inputs of a place, 1 to activities
    outputs: int  # the most outputs of a place, 1 to activities
    threshold: int  # thousandths of all cases, 0 to 1000


def _checked_set(number: int) -> int:
    """A set, if it is one of 16 bits."""
    if not 0 <= number <= _HALF:
        raise ValueError(f"a set of activities is 0 to 65535, not {number}")
    return number


def _codes_of(number: int) -> Set[int]:
    """The codes of a set."""
    bits = _checked_set(number)
    return {code for code in range(MOST_ACTIVITIES) if bits >> code & 1}


def _set_of(codes: Iterable[int]) -> int:
    """The set of these codes."""
    bits = 0
    for code in codes:
        if not 0 <= code < MOST_ACTIVITIES:
            raise ValueError(f"an activity is a code from 0 to 15, not {code}")
        bits |= 1 << code
    return bits


class Place(NamedTuple):
    """A place: two sets of activities, with the bit `1 << code` for each activity.

    >>> place = Place.from_codes({3, 4}, {5})
    >>> place == Place(inputs=0x0018, outputs=0x0020) == Place.from_word(0x00200018)
    True
    """

    inputs: int  # the activities that put a token in
    outputs: int  # the activities that take a token out

    @classmethod
    def from_codes(cls, inputs: Iterable[int], outputs: Iterable[int]) -> "Place":
        """The place of these codes. A code that is not 0 to 15 is a ValueError."""
        return cls(_set_of(inputs), _set_of(outputs))

    @classmethod
    def from_word(cls, word: int) -> "Place":
        """The place of a word of a list. One that is not 0 to 2**32 - 1 is a ValueError."""
        if not 0 <= word <= _WORD:
            raise ValueError(f"the word of a place is 0 to 4294967295, not {word}")
        return cls(word & _HALF, word >> 16)

    @property
    def word(self) -> int:
        """The place as a word of a list: inputs + 65536 * outputs."""
        return _checked_set(self.inputs) | _checked_set(self.outputs) << 16

    @property
    def input_codes(self) -> Set[int]:
        """The codes of the inputs."""
        return _codes_of(self.inputs)

    @property
    def output_codes(self) -> Set[int]:
        """The codes of the outputs."""
        return _codes_of(self.outputs)


class LogSize(NamedTuple):
    """The size of a log."""

    frames: int  # at most 4,096
    cases: int  # the sum of all case counts, at most 17,592,186,040,320


class Balances(NamedTuple):
    """The token balances of a trace on a place, and where the first token is missing.

    The least is taken at each event after its outputs and before its inputs: below 0 the trace
    underfeeds the place. The last is that after the trace: above 0 the trace overfeeds the place.
    A token is missing at an event whose balance, taken as for the least, is below 0.
    """

    least: int
    last: int
    first_missing: Optional[int]  # the first such event, 0 to 253; None exactly where least is 0


class MissingToken(NamedTuple):
    """Where in a log a token is missing."""

    line: int  # 0 to 4,095
    event: int  # of that line, 0 to 253


class Judgement(NamedTuple):
    """Four numbers of cases, which add up to all cases of the log, at most 17,592,186,040,320, the
    verdict, and where the first token is missing.

    That is in the first line whose trace underfeeds the place, at any threshold, at its first event
    at which a token is missing. It is None exactly where `underfed` and `both` are 0.
    """

    fitting: int
    underfed: int  # only underfed
    overfed: int  # only overfed
    both: int
    verdict: Verdict
    first_underfed: Optional[MissingToken]


class Variant(NamedTuple):
    """A variant [kind] of a log: the frames in which each activity occurs equally often. The order
    of the activities is ignored.
    """

    first_line: int  # the first line that is of this variant
    frames: int  # the number of lines that are of it
    cases: int  # the sum of their case counts


class Rejected(NamedTuple):
    """A rejected place, and why."""

    place: Place
    mark: Verdict


class Run(NamedTuple):
    """How a search ended, the places that it found and those that it remembered as rejected."""

    end: End
    found: List[Place]  # all fitting places only if the end is COMPLETE
    rejected: List[Rejected]
    replays: int  # candidates that were replayed
    visits: int  # candidates that were visited


class Version(NamedTuple):
    """The version of the library: of its calls, and of the formats that they read and write.

    >>> str(Version(3, 0, 0))
    '3.0.0'
    """

    major: int
    minor: int
    patch: int

    def __str__(self) -> str:
        return f"{self.major}.{self.minor}.{self.patch}"


Log = Union[bytes, bytearray, memoryview]

# ---- The shared object ----

_MAJOR = 3
_SONAME = f"libplacelist.so.{_MAJOR}"

_BYTES = POINTER(c_uint8)
_SHORT = POINTER(c_int16)
_INDEX = POINTER(c_int32)
_PLACES = POINTER(c_uint32)
_LONGS = POINTER(c_uint64)

_TEXT = (c_char_p, c_size_t)
_SETS = (c_uint16, c_uint16)
_LIST = (_PLACES, c_size_t)

_PARAMETERS = {
    "check": (c_uint8, *_TEXT, _LONGS, _LONGS),
    "replay": (c_uint8, *_TEXT, *_SETS, _LONGS, _SHORT, _SHORT, _INDEX),
    "judge": (c_uint8, c_uint16, *_TEXT, *_SETS, _LONGS, _LONGS, _BYTES, _INDEX, _INDEX),
    "summarize": (c_uint8, *_TEXT, _LONGS, c_size_t, _LONGS, _LONGS),
    "search": (c_uint8, c_uint8, c_uint8, c_uint16, *_TEXT, c_uint32, _LONGS, c_size_t, *_LIST,
               _LONGS, _LONGS),
    "reduce": (*_LIST, *_LIST, _LONGS, _LONGS),
    "write": (*_LIST, _BYTES, c_size_t, _LONGS, _LONGS),
    "report": (*_TEXT, _BYTES, c_size_t, _LONGS, _LONGS),
}


def _path() -> str:
    """Where the shared object is, or its name alone where the loader is to look for it."""
    folder = os.environ.get("PLACELIST_LIB_DIR")
    if folder:
        return os.path.join(folder, _SONAME)
    here = os.path.dirname(os.path.realpath(__file__))
    built = os.path.join(here, "..", "..", "target", "library", "lib", _SONAME)
    return built if os.path.exists(built) else _SONAME


def _declared(library: ctypes.CDLL) -> ctypes.CDLL:
    """The library with the types of its calls."""
    library.placelist_version.argtypes = ()
    library.placelist_version.restype = c_uint32
    for name, parameters in _PARAMETERS.items():
        call = getattr(library, "placelist_" + name)
        call.argtypes = parameters
        call.restype = c_uint8
    return library


def _version_of(library: ctypes.CDLL) -> Version:
    number = library.placelist_version()
    return Version(number >> 16, number >> 8 & _BYTE, number & _BYTE)


def _load() -> ctypes.CDLL:
    """Loads the shared object."""
    try:
        library = _declared(ctypes.CDLL(_path()))
    except (OSError, AttributeError) as error:
        raise ImportError(
            f"cannot load {_SONAME} ({error}): run library/install, or set PLACELIST_LIB_DIR to "
            "the folder that holds it"
        ) from None
    found = _version_of(library)
    if found.major != _MAJOR:
        raise ImportError(f"{_SONAME} has version {found}, and this module needs {_MAJOR}.x")
    return library


_library = _load()

# ---- What the calls are given, and what they give ----

_NONE = -1  # what the place for an index holds where there is none

_Sizes = c_uint64 * 2
_Cases = c_uint64 * 4
_Counts = c_uint64 * 5


def _bytes(log: Log) -> bytes:
    """The bytes of a log; a copy where they could change during a call."""
    if type(log) is bytes:
        return log
    try:
        return memoryview(log).tobytes()
    except TypeError:
        raise TypeError(
            f"a log is bytes, not {type(log).__name__}: open the file in binary mode, or encode "
            "the text"
        ) from None


def _setting(number: int, most: int) -> int:
    """A setting. One that does not fit its type becomes the type's largest number, which is out
    of the range of every setting too."""
    number = index(number)
    return number if 0 <= number <= most else most


def _sets(place: Tuple[int, int]) -> Tuple[int, int]:
    """The sets of a place. One that does not fit its type becomes the empty set, which no place
    has either."""
    if not isinstance(place, tuple) or len(place) != 2:
        raise TypeError(f"a place is a Place or a pair of two sets, not {place!r}")
    inputs, outputs = map(index, place)
    return (inputs if 0 <= inputs <= _HALF else 0, outputs if 0 <= outputs <= _HALF else 0)


def _words(places: Iterable[Tuple[int, int]]) -> Any:
    """The words of a list of places, as an array of its own."""
    words = [inputs | outputs << 16 for inputs, outputs in map(_sets, places)]
    return (c_uint32 * len(words))(*words)


def _count(name: str, number: int) -> int:
    """A number of replays or places, if it fits 32 bits."""
    number = index(number)
    if not 0 <= number <= _WORD:
        raise ValueError(f"{name} is 0 to 4294967295, not {number}")
    return number


def _candidates(activities: int, inputs: int, outputs: int) -> int:
    """How many candidates there are within these settings: more than these are never listed and
    never rejected, so no buffer has to be longer. Of settings that are refused any number will do.
    """
    if not LEAST_ACTIVITIES <= activities <= MOST_ACTIVITIES:
        return 0

    def sets(most: int) -> int:
        return sum(comb(activities, size) for size in range(1, min(most, activities) + 1))

    return sets(inputs) * sets(outputs)


def _accept(number: int, value: c_uint64) -> None:
    """Raises the refusal that a call answered, if it did."""
    if number != 0:
        raise Refusal(number, value.value)


def _index(number: c_int32) -> Optional[int]:
    """An index, if there is one."""
    return None if number.value == _NONE else number.value


def _missing_token(line: c_int32, event: c_int32) -> Optional[MissingToken]:
    """Where a token is missing, if one is."""
    return None if line.value == _NONE else MissingToken(line.value, event.value)


# ---- Calls ----


def check(activities: int, log: Log) -> LogSize:
    """Checks a log: its frames and cases.

    Refusals, in order: 1, 6, then of the first faulty line 5, 2, 3 or 4.
    """
    text = _bytes(log)
    value, counts = c_uint64(), _Sizes()
    number = _library.placelist_check(
        _setting(activities, _BYTE), text, len(text), byref(value), counts
    )
    _accept(number, value)
    return LogSize(*counts)


def replay(activities: int, log: Log, place: Place) -> Balances:
    """Checks the whole log and replays its first line on a place.

    Refusals, in order: 1, 7, 6, then of the first faulty line 5, 2, 3 or 4.

    >>> replay(6, b"0000000100040202030301\\n", Place(0x0004, 0x0030))
    Balances(least=-1, last=1, first_missing=1)
    """
    text = _bytes(log)
    value, least, last, missing = c_uint64(), c_int16(), c_int16(), c_int32()
    number = _library.placelist_replay(
        _setting(activities, _BYTE), text, len(text), *_sets(place),
        byref(value), byref(least), byref(last), byref(missing),
    )
    _accept(number, value)
    return Balances(least.value, last.value, _index(missing))


def judge(activities: int, threshold: int, log: Log, place: Place) -> Judgement:
    """Judges a place over a log: how many cases fit it, the verdict at a threshold, and where the
    first token is missing.

    Refusals, in order: 1, 7, 6, then of the first faulty line 5, 2, 3 or 4.

    >>> log = b"0000005A0002030401\\n000000060003020401\\n0000000400020401\\n"
    >>> judgement = judge(5, 50, log, Place.from_codes({3}, {4}))
    >>> judgement.fitting, judgement.underfed, judgement.verdict is Verdict.FITTING
    (96, 4, True)
    >>> judgement.first_underfed  # the last line has a 4, but no 3
    MissingToken(line=2, event=2)
    """
    text = _bytes(log)
    value, counts, verdict = c_uint64(), _Cases(), c_uint8()
    line, event = c_int32(), c_int32()
    number = _library.placelist_judge(
        _setting(activities, _BYTE), _setting(threshold, _HALF), text, len(text), *_sets(place),
        byref(value), counts, byref(verdict), byref(line), byref(event),
    )
    _accept(number, value)
    return Judgement(*counts, Verdict(verdict.value), _missing_token(line, event))


def summarize(activities: int, log: Log) -> List[Variant]:
    """Summarizes a log by its variants, the frames in which each activity occurs equally often.

    Variants with more cases come first; of two with as many cases, the one with the earlier first
    line. The frames of all of them add up to those of the log, and so do the cases.

    Refusals, in order: 1, 6, then of the first faulty line 5, 2, 3 or 4. Number 8 is never given
    here, since this module makes the buffer itself.

    >>> for variant in summarize(4, b"0000000100020301\\n000000030001\\n0000000400030201\\n"):
    ...     print(variant)
    Variant(first_line=0, frames=2, cases=5)
    Variant(first_line=1, frames=1, cases=3)
    """
    text = _bytes(log)
    length = len(Variant._fields)
    room = min(text.count(b"\n"), MOST_FRAMES)
    entries = (c_uint64 * (length * room))()
    value, count = c_uint64(), c_uint64()
    number = _library.placelist_summarize(
        _setting(activities, _BYTE), text, len(text), entries, len(entries),
        byref(value), byref(count),
    )
    _accept(number, value)
    return [Variant(*entries[at:at + length]) for at in range(0, length * count.value, length)]


def search(
    settings: Settings,
    log: Log,
    budget: int = PROGRAM_BUDGET,
    cache: int = PROGRAM_REJECTED,
    room: int = PROGRAM_FOUND,
) -> Run:
    """Searches all places within the settings, and lists those that the log fits, in order.

    `budget` is the most replays, `room` the most places in the list. `cache` is how many rejected
    places are remembered. A search that completes with a small one completes with a larger one
    too: with the same found places, and as many replays and visits or fewer. The rejected places
    and their number can change.

    Refusals, in order: 1, 6, then of the first faulty line 5, 2, 3 or 4.
    """
    text = _bytes(log)
    activities, inputs, outputs, threshold = map(index, settings)
    budget, cache, room = _count("budget", budget), _count("cache", cache), _count("room", room)
    candidates = _candidates(activities, inputs, outputs)
    cache, room = min(cache, candidates), min(room, candidates)
    rejected, found = (c_uint64 * cache)(), (c_uint32 * room)()
    value, run = c_uint64(), _Counts()
    number = _library.placelist_search(
        _setting(activities, _BYTE), _setting(inputs, _BYTE), _setting(outputs, _BYTE),
        _setting(threshold, _HALF), text, len(text), budget, rejected, cache, found, room,
        byref(value), run,
    )
    _accept(number, value)
    end, listed, shelved, replays, visits = run
    return Run(
        End(end),
        [Place.from_word(word) for word in found[:listed]],
        [Rejected(Place.from_word(word & _WORD), Verdict(word >> 32))
         for word in rejected[:shelved]],
        replays,
        visits,
    )


def reduce(places: Iterable[Place]) -> List[Place]:
    """A list without each place that is made up by two or more places of the list of which no two
    have an input or an output in common, in order.

    Refusal: 7, for the first place with an empty set.
    """
    words = _words(places)
    kept = (c_uint32 * len(words))()
    value, count = c_uint64(), c_uint64()
    number = _library.placelist_reduce(
        words, len(words), kept, len(kept), byref(value), byref(count)
    )
    _accept(number, value)
    return [Place.from_word(word) for word in kept[:count.value]]


def write(places: Iterable[Place]) -> bytes:
    """A list as text: for each place four digits of inputs, four of outputs and a line feed.

    Refusal: 7, for the first place with an empty set.
    """
    words = _words(places)
    text = (c_uint8 * (LINE_BYTES * len(words)))()
    value, count = c_uint64(), c_uint64()
    number = _library.placelist_write(
        words, len(words), text, len(text), byref(value), byref(count)
    )
    _accept(number, value)
    return bytes(text)[:count.value]


def report(input: Log) -> bytes:
    """What the program placelist writes for its input, a settings line and a log.

    It is the list, reduced if the search completed, and a line of two digits of end, eight of
    replays and eight of visits. There is no refusal: an input that the program refuses is answered
    by one line of FF, two digits of the number and eight of the value.

    >>> report(b"0303010000\\n000000010001\\n")
    b'00010002\\n00050002\\n00040004\\n000000000C0000000F\\n'
    """
    text = _bytes(input)
    output = (c_uint8 * MOST_OUTPUT)()
    value, count = c_uint64(), c_uint64()
    number = _library.placelist_report(
        text, len(text), output, len(output), byref(value), byref(count)
    )
    _accept(number, value)
    return bytes(output)[:count.value]


def version() -> Version:
    """The version of the library."""
    return _version_of(_library)
