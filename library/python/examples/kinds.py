"""Prints how many kinds of case a log has, and which are the most common, in the office's words.

    kinds FILE [LEGEND]

FILE is what the program placelist reads: a settings line, then the log. LEGEND has a line for each
activity: two digits of its code, a space, its name. An activity without a name is shown by its
code. Two cases are of one kind if each activity occurs as often in one as in the other, in whatever
order. A kind is shown by its activities, in the order in which they first occur in its first line.

The status is 0; 1 if a file cannot be read, or standard output not written; 2 if there are not one
or two arguments; 3 if a file is refused.
"""

import sys
from collections import Counter
from textwrap import TextWrapper
from typing import BinaryIO, Dict, List

from places import ask, read_input, run_program, say  # it finds placelist
from rules import counted, read_legend

from placelist import Settings, Variant, summarize

COUNT_DIGITS = 8  # of the case count, before the activities of a line

WRAPPER = TextWrapper(
    width=100, initial_indent="    ", subsequent_indent="    ", break_long_words=False,
    break_on_hyphens=False,
)


def activity(code: int, times: int, names: Dict[int, str]) -> str:
    """An activity, and how often it occurs if more than once."""
    name = names.get(code, f"{code:02X}")
    return name if times == 1 else f"{name} ({times} times)"


def codes_of(line: bytes) -> bytes:
    """The activities of a line by their codes."""
    return bytes.fromhex(line[COUNT_DIGITS:].decode())


def way(line: bytes, names: Dict[int, str]) -> str:
    """The activities of a line, each where it first occurs."""
    times_of = Counter(codes_of(line))
    return ", ".join(activity(code, times, names) for code, times in times_of.items())


def size(kind: Variant, cases: int) -> str:
    """How many of all cases are of a kind, and on how many lines."""
    share = 100 * kind.cases / cases
    return f"{share:.1f} %: {counted(kind.cases, 'case')} in {counted(kind.frames, 'line')}"


def print_kinds(settings: Settings, log: bytes, names: Dict[int, str], out: BinaryIO) -> int:
    """Writes the kinds of a log; the status."""
    kinds = ask("the summary", summarize, settings.activities, log)
    cases = sum(kind.cases for kind in kinds)
    frames = log.splitlines()
    lines = [
        f"{counted(cases, 'case')} in {counted(len(frames), 'line')} of the log: "
        f"{counted(len(kinds), 'kind')} of case.",
        "Cases are of one kind if each activity occurs in them equally often, in whatever order.",
        "",
    ]
    for kind in kinds:
        lines += [size(kind, cases), *WRAPPER.wrap(way(frames[kind.first_line], names))]
    out.write("".join(line + "\n" for line in lines).encode())
    return 0


def main(arguments: List[str]) -> int:
    if len(arguments) not in (1, 2):
        say("usage: kinds FILE [LEGEND]")
        return 2

    def job(out: BinaryIO) -> int:
        names = read_legend(arguments[1]) if len(arguments) == 2 else {}
        return print_kinds(*read_input(arguments[0]), names, out)

    return run_program("kinds", job)


if __name__ == "__main__":
    sys.exit(main(sys.argv[1:]))
