"""Prints the rules of a log in the office's words.

    rules FILE [LEGEND]

FILE is what the program placelist reads: a settings line, then the log. LEGEND has a line for each
activity: two digits of its code, a space, its name. An activity without a name is shown by its
code. "X or Z -> Y" says: Y only after one of X and Z, and once for each of either.

The status is 0 if the list is complete; 1 if a file cannot be read, or standard output not written;
2 if there are not one or two arguments; 3 if a file is refused; 4 if the list is not complete.
"""

import re
import sys
from typing import BinaryIO, Dict, List, Set

from places import Stop, ask, read_file, read_input, run_program, say  # it finds placelist

from placelist import (
    PROGRAM_BUDGET, PROGRAM_FOUND, End, LogSize, Place, Run, Settings, check, judge, reduce, search,
)

STOPS = {
    End.BUDGET_SPENT: f"the allowance of {PROGRAM_BUDGET:,} replays was used up",
    End.LIST_FULL: f"the list of {PROGRAM_FOUND:,} rules was full",
}

LEGEND_LINE = re.compile(r"([0-9A-F]{2}) (\S.*)")


def read_legend(path: str) -> Dict[int, str]:
    """The names of a legend, by code."""
    try:
        lines = read_file(path).decode("utf-8-sig").splitlines()
    except UnicodeDecodeError:
        raise Stop(3, "the legend is no UTF-8 text") from None
    names: Dict[int, str] = {}
    for number, line in enumerate(lines):
        parts = LEGEND_LINE.fullmatch(line)
        if parts is None:
            raise Stop(3, f"line {number} of the legend is no code and name")
        code = int(parts[1], 16)
        if code in names:
            raise Stop(3, f"line {number} of the legend names code {parts[1]} again")
        names[code] = parts[2].rstrip()
    return names


def counted(number: int, word: str) -> str:
    """A number of things."""
    return f"{number:,} {word}" if number == 1 else f"{number:,} {word}s"


def tolerance(settings: Settings) -> str:
    """How many cases may deviate."""
    if settings.threshold == 0:
        return "no case may deviate"
    return f"up to {settings.threshold:,} in 1,000 cases may deviate either way"


def heading(settings: Settings, size: LogSize, run: Run, rules: int) -> List[str]:
    """What the list is of, and whether it is complete."""
    found = counted(rules, "rule")
    if run.end is End.COMPLETE:
        end = f"Complete: {found}; any other of that size is several of these side by side."
    else:
        end = (
            f"NOT COMPLETE: {STOPS[run.end]}. Found: {found}; others may be missing, so do not "
            "rebuild from this list."
        )
    sizes = f"{counted(settings.inputs, 'input')} and {counted(settings.outputs, 'output')}"
    return [
        f"{counted(size.cases, 'case')} in {counted(size.frames, 'line')} of the log.",
        f"Rules with up to {sizes}; {tolerance(settings)}.",
        end,
    ]


def side(codes: Set[int], names: Dict[int, str]) -> str:
    """One side of a rule."""
    return " or ".join(names.get(code, f"{code:02X}") for code in sorted(codes))


def rule(place: Place, names: Dict[int, str]) -> str:
    """A place in words."""
    return f"{side(place.input_codes, names)} -> {side(place.output_codes, names)}"


def print_rules(settings: Settings, log: bytes, names: Dict[int, str], out: BinaryIO) -> int:
    """Writes the rules of a log; the status."""
    size = ask("the check", check, settings.activities, log)
    run = ask("the search", search, settings, log)
    complete = run.end is End.COMPLETE
    places = ask("the reduction", reduce, run.found) if complete else run.found
    lines = [*heading(settings, size, run, len(places)), ""]
    for place in places:
        fit = ask("the judgement", judge, settings.activities, settings.threshold, log, place)
        lines.append(f"{rule(place, names)}  ({fit.fitting:,} of {counted(size.cases, 'case')})")
    out.write("".join(line + "\n" for line in lines).encode())
    return 0 if complete else 4


def main(arguments: List[str]) -> int:
    if len(arguments) not in (1, 2):
        say("usage: rules FILE [LEGEND]")
        return 2

    def job(out: BinaryIO) -> int:
        names = read_legend(arguments[1]) if len(arguments) == 2 else {}
        return print_rules(*read_input(arguments[0]), names, out)

    return run_program("rules", job)


if __name__ == "__main__":
    sys.exit(main(sys.argv[1:]))
