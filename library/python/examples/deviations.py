"""Says whether the cases of a log obey a rule, and where it is broken first, in the office's words.

    deviations FILE PLACE [LEGEND]

FILE is what the program placelist reads: a settings line, then the log. PLACE is a rule as
placelist writes it: four digits of its inputs, four of its outputs. LEGEND has a line for each
activity: two digits of its code, a space, its name. An activity without a name is shown by its
code.

A case deviates in two ways, and can do so in both: an input is missing if an output comes when no
input is left for it, and an input is left over if no output comes for it. How many cases may do so
either way is the threshold of the settings line. Of the first line in which an input is missing the
events are shown, with a mark on the first that misses one. Lines of the log and events count from
0.

The status is 0, whether or not the rule is obeyed; 1 if a file cannot be read, or standard output
not written; 2 if there are not two or three arguments, or PLACE is not eight digits; 3 if a file or
the place is refused.
"""

import re
import sys
from typing import BinaryIO, Dict, List, Optional

from kinds import COUNT_DIGITS, activity, codes_of
from places import ask, read_input, run_program, say  # it finds placelist
from rules import counted, read_legend, rule, side, tolerance

from placelist import MissingToken, Place, Settings, Verdict, judge

PLACE = re.compile(r"([0-9A-F]{4})([0-9A-F]{4})")


def read_place(digits: str) -> Optional[Place]:
    """The place of eight digits; none if they are anything else."""
    parts = PLACE.fullmatch(digits)
    return Place(int(parts[1], 16), int(parts[2], 16)) if parts else None


def why_missing(place: Place, codes: bytes, event: int, names: Dict[int, str]) -> str:
    """What happens at the event that misses an input: there was none, or other events took it."""
    inputs = side(place.input_codes, names)
    came = place.input_codes.intersection(codes[:event])
    lack = f"with no {inputs} left" if came else f"before any {inputs}"
    return f"{activity(codes[event], 1, names)} {lack}"


def events(codes: bytes, marked: int, names: Dict[int, str]) -> List[str]:
    """The events of a line by their numbers, one of them marked."""
    width = len(str(len(codes) - 1))
    return [
        f"  {'>' if event == marked else ' '} {event:{width}}  {activity(code, 1, names)}"
        for event, code in enumerate(codes)
    ]


def underfed_line(
    place: Place, first: MissingToken, frames: List[bytes], names: Dict[int, str]
) -> List[str]:
    """The first line in which an input is missing."""
    frame = frames[first.line]
    codes = codes_of(frame)
    cases = counted(int(frame[:COUNT_DIGITS], 16), "case")
    return [
        f"line {first.line} ({cases}): {why_missing(place, codes, first.event, names)}",
        *events(codes, first.event, names),
    ]


def print_deviations(
    settings: Settings, log: bytes, place: Place, names: Dict[int, str], out: BinaryIO
) -> int:
    """Writes how the cases of a log deviate from a rule; the status."""
    found = ask("the judgement", judge, settings.activities, settings.threshold, log, place)
    frames = log.splitlines()
    cases = counted(found.fitting + found.underfed + found.overfed + found.both, "case")
    obeyed = "obeyed" if found.verdict is Verdict.FITTING else "NOT OBEYED"
    missing = f"An input is missing in {found.underfed + found.both:,} of {cases}"
    lines = [
        f"{cases} in {counted(len(frames), 'line')} of the log; {tolerance(settings)}.",
        f"{rule(place, names)}: {obeyed}.",
        "An output (right) needs an input (left) of its own before it; no input may be left over.",
        "",
        f"An input is left over in {found.overfed + found.both:,} of {cases}.",
    ]
    if found.first_underfed is None:
        lines += [f"{missing}: in no line of the log."]
    else:
        lines += [f"{missing}, first in this line (lines and events count from 0):", ""]
        lines += underfed_line(place, found.first_underfed, frames, names)
    out.write("".join(line + "\n" for line in lines).encode())
    return 0


def main(arguments: List[str]) -> int:
    place = read_place(arguments[1]) if len(arguments) in (2, 3) else None
    if place is None:
        say("usage: deviations FILE PLACE [LEGEND], where PLACE is eight digits, 0-9 and A-F")
        return 2

    def job(out: BinaryIO) -> int:
        names = read_legend(arguments[2]) if len(arguments) == 3 else {}
        return print_deviations(*read_input(arguments[0]), place, names, out)

    return run_program("deviations", job)


if __name__ == "__main__":
    sys.exit(main(sys.argv[1:]))
