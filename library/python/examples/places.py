"""Lists the places of a log, and says of each how many cases fit it, and where the first token is
missing, if one is.

    places FILE

FILE is what the program placelist reads: a settings line, then the log. The status is 0 if the list
is complete; 1 if FILE cannot be read, or standard output not written; 2 if there is not one
argument; 3 if FILE is refused; 4 if the search stopped, so that the list is a beginning only.
"""

import os
import re
import sys
from contextlib import suppress
from typing import BinaryIO, Callable, List, Tuple, TypeVar

sys.path.insert(0, os.path.join(os.path.dirname(os.path.realpath(__file__)), ".."))

from placelist import (  # noqa: E402
    LINE_BYTES, End, Place, Refusal, Settings, Verdict, check, judge, reduce, search, write,
)

Answer = TypeVar("Answer")

ENDS = {
    End.COMPLETE: "complete",
    End.BUDGET_SPENT: "stopped, the budget was spent",
    End.LIST_FULL: "stopped, the list was full",
}

SETTINGS_LINE = re.compile(rb"([0-9A-F]{2})([0-9A-F]{2})([0-9A-F]{2})([0-9A-F]{4})\n")


class Stop(Exception):
    """What stops a program: its status, and the words for standard error."""

    def __init__(self, status: int, words: str) -> None:
        super().__init__(status, words)
        self.status = status
        self.words = words


def read_file(path: str) -> bytes:
    """The bytes of a file."""
    try:
        with open(path, "rb") as file:
            return file.read()
    except OSError:
        raise Stop(1, f"cannot read {path}") from None


def read_input(path: str) -> Tuple[Settings, bytes]:
    """The settings and the log of a file."""
    text = read_file(path)
    line = SETTINGS_LINE.match(text)
    if line is None:
        raise Stop(3, "the first line is no settings line")
    activities, inputs, outputs, threshold = (int(digits, 16) for digits in line.groups())
    return Settings(activities, inputs, outputs, threshold), text[line.end():]


def ask(name: str, call: Callable[..., Answer], *arguments: object) -> Answer:
    """The answer of a call. A refusal stops the program."""
    try:
        return call(*arguments)
    except Refusal as refusal:
        raise Stop(3, f"{name} was refused: {refusal} (number {refusal.number})") from None


def say(words: str) -> None:
    """Says something on standard error, if there is one."""
    with suppress(OSError):
        os.write(2, os.fsencode(words + "\n"))


def run_program(name: str, job: Callable[[BinaryIO], int]) -> int:
    """Runs a job that writes to standard output and answers its status; the status in any case."""
    try:
        with open(1, "wb", closefd=False) as out:
            try:
                return job(out)
            except Stop as stop:
                out.flush()
                say(f"{name}: {stop.words}")
                return stop.status
    except OSError:
        return 1


def list_places(settings: Settings, log: bytes, out: BinaryIO) -> int:
    """Writes the places of a log; the status."""
    size = ask("the check", check, settings.activities, log)
    out.write(b"log: %d frames, %d cases\n" % size)
    run = ask("the search", search, settings, log)
    out.write(
        b"search: %s; %d places found, %d replays, %d visits\n"
        % (ENDS[run.end].encode(), len(run.found), run.replays, run.visits)
    )
    marks = [rejected.mark for rejected in run.rejected]  # of those that the cache had room for
    out.write(
        b"rejected: %d underfed, %d overfed, %d both\n"
        % tuple(map(marks.count, (Verdict.UNDERFED, Verdict.OVERFED, Verdict.BOTH)))
    )
    places = run.found
    if run.end is End.COMPLETE:  # a list that is not complete is left as found
        places = ask("the reduction", reduce, places)
        out.write(b"reduced: %d places\n" % len(places))
    write_list(settings, log, size.cases, places, out)
    return 0 if run.end is End.COMPLETE else 4


def write_list(
    settings: Settings, log: bytes, cases: int, places: List[Place], out: BinaryIO
) -> None:
    """Writes a line for each place."""
    text = ask("the writing", write, places)
    for number, place in enumerate(places):
        judgement = ask("the judgement", judge, settings.activities, settings.threshold, log, place)
        digits = text[number * LINE_BYTES:(number + 1) * LINE_BYTES - 1]
        out.write(b"%s: %d of %d cases fit" % (digits, judgement.fitting, cases))
        if judgement.first_underfed is not None:
            out.write(b"; first missing token: line %d, event %d" % judgement.first_underfed)
        out.write(b"\n")


def main(arguments: List[str]) -> int:
    if len(arguments) != 1:
        say("usage: places FILE")
        return 2
    return run_program("places", lambda out: list_places(*read_input(arguments[0]), out))


if __name__ == "__main__":
    sys.exit(main(sys.argv[1:]))
