#!/usr/bin/env python3
"""Tries check_laws.py on wrong transcripts: break_transcripts.py FOLDER.

Of every NAME.day with its NAME.tape in the folder, each line of the transcript is broken in every way below, one at a
time, and the check has to refuse each. It prints how many of each way were tried and caught, names what slipped
through, and then ends with status 1. The number of a refusal is left alone: more than one reason may hold.
"""

from __future__ import annotations

import os
import sys
from collections import Counter
from typing import Iterator, List, NamedTuple

from check_laws import Broken, check


class Wrong(NamedTuple):
    way: str
    line: int
    lines: List[str]


def with_field(lines: List[str], at: int, place: int, value: int) -> List[str]:
    fields = lines[at].split("\t")
    fields[place] = str(value)
    return lines[:at] + ["\t".join(fields)] + lines[at + 1 :]


def steps_of(letter: str, place: int) -> List[int]:
    """By how much a number is changed: shares by a lot too."""
    shares = {"P": [3], "X": [2], "F": [2], "Z": [1, 2, 3, 4]}.get(letter, [])
    return [-100, 100, 1] if place in shares else [-1, 1]


def numbers_changed(lines: List[str], at: int) -> Iterator[Wrong]:
    letter, *fields = lines[at].split("\t")
    for place, value in enumerate(fields, start=1):
        if letter == "!" and place in (2, 3):
            continue
        for step in steps_of(letter, place):
            if int(value) + step >= 0:
                yield Wrong("%s: field %d changed" % (letter, place), at, with_field(lines, at, place, int(value) + step))


def totals_in_keeping(lines: List[str], at: int) -> Iterator[Wrong]:
    """Wrong totals that still make up the accepted."""
    if lines[at][0] != "Z":
        return
    accepted, printed, cancelled, left = [int(f) for f in lines[at].split("\t")[1:]]
    for totals in ((accepted + 200, printed + 100, cancelled, left), (accepted, printed, cancelled + 100, left - 100)):
        yield Wrong("Z: totals that add up", at, lines[:at] + ["\t".join(["Z", *map(str, totals)])] + lines[at + 1 :])


def print_split(lines: List[str], at: int) -> Iterator[Wrong]:
    fields = lines[at].split("\t")
    if fields[0] != "P" or int(fields[3]) < 200:
        return
    parts = ["\t".join(fields[:3] + [shares] + fields[4:]) for shares in ("100", str(int(fields[3]) - 100))]
    yield Wrong("P: split into two", at, lines[:at] + parts + lines[at + 1 :])


def wrongs(lines: List[str]) -> Iterator[Wrong]:
    for at, line in enumerate(lines):
        letter = line[0]
        yield Wrong(letter + ": dropped", at, lines[:at] + lines[at + 1 :])
        yield Wrong("a line that is empty", at, lines[: at + 1] + [""] + lines[at + 1 :])
        yield Wrong(letter + ": doubled", at, lines[: at + 1] + lines[at:])
        if at + 1 < len(lines) and lines[at + 1] != line:
            yield Wrong(letter + ": after the next line", at, lines[:at] + [lines[at + 1], line] + lines[at + 2 :])
        if letter == "E":
            yield Wrong("E: at the end", at, lines[:at] + lines[at + 1 :] + [line])
        yield from numbers_changed(lines, at)
        yield from totals_in_keeping(lines, at)
        yield from print_split(lines, at)


def is_caught(day_file: bytes, lines: List[str]) -> bool:
    try:
        check(day_file, "".join(line + "\n" for line in lines).encode())
    except Broken:
        return True
    return False


def read(path: str) -> bytes:
    with open(path, "rb") as file:
        return file.read()


def main(arguments: List[str]) -> int:
    if len(arguments) != 1:
        print("usage: break_transcripts.py FOLDER", file=sys.stderr)
        return 2
    tried: Counter = Counter()
    caught: Counter = Counter()
    for name in sorted(n for n in os.listdir(arguments[0]) if n.endswith(".day")):
        path = os.path.join(arguments[0], name)
        day_file, lines = read(path), read(path[:-4] + ".tape").decode().splitlines()
        for wrong in wrongs(lines):
            tried[wrong.way] += 1
            if is_caught(day_file, wrong.lines):
                caught[wrong.way] += 1
            else:
                print("not caught: %s, line %d, %s" % (name, wrong.line + 1, wrong.way))
    for way in sorted(tried):
        print("%-24s tried %6d caught %6d" % (way, tried[way], caught[way]))
    print("%-24s tried %6d caught %6d" % ("all", sum(tried.values()), sum(caught.values())))
    return 0 if tried == caught else 1


if __name__ == "__main__":
    raise SystemExit(main(sys.argv[1:]))
