#!/usr/bin/env python3
"""Puts days and their tapes into the input and the wanted output of the program day_cases: gather.py FOLDER..

Every NAME.day of the folders stands behind a line #NAME, as does its NAME.tape. Some texts at the limits come last;
what they have to print is the model's word.
"""

import subprocess
import sys
from pathlib import Path
from typing import Iterator, Tuple

HERE = Path(__file__).resolve().parent
CASES = HERE.parent.parent / "crates" / "day_cases"
LIMIT = 32_768


def stored(folder: Path) -> Iterator[Tuple[str, bytes, bytes]]:
    for day in sorted(folder.glob("*.day")):
        yield day.stem, day.read_bytes(), day.with_suffix(".tape").read_bytes()


def simulated(day: bytes) -> bytes:
    script = [sys.executable, str(HERE / "simulate.py"), "/dev/stdin"]
    return subprocess.run(script, input=day, stdout=subprocess.PIPE, check=True).stdout


def at_the_limits() -> Iterator[Tuple[str, bytes, bytes]]:
    texts = {
        "nothing": b"",
        "only_an_end": b"\n",
        "no_end": b"O\nZ",
        "longest": b"O\nZ\n" + b"X" * (LIMIT - 4),
        "too_long": b"O\nZ\n" + b"X" * (LIMIT - 3),
    }
    for name, day in texts.items():
        yield name, day, simulated(day)


def main() -> None:
    cases = [case for folder in sys.argv[1:] for case in stored(Path(folder))] + list(at_the_limits())
    with open(CASES / "stdin", "wb") as days, open(CASES / "stdout", "wb") as tapes:
        for name, day, tape in cases:
            assert b"#" not in day, name
            days.write(b"#%s\n%s" % (name.encode(), day))
            tapes.write(b"#%s\n%s" % (name.encode(), tape))
    print(len(cases), "days")


if __name__ == "__main__":
    main()
