#!/usr/bin/env python3
"""Checks a transcript of the program `day` against the laws of a day: check_laws.py DAYFILE TRANSCRIPT.

It decides no price and no size: it follows the transcript line by line, moves the orders as the lines say, and looks
whether the laws hold. Of a refusal it asks that its reason holds. It says OK, or the transcript's line and the law that
fails there, and then ends with status 1. It shares no code with simulate.py or with the program.
"""

from __future__ import annotations

import re
import sys
from dataclasses import dataclass, field
from typing import List, NamedTuple, Optional, Tuple

# the fields behind a letter: v class, u column, l last sale, s side, m member, p price, q shares, o and n of a Cancel
KINDS = {"G": "vul", "N": "smpq", "I": "smpq", "T": "smpq", "M": "smq", "C": "on", "F": "pq", "R": "", "O": "", "Z": ""}
PRINTED = re.compile("0|[1-9][0-9]*")
NUMBER = re.compile("0|[1-9][0-9]{0,6}")
WORDS = {"s": re.compile("[BS]"), "u": re.compile("[LH]"), **{kind: NUMBER for kind in "vlmpqon"}}
BOUNDS = {"v": (1, 3), "l": (0, 100000), "m": (1, 255), "p": (1, 100000), "q": (100, 1000000)}
# the letters that a refusal of the market is for, and the field that it finds out of bounds
REFUSALS = {31: "G", 33: "G", 41: "NITF", 42: "NITMF", 43: "NITM", 45: "N", 47: "NITM"}
REFUSALS.update({51: "C", 52: "C", 53: "C", 61: "F", 71: "R"})
OUT_OF = {31: "v", 33: "l", 41: "p", 42: "q", 47: "m"}
MOST_ORDERS = 512
PHASES = {"loading": "GNTO", "trading": "NITMCFRZ", "closed": ""}

# half the width of a range: the highest last sale of a band, then lower and higher value of class 1 and of the others
WIDTHS = [
    (999, 5, 10, 5, 10),
    (2499, 10, 25, 10, 20),
    (4999, 15, 35, 10, 25),
    (9999, 35, 75, 25, 50),
    (14999, 60, 125, 50, 100),
    (100000, 100, 200, 100, 200),
]


class Broken(Exception):
    """A law that does not hold, and the line of the transcript where that shows."""

    def __init__(self, line: int, law: str) -> None:
        super().__init__(line, law)
        self.line = line
        self.law = law


class Said(NamedTuple):
    """A line of the transcript."""

    line: int
    letter: str
    fields: List[str]

    def numbers(self, count: int) -> List[int]:
        if len(self.fields) != count or not all(PRINTED.fullmatch(f) for f in self.fields):
            raise Broken(self.line, "a line %s has %d numbers" % (self.letter, count))
        return [int(f) for f in self.fields]


@dataclass
class Order:
    number: int
    letter: str
    side: str
    member: int
    price: int
    shares: int
    open: int
    place: str = "nowhere"

    def takes(self, price: int) -> bool:
        """Whether a price of the other side is within the order's limit."""
        if self.letter in "MT":
            return True
        return price <= self.price if self.side == "B" else price >= self.price

    def is_reached_by(self, price: int) -> bool:
        return price >= self.price if self.side == "B" else price <= self.price

    def give_up(self, shares: int) -> None:
        self.open -= shares
        if self.open == 0:
            self.place = "nowhere"


@dataclass
class Transcript:
    lines: List[Said]
    at: int = 0

    def next(self) -> Said:
        if self.at < len(self.lines):
            return self.lines[self.at]
        return Said(len(self.lines) + 1, "", [])

    def begins(self, letter: str, first: Optional[int] = None) -> bool:
        said = self.next()
        return said.letter == letter and (first is None or said.fields[:1] == [str(first)])

    def take(self) -> Said:
        said = self.next()
        self.at += 1
        return said

    def want(self, letter: str, law: str, *numbers: int) -> Said:
        """The next line, which has this letter and begins with these numbers by the law."""
        said = self.next()
        if said.letter != letter or said.fields[: len(numbers)] != [str(n) for n in numbers]:
            raise Broken(said.line, "%s (found: %s)" % (law, " ".join([said.letter, *said.fields]) or "the end"))
        return self.take()


def split(text: bytes) -> Tuple[str, List[str]]:
    letter, *fields = text.decode("latin-1").split("\t")
    return letter, fields


def fault_of(letter: str, fields: List[str]) -> Optional[Tuple[int, int]]:
    """The refusal's number and field of a damaged line."""
    if letter not in KINDS:
        return 11, 0
    kinds = KINDS[letter]
    if len(kinds) != len(fields):
        return 12, 0
    bad = [place for place, (kind, f) in enumerate(zip(kinds, fields)) if not WORDS[kind].fullmatch(f)]
    if not bad:
        return None
    return (14 if kinds[bad[0]] in "su" else 13), bad[0] + 2


def is_in_bounds(kind: str, text: str) -> bool:
    if kind not in BOUNDS:
        return True
    low, high = BOUNDS[kind]
    return low <= int(text) <= high and (kind != "q" or int(text) % 100 == 0)


def other(side: str) -> str:
    return "S" if side == "B" else "B"


@dataclass
class Day:
    transcript: Transcript
    phase: str = "loading"
    setting: Tuple[int, str] = (1, "L")
    last_sale: int = 0
    range: Tuple[int, int] = (0, 0)  # as a P line shows it
    is_paused: bool = False
    orders: List[Order] = field(default_factory=list)
    line: List[Order] = field(default_factory=list)
    elected: List[int] = field(default_factory=list)
    printed: int = 0
    cancelled: int = 0

    # --- what is seen of the book ---

    def resting(self, side: str) -> List[Order]:
        found = [o for o in self.orders if o.place == "book" and o.side == side]
        sign = -1 if side == "B" else 1
        return sorted(found, key=lambda o: (sign * o.price, o.number))

    def best(self, side: str) -> Optional[int]:
        return self.resting(side)[0].price if self.resting(side) else None

    def contra(self, order: Order) -> Optional[int]:
        """The best price that rests on the other side within the order's limit."""
        best = self.best(other(order.side))
        return best if best is not None and order.takes(best) else None

    def within_range(self, price: int) -> bool:
        return self.range == (0, 0) or self.range[0] <= price <= self.range[1]

    def set_range(self) -> None:
        volume_class, column = self.setting
        self.range = (0, 0)
        if self.last_sale:
            row = next(row for row in WIDTHS if self.last_sale <= row[0])
            width = row[(1 if volume_class == 1 else 3) + (column == "H")]
            self.range = (max(1, self.last_sale - width), self.last_sale + width)

    # --- laws of a single line ---

    def check_print(self, runner: Order, is_first: bool) -> int:
        said = self.transcript.take()
        _, price, shares, low, high = said.numbers(5)
        here = said.line
        if (low, high) != self.range:
            raise Broken(here, "a print shows the range in force, %d to %d" % self.range)
        if not self.within_range(price):
            raise Broken(here, "no print is outside the range that it shows")
        if not runner.takes(price):
            raise Broken(here, "no print is beyond its order's limit")
        if shares == 0 or shares % 100 or shares > runner.open:
            raise Broken(here, "a print has whole lots, and no more than its order has open")
        taken = self.take_from_book(runner.side, price, shares, here)
        if taken[-1] != price or (is_first and taken[0] != price):
            raise Broken(here, "a print's price is that of the orders that it meets")
        runner.give_up(shares)
        best = self.contra(runner)
        if runner.open and best is not None and (best <= price if runner.side == "B" else best >= price):
            raise Broken(here, "a print takes all that both sides have at its price or better")
        self.printed += shares
        return price

    def take_from_book(self, side: str, price: int, shares: int, here: int) -> List[int]:
        """Takes a print's shares, best price and lowest number first; the prices of those who gave."""
        prices, left = [], shares
        for order in self.resting(other(side)):
            if left == 0:
                break
            if order.price > price if side == "B" else order.price < price:
                raise Broken(here, "no order gives at a price worse than its own")
            given = min(left, order.open)
            order.give_up(given)
            left -= given
            prices.append(order.price)
        if left:
            raise Broken(here, "a print's shares come from orders that rest on the other side")
        return prices

    def check_cancellation(self, order: Order) -> None:
        law = "a cancellation of order %d takes all its %d open shares" % (order.number, order.open)
        self.transcript.want("X", law, order.number, order.open).numbers(2)
        self.cancelled += order.open
        order.give_up(order.open)

    def check_elections(self, price: int) -> None:
        """Each filed stop that the price reaches is elected now, the lowest number first."""
        for order in self.orders:
            if order.place == "file" and order.is_reached_by(price):
                law = "stop %d is elected by the first price that reaches it, %d, in number order" % (order.number, price)
                self.transcript.want("E", law, order.number).numbers(1)
                self.elected.append(order.number)
                self.join(order)

    def check_no_election(self) -> None:
        said = self.transcript.next()
        if said.letter == "E":
            number = said.numbers(1)[0]
            twice = number in self.elected
            law = "nobody is elected twice" if twice else "a stop is elected by a price that reaches it, by nothing else"
            raise Broken(said.line, law)

    def check_quote(self) -> None:
        bid, offer = self.best("B"), self.best("S")
        if bid is not None and offer is not None and bid >= offer:
            law = "the best bid is below the best offer after every call (%d, %d)" % (bid, offer)
            raise Broken(self.transcript.next().line, law)

    # --- runs ---

    def join(self, order: Order) -> None:
        order.place = "line"
        self.line.append(order)

    def can_print(self, runner: Order) -> bool:
        """Whether a print can be of this run: one behind a pause may be of the same order in the next call."""
        best = self.contra(runner)
        return runner.open > 0 and best is not None and self.within_range(best)

    def follow_run(self, runner: Order) -> None:
        prices: List[int] = []
        while len(prices) < 2 and self.can_print(runner) and self.transcript.begins("P", runner.number):
            prices.append(self.check_print(runner, not prices))
        if runner.open:
            self.follow_residual(runner)
        else:
            self.line.remove(runner)
        for price in prices:
            self.check_elections(price)
            self.last_sale = price
        self.check_no_election()
        if prices and self.range == (0, 0):
            self.set_range()

    def follow_residual(self, runner: Order) -> None:
        best = self.contra(runner)
        if best is not None and self.within_range(best):
            law = "order %d does not lock or cross the book within range: it trades" % runner.number
            raise Broken(self.transcript.next().line, law)
        self.is_paused = best is not None
        if self.is_paused and runner.letter != "I":
            return
        self.line.remove(runner)
        if runner.letter == "N":
            runner.place = "book"
            self.check_quote()
        else:
            self.check_cancellation(runner)

    def follow_line(self) -> None:
        while self.line and not self.is_paused:
            self.follow_run(self.line[0])

    # --- calls ---

    def accept(self, letter: str, side: str, numbers: List[int]) -> Order:
        number = len(self.orders) + 1
        self.transcript.want("A", "order numbers count up: %d is next" % number, number).numbers(1)
        price = 0 if letter == "M" else numbers[1]
        order = Order(number, letter, side, numbers[0], price, numbers[-1], numbers[-1])
        self.orders.append(order)
        return order

    def order_comes(self, order: Order) -> None:
        is_loaded = self.phase == "loading"
        if order.letter == "T":
            order.place = "file"
        elif order.letter == "N" and (is_loaded or self.contra(order) is None):
            order.place = "book"
        elif order.letter == "I" and self.is_paused:
            self.check_cancellation(order)
        else:
            self.join(order)
        self.follow_line()

    def cancel(self, member: int, number: int) -> None:
        if not 1 <= number <= len(self.orders):
            raise Broken(self.transcript.next().line, "only an accepted order is cancelled")
        order = self.orders[number - 1]
        if order.member != member or order.open == 0:
            raise Broken(self.transcript.next().line, "only open shares are cancelled, by their own member")
        self.check_cancellation(order)
        if order in self.line:
            self.line.remove(order)

    def floor_trade(self, price: int, shares: int) -> None:
        said = self.transcript.want("F", "a floor trade has an F line of its price and shares", price, shares)
        said.numbers(2)
        if self.is_outside_quote(price):
            raise Broken(said.line, "a floor trade is not outside the quote")
        self.is_paused = False
        self.last_sale = price
        self.set_range()
        self.check_elections(price)
        self.check_no_election()
        self.follow_line()

    def resume(self) -> None:
        if not self.is_paused:
            raise Broken(self.transcript.next().line, "Resume is performed in a pause only")
        self.is_paused = False
        self.set_range()
        self.follow_line()

    def close(self) -> None:
        self.phase = "closed"
        said = self.transcript.want("Z", "a day that closes has a Z line")
        accepted, printed, cancelled, left = said.numbers(4)
        sums = {
            "accepted": (accepted, sum(o.shares for o in self.orders)),
            "printed (the sum of P)": (printed, self.printed),
            "cancelled (the sum of X)": (cancelled, self.cancelled),
            "open": (left, sum(o.open for o in self.orders)),
            "accepted = 2 * printed + cancelled + open": (accepted, 2 * printed + cancelled + left),
        }
        for what, (shown, right) in sums.items():
            if shown != right:
                raise Broken(said.line, "totals: %s is %d, not %d" % (what, right, shown))

    # --- lines of the day file ---

    def follow(self, number: int, text: bytes) -> None:
        """Follows what was printed for a line of the day file."""
        if self.transcript.begins("!"):
            said = self.transcript.next()
            if said.fields[:1] == [str(number)]:
                self.check_refusal(self.transcript.take(), text)
                return
        self.perform(*self.performed(number, text))
        self.check_quote()

    def check_refusal(self, said: Said, text: bytes) -> None:
        """The reason that a refusal names has to hold; whether an earlier one of the list holds too is not asked."""
        if len(said.fields) != 4:
            raise Broken(said.line, "a refusal has line, layer, number and field")
        layer, number, field_place = said.fields[1:]
        letter, fields = split(text)
        fault = fault_of(letter, fields)
        if fault:
            is_right = (layer, number, field_place) == ("T", *map(str, fault))
        else:
            is_right = field_place == "0" and number.isdigit() and self.has_reason(layer, int(number), letter, fields)
        if not is_right:
            raise Broken(said.line, "a refusal has its reason: %s %s %s has none" % (layer, number, field_place))

    def has_reason(self, layer: str, number: int, letter: str, fields: List[str]) -> bool:
        is_of_phase = letter in PHASES[self.phase]
        if layer == "S":
            return number == 21 and not is_of_phase
        if layer != "M" or not is_of_phase or letter not in REFUSALS.get(number, ""):
            return False
        if number in OUT_OF:
            return not all(is_in_bounds(kind, f) for kind, f in zip(KINDS[letter], fields) if kind == OUT_OF[number])
        if letter == "C":
            return self.is_cancel_refused(number, int(fields[0]), int(fields[1]))
        if letter == "F":
            return self.is_outside_quote(int(fields[0]))
        if letter == "R":
            return not self.is_paused
        if number == 43:
            return len(self.orders) == MOST_ORDERS
        return self.phase == "loading" and self.would_meet(fields[0], int(fields[2]))

    def is_cancel_refused(self, number: int, member: int, order: int) -> bool:
        is_there = 1 <= order <= len(self.orders)
        if number == 51 or not is_there:
            return number == 51 and not is_there
        found = self.orders[order - 1]
        return found.member != member if number == 52 else found.open == 0

    def is_outside_quote(self, price: int) -> bool:
        bid, offer = self.best("B"), self.best("S")
        return (bid is not None and price < bid) or (offer is not None and price > offer)

    def would_meet(self, side: str, price: int) -> bool:
        best = self.best(other(side))
        return best is not None and (best <= price if side == "B" else best >= price)

    def performed(self, number: int, text: bytes) -> Tuple[str, List[str]]:
        """The letter and fields of a line that was not refused."""
        here = self.transcript.next().line
        letter, fields = split(text)
        if fault_of(letter, fields):
            raise Broken(here, "day line %d is damaged, so it is refused" % number)
        if letter not in PHASES[self.phase]:
            raise Broken(here, "day line %d is of another phase, so it is refused" % number)
        if not all(is_in_bounds(kind, f) for kind, f in zip(KINDS[letter], fields)):
            raise Broken(here, "day line %d is out of bounds, so it is refused" % number)
        return letter, fields

    def perform(self, letter: str, fields: List[str]) -> None:
        if letter in "NITM":
            self.order_comes(self.accept(letter, fields[0], [int(f) for f in fields[1:]]))
        elif letter == "G":
            self.setting = (int(fields[0]), fields[1])
            self.last_sale = int(fields[2])
        elif letter == "O":
            self.phase = "trading"
            self.set_range()
        else:
            calls = {"C": self.cancel, "F": self.floor_trade, "R": self.resume, "Z": self.close}
            calls[letter](*[int(f) for f in fields])


def lines_of(data: bytes) -> List[bytes]:
    lines = data.split(b"\n")
    return lines[:-1] if lines[-1] == b"" else lines


def read_transcript(data: bytes) -> Transcript:
    if data and not data.endswith(b"\n"):
        raise Broken(data.count(b"\n") + 1, "every printed line ends with byte 10")
    lines = [line.decode("latin-1").split("\t") for line in lines_of(data)]
    return Transcript([Said(number, words[0], words[1:]) for number, words in enumerate(lines, start=1)])


def check(day_file: bytes, printed: bytes) -> None:
    """Raises Broken where a law does not hold."""
    transcript = read_transcript(printed)
    if len(day_file) > 32768:
        said = transcript.want("!", "too long a file is refused whole", 0)
        if said.fields != ["0", "T", "17", "0"]:
            raise Broken(said.line, "too long a file is refused by 17")
        day_file = b""
    day = Day(transcript)
    for number, text in enumerate(lines_of(day_file), start=1):
        day.follow(number, text)
    if transcript.at < len(transcript.lines):
        raise Broken(transcript.next().line, "every line belongs to a call that brings it forth")


def main(arguments: List[str]) -> int:
    if len(arguments) != 2:
        print("usage: check_laws.py DAYFILE TRANSCRIPT", file=sys.stderr)
        return 2
    with open(arguments[0], "rb") as day_file, open(arguments[1], "rb") as printed:
        try:
            check(day_file.read(), printed.read())
        except Broken as broken:
            print("line %d: %s" % (broken.line, broken.law))
            return 1
    print("OK")
    return 0


if __name__ == "__main__":
    raise SystemExit(main(sys.argv[1:]))
