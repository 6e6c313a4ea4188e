#!/usr/bin/env python3
"""Replays a day file as docs/RULES.md, docs/DAY-LINES.md and docs/MARKET.md say: simulate.py FILE, or simulate.py < FILE.

A plain, slow model of the rules, written from these pages alone. It shares no code with the program `day`, so that
an output can be expected that does not come from the program. Shares go out by time priority.
"""

from __future__ import annotations

import re
import sys
from dataclasses import dataclass, field
from typing import List, NamedTuple, Optional, Tuple, Union

MOST_BYTES = 32768
MOST_PRICE = 100000
MOST_SHARES = 1000000
LOT = 100
MOST_MEMBER = 255
ROLL_PLACES = 512

# what each letter's further fields are: a number, a side, a column
FIELDS = {
    "G": "nCn",
    "N": "Snnn",
    "I": "Snnn",
    "T": "Snnn",
    "M": "Snn",
    "C": "nn",
    "F": "nn",
    "R": "",
    "O": "",
    "Z": "",
}
NUMBER = re.compile(rb"0|[1-9][0-9]{0,6}")
LETTERS = {"S": (b"B", b"S"), "C": (b"L", b"H")}

# the bands of the last sale, each by its highest price, with the lower and the higher value
CLASS_1 = [(999, 5, 10), (2499, 10, 25), (4999, 15, 35), (9999, 35, 75), (14999, 60, 125), (MOST_PRICE, 100, 200)]
CLASS_2_3 = [(999, 5, 10), (2499, 10, 20), (4999, 10, 25), (9999, 25, 50), (14999, 50, 100), (MOST_PRICE, 100, 200)]

Field = Union[int, str]


class Fault(NamedTuple):
    """Why a line is refused as text."""

    number: int
    place: int


class Refused(Exception):
    """A line that the market or the phase of the day refuses."""

    def __init__(self, layer: str, number: int) -> None:
        super().__init__(layer, number)
        self.layer = layer
        self.number = number


class Range(NamedTuple):
    low: int
    high: int


@dataclass
class Order:
    number: int
    kind: str  # the letter of its line
    side: str
    member: int
    price: int  # 0 for a market order
    shares: int
    open: int
    filled: int = 0
    cancelled: int = 0
    place: str = "nowhere"  # nowhere, book, line or file

    def in_limit(self, price: int) -> bool:
        if self.kind in "MT":  # an order of these kinds that runs is a market order
            return True
        return price <= self.price if self.side == "B" else price >= self.price

    def is_as_good_as(self, price: int) -> bool:
        return self.price >= price if self.side == "B" else self.price <= price

    def is_elected_at(self, price: int) -> bool:
        return self.price <= price if self.side == "B" else self.price >= price

    def fill(self, shares: int) -> None:
        self.filled += shares
        self.open -= shares
        if self.open == 0:
            self.place = "nowhere"

    def cancel(self) -> int:
        taken = self.open
        self.cancelled += taken
        self.open = 0
        self.place = "nowhere"
        return taken


def range_around(last_sale: int, volume_class: int, column: str) -> Optional[Range]:
    if last_sale == 0:
        return None
    table = CLASS_1 if volume_class == 1 else CLASS_2_3
    lower, higher = next((low, high) for top, low, high in table if last_sale <= top)
    value = lower if column == "L" else higher
    return Range(max(1, last_sale - value), last_sale + value)


def other(side: str) -> str:
    return "S" if side == "B" else "B"


@dataclass
class Day:
    phase: str = "loading"
    volume_class: int = 1
    column: str = "L"
    last_sale: int = 0
    range: Optional[Range] = None
    is_paused: bool = False
    roll: List[Order] = field(default_factory=list)
    line: List[Order] = field(default_factory=list)
    tape: List[str] = field(default_factory=list)

    # --- the book, read off the roll ---

    def resting(self, side: str) -> List[Order]:
        """The resting orders of a side: the better price first, the lower number first at one price."""
        orders = [o for o in self.roll if o.place == "book" and o.side == side]
        return sorted(orders, key=lambda o: (-o.price if side == "B" else o.price, o.number))

    def best(self, side: str) -> Optional[int]:
        orders = self.resting(side)
        return orders[0].price if orders else None

    def meets_contra(self, order: Order) -> bool:
        best = self.best(other(order.side))
        return best is not None and order.in_limit(best)

    def is_in_range(self, price: int) -> bool:
        return self.range is None or self.range.low <= price <= self.range.high

    def reachable(self, order: Order) -> List[Order]:
        """The orders of the other side within limit and range, best first."""
        return [o for o in self.resting(other(order.side)) if order.in_limit(o.price) and self.is_in_range(o.price)]

    # --- the tape ---

    def say(self, letter: str, *numbers: int) -> None:
        self.tape.append("\t".join([letter, *map(str, numbers)]))

    # --- an order runs ---

    def print_trade(self, runner: Order, price: int, shares: int) -> None:
        low, high = self.range if self.range else (0, 0)
        self.say("P", runner.number, price, shares, low, high)

    def trade_at_best(self, runner: Order) -> Optional[int]:
        """The first print of a run, with the orders at the best price together; its price."""
        best = self.best(other(runner.side))
        if best is None or not runner.in_limit(best) or not self.is_in_range(best):
            return None
        row = [o for o in self.resting(other(runner.side)) if o.price == best]
        shares = min(runner.open, sum(o.open for o in row))
        self.trade(runner, row, best, shares)
        return best

    def trade_at_clean_up(self, runner: Order) -> Optional[int]:
        """The second print of a run: one price for all orders up to it; its price."""
        contra = self.reachable(runner)
        if runner.open == 0 or not contra:
            return None
        price = contra[-1].price
        covered = 0
        for order in contra:
            covered += order.open
            if covered >= runner.open:
                price = order.price
                break
        # in the order of the book the better priced are filled whole, and those at the price by time
        swept = [o for o in contra if o.is_as_good_as(price)]
        self.trade(runner, swept, price, min(runner.open, sum(o.open for o in swept)))
        return price

    def trade(self, runner: Order, row: List[Order], price: int, shares: int) -> None:
        left = shares
        for order in row:
            given = min(order.open, left)
            order.fill(given)
            left -= given
        assert left == 0
        runner.fill(shares)
        self.print_trade(runner, price, shares)

    def settle_residual(self, runner: Order) -> None:
        """What becomes of the shares that a run left over."""
        could_trade = self.meets_contra(runner)
        if could_trade:
            self.is_paused = True
        if could_trade and runner.kind != "I":
            return  # stays first in line
        self.line.remove(runner)
        if runner.kind == "N":
            runner.place = "book"
        else:
            self.say("X", runner.number, runner.cancel())

    def elect(self, price: int) -> None:
        for order in self.roll:
            if order.place == "file" and order.is_elected_at(price):
                self.say("E", order.number)
                self.join(order)

    def join(self, order: Order) -> None:
        order.place = "line"
        self.line.append(order)

    def run(self, runner: Order) -> None:
        prints = []
        first = self.trade_at_best(runner)
        if first is not None:
            prints.append(first)
            second = self.trade_at_clean_up(runner)
            if second is not None:
                prints.append(second)
        if runner.open:
            self.settle_residual(runner)
        else:
            self.line.remove(runner)
        for price in prints:
            self.elect(price)
        if prints:
            self.last_sale = prints[-1]
            if self.range is None:
                self.set_range()

    def work_off(self) -> None:
        while self.line and not self.is_paused:
            self.run(self.line[0])

    # --- the calls ---

    def set_range(self) -> None:
        self.range = range_around(self.last_sale, self.volume_class, self.column)

    def need_phase(self, phase: str) -> None:
        if self.phase != phase:
            raise Refused("S", 21)

    def set_class(self, volume_class: int, column: str, last_sale: int) -> None:
        self.need_phase("loading")
        if not 1 <= volume_class <= 3:
            raise Refused("M", 31)
        if last_sale > MOST_PRICE:
            raise Refused("M", 33)
        self.volume_class, self.column, self.last_sale = volume_class, column, last_sale

    def open_day(self) -> None:
        self.need_phase("loading")
        self.set_range()
        self.phase = "trading"

    def new_order(self, kind: str, side: str, member: int, price: int, shares: int) -> Order:
        """The order with the next number, not yet on the roll."""
        if kind != "M":
            check_price(price)
        check_shares(shares)
        if not 1 <= member <= MOST_MEMBER:
            raise Refused("M", 47)
        if len(self.roll) == ROLL_PLACES:
            raise Refused("M", 43)
        return Order(len(self.roll) + 1, kind, side, member, price, shares, shares)

    def order(self, kind: str, side: str, member: int, price: int, shares: int) -> int:
        if kind in "NT" and self.phase == "loading":
            return self.load(kind, side, member, price, shares)
        self.need_phase("trading")
        return self.enter(kind, side, member, price, shares)

    def load(self, kind: str, side: str, member: int, price: int, shares: int) -> int:
        order = self.new_order(kind, side, member, price, shares)
        if kind == "N" and self.meets_contra(order):
            raise Refused("M", 45)
        order.place = "book" if kind == "N" else "file"
        self.roll.append(order)
        return order.number

    def enter(self, kind: str, side: str, member: int, price: int, shares: int) -> int:
        order = self.new_order(kind, side, member, price, shares)
        self.roll.append(order)
        if kind == "T":
            order.place = "file"
        elif kind == "N" and not self.meets_contra(order):
            order.place = "book"
        elif kind == "I" and self.is_paused:
            self.say("X", order.number, order.cancel())
        else:
            self.join(order)
        self.work_off()
        return order.number

    def cancel(self, member: int, number: int) -> None:
        self.need_phase("trading")
        if not 1 <= number <= len(self.roll):
            raise Refused("M", 51)
        order = self.roll[number - 1]
        if order.member != member:
            raise Refused("M", 52)
        if order.open == 0:
            raise Refused("M", 53)
        if order.place == "line":
            self.line.remove(order)
        self.say("X", number, order.cancel())

    def floor_trade(self, price: int, shares: int) -> None:
        self.need_phase("trading")
        check_price(price)
        check_shares(shares)
        bid, offer = self.best("B"), self.best("S")
        if (bid is not None and price < bid) or (offer is not None and price > offer):
            raise Refused("M", 61)
        self.say("F", price, shares)
        self.last_sale = price
        self.set_range()
        self.is_paused = False
        self.elect(price)
        self.work_off()

    def resume(self) -> None:
        self.need_phase("trading")
        if not self.is_paused:
            raise Refused("M", 71)
        self.set_range()
        self.is_paused = False
        self.work_off()

    def close(self) -> None:
        self.need_phase("trading")
        self.phase = "closed"

    def totals(self) -> Tuple[int, int, int, int]:
        filled = sum(o.filled for o in self.roll)
        return (
            sum(o.shares for o in self.roll),
            filled // 2,
            sum(o.cancelled for o in self.roll),
            sum(o.open for o in self.roll),
        )


def check_price(price: int) -> None:
    if not 1 <= price <= MOST_PRICE:
        raise Refused("M", 41)


def check_shares(shares: int) -> None:
    if not LOT <= shares <= MOST_SHARES or shares % LOT != 0:
        raise Refused("M", 42)


def read_line(text: bytes) -> Union[Fault, List[Field]]:
    """The letter and the further fields of a line, or why it is none."""
    letter, *rest = text.split(b"\t")
    name = letter.decode("latin-1")
    if name not in FIELDS:
        return Fault(11, 0)
    kinds = FIELDS[name]
    if len(rest) != len(kinds):
        return Fault(12, 0)
    values: List[Field] = [name]
    for place, (kind, word) in enumerate(zip(kinds, rest), start=2):
        if kind == "n":
            if not NUMBER.fullmatch(word):
                return Fault(13, place)
            values.append(int(word))
        else:
            if word not in LETTERS[kind]:
                return Fault(14, place)
            values.append(word.decode())
    return values


def lines_of(text: bytes) -> List[bytes]:
    """Byte 10 at the very end opens no further line."""
    if not text:
        return []
    lines = text.split(b"\n")
    return lines[:-1] if lines[-1] == b"" else lines


def perform(day: Day, record: List[Field]) -> List[str]:
    """What the program prints for a record; the day's tape is that of this call alone."""
    letter, *fields = record
    day.tape = []
    if letter in ("N", "I", "T"):
        return ["A\t%d" % day.order(letter, *fields)] + day.tape
    if letter == "M":
        side, member, shares = fields
        return ["A\t%d" % day.order("M", side, member, 0, shares)] + day.tape
    if letter == "Z":
        day.close()
        return ["\t".join(["Z", *map(str, day.totals())])]
    calls = {"G": day.set_class, "O": day.open_day, "C": day.cancel, "F": day.floor_trade, "R": day.resume}
    calls[letter](*fields)
    return day.tape


def replay_line(day: Day, number: int, text: bytes) -> List[str]:
    record = read_line(text)
    if isinstance(record, Fault):
        return ["!\t%d\tT\t%d\t%d" % (number, record.number, record.place)]
    try:
        return perform(day, record)
    except Refused as refused:
        return ["!\t%d\t%s\t%d\t0" % (number, refused.layer, refused.number)]


def replay(text: bytes) -> bytes:
    """All that the program `day` prints for a day file."""
    if len(text) > MOST_BYTES:
        return b"!\t0\tT\t17\t0\n"
    day = Day()
    out: List[str] = []
    for number, line in enumerate(lines_of(text), start=1):
        out += replay_line(day, number, line)
    return "".join(line + "\n" for line in out).encode()


def main(arguments: List[str]) -> int:
    if len(arguments) > 1:
        print("usage: simulate.py FILE, or simulate.py < FILE", file=sys.stderr)
        return 2
    if arguments:
        with open(arguments[0], "rb") as file:
            text = file.read()
    else:
        text = sys.stdin.buffer.read()
    sys.stdout.buffer.write(replay(text))
    return 0


if __name__ == "__main__":
    raise SystemExit(main(sys.argv[1:]))
