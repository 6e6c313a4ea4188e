#!/usr/bin/env python3
"""Writes random day files: generate.py SEED COUNT FOLDER (FOLDER/001.day and so on), the same for the same seed.

The model of simulate.py runs along, so that lines can meet the market as it stands: prices near the quote, live
orders to cancel, Resume when trading is paused. At the end it prints how often each tape letter, refusal, pause and
resume came up.
"""

from __future__ import annotations

import os
import random
import sys
from collections import Counter
from typing import Callable, Dict, List, NamedTuple

from simulate import MOST_PRICE, MOST_SHARES, Day, other, replay_line

MEMBERS = 9  # few, so that a wrong member often is somebody
FEWEST_LINES, MOST_LINES = 30, 120
MOST_FILE = 3000
NO_NUMBERS = ["C\t+1\t2", "F\t010\t100", "M\tB\t1\t-5", "N\tS\t3\t12345678\t100", "T\tB\t\t5\t100", "Z\r", "C\t1\t2\r"]
TOO_EARLY = ["R", "Z", "C\t1\t1", "F\t0\t0", "M\tB\t1\t100", "I\tB\t0\t5\t100"]


class Market(NamedTuple):
    """What a day's market looks like."""

    centre: int
    last_sale: int
    volume_class: int
    column: str
    spread: int  # how far from the centre prices go
    sizes: List[int]


def drawn_market(draw: random.Random) -> Market:
    kind = draw.choices(["middle", "low end", "high end"], [7, 2, 2])[0]
    if kind == "middle":
        centre = draw.choice([120, 640, 1005, 1500, 2010, 2498, 3300, 7000, 12000, 40000])
    elif kind == "low end":
        centre = draw.randint(2, 14)
    else:
        centre = MOST_PRICE - draw.randint(0, 60)
    wide = 8 if centre < 1000 else 14 if centre < 5000 else 40 if centre < 10000 else 90 if centre < 15000 else 150
    last_sale = 0 if draw.random() < 0.15 else centre
    sizes = [100, 200, 300, 500] if draw.random() < 0.7 else [100, 1000, 20000, 1000000]
    return Market(centre, last_sale, draw.randint(1, 3), draw.choice("LLLH"), wide, sizes)


class Writer:
    """Writes one day, line by line, with the model beside it."""

    def __init__(self, draw: random.Random, counts: Counter) -> None:
        self.draw = draw
        self.counts = counts
        self.market = drawn_market(draw)
        self.day = Day()
        self.lines: List[str] = []

    def text(self) -> str:
        end = "\n" if self.draw.random() < 0.9 else ""
        return "\n".join(self.lines) + end

    def put(self, *fields: object) -> None:
        line = "\t".join(map(str, fields))
        was_paused = self.day.is_paused
        self.lines.append(line)
        answers = replay_line(self.day, len(self.lines), line.encode())
        for answer in answers:
            letter, *numbers = answer.split("\t")
            self.counts["! " + numbers[2] if letter == "!" else letter] += 1
        is_resume = line == "R" and was_paused
        is_floor = bool(answers) and answers[0].startswith("F")
        self.counts["pauses begun"] += self.day.is_paused and (not was_paused or is_resume or is_floor)
        self.counts["resumes"] += is_resume
        self.counts["pauses ended by a floor trade"] += is_floor and was_paused

    # --- words of a line ---

    def price(self, low: int, high: int) -> int:
        return min(MOST_PRICE, max(1, self.draw.randint(low, high)))

    def near(self) -> int:
        """The price about which the market stands now."""
        return self.day.last_sale or self.market.centre

    def size(self) -> int:
        return self.draw.choice(self.market.sizes)

    def member(self) -> int:
        return self.draw.randint(1, MEMBERS)

    def resting_price(self, side: str) -> int:
        middle, spread = self.market.centre, self.market.spread
        return self.price(middle - spread, middle) if side == "B" else self.price(middle + 1, middle + 1 + spread)

    def limit_price(self, side: str) -> int:
        """Some join the best of their side, some pass by the quote of the other side, the others rest near it."""
        middle, spread = self.near(), self.market.spread
        own_best = self.day.best(side)
        if own_best is not None and self.draw.random() < 0.25:
            return own_best
        if self.draw.random() < 0.45:
            return self.price(middle, middle + spread) if side == "B" else self.price(middle - spread, middle)
        return self.price(middle - spread, middle - 1) if side == "B" else self.price(middle + 1, middle + spread)

    def stop_price(self, side: str) -> int:
        middle, reach = self.near(), max(2, self.market.spread * 2 // 3)
        return self.price(middle, middle + reach) if side == "B" else self.price(middle - reach, middle)

    # --- lines ---

    def limit(self) -> None:
        side = self.draw.choice("BS")
        self.put("N", side, self.member(), self.limit_price(side), self.size())

    def immediate(self) -> None:
        """Mostly beyond the quote of the other side, so that some sweep up to the range's end."""
        side = self.draw.choice("BS")
        over = self.market.spread * (1 if side == "B" else -1)
        price = self.near() + over if self.draw.random() < 0.6 else self.limit_price(side)
        self.put("I", side, self.member(), self.price(price, price), self.size())

    def stop(self) -> None:
        side = self.draw.choice("BS")
        self.put("T", side, self.member(), self.stop_price(side), self.size())

    def market_order(self) -> None:
        self.put("M", self.draw.choice("BS"), self.member(), min(MOST_SHARES, self.size() * self.draw.randint(1, 3)))

    def cancel(self) -> None:
        """A live order; often one at the best price, whose X line shows what it was filled before."""
        live = [o for o in self.day.roll if o.open]
        at_best = self.day.resting("B")[:2] + self.day.resting("S")[:2]
        if live:
            order = self.draw.choice(at_best if at_best and self.draw.random() < 0.5 else live)
            self.put("C", order.member, order.number)

    def floor(self) -> None:
        bid, offer = self.day.best("B"), self.day.best("S")
        low = bid if bid is not None else self.near() - self.market.spread
        high = offer if offer is not None else self.near() + self.market.spread
        if low <= high:
            self.put("F", self.price(low, high), self.size())

    def resume(self) -> None:
        self.put("R")

    def book_both_sides(self) -> None:
        """New orders of both sides, so that the book does not run dry."""
        for side in "BS":
            price = self.near() + self.draw.randint(1, self.market.spread) * (-1 if side == "B" else 1)
            self.put("N", side, self.member(), self.price(price, price), self.size())

    # --- refused lines ---

    def refused(self) -> None:
        refusals = self.refusals()
        self.draw.choice(sorted(refusals.items()))[1]()

    def refusals(self) -> Dict[str, Callable[[], None]]:
        """The refusals that can be had where the day stands."""
        draw, day = self.draw, self.day
        found: Dict[str, Callable[[], None]] = {
            "11": lambda: self.put(draw.choice(["", "Q\t1", "n\tS\t1\t5\t100", "GG", "\t", " Z"])),
            "12": lambda: self.put(draw.choice(["Z\t", "R\t1", "N\tB\t4\t100", "M\tS\t1\t200\t", "C\t2", "F\t10"])),
            "13": lambda: self.put(draw.choice(NO_NUMBERS)),
            "14": lambda: self.put(draw.choice(["M\tb\t1\t100", "N\tX\t1\t5\t100", "G\t1\tM\t0", "T\t\t1\t9\t100"])),
            "41": lambda: self.put(self.order_letter(), "B", self.member(), draw.choice([0, 100001, 9999999]), self.size()),
            "42": lambda: self.put(self.order_letter(), "S", self.member(), self.near(), draw.choice([0, 50, 150, 1000100])),
            "47": lambda: self.put(self.order_letter(), "S", draw.choice([0, 256, 263]), self.near(), self.size()),
        }
        if day.phase == "loading":
            found["21"] = lambda: self.put(draw.choice(TOO_EARLY))
            found["31"] = lambda: self.put("G", draw.choice([0, 4, 258]), "L", 100)
            found["33"] = lambda: self.put("G", 2, "H", draw.choice([100001, 9999999]))
            side = draw.choice("BS")
            contra = day.best(other(side))
            if contra is not None:
                over = draw.randint(0, 2) * (1 if side == "B" else -1)
                found["45"] = lambda: self.put("N", side, self.member(), self.price(contra + over, contra + over), self.size())
        if day.phase == "trading":
            found["21"] = lambda: self.put(*draw.choice([("O",), ("G", 2, "L", 2010), ("G", 0, "H", 0)]))
            found["51"] = lambda: self.put("C", self.member(), draw.choice([0, len(day.roll) + 1, 9999999]))
            found["52"] = self.cancel_of_another
            found["53"] = self.cancel_of_done
            found["61"] = self.floor_outside
            found["71"] = self.resume if not day.is_paused else self.cancel_of_done
        return found

    def order_letter(self) -> str:
        return self.draw.choice("NT") if self.day.phase == "loading" else self.draw.choice("NTI")

    def cancel_of_another(self) -> None:
        if self.day.roll:
            order = self.draw.choice(self.day.roll)
            self.put("C", self.draw.choice([0, order.member + 1, 300]), order.number)

    def cancel_of_done(self) -> None:
        done = [o for o in self.day.roll if not o.open]
        if done:
            order = self.draw.choice(done)
            self.put("C", order.member, order.number)

    def floor_outside(self) -> None:
        bid, offer = self.day.best("B"), self.day.best("S")
        if offer is not None and offer < MOST_PRICE:
            self.put("F", offer + 1, 100)
        elif bid is not None and bid > 1:
            self.put("F", bid - 1, 100)

    # --- a day ---

    def load(self) -> None:
        draw, market = self.draw, self.market
        if draw.random() < 0.1:
            self.put("G", 1, "H", 50)  # replaced by the next
        if market.last_sale or draw.random() < 0.5:
            self.put("G", market.volume_class, market.column, market.last_sale)
        for _ in range(draw.randint(8, 24)):
            if draw.random() < 0.16:
                self.refused()
            side = draw.choice("BS")
            if draw.random() < 0.35:
                self.put("T", side, self.member(), self.stop_price(side), self.size())
            else:
                self.put("N", side, self.member(), self.resting_price(side), self.size())
        self.put("O")

    def next_line(self) -> Callable[[], None]:
        if self.day.is_paused:
            calls = [self.resume, self.floor, self.limit, self.immediate, self.stop, self.market_order, self.cancel]
            return self.draw.choices(calls, [26, 14, 14, 8, 10, 10, 14])[0]
        calls = [self.limit, self.immediate, self.stop, self.market_order, self.cancel, self.floor, self.book_both_sides]
        return self.draw.choices(calls, [28, 12, 20, 14, 10, 4, 10])[0]

    def write(self) -> str:
        self.load()
        most = self.draw.randint(FEWEST_LINES + 10, MOST_LINES - 5)
        while len(self.lines) < most:
            if self.draw.random() < 0.1:
                self.refused()
            else:
                self.next_line()()
        if self.draw.random() < 0.95:
            self.put("Z")
            for _ in range(self.draw.choice([0, 0, 0, 1, 2])):
                self.put(self.draw.choice(["R", "Z", "M\tB\t1\t100", "", "N\tB\t1\t5\t100", "Q", "O"]))
        return self.text()


def write_days(seed: str, count: int, folder: str) -> Counter:
    counts: Counter = Counter()
    os.makedirs(folder, exist_ok=True)
    for number in range(1, count + 1):
        writer = Writer(random.Random("%s/%d" % (seed, number)), counts)
        text = writer.write().encode()
        assert len(text) < MOST_FILE, number
        with open(os.path.join(folder, "%03d.day" % number), "wb") as file:
            file.write(text)
        counts["lines"] += len(writer.lines)
    return counts


def main(arguments: List[str]) -> int:
    if len(arguments) != 3 or not arguments[1].isdigit():
        print("usage: generate.py SEED COUNT FOLDER", file=sys.stderr)
        return 2
    seed, count, folder = arguments
    for what, often in sorted(write_days(seed, int(count), folder).items()):
        print("%s\t%d" % (what, often))
    return 0


if __name__ == "__main__":
    raise SystemExit(main(sys.argv[1:]))
