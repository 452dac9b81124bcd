"""What the programs `strip` and `join` must print.

This is a second opinion, independent of the engine: it follows docs/RULES.md
and docs/FORMATS.md, shares no code with the engine and works another way. For
every stop and every minute of the day it tabulates the least cost of the stops
so far with that stop at that minute, and reads the best timetable off the
table backwards.

    python3 tools/expected.py strip FILE
    python3 tools/expected.py join FIRST I LEG SECOND J
    python3 tools/expected.py cases FILE
    python3 tools/expected.py selftest

`cases` runs the commands of FILE, one to a line, with file names relative to
FILE's folder, and prints each after `> ` and then its output. `selftest`
compares the table with a search through all timetables of small random routes.
"""

import itertools
import random
import sys
from collections.abc import Callable, Sequence
from dataclasses import dataclass, replace
from pathlib import Path

LAST_MINUTE = 1440
LONGEST_LEG = 600
STEEPEST = 1000
MOST_ROWS = 64
MOST_STOPS = 64
MOST_BYTES = 4096

NO_PLACE = 1
ROUTE_FULL = 2
CURVE_CLOSED = 3
LEG_TOO_LONG = 4
NO_TIMETABLE = 5
CUT_OFF = 7
TOO_LARGE = 8
BAD_ROW_MAP = 9
UNLAWFUL_ROW = 10
BAD_CALL_MAP = 11

TAKES_OUT = 0x10
HAS_CURVE = 0x01
UNUSED_BITS = 0xE0

Cost = tuple[int, ...]
Line = dict[int, Cost]


class Refused(Exception):
    """A refusal; `stop` is named only when there is no timetable."""

    def __init__(self, number: int, stop: int | None = None) -> None:
        super().__init__(number, stop)
        self.number = number
        self.stop = stop


class Fault(Exception):
    """A refusal and, for a strip, the byte at which the faulty record began."""

    def __init__(self, refused: Refused, byte: int | None = None) -> None:
        super().__init__(refused, byte)
        self.refused = refused
        self.byte = byte

    def line(self) -> str:
        text = f"fault {self.refused.number}"
        if self.byte is not None:
            text += f" byte {self.byte}"
        if self.refused.stop is not None:
            text += f" stop {self.refused.stop}"
        return text


# Penalties


@dataclass(frozen=True)
class Row:
    """A row of the due book."""

    first: int
    last: int
    due: int
    early: int
    late: int

    def is_lawful(self) -> bool:
        return (
            self.first <= self.last <= LAST_MINUTE
            and self.due <= LAST_MINUTE
            and self.early <= STEEPEST
            and self.late <= STEEPEST
        )

    def minutes_early(self, minute: int) -> int:
        return max(self.due - minute, 0)

    def minutes_late(self, minute: int) -> int:
        return max(minute - self.due, 0)

    def penalty(self, minute: int) -> int:
        return (
            self.early * self.minutes_early(minute)
            + self.late * self.minutes_late(minute)
        )


@dataclass(frozen=True)
class Kind:
    """A cost kind: its nought and what a row costs at a minute."""

    nought: Cost
    cost: Callable[[Row, int], Cost]


def money_cost(row: Row, minute: int) -> Cost:
    return (row.penalty(minute),)


def promise_cost(row: Row, minute: int) -> Cost:
    return (row.minutes_late(minute), row.penalty(minute))


MONEY = Kind((0,), money_cost)
PROMISE = Kind((0, 0), promise_cost)


# Timetables


@dataclass(frozen=True)
class Stop:
    """A stop with its curve's row and the leg before it."""

    curve: int
    row: Row
    leg: int


def tabulate(stops: Sequence[Stop], kind: Kind) -> list[Line]:
    """For each stop, the least cost of the stops up to it with it at each minute.

    Minutes without a timetable are left out. Line 0 is the start: minute 0,
    at no cost.
    """
    table: list[Line] = [{0: kind.nought}]
    for stop in stops:
        window = range(stop.row.first, stop.row.last + 1)
        line: Line = {}
        so_far: Cost | None = None
        for minute in range(stop.leg, LAST_MINUTE + 1):
            before = table[-1].get(minute - stop.leg)
            if before is not None and (so_far is None or before < so_far):
                so_far = before
            if so_far is not None and minute in window:
                here = kind.cost(stop.row, minute)
                line[minute] = tuple(a + b for a, b in zip(so_far, here))
        table.append(line)
    return table


def first_without_timetable(table: Sequence[Line]) -> int | None:
    """The first stop up to which there is no timetable."""
    return next((place for place, line in enumerate(table) if not line), None)


def least_cost(table: Sequence[Line]) -> Cost:
    return min(table[-1].values())


def best_timetable(stops: Sequence[Stop], table: Sequence[Line]) -> list[int]:
    """From the last stop back, the earliest minute that keeps the least cost."""
    timetable: list[int] = []
    limit = LAST_MINUTE
    for stop, line in zip(reversed(stops), reversed(table)):
        _, minute = min((cost, at) for at, cost in line.items() if at <= limit)
        timetable.append(minute)
        limit = minute - stop.leg
    return timetable[::-1]


# Routes


def check_leg(leg: int) -> None:
    if leg > LONGEST_LEG:
        raise Refused(LEG_TOO_LONG)


def check_timetable(stops: Sequence[Stop]) -> None:
    blocked = first_without_timetable(tabulate(stops, MONEY))
    if blocked is not None:
        raise Refused(NO_TIMETABLE, blocked)


def with_first_leg(stops: Sequence[Stop], leg: int) -> list[Stop]:
    """The stops, the first of them, if any, by another leg."""
    return [replace(stop, leg=leg) for stop in stops[:1]] + list(stops[1:])


class Route:
    """A route over the due book of some rows."""

    def __init__(self, rows: Sequence[Row]) -> None:
        self.rows = rows
        self.stops: list[Stop] = []

    def insert(self, place: int, curve: int, leg_in: int, leg_out: int) -> None:
        if not 1 <= place <= len(self.stops) + 1:
            raise Refused(NO_PLACE)
        if len(self.stops) == MOST_STOPS:
            raise Refused(ROUTE_FULL)
        new = Stop(curve, self.open_row(curve), leg_in)
        check_leg(leg_in)
        check_leg(leg_out)
        moved = with_first_leg(self.stops[place - 1 :], leg_out)
        self.settle(self.stops[: place - 1] + [new] + moved)

    def remove(self, place: int, leg: int) -> None:
        self.check_place(place)
        check_leg(leg)
        followers = with_first_leg(self.stops[place:], leg)
        self.settle(self.stops[: place - 1] + followers)

    def change(self, place: int, curve: int) -> None:
        self.check_place(place)
        old = self.stops[place - 1]
        new = replace(old, curve=curve, row=self.open_row(curve))
        self.settle(self.stops[: place - 1] + [new] + self.stops[place:])

    def check_place(self, place: int) -> None:
        if not 1 <= place <= len(self.stops):
            raise Refused(NO_PLACE)

    def open_row(self, curve: int) -> Row:
        """The curve's row; a row that was read is lawful, so its curve is open."""
        if curve >= len(self.rows):
            raise Refused(CURVE_CLOSED)
        return self.rows[curve]

    def settle(self, stops: list[Stop]) -> None:
        check_timetable(stops)
        self.stops = stops

    def report(self, kind: Kind) -> list[str]:
        table = tabulate(self.stops, kind)
        timetable = best_timetable(self.stops, table)
        lines = [f"stops {len(self.stops)}"]
        for place, (stop, minute) in enumerate(zip(self.stops, timetable), 1):
            lines.append(f"stop {place} curve {stop.curve} minute {minute}")
        lines.append(" ".join(["least", *map(str, least_cost(table))]))
        return lines


def joined_stops(
    first: Route, i: int, leg: int, second: Route, j: int
) -> list[Stop]:
    if i > len(first.stops) or not 1 <= j <= len(second.stops) + 1:
        raise Refused(NO_PLACE)
    check_leg(leg)
    stops = first.stops[:i] + with_first_leg(second.stops[j - 1 :], leg)
    check_timetable(stops)
    return stops


# Strips


class Reader:
    """Takes a strip's bytes one field after another."""

    def __init__(self, strip: bytes) -> None:
        self.strip = strip
        self.at = 0

    def at_end(self) -> bool:
        return self.at == len(self.strip)

    def number(self, size: int) -> int:
        if self.at + size > len(self.strip):
            raise Refused(CUT_OFF)
        self.at += size
        return int.from_bytes(self.strip[self.at - size : self.at], "big")

    def field(self, bits: int, bit: int, size: int, absent: int) -> int:
        """The field of a bit of the map, or what stands for it when absent."""
        return self.number(size) if bits >> bit & 1 else absent

    def count(self) -> int:
        count = self.number(1)
        if len(self.strip) > MOST_BYTES or count > MOST_ROWS:
            raise Refused(TOO_LARGE)
        return count

    def row(self) -> Row:
        bits = self.number(1)
        if bits & UNUSED_BITS:
            raise Refused(BAD_ROW_MAP)
        row = Row(
            first=self.field(bits, 0, 2, absent=0),
            last=self.field(bits, 1, 2, absent=LAST_MINUTE),
            due=self.field(bits, 2, 2, absent=0),
            early=self.field(bits, 3, 2, absent=0),
            late=self.field(bits, 4, 2, absent=0),
        )
        if not row.is_lawful():
            raise Refused(UNLAWFUL_ROW)
        return row

    def call(self, route: Route) -> None:
        """Reads one call and runs it on the route."""
        bits = self.number(1)
        form = bits & (TAKES_OUT | HAS_CURVE)
        barred = {HAS_CURVE: 0x00, TAKES_OUT: 0x02, TAKES_OUT | HAS_CURVE: 0x06}
        if form not in barred or bits & (barred[form] | UNUSED_BITS):
            raise Refused(BAD_CALL_MAP)
        stop_count = len(route.stops)
        absent_place = stop_count + 1 if form == HAS_CURVE else stop_count
        curve = self.field(bits, 0, 1, absent=0)
        leg_in = self.field(bits, 1, 2, absent=0)
        leg_out = self.field(bits, 2, 2, absent=0)
        place = self.field(bits, 3, 1, absent=absent_place)
        if form == HAS_CURVE:
            route.insert(place, curve, leg_in, leg_out)
        elif form == TAKES_OUT:
            route.remove(place, leg_out)
        else:
            route.change(place, curve)


def run_strip(strip: bytes) -> tuple[Route, Fault | None]:
    """The route of a strip and the fault its calls met.

    A fault in the rows is raised.
    """
    reader = Reader(strip)
    began = 0
    rows: list[Row] = []
    try:
        for _ in range(reader.count()):
            began = reader.at
            rows.append(reader.row())
    except Refused as refused:
        raise Fault(refused, began) from None
    route = Route(rows)
    while not reader.at_end():
        began = reader.at
        try:
            reader.call(route)
        except Refused as refused:
            return route, Fault(refused, began)
    return route, None


# Programs


def strip_lines(strip: bytes) -> list[str]:
    try:
        route, fault = run_strip(strip)
    except Fault as row_fault:
        return [row_fault.line()]
    return [
        "money",
        *route.report(MONEY),
        "promise",
        *route.report(PROMISE),
        fault.line() if fault else "whole",
    ]


def join_lines(first: bytes, i: int, leg: int, second: bytes, j: int) -> list[str]:
    try:
        first_route, first_fault = run_strip(first)
        second_route, second_fault = run_strip(second)
    except Fault as row_fault:
        return [row_fault.line()]
    lines = ["first", *first_route.report(MONEY)]
    lines += [first_fault.line()] if first_fault else []
    lines += ["second", *second_route.report(MONEY)]
    lines += [second_fault.line()] if second_fault else []
    try:
        stops = joined_stops(first_route, i, leg, second_route, j)
    except Refused as refused:
        return [*lines, Fault(refused).line()]
    (least,) = least_cost(tabulate(stops, MONEY))
    return [*lines, f"joined {len(stops)}", f"least {least}"]


def command_lines(words: Sequence[str], folder: Path) -> list[str]:
    """The output of one `strip` or `join` command."""
    match words:
        case ["strip", name]:
            return strip_lines((folder / name).read_bytes())
        case ["join", first, i, leg, second, j]:
            return join_lines(
                (folder / first).read_bytes(),
                int(i),
                int(leg),
                (folder / second).read_bytes(),
                int(j),
            )
    raise SystemExit(__doc__)


def case_lines(cases: Path) -> list[str]:
    lines: list[str] = []
    for command in cases.read_text().splitlines():
        lines += [f"> {command}", *command_lines(command.split(), cases.parent)]
    return lines


# Self-test


def random_stop(dice: random.Random) -> Stop:
    first = dice.randint(0, 9)
    row = Row(
        first=first,
        last=first + dice.randint(0, 5),
        due=dice.randint(0, 14),
        early=dice.randint(0, 3),
        late=dice.randint(0, 3),
    )
    return Stop(curve=0, row=row, leg=dice.randint(0, 4))


def all_timetables(stops: Sequence[Stop]) -> list[tuple[int, ...]]:
    windows = (range(stop.row.first, stop.row.last + 1) for stop in stops)
    return [
        minutes
        for minutes in itertools.product(*windows)
        if all(
            before + stop.leg <= minute
            for before, stop, minute in zip((0, *minutes), stops, minutes)
        )
    ]


def timetable_cost(stops: Sequence[Stop], kind: Kind, minutes: Sequence[int]) -> Cost:
    costs = [kind.cost(stop.row, minute) for stop, minute in zip(stops, minutes)]
    return tuple(map(sum, zip(kind.nought, *costs)))


def agrees(stops: Sequence[Stop], kind: Kind) -> bool:
    """Whether the table and the search through all timetables agree."""
    table = tabulate(stops, kind)
    prefixes = range(len(stops) + 1)
    blocked = next((n for n in prefixes if not all_timetables(stops[:n])), None)
    if blocked is not None or first_without_timetable(table) is not None:
        return first_without_timetable(table) == blocked
    timetables = all_timetables(stops)
    costs = [timetable_cost(stops, kind, minutes) for minutes in timetables]
    least = min(costs)
    cheapest = [minutes for minutes, cost in zip(timetables, costs) if cost == least]
    best = tuple(best_timetable(stops, table))
    return (
        least_cost(table) == least
        and best in cheapest
        and all(a <= b for other in cheapest for a, b in zip(best, other))
    )


def selftest_lines() -> list[str]:
    dice = random.Random(1440)
    without = 0
    for trial in range(2000):
        stops = [random_stop(dice) for _ in range(dice.randint(0, 4))]
        without += not all_timetables(stops)
        for kind in (MONEY, PROMISE):
            if not agrees(stops, kind):
                raise SystemExit(f"trial {trial} differs: {kind} {stops}")
    return [f"2000 routes agree, {without} of them without a timetable"]


def main(words: Sequence[str]) -> None:
    match words:
        case ["selftest"]:
            lines = selftest_lines()
        case ["cases", name]:
            lines = case_lines(Path(name))
        case _:
            lines = command_lines(words, Path())
    for line in lines:
        print(line)


if __name__ == "__main__":
    main(sys.argv[1:])
