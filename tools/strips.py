"""Writes the stored strips of the cases, the examples and the samples.

    python3 tools/strips.py

Each strip is described below by its records. A builder emits exactly the
fields that it is given; what is left out is absent from the record too.
`crates/strip_cases/data/cases` has the commands that use the strips, and
tools/expected.py works out what they print.
"""

from pathlib import Path

ROOT = Path(__file__).resolve().parent.parent


def record(form: int, *fields: tuple[int, int, int | None]) -> bytes:
    """A record of (bit, bytes, value) fields; those of value None are absent."""
    bits = form
    body = b""
    for bit, size, value in fields:
        if value is not None:
            bits |= 1 << bit
            body += value.to_bytes(size, "big")
    return bytes([bits]) + body


def row(
    first: int | None = None,
    last: int | None = None,
    due: int | None = None,
    early: int | None = None,
    late: int | None = None,
) -> bytes:
    return record(
        0, (0, 2, first), (1, 2, last), (2, 2, due), (3, 2, early), (4, 2, late)
    )


def insert(
    curve: int,
    leg_in: int | None = None,
    leg_out: int | None = None,
    place: int | None = None,
) -> bytes:
    return record(0, (0, 1, curve), (1, 2, leg_in), (2, 2, leg_out), (3, 1, place))


def remove(leg: int | None = None, place: int | None = None) -> bytes:
    return record(0x10, (2, 2, leg), (3, 1, place))


def change(curve: int, place: int | None = None) -> bytes:
    return record(0x10, (0, 1, curve), (3, 1, place))


def strip(rows: list[bytes], *calls: bytes) -> bytes:
    return bytes([len(rows)]) + b"".join(rows) + b"".join(calls)


def raw(text: str) -> bytes:
    return bytes.fromhex(text)


# The rows of the cards: the fields left out are 0, or 1,440 for last.
BOOK = [
    row(due=600, early=1, late=3),
    row(due=605, early=2, late=2),
    row(first=590, last=610, due=600),
    row(due=600, early=5, late=3),
]

# Curve 0 is early in the day, curve 1 late, and curve 2 is indifferent.
DAY = [
    row(last=300, due=256, early=2, late=1),
    row(first=700, due=1000, early=1000, late=1000),
    row(first=256, last=1024),
]

# Eight riders whose due minutes fall and rise again, for routes of 64 stops.
CROWD = [
    row(due=300, early=1, late=4),
    row(due=420, early=3, late=2),
    row(due=350, late=5),
    row(due=700, early=2, late=2),
    row(first=200, last=1300, due=640, early=6, late=1),
    row(due=900, early=1, late=1),
    row(first=100, due=820, early=4),
    row(due=1100, early=7, late=9),
]

EXAMPLE = raw("01  1C 0258 0005 0003  01 00  18 03")

CARD_INSERTS = [
    insert(0, leg_in=0, leg_out=0, place=1),
    insert(1, leg_in=10, leg_out=0, place=2),
    insert(2, leg_in=0, leg_out=6, place=1),
]
EMPTY = strip(BOOK)
ONE = strip(BOOK, *CARD_INSERTS[:1])
TWO = strip(BOOK, *CARD_INSERTS[:2])
THREE = strip(BOOK, *CARD_INSERTS)
REMOVED = strip(BOOK, *CARD_INSERTS, remove(leg=20, place=2))

# Eight rounds of the eight riders, each round from the next rider on.
CROWD_STOPS = [insert((k // 8 + k) % 8, leg_in=k % 5 * 6) for k in range(64)]

# Exactly 4,096 bytes: 29 to the end of the rows, 6 of stops, 369 pairs of 11
# and a change of 2.
FULL = strip(
    BOOK,
    insert(0),
    insert(1, leg_in=10),
    (insert(2, leg_in=300, leg_out=6, place=2) + remove(leg=10, place=2)) * 369,
    change(3),
)

CASES = {
    "example": EXAMPLE,
    # The cards.
    "empty": EMPTY,
    "one": ONE,
    "two": TWO,
    "three": THREE,
    "removed": REMOVED,
    "twice-20": strip(BOOK, insert(2), insert(2, leg_in=20)),
    "twice-21": strip(BOOK, insert(2), insert(2, leg_in=21)),
    "two-kinds": strip(BOOK, insert(3), insert(1, leg_in=10)),
    # Changes.
    "change": strip(BOOK, insert(0), insert(1, leg_in=10), change(3, place=1)),
    "change-3": strip(BOOK, insert(0), change(4)),
    "change-5": strip(BOOK, insert(2), insert(0, leg_in=21), change(2)),
    # Places.
    "absent": strip(
        BOOK, insert(0), insert(1, leg_in=10), insert(3), remove(), change(2)
    ),
    "place-0": strip(BOOK, insert(0, place=0)),
    "insert-1": strip(BOOK, insert(0), insert(64, leg_in=601, place=3)),
    "remove-1": strip(BOOK, remove(leg=601)),
    "change-1": strip(BOOK, insert(0), change(64, place=2)),
    # Full routes. The last call of stops-65 would be refused 3 and 4 as well.
    "stops-64": strip(CROWD, *CROWD_STOPS),
    # No legs, so that two of these can be joined to 128 stops.
    "level-64": strip(CROWD, *[insert(k % 8) for k in range(64)]),
    "stops-65": strip(
        [row(first=540, last=720, due=630, early=1, late=2)],
        *[insert(0, leg_in=1)] * 64,
        insert(1, leg_in=601),
    ),
    # Closed curves.
    "insert-3": strip(BOOK, insert(4, leg_in=601)),
    "curve-255": strip([], insert(255)),
    # Legs: 600 is accepted, 601 refused, stored or not.
    "leg-600": strip(DAY, insert(2, leg_in=600), insert(1, leg_in=600, place=1)),
    "leg-in": strip(BOOK, insert(0, leg_in=601)),
    "leg-out": strip(BOOK, insert(0, leg_out=601)),
    "leg-remove": strip(BOOK, insert(0), remove(leg=601)),
    # No timetable from the last stop on, and from the new stop on.
    "last-5": strip(
        BOOK,
        insert(2),
        insert(2, leg_in=10),
        insert(0, leg_in=15, leg_out=15, place=2),
    ),
    "middle-5": strip(DAY, insert(2), insert(1), insert(0, leg_in=60, place=2)),
    "remove-5": strip(BOOK, insert(2), insert(0), insert(2), remove(leg=21, place=2)),
    # The most rows, and every field at its limit.
    "rows-64": strip(
        [row()] * 62 + [row(due=600, early=1), row(due=590, late=2)],
        insert(62),
        insert(63, leg_in=5),
    ),
    "limits": strip(
        [
            row(first=1440, last=1440, due=1440, early=1000, late=1000),
            row(first=0, last=0, due=1440, early=1000, late=1000),
            row(first=1440, late=1000),
        ],
        insert(1),
        insert(0, leg_in=600),
        insert(2),
    ),
    # Fields of two bytes with a high byte that is not 0.
    "high": strip(
        DAY, insert(1, leg_in=256), insert(0, leg_in=257, leg_out=515, place=1)
    ),
    # Cut off: no strip at all, no map, a field of a row, a field of a call.
    "cut-all": b"",
    "cut-map": raw("02  1C 0258 0001 0003"),
    "cut-row": raw("02  00  1C 0258 0001 00"),
    "cut-call": raw("01  1C 0258 0001 0003  01 00  03 00 00"),
    # Too large: the count, and one byte over a full strip.
    "count-65": raw("41"),
    "bytes-4097": FULL + remove(),
    # Rows: bad maps, and one field over its limit each.
    "map-9": raw("02  00  20"),
    "cut-9": raw("01  FF"),
    "first-10": strip([row(), row(first=601, last=600)]),
    "last-10": strip([row(last=1441)]),
    "due-10": strip([row(due=1441)]),
    "early-10": strip([row(early=1001)]),
    "late-10": strip([row(late=1001)]),
    # Calls: unused bits, legs that the form bars, and no form at all; the
    # fields of the last are cut off too.
    "bit-5": strip(BOOK, insert(0), raw("21 00")),
    "bit-7": raw("00  90"),
    "remove-leg-in": raw("00  12 0000"),
    "change-leg-in": raw("00  13 00 0000"),
    "change-leg-out": raw("00  15 00 0000"),
    "no-form": raw("00  0E"),
    # The longest strip.
    "bytes-4096": FULL,
}

# The two halves of a route, each with its own riders.
FIRST_HALF = strip(
    [row(first=470, last=500, due=480, late=2), row(due=495, early=1, late=4)],
    insert(0),
    insert(1, leg_in=12),
)
SECOND_HALF = strip(
    [row(due=500, early=1, late=3), row(last=540, due=520, early=2, late=5)],
    insert(0),
    insert(1, leg_in=18),
)

FILES = {
    **{f"crates/strip_cases/data/{name}.strip": data for name, data in CASES.items()},
    "crates/strip/stdin": EXAMPLE,
    "crates/join/data/two.strip": TWO,
    "crates/join/data/removed.strip": REMOVED,
    "samples/route.strip": THREE,
    "samples/first-half.strip": FIRST_HALF,
    "samples/second-half.strip": SECOND_HALF,
}


def main() -> None:
    for name, data in FILES.items():
        path = ROOT / name
        path.parent.mkdir(parents=True, exist_ok=True)
        path.write_bytes(data)


if __name__ == "__main__":
    main()
