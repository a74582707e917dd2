"""Exact, proved audits of poker all-ins.

Each call runs the program `equity` and returns its report as values. What the program prints is proved; this package, which reads
the report, is tested.

>>> import equity
>>> equity.spot("holdem As Ah - Ks Kh -- 2c 7d 9h 4s").hands[0].equity
Fraction(21, 22)
"""

from __future__ import annotations

import dataclasses
from collections.abc import Iterable, Iterator
from decimal import Decimal
from typing import Optional, Union, cast

from . import _reading as reading
from ._equities import equities as _equities
from ._program import Row, Run, Source, failure, program
from ._types import (
    AboveLimit,
    AllIn,
    AllInPlayer,
    Balance,
    Balanced,
    EquityError,
    Game,
    Hand,
    HandResults,
    LineRejected,
    Part,
    Payment,
    Pot,
    PotShare,
    ProgramMissing,
    Ranges,
    Rejected,
    Result,
    SettledPot,
    Settlement,
    Share,
    Side,
    Spot,
    SpotHand,
    Street,
    Total,
    Totals,
    Transfer,
    Unit,
)

__all__ = [
    "AboveLimit", "AllIn", "AllInPlayer", "Balance", "Balanced", "EquityError", "Game", "Hand", "HandResults", "LineRejected",
    "Part", "Payment", "Pot", "PotShare", "ProgramMissing", "Ranges", "Rejected", "Result", "SettledPot", "Settlement", "Share",
    "Side", "Source", "Spot", "SpotHand", "Street", "Total", "Totals", "Transfer", "Unit", "audit", "balance", "check", "program",
    "range_spots", "ranges", "results", "settle", "spot", "spots", "streets", "to_records", "totals",
]


def _words(mode: str, workers: int) -> list[str]:
    return [mode, "--workers", str(workers)]


def check(source: Source) -> Iterator[Union[Hand, Rejected]]:
    """The verdict on each hand, with its pots and payments. A `str` is a path."""
    return reading.each(["check"], source, "hand", reading.hand)


def audit(source: Source, *, workers: int = 2) -> Iterator[Union[Hand, Rejected]]:
    """As `check`, with each player's counts and amount to expect at the all-in."""
    return reading.each(_words("audit", workers), source, "hand", reading.hand)


def streets(source: Source, *, workers: int = 2) -> Iterator[Union[Hand, Rejected]]:
    """As `audit`, with the counts on each later street."""
    return reading.each(_words("streets", workers), source, "hand", reading.hand)


def results(source: Source, *, workers: int = 2) -> Iterator[Union[HandResults, Rejected]]:
    """What each player had, put in, collected, and netted in each hand, and the all-in adjusted net."""
    return reading.each(_words("results", workers), source, "hand", reading.results)


def settle(source: Source) -> Iterator[Settlement]:
    """What the rules give of each pot, and who must still get or give back what."""
    return reading.each(["settle"], source, "hand", reading.settlement)


def _all_rows(words: list[str], source: Source) -> list[Row]:
    run = Run(words, source)
    try:
        rows = list(run.rows())
        status = run.wait()
    finally:
        run.close()
    if status not in (0, 1):
        raise failure(status)
    return rows


def totals(source: Source, *, workers: int = 2) -> Totals:
    """For each player, over hands with a counted all-in: collected and expected."""
    first, *rows = _all_rows(_words("totals", workers), source)
    return Totals(
        int(first[2]),
        int(first[4]),
        int(first[6]),
        tuple(Total(it[-1], cast(Unit, it[1]), int(it[3]), int(it[5]), Decimal(it[7]), Decimal(it[9])) for it in rows),
    )


def balance(source: Source, *, workers: int = 2) -> Balance:
    """For each player, over all hands: collected, net, and all-in adjusted net."""
    first, *rows = _all_rows(_words("balance", workers), source)
    return Balance(
        int(first[2]),
        int(first[4]),
        int(first[6]),
        tuple(
            Balanced(it[-1], cast(Unit, it[1]), int(it[3]), Decimal(it[5]), Decimal(it[7]), Decimal(it[9]), int(it[11]))
            for it in rows
        ),
    )


Answer = Union[Spot, Ranges, LineRejected, AboveLimit]


def _answer(group: list[Row]) -> Answer:
    first = group[0]
    if first[2] == "rejected":
        return LineRejected(int(first[4]), first[5], tuple(first[6:-1]))
    if first[3] == "refused":
        return AboveLimit(f"spot {first[1]} is not counted: {' '.join(first[4:-1])}", 0)
    counts: list[list[Optional[Side]]] = []
    parts: list[Decimal] = []
    for row in group[1:]:
        if len(counts) < int(row[1]):
            counts.append([None, None])
        if row[2] == "ev":
            parts.append(Decimal(row[3]))
        else:
            counts[-1][row[2] == "low"] = reading.side(row, 3)
    game = cast(Game, first[2])
    # `runouts R`, or `choices C runouts R weight W`
    named = {first[at]: int(first[at + 1]) for at in range(3, len(first) - 2, 2)}
    total = named["runouts"] * named.get("weight", 1)
    exact = _equities([(high, low) for high, low in counts], total)
    hands = tuple(SpotHand(high, low, ev, equity) for (high, low), ev, equity in zip(counts, parts, exact))
    if "weight" in named:
        return Ranges(game, named["choices"], named["runouts"], named["weight"], hands)
    return Spot(game, named["runouts"], hands)


def _lines(lines: Iterable[str]) -> bytes:
    given = [line.encode("utf-8", "surrogateescape") for line in lines]
    if any(b"\n" in line for line in given):
        raise ValueError("a spot is one line")
    return b"".join(line + b"\n" for line in given)


def _answers(words: list[str], lines: Iterable[str]) -> Iterator[Answer]:
    return reading.each(words, _lines(lines), "spot", _answer)


def _one(words: list[str], line: str) -> Answer:
    found = list(_answers(words, [line]))
    if not found:
        raise ValueError("the line has no word")
    if isinstance(found[0], EquityError):
        raise found[0]
    return found[0]


def spot(line: str, *, workers: int = 2) -> Spot:
    """The counts of one line of `spots`. Raises LineRejected or AboveLimit."""
    return cast(Spot, _one(_words("spots", workers), line))


def ranges(line: str) -> Ranges:
    """The counts of one line of `ranges`. Raises LineRejected or AboveLimit."""
    return cast(Ranges, _one(["ranges"], line))


def spots(lines: Iterable[str], *, workers: int = 2) -> Iterator[Union[Spot, LineRejected, AboveLimit]]:
    """The counts of many lines, by one run. A line without a word is no spot."""
    return cast("Iterator[Union[Spot, LineRejected, AboveLimit]]", _answers(_words("spots", workers), lines))


def range_spots(lines: Iterable[str]) -> Iterator[Union[Ranges, LineRejected, AboveLimit]]:
    """The counts of many lines of `ranges`, by one run."""
    return cast("Iterator[Union[Ranges, LineRejected, AboveLimit]]", _answers(["ranges"], lines))


def to_records(items: Iterable[object]) -> Iterator[dict[str, object]]:
    """One row for each player and hand of `results`, or for each row of totals and balances, as `pandas.DataFrame` takes them."""
    for item in items:
        if isinstance(item, HandResults):
            hand = {"number": item.number, "game": item.game, "unit": item.unit}
            for player in item.players:
                yield {**hand, **dataclasses.asdict(player)}
        elif isinstance(item, Hand):
            hand = {"number": item.number, "game": item.game, "unit": item.unit}
            for seen in item.all_in.players if item.all_in else ():
                yield {**hand, "name": seen.name, "street": item.all_in.street if item.all_in else None, "expect": seen.expect}
        elif isinstance(item, (Totals, Balance)):
            for row in item.rows:
                yield dataclasses.asdict(row)
        elif isinstance(item, Settlement):
            for transfer in item.transfers:
                yield {"number": item.number, "name": transfer.player, "amount": transfer.amount}
        elif isinstance(item, Rejected):
            continue
        else:
            raise TypeError(f"no rows can be made of {type(item).__name__}")


# the types are this module's, wherever they are written
for _name in __all__:
    _it = globals()[_name]
    if isinstance(_it, type):
        _it.__module__ = __name__
