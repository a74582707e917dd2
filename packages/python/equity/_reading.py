"""Reads the records of a report, hand by hand."""

from __future__ import annotations

from collections.abc import Callable, Iterable, Iterator
from decimal import Decimal
from typing import Literal, Optional, TypeVar, cast

from ._equities import equities
from ._program import WHOLE, Row, Run, Source, failure
from ._types import (
    AllIn,
    AllInPlayer,
    AllInState,
    Game,
    Hand,
    HandResults,
    Part,
    Payment,
    Pot,
    PotShare,
    PotState,
    Rejected,
    Result,
    SettledPot,
    Settlement,
    Share,
    Side,
    Street,
    Transfer,
    Unit,
)

T = TypeVar("T")


def grouped(rows: Iterable[Row], first: str) -> Iterator[list[Row]]:
    """Groups of records, each from one that begins with a word up to the next such one."""
    group: list[Row] = []
    for row in rows:
        if row[0] == first and group:
            yield group
            group = []
        group.append(row)
    if group:
        yield group


def each(words: list[str], source: Source, first: str, read: Callable[[list[Row]], T]) -> Iterator[T]:
    """Runs the program and yields what its groups of records say, each when the next one begins or the program has ended."""
    run = Run(words, source)
    try:
        last: Optional[list[Row]] = None
        for group in grouped(run.rows(), first):
            if last is not None:
                yield read(last)
            last = group
        status = run.wait()
        if last is not None and status in WHOLE:
            yield read(last)
        if status not in (0, 1):
            raise failure(status)
    finally:
        run.close()


def rejected(row: Row) -> Rejected:
    """`hand N rejected line L CAUSE ..`"""
    return Rejected(int(row[1]), int(row[4]), row[5], tuple(row[6:-1]))


def _is_rejected(row: Row) -> bool:
    return row[2] == "rejected"


def _head(row: Row) -> tuple[int, Game, Unit, Decimal, bool]:
    """`hand N accepted GAME rake R [twice]`"""
    unit: Unit = "hundredths" if "." in row[5] else "chips"
    return int(row[1]), cast(Game, row[3]), unit, Decimal(row[5]), row[6] == "twice"


def _payment(row: Row) -> Payment:
    """`paid X NAME` or `paid X due Y NAME`"""
    return Payment(row[-1], Decimal(row[1]), Decimal(row[3]) if len(row) == 5 else None)


def _pot_head(row: Row) -> tuple[int, Decimal, Decimal | None, PotState]:
    """`pot K gross G rake R STATE` or `pot K gross G unfit`"""
    is_fit = row[4] == "rake"
    return int(row[1]), Decimal(row[3]), Decimal(row[5]) if is_fit else None, cast(PotState, row[6 if is_fit else 4])


def side(row: Row, at: int) -> Side:
    """`win W PW tie T PT lose L PL`, from a place on"""
    return Side(int(row[at + 1]), int(row[at + 4]), int(row[at + 7]))


class _Shares:
    """The `pot K SIDE ..` and `pot K ev E` lines of a street, by player in the order of the lines."""

    def __init__(self, runouts: int) -> None:
        self.runouts = runouts
        # by pot: the counts and the printed part of each player, in order
        self.pots: dict[int, dict[str, list[Side | None]]] = {}
        self.parts: dict[tuple[int, str], Decimal] = {}

    def add(self, row: Row) -> None:
        pot, what, name = int(row[1]), row[2], row[-1]
        if what == "ev":
            self.parts[pot, name] = Decimal(row[3])
        else:
            counts = self.pots.setdefault(pot, {}).setdefault(name, [None, None])
            counts[what == "low"] = side(row, 3)

    def by_player(self) -> dict[str, list[PotShare]]:
        found: dict[str, list[PotShare]] = {}
        for pot, players in self.pots.items():
            exact = equities([(high, low) for high, low in players.values()], self.runouts)
            for (name, (high, low)), equity in zip(players.items(), exact):
                found.setdefault(name, []).append(PotShare(pot, high, low, self.parts[pot, name], equity))
        return found


def _street_players(shares: _Shares, expects: dict[str, Decimal] | None) -> tuple[AllInPlayer, ...]:
    found = shares.by_player()
    if expects is None:
        return tuple(AllInPlayer(name, None, tuple(pots)) for name, pots in found.items())
    return tuple(AllInPlayer(name, amount, tuple(found.get(name, ()))) for name, amount in expects.items())


def hand(group: list[Row]) -> Hand | Rejected:
    """A hand of `check`, `audit`, or `streets`."""
    if _is_rejected(group[0]):
        return rejected(group[0])
    number, game, unit, rake, twice = _head(group[0])
    pots: list[Pot] = []
    payments: list[Payment] = []
    unfit: list[Payment] = []
    state: AllInState | None = None
    counted: tuple[str, _Shares] | None = None
    expects: dict[str, Decimal] = {}
    streets: list[tuple[str, _Shares | None]] = []
    for row in group[1:]:
        if row[0] == "pot" and row[2] == "gross":
            payments = []
            pots.append(Pot(*_pot_head(row), ()))
        elif row[0] == "paid":
            if pots[-1].state == "unfit":
                unfit.append(_payment(row))
            else:
                payments.append(_payment(row))
                index, gross, its_rake, its_state = pots[-1].index, pots[-1].gross, pots[-1].rake, pots[-1].state
                pots[-1] = Pot(index, gross, its_rake, its_state, tuple(payments))
        elif row[0] == "all-in":
            if row[1] == "refused":
                state = "DeckShort" if row[2] == "DeckShort" else "above"
            elif row[1] in ("none", "unknown"):
                state = cast(AllInState, row[1])
            else:
                state = "counted"
                counted = row[1], _Shares(int(row[3]))
        elif row[0] == "pot":
            shares = streets[-1][1] if streets else counted[1] if counted else None
            assert shares is not None
            shares.add(row)
        elif row[0] == "expect":
            expects[row[-1]] = Decimal(row[1])
        elif row[0] == "street":
            streets.append((row[1], None if row[2] == "unknown" else _Shares(int(row[3]))))
    return Hand(
        number,
        game,
        unit,
        rake,
        twice,
        tuple(pots),
        tuple(unfit),
        AllIn(counted[0], counted[1].runouts, _street_players(counted[1], expects)) if counted else None,
        state,
        tuple(
            Street(street, shares.runouts if shares else None, _street_players(shares, None) if shares else ())
            for street, shares in streets
        ),
    )


def results(group: list[Row]) -> HandResults | Rejected:
    """A hand of `results`: `result had H put P got C net D even E NAME`"""
    if _is_rejected(group[0]):
        return rejected(group[0])
    players = tuple(
        Result(
            row[-1],
            Decimal(row[2]),
            Decimal(row[4]),
            Decimal(row[6]),
            Decimal(row[8]),
            None if row[10] == "unknown" else Decimal(row[10]),
        )
        for row in group[1:]
    )
    return HandResults(*_head(group[0]), players)


def settlement(group: list[Row]) -> Settlement:
    """A hand of `settle`."""
    first = group[0]
    pots: list[SettledPot] = []
    unfit: list[Payment] = []
    transfers: list[Transfer] = []
    parts: list[Part] = []
    shares: list[Share] = []
    payments: list[Payment] = []
    head: tuple[int, Decimal, Decimal | None, PotState] | None = None

    def end_pot() -> None:
        if head is not None:
            pots.append(SettledPot(*head, tuple(parts), tuple(shares), tuple(payments)))
        parts.clear()
        shares.clear()
        payments.clear()

    for row in group[1:]:
        if row[0] == "pot":
            end_pot()
            head = _pot_head(row)
        elif row[0] == "part":
            board_side = cast(Literal["high", "low"], row[3])
            parts.append(Part(int(row[2]), board_side, row[-1], Decimal(row[5]), int(row[7])))
        elif row[0] == "share":
            shares.append(Share(row[-1], Decimal(row[3]), Decimal(row[5])))
        elif row[0] == "paid":
            (unfit if head and head[3] == "unfit" else payments).append(_payment(row))
        elif row[0] == "settle":
            transfers.append(Transfer(row[-1], Decimal(row[1])))
    end_pot()
    is_rejected = _is_rejected(first)
    return Settlement(
        not is_rejected, int(first[1]), rejected(first) if is_rejected else None, tuple(pots), tuple(unfit), tuple(transfers)
    )
