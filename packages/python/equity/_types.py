"""What the calls return. Amounts are `Decimal`, in chips or in hundredths of the hand's currency; counts are `int`."""

from __future__ import annotations

from dataclasses import dataclass
from decimal import Decimal
from fractions import Fraction
from typing import ClassVar, Literal

Game = Literal["holdem", "omaha", "omaha8", "stud", "stud8", "razz", "draw5", "lowball27", "triple27"]
Unit = Literal["chips", "hundredths"]
PotState = Literal["checked", "unseen", "unfit"]
AllInState = Literal["none", "unknown", "above", "DeckShort", "counted"]


@dataclass(frozen=True, slots=True)
class Rejected:
    """A hand with a line that breaks a rule or can't be read: the line's number, and the cause with its details."""

    accepted: ClassVar[Literal[False]] = False
    number: int
    line: int
    cause: str
    details: tuple[str, ...]


@dataclass(frozen=True, slots=True)
class Side:
    """Runouts in which a hand alone has the best hand of a side, is one of several, or is neither."""

    win: int
    tie: int
    lose: int


@dataclass(frozen=True, slots=True)
class Payment:
    """What a player collected from a pot. `due` is what the rules give, if that differs."""

    player: str
    paid: Decimal
    due: Decimal | None


@dataclass(frozen=True, slots=True)
class Pot:
    """A pot, from 0, with its payments. `rake` is None if the names of the pots don't fit."""

    index: int
    gross: Decimal
    rake: Decimal | None
    state: PotState
    payments: tuple[Payment, ...]


@dataclass(frozen=True, slots=True)
class PotShare:
    """A player's counts in a pot. `ev` is printed with three places; `equity` is exact, or None if the counts don't give it."""

    pot: int
    high: Side | None
    low: Side | None
    ev: Decimal
    equity: Fraction | None


@dataclass(frozen=True, slots=True)
class AllInPlayer:
    """A player of an all-in. `expect` is the amount to expect of all pots, or None on a later street."""

    name: str
    expect: Decimal | None
    pots: tuple[PotShare, ...]


@dataclass(frozen=True, slots=True)
class AllIn:
    """A counted all-in: the street on which the betting ended, and the number of runouts."""

    street: str
    runouts: int
    players: tuple[AllInPlayer, ...]


@dataclass(frozen=True, slots=True)
class Street:
    """A street after the all-in. `runouts` is None if the cards of a player aren't known there."""

    street: str
    runouts: int | None
    players: tuple[AllInPlayer, ...]


@dataclass(frozen=True, slots=True)
class Hand:
    """An accepted hand of `check`, `audit`, or `streets`. `all_in_state` is None in `check`."""

    accepted: ClassVar[Literal[True]] = True
    number: int
    game: Game
    unit: Unit
    rake: Decimal
    twice: bool
    pots: tuple[Pot, ...]
    unfit_payments: tuple[Payment, ...]
    all_in: AllIn | None
    all_in_state: AllInState | None
    streets: tuple[Street, ...]


@dataclass(frozen=True, slots=True)
class Result:
    """A player's hand: stack before it, put in, collected, net, and all-in adjusted net (None if it isn't known)."""

    name: str
    had: Decimal
    put: Decimal
    got: Decimal
    net: Decimal
    even: Decimal | None


@dataclass(frozen=True, slots=True)
class HandResults:
    """An accepted hand of `results`."""

    accepted: ClassVar[Literal[True]] = True
    number: int
    game: Game
    unit: Unit
    rake: Decimal
    twice: bool
    players: tuple[Result, ...]


@dataclass(frozen=True, slots=True)
class Part:
    """What a winner of a side of a board gets of a pot; `odd` is 1 if an odd unit is in it."""

    board: int
    side: Literal["high", "low"]
    player: str
    units: Decimal
    odd: int


@dataclass(frozen=True, slots=True)
class Share:
    """What a player is due of a pot, and got."""

    player: str
    due: Decimal
    got: Decimal


@dataclass(frozen=True, slots=True)
class SettledPot:
    """A pot with what the rules give of it. `payments` has what was paid if the pot isn't checked."""

    index: int
    gross: Decimal
    rake: Decimal | None
    state: PotState
    parts: tuple[Part, ...]
    shares: tuple[Share, ...]
    payments: tuple[Payment, ...]


@dataclass(frozen=True, slots=True)
class Transfer:
    """What a player is still to get; below 0, what the player must give back."""

    player: str
    amount: Decimal


@dataclass(frozen=True, slots=True)
class Settlement:
    """A hand of `settle`. A hand that is rejected for `Split` has pots too."""

    accepted: bool
    number: int
    rejected: Rejected | None
    pots: tuple[SettledPot, ...]
    unfit_payments: tuple[Payment, ...]
    transfers: tuple[Transfer, ...]


@dataclass(frozen=True, slots=True)
class Total:
    """A player's counted all-ins in one unit: collected, and expected."""

    name: str
    unit: Unit
    hands: int
    all_ins: int
    collected: Decimal
    expected: Decimal


@dataclass(frozen=True, slots=True)
class Totals:
    hands: int
    accepted: int
    rejected: int
    rows: tuple[Total, ...]


@dataclass(frozen=True, slots=True)
class Balanced:
    """A player's hands in one unit. `unknown` counts those whose all-in adjusted net isn't known; `net` stands in for it there."""

    name: str
    unit: Unit
    hands: int
    got: Decimal
    net: Decimal
    even: Decimal
    unknown: int


@dataclass(frozen=True, slots=True)
class Balance:
    hands: int
    accepted: int
    rejected: int
    rows: tuple[Balanced, ...]


@dataclass(frozen=True, slots=True)
class SpotHand:
    """A hand of a spot. `win`, `tie`, and `lose` are those of its only side."""

    high: Side | None
    low: Side | None
    ev: Decimal
    equity: Fraction | None

    @property
    def only(self) -> Side:
        """The only side; a game with two sides has none."""
        if self.high is not None and self.low is not None:
            raise ValueError("a game with two sides has a count for each: use high and low")
        side = self.high if self.low is None else self.low
        assert side is not None
        return side

    @property
    def win(self) -> int:
        return self.only.win

    @property
    def tie(self) -> int:
        return self.only.tie

    @property
    def lose(self) -> int:
        return self.only.lose


@dataclass(frozen=True, slots=True)
class Spot:
    game: Game
    runouts: int
    hands: tuple[SpotHand, ...]


@dataclass(frozen=True, slots=True)
class Ranges:
    """The counts are out of `runouts` times `weight`."""

    game: Game
    choices: int
    runouts: int
    weight: int
    hands: tuple[SpotHand, ...]


class EquityError(Exception):
    """A run that failed. `status` is the program's exit status, or minus the number of the signal that ended it."""

    status: int | None

    def __init__(self, message: str, status: int | None = None) -> None:
        super().__init__(message)
        self.status = status


class LineRejected(EquityError, ValueError):
    """A line of a spot that the program rejects, with the cause and its details."""

    def __init__(self, line: int, cause: str, details: tuple[str, ...]) -> None:
        EquityError.__init__(self, f"line {line} is rejected: {' '.join((cause, *details))}", 1)
        self.line = line
        self.cause = cause
        self.details = details


class AboveLimit(EquityError):
    """A spot that isn't counted, because it has more than 200,000,000 runouts."""


class ProgramMissing(EquityError, FileNotFoundError):
    """There is no program `equity` to call."""

    def __init__(self, message: str) -> None:
        EquityError.__init__(self, message)
