"""Exact equities from counts.

The report says how often a hand ties, and not with how many others. So the counts give the exact equity only in some cases.
"""

from __future__ import annotations

from collections.abc import Sequence
from fractions import Fraction
from typing import Optional

from ._types import Side

Counts = tuple[Optional[Side], Optional[Side]]


def _part(sides: Sequence[Side], at: int, total: int) -> Fraction | None:
    """The part of one side that a hand gets, or None if the counts don't give it."""
    win, tie = sides[at].win, sides[at].tie
    if tie == 0:
        return Fraction(win, total)
    if len(sides) == 2:
        return Fraction(2 * win + tie, 2 * total)
    if len(sides) != 3:
        return None
    # of the runouts that nobody wins alone, each tie of three is counted three times, and each tie of two twice
    all_three = sum(side.tie for side in sides) - 2 * (total - sum(side.win for side in sides))
    return Fraction(6 * win + 3 * (tie - all_three) + 2 * all_three, 6 * total)


def equities(hands: Sequence[Counts], total: int) -> list[Fraction | None]:
    """The exact equity of each hand, from its counts on the high and the low side; `total` counts all runouts."""
    highs = [high for high, _ in hands if high is not None]
    lows = [low for _, low in hands if low is not None]
    if not lows or not highs:
        return [_part(highs or lows, at, total) for at in range(len(hands))]
    if all(low.win == 0 and low.tie == 0 for low in lows):
        return [_part(highs, at, total) for at in range(len(hands))]
    if len(hands) == 2 and lows[0].win + lows[0].tie + lows[1].win == total:
        parts = [(_part(highs, at, total), _part(lows, at, total)) for at in range(2)]
        return [(high + low) / 2 if high is not None and low is not None else None for high, low in parts]
    return [None] * len(hands)
