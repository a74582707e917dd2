"""Draws a player's winnings and all-in adjusted winnings over the hands of some files.

    python winnings.py PLAYER PICTURE.png HANDS.txt ..
"""

from __future__ import annotations

import sys
from decimal import Decimal
from itertools import accumulate

import equity


def line(player: str, files: list[str]) -> tuple[list[Decimal], list[Decimal]]:
    """The sums after each hand: net, and all-in adjusted net, with net in its place where it isn't known."""
    seen = [
        it
        for file in files
        for hand in equity.results(file)
        if isinstance(hand, equity.HandResults)
        for it in hand.players
        if it.name == player
    ]
    won = accumulate(it.net for it in seen)
    adjusted = accumulate(it.net if it.even is None else it.even for it in seen)
    return list(won), list(adjusted)


def main() -> None:
    player, picture, *files = sys.argv[1:]
    won, adjusted = line(player, files)
    import matplotlib

    matplotlib.use("Agg")
    from matplotlib import pyplot

    pyplot.plot(won, label="won", color="#111")
    pyplot.plot(adjusted, label="all-in adjusted", color="#111", linestyle="--")
    pyplot.xlabel("hands")
    pyplot.title(player)
    pyplot.legend()
    pyplot.savefig(picture)


if __name__ == "__main__":
    main()
