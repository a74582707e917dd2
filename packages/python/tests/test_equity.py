"""The calls over the examples of the repository, held against the program's own report."""

from __future__ import annotations

import csv
import doctest
import io
import os
import signal
import subprocess
import tempfile
import unittest
from collections.abc import Callable, Iterator
from decimal import ROUND_HALF_UP, Decimal
from fractions import Fraction
from pathlib import Path
from typing import Any
from unittest import mock

import equity

TOP = Path(__file__).resolve().parents[3]
EXAMPLES = sorted((TOP / "examples").glob("*.txt"))
HISTORIES = [path for path in EXAMPLES if b"PokerStars " in path.read_bytes()]
SPOTS = [path for path in EXAMPLES if path not in HISTORIES]


def records(words: list[str], given: bytes) -> list[list[str]]:
    """The program's report in CSV, read by another way: at once, without the empty fields before the name."""
    report = subprocess.run([equity.program(), *words, "--format", "csv"], input=given, stdout=subprocess.PIPE).stdout
    text = io.StringIO(report.decode("utf-8", "surrogateescape"), newline="")
    return [[*filter(None, row[:12]), row[12]] for row in csv.reader(text)]


def money(amount: Decimal, unit: str) -> str:
    return f"{amount:.2f}" if unit == "hundredths" else f"{amount:f}"


def percent(part: int, whole: int) -> str:
    return str((Decimal(part) * 100 / Decimal(whole)).quantize(Decimal("0.01"), ROUND_HALF_UP))


def rounded(value: Fraction) -> Decimal:
    return (Decimal(value.numerator) / Decimal(value.denominator)).quantize(Decimal("0.001"), ROUND_HALF_UP)


def rejected_row(hand: equity.Rejected) -> list[str]:
    return ["hand", str(hand.number), "rejected", "line", str(hand.line), hand.cause, *hand.details, ""]


def head_row(hand: Any) -> list[str]:
    twice = ["twice"] if hand.twice else []
    return ["hand", str(hand.number), "accepted", hand.game, "rake", money(hand.rake, hand.unit), *twice, ""]


def pot_row(pot: Any, unit: str) -> list[str]:
    rake = [] if pot.rake is None else ["rake", money(pot.rake, unit)]
    return ["pot", str(pot.index), "gross", money(pot.gross, unit), *rake, pot.state, ""]


def paid_row(payment: equity.Payment, unit: str) -> list[str]:
    due = [] if payment.due is None else ["due", money(payment.due, unit)]
    return ["paid", money(payment.paid, unit), *due, payment.player]


def share_rows(players: tuple[equity.AllInPlayer, ...], runouts: int) -> Iterator[list[str]]:
    pots = sorted({share.pot for player in players for share in player.pots})
    for pot in pots:
        for player in players:
            for share in (it for it in player.pots if it.pot == pot):
                for name, side in (("high", share.high), ("low", share.low)):
                    if side is not None:
                        counts = (("win", side.win), ("tie", side.tie), ("lose", side.lose))
                        words = [word for key, it in counts for word in (key, str(it), percent(it, runouts))]
                        yield ["pot", str(pot), name, *words, player.name]
                yield ["pot", str(pot), "ev", str(share.ev), player.name]


def hand_rows(hand: equity.Hand | equity.Rejected) -> Iterator[list[str]]:
    """What the program prints of a hand, written again from the value."""
    if isinstance(hand, equity.Rejected):
        yield rejected_row(hand)
        return
    yield head_row(hand)
    for pot in hand.pots:
        yield pot_row(pot, hand.unit)
        yield from (paid_row(it, hand.unit) for it in pot.payments)
    yield from (paid_row(it, hand.unit) for it in hand.unfit_payments)
    if hand.all_in_state is None:
        return
    if hand.all_in is None:
        words = {"above": ["refused", "above", "200000000", "runouts"], "DeckShort": ["refused", "DeckShort"]}
        yield ["all-in", *words.get(hand.all_in_state, [hand.all_in_state]), ""]
        return
    yield ["all-in", hand.all_in.street, "runouts", str(hand.all_in.runouts), ""]
    yield from share_rows(hand.all_in.players, hand.all_in.runouts)
    for player in hand.all_in.players:
        if player.expect is not None:
            yield ["expect", money(player.expect, hand.unit), player.name]
    for street in hand.streets:
        if street.runouts is None:
            yield ["street", street.street, "unknown", ""]
        else:
            yield ["street", street.street, "runouts", str(street.runouts), ""]
            yield from share_rows(street.players, street.runouts)


def result_rows(hand: equity.HandResults | equity.Rejected) -> Iterator[list[str]]:
    if isinstance(hand, equity.Rejected):
        yield rejected_row(hand)
        return
    yield head_row(hand)
    for it in hand.players:
        had, put, got, net = (money(amount, hand.unit) for amount in (it.had, it.put, it.got, it.net))
        even = "unknown" if it.even is None else money(it.even, hand.unit)
        yield ["result", "had", had, "put", put, "got", got, "net", net, "even", even, it.name]


class Records(unittest.TestCase):
    """Every record of every example is in the value that is read of it."""

    def test_hands(self) -> None:
        calls: dict[str, Callable[[Path], Iterator[equity.Hand | equity.Rejected]]]
        calls = {"check": equity.check, "audit": equity.audit, "streets": equity.streets}
        for path in HISTORIES:
            for mode, call in calls.items():
                with self.subTest(path=path.name, mode=mode):
                    there = records([mode], path.read_bytes())
                    self.assertEqual([row for hand in call(path) for row in hand_rows(hand)], there)

    def test_results(self) -> None:
        for path in HISTORIES:
            with self.subTest(path=path.name):
                there = records(["results"], path.read_bytes())
                self.assertEqual([row for hand in equity.results(path) for row in result_rows(hand)], there)

    def test_settlements(self) -> None:
        for path in HISTORIES:
            with self.subTest(path=path.name):
                there = records(["settle"], path.read_bytes())
                count = {word: sum(row[0] == word for row in there) for word in ("part", "share", "paid", "settle", "pot")}
                hands = list(equity.settle(path))
                pots = [pot for hand in hands for pot in hand.pots]
                self.assertEqual(count["pot"], len(pots))
                self.assertEqual(count["part"], sum(len(pot.parts) for pot in pots))
                self.assertEqual(count["share"], sum(len(pot.shares) for pot in pots))
                payments = sum(len(pot.payments) for pot in pots) + sum(len(hand.unfit_payments) for hand in hands)
                self.assertEqual(count["paid"], payments)
                self.assertEqual(count["settle"], sum(len(hand.transfers) for hand in hands))
                for hand in hands:
                    self.assertEqual(sum(it.amount for it in hand.transfers), 0)
                    for pot in hand.pots:
                        for share in pot.shares:
                            if pot.parts:
                                parts = sum(part.units for part in pot.parts if part.player == share.player)
                                self.assertEqual(parts, share.due)

    def test_sums(self) -> None:
        for path in HISTORIES:
            with self.subTest(path=path.name):
                totals = equity.totals(path)
                there = records(["totals"], path.read_bytes())
                self.assertEqual(there[0], ["totals", "hands", str(totals.hands), "accepted", str(totals.accepted),
                                            "rejected", str(totals.rejected), ""])
                for row, it in zip(there[1:], totals.rows, strict=True):
                    self.assertEqual(row, ["total", it.unit, "hands", str(it.hands), "allins", str(it.all_ins), "collected",
                                           money(it.collected, it.unit), "expected", money(it.expected, it.unit), it.name])
                balance = equity.balance(path)
                there = records(["balance"], path.read_bytes())
                for row, own in zip(there[1:], balance.rows, strict=True):
                    got, net, even = (money(amount, own.unit) for amount in (own.got, own.net, own.even))
                    self.assertEqual(row, ["balance", own.unit, "hands", str(own.hands), "got", got, "net", net, "even", even,
                                           "unknown", str(own.unknown), own.name])

    def test_exact_equities_round_to_the_printed_ones(self) -> None:
        exact = printed = 0
        for path in HISTORIES:
            for hand in equity.streets(path):
                if isinstance(hand, equity.Hand):
                    groups: list[equity.AllIn | equity.Street] = [hand.all_in] if hand.all_in else []
                    for it in [*groups, *hand.streets]:
                        for share in (share for player in it.players for share in player.pots):
                            printed += 1
                            if share.equity is not None:
                                exact += 1
                                self.assertEqual(rounded(share.equity), share.ev)
        self.assertGreater(exact, 30)
        self.assertGreaterEqual(printed, exact)


class Spots(unittest.TestCase):
    def test_the_examples(self) -> None:
        for path in SPOTS:
            lines = path.read_text().splitlines()
            mode = "ranges" if path.name == "ranges.txt" else "spots"
            answers = equity.range_spots(lines) if mode == "ranges" else equity.spots(lines)
            with self.subTest(path=path.name):
                there = [row for row in records([mode], path.read_bytes()) if row[0] == "spot"]
                for row, it in zip(there, answers, strict=True):
                    if isinstance(it, (equity.Spot, equity.Ranges)):
                        self.assertEqual(row[2], it.game)
                        self.assertIn(str(it.runouts), row)
                        for hand in it.hands:
                            self.assertTrue(hand.equity is None or rounded(hand.equity) == hand.ev)
                    elif isinstance(it, equity.LineRejected):
                        self.assertEqual(row[2:6], ["rejected", "line", str(it.line), it.cause])
                    else:
                        self.assertEqual(row[3], "refused")

    def test_counts(self) -> None:
        spot = equity.spot("holdem As Ah - Ks Kh -- 2c 7d 9h 4s")
        # only the two other kings beat the aces
        self.assertEqual((spot.runouts, spot.hands[0].win, spot.hands[1].win), (44, 42, 2))
        self.assertEqual(spot.hands[0].equity, Fraction(21, 22))

    def test_three_ties_are_exact_and_hi_lo_may_not_be(self) -> None:
        # the board is a straight, and nobody has a better one
        tie = equity.spot("holdem 2c 2d - 3c 3d - 4c 4d -- 6h 7s 8h 9s Tc")
        self.assertEqual([hand.equity for hand in tie.hands], [Fraction(1, 3)] * 3)
        split = equity.spot("omaha8 As 2s Kd Qd - Ah 3h Kc Jc -- 7c 4d Th")
        self.assertEqual([hand.equity for hand in split.hands], [None, None])
        with self.assertRaises(ValueError):
            split.hands[0].win

    def test_refusals(self) -> None:
        with self.assertRaises(equity.LineRejected) as caught:
            equity.spot("holdem As Ah - As Kh")
        self.assertEqual((caught.exception.cause, caught.exception.details), ("TwiceCard", ("As",)))
        with self.assertRaises(equity.AboveLimit):
            equity.spot("stud As Ah Kd - 2c 2d 7h")
        with self.assertRaises(ValueError):
            equity.spot("")
        with self.assertRaises(ValueError):
            equity.spot("holdem As Ah - Ks Kh\nholdem")
        kinds = [type(it) for it in equity.spots(["holdem As Ah - As Kh", "stud As Ah Kd - 2c 2d 7h", "holdem 2c 2d - 3c 3d"])]
        self.assertEqual(kinds, [equity.LineRejected, equity.AboveLimit, equity.Spot])


class Runs(unittest.TestCase):
    def test_sources(self) -> None:
        path = HISTORIES[0]
        there = list(equity.check(path))
        self.assertEqual(list(equity.check(str(path))), there)
        self.assertEqual(list(equity.check(path.read_bytes())), there)
        with path.open("rb") as file:
            self.assertEqual(list(equity.check(file)), there)
        self.assertEqual(list(equity.check(io.BytesIO(path.read_bytes()))), there)

    def test_many_bytes_do_not_lock_up(self) -> None:
        given = (TOP / "examples" / "session.txt").read_bytes() * 3000
        self.assertGreater(sum(1 for _ in equity.check(given)), 3000)

    def test_an_early_end_ends_the_program(self) -> None:
        hands = equity.check((TOP / "examples" / "session.txt").read_bytes() * 3000)
        next(hands)
        with mock.patch("subprocess.Popen.kill", autospec=True, side_effect=subprocess.Popen.kill) as kill:
            hands.close()  # type: ignore[attr-defined]
        self.assertTrue(kill.called)

    def test_a_killed_program_is_an_error(self) -> None:
        with tempfile.TemporaryDirectory() as folder:
            script = Path(folder) / "equity"
            script.write_text("#!/bin/sh\nprintf 'hand,1,rejected,line,1,BadHeader,,,,,,,\\nhand,2,re'\nkill -KILL $$\n")
            script.chmod(0o755)
            with mock.patch.dict(os.environ, {"EQUITY": str(script)}):
                hands = equity.check(b"")
                with self.assertRaises(equity.EquityError) as caught:
                    list(hands)
        self.assertEqual(caught.exception.status, -signal.SIGKILL)

    def test_statuses(self) -> None:
        with tempfile.TemporaryDirectory() as folder:
            script = Path(folder) / "equity"
            for status in range(2, 9):
                script.write_text(f"#!/bin/sh\nprintf 'hand,1,rejected,line,1,BadHeader,,,,,,,\\n'\nexit {status}\n")
                script.chmod(0o755)
                with mock.patch.dict(os.environ, {"EQUITY": str(script)}):
                    found: list[object] = []
                    with self.assertRaises(equity.EquityError) as caught:
                        found.extend(equity.check(b""))
                self.assertEqual(caught.exception.status, status)
        with mock.patch.dict(os.environ, {"EQUITY": "/nowhere/equity"}), self.assertRaises(equity.ProgramMissing):
            list(equity.check(b""))

    def test_names_of_any_bytes(self) -> None:
        text = (TOP / "examples" / "session.txt").read_bytes()
        odd = b'a,"b"\xff ' + b"x" * (1 << 20)
        given = text.replace(b"lou", odd)
        names = {it.name for hand in equity.results(given) if isinstance(hand, equity.HandResults) for it in hand.players}
        self.assertIn(odd.decode("utf-8", "surrogateescape"), names)

    def test_records_are_rows(self) -> None:
        rows = list(equity.to_records(equity.results(TOP / "examples" / "month.txt")))
        self.assertEqual(set(rows[0]), {"number", "game", "unit", "name", "had", "put", "got", "net", "even"})
        with self.assertRaises(TypeError):
            list(equity.to_records([1]))


class Readme(unittest.TestCase):
    def test_its_examples(self) -> None:
        path = Path(__file__).resolve().parents[1] / "README.md"
        before = os.getcwd()
        os.chdir(TOP)
        try:
            failed, tried = doctest.testfile(str(path), module_relative=False)
        finally:
            os.chdir(before)
        self.assertEqual(failed, 0)
        self.assertGreater(tried, 5)


if __name__ == "__main__":
    unittest.main()
