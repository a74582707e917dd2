"""The program `equity`: where it is, and how it is run."""

from __future__ import annotations

import csv
import os
import shutil
import subprocess
import sys
import threading
from collections.abc import Iterator, Sequence
from os import PathLike
from pathlib import Path
from typing import IO, BinaryIO, Union

from ._types import EquityError, ProgramMissing

Source = Union[str, "PathLike[str]", bytes, BinaryIO]
Row = list[str]

# what an exit status says; 0 and 1 end a run that is whole
_STATUSES = {
    2: "the words are in no form",
    3: "reading failed",
    4: "writing failed",
    5: "the input is longer than 1 GiB",
    6: "memory was refused",
    7: "a word isn't UTF-8",
    8: "the program couldn't be started",
}
# the statuses after which each hand that was written is whole
WHOLE = (0, 1, 3, 5, 6)
_PIECE = 1 << 18


def program() -> str:
    """The path of the program that is called: EQUITY if it is set, else the one packed with this package, else `equity` on the PATH."""
    named = os.environ.get("EQUITY")
    if named:
        return named
    here = Path(__file__).resolve().parent
    # packed with the package, or, in a checkout, the one in dist/
    for place in (here / "run" / "libexec" / "equity" / "equity", here.parent.parent.parent / "dist" / "equity"):
        if sys.platform == "linux" and os.access(place, os.X_OK):
            return str(place)
    found = shutil.which("equity")
    if found is None:
        raise ProgramMissing("there is no program equity: set EQUITY to its path, or install it")
    return found


def script() -> str:
    """The path of the script before the program, which takes files as words; the program's own path if there is no script."""
    here = Path(__file__).resolve().parent
    for place in (here / "run" / "bin" / "equity", here.parent.parent.parent / "equity"):
        if sys.platform == "linux" and os.access(place, os.X_OK):
            return str(place)
    return program()


def _copy(source: BinaryIO | bytes, to: IO[bytes]) -> None:
    """Writes a source into a pipe, until the program closes it."""
    try:
        if isinstance(source, bytes):
            to.write(source)
        else:
            shutil.copyfileobj(source, to, _PIECE)
    except BrokenPipeError:
        pass
    finally:
        try:
            to.close()
        except BrokenPipeError:
            pass


class Run:
    """A run of the program in CSV, whose records can be read as they come. It ends the program when it is closed."""

    def __init__(self, words: Sequence[str], source: Source) -> None:
        command = [program(), *words, "--format", "csv"]
        environment = {**os.environ, "EQUITY_QUIET": "1"}
        is_path = isinstance(source, (str, PathLike))
        given: IO[bytes] | int = open(source, "rb") if isinstance(source, (str, PathLike)) else subprocess.PIPE
        try:
            self._process = subprocess.Popen(
                command, stdin=given, stdout=subprocess.PIPE, stderr=subprocess.DEVNULL, env=environment
            )
        except FileNotFoundError as error:
            raise ProgramMissing(f"there is no program {command[0]}") from error
        finally:
            if not isinstance(given, int):
                given.close()
        if not is_path:
            assert self._process.stdin is not None and not isinstance(source, (str, PathLike))
            threading.Thread(target=_copy, args=(source, self._process.stdin), daemon=True).start()

    def rows(self) -> Iterator[Row]:
        """The records: words, without the empty fields before the name, and the name."""
        assert self._process.stdout is not None
        if csv.field_size_limit() < 1 << 30:
            csv.field_size_limit(1 << 30)
        # only a newline ends a line: a name may have a carriage return in it
        lines = (line.decode("utf-8", "surrogateescape") for line in self._process.stdout)
        for record in csv.reader(lines):
            words = record[:-1]
            while words and words[-1] == "":
                words.pop()
            yield [*words, record[-1]]

    def wait(self) -> int:
        """Waits for the program's end; its exit status, or minus the number of a signal."""
        return self._process.wait()

    def close(self) -> None:
        """Ends the program if it still runs."""
        if self._process.poll() is None:
            self._process.kill()
        if self._process.stdout is not None:
            self._process.stdout.close()
        self._process.wait()


def failure(status: int) -> EquityError:
    """The error of a run that ended with a status other than 0 and 1."""
    if status < 0:
        return EquityError(f"the program was ended by signal {-status}", status)
    return EquityError(_STATUSES.get(status, f"the program ended with status {status}"), status)
