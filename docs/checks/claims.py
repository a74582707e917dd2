"""The claims name edits, public calls, and clauses that exist."""
import re
from pathlib import Path
from typing import NamedTuple

from .shared import crates, quoted, tables
from .source import is_call, is_clause

# crates of tests and examples, of which the README has no row
BESIDE_THE_PROGRAM = re.compile(r"\w+_rows|run_cases|best_five|equity_main")


class Claim(NamedTuple):
    """A row of docs/CLAIMS.md: its crate, and the words between backquotes of its other columns."""
    crate: str
    calls: list[str]
    clauses: list[str]
    edits: list[str]


def claims():
    """Yields each claim of docs/CLAIMS.md. The heading above a table ends with the crate's name."""
    for heading, head, cells in tables("docs/CLAIMS.md"):
        crate = re.search(r": `([a-z_]+)`$", heading)
        if heading.startswith("## ") and crate and head[0] == "Claim":
            yield Claim(crate[1], *(quoted(cell) for cell in cells[1:4]))


def last_name(word):
    """Returns the last part of a call's path, without brackets."""
    return word.partition("(")[0].split("::")[-1]


def edits():
    """docs/CLAIMS.md names exactly the must-fail edits of each crate."""
    # a crate in that column has a test and no edit
    named = {f"{claim.crate}/{edit}" for claim in claims() for edit in claim.edits if not edit.endswith("_rows")}
    files = {f"{path.parts[1]}/{path.stem}" for path in Path().glob("crates/*/must-fail/*.edit")}
    for name in sorted(named - files):
        yield f"docs/CLAIMS.md names an edit that doesn't exist: {name}"
    for name in sorted(files - named):
        yield f"docs/CLAIMS.md doesn't name the edit {name}"


def calls():
    """Each call in docs/CLAIMS.md is one that its crate exports, and each clause is one of a call of its row, or a fact of a record."""
    for claim in claims():
        # operators, files, and words of the language are in these columns too
        for word in claim.calls:
            if re.fullmatch(r"[\w:()]+", word, re.ASCII) and not is_call(claim.crate, word.partition("(")[0]):
                yield f"docs/CLAIMS.md: {claim.crate} exports no `{word}`"
        of = [last_name(word) for word in claim.calls]
        for word in claim.clauses:
            if re.fullmatch(r"[\w:()]+", word, re.ASCII) and word != "requires" and not is_clause(claim.crate, word, of):
                yield f"docs/CLAIMS.md: {claim.crate} has no clause `{word}` of {' '.join(of)}"


def calls_of_cell(cell):
    """Yields each call of a cell with no list, and each clause in brackets after some calls with the list of these."""
    of = []
    is_inside = False
    parts = cell.split("`")
    for before, word in zip(parts[::2], parts[1::2]):
        if before.endswith("("):
            is_inside = True
        elif ")" in before:
            is_inside = False
        if is_inside:
            yield word, of
            continue
        if re.search(r"[);]", before):
            of = []
        of = [*of, last_name(word)]
        yield word, []


def readme():
    """README.md has one row for each crate of the program with code of its own, and the calls and clauses that it names exist."""
    named = set()
    row = []
    for _, head, cells in tables("README.md"):
        if head[0] != "Crate":
            continue
        row = quoted(cells[0]) or row
        named |= set(row)
        for word, of in calls_of_cell(cells[2]):
            if not re.fullmatch(r"[\w:]+", word, re.ASCII):
                continue
            if not any(is_clause(crate, word, of) if of else is_call(crate, word) for crate in row):
                yield f"README.md, {' '.join(row)}: no `{word}`{' of ' if of else ''}{' '.join(of)}"
    program = {crate for crate in crates() if not BESIDE_THE_PROGRAM.fullmatch(crate) and has_code(crate)}
    for crate in sorted(program - named):
        yield f"README.md has no row of the crate {crate}"
    for crate in sorted(named - program):
        yield f"README.md has a row of {crate}, which is no crate of the program"


def has_code(crate):
    """Returns whether the crate has a function of its own."""
    return any(re.search(r"\bfn\b", path.read_text(encoding="utf-8")) for path in Path(f"crates/{crate}/src").rglob("*.rt"))
