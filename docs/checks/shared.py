"""What several checks use: texts, tables, and lists that have to agree."""
import functools
import re
import sys
from pathlib import Path
from typing import NamedTuple


class NotTried(Exception):
    """A check lacks what it needs, such as the built program. The text says what."""


def note(text):
    """Prints on standard error what a check doesn't look at."""
    print(f"docs/check: {text}", file=sys.stderr)


@functools.cache
def read(path):
    """Returns the text of a file of the repository."""
    return Path(path).read_text(encoding="utf-8")


def lines(path):
    """Returns the lines of a file, without their newlines."""
    return read(path).removesuffix("\n").split("\n")


def between(path, first, last):
    """Returns the lines after one that matches `first`, up to and without the next one that matches `last`."""
    found = []
    inside = False
    for line in lines(path):
        if inside and re.search(last, line):
            break
        if inside:
            found.append(line)
        inside = inside or bool(re.search(first, line))
    return found


def found(pattern, path):
    """Returns what the group of the pattern matches in the file. `^` and `$` are the ends of a line."""
    return re.findall(pattern, read(path), re.MULTILINE)


class Part(NamedTuple):
    """A code block of a document with its language, or a line outside code blocks, with None. It begins at line `first`."""
    language: str | None
    lines: list[str]
    first: int

    def last(self):
        """Returns the number of the part's last line."""
        return self.first if self.language is None else self.first + len(self.lines) + 1


def parts(path):
    """Yields the code blocks of a document and its other lines, in order."""
    block = None
    for number, line in enumerate(lines(path), 1):
        if block is None and line.startswith("```"):
            block = Part(line[3:], [], number)
        elif block is None:
            yield Part(None, [line], number)
        elif line.startswith("```"):
            yield block
            block = None
        else:
            block.lines.append(line)


def quoted(cell):
    """Returns the words of a cell or a sentence that stand between backquotes."""
    return cell.split("`")[1::2]


def tables(path):
    """Yields each row of the tables of a document: the heading above it, the cells of the table's head, and the row's own cells."""
    heading = ""
    head = None
    for line in lines(path):
        if line.startswith("#"):
            heading = line
        if not line.startswith("|"):
            head = None
            continue
        cells = [cell.strip() for cell in line.split("|")[1:-1]]
        if head is None:
            head = cells
        elif not line.startswith("|-"):
            yield heading, head, cells


def crates():
    """Returns the crates of crates.txt in its order, each with the list of those that it depends on."""
    rows = {}
    for line in lines("crates.txt"):
        name, colon, below = line.partition("#")[0].partition(":")
        if colon:
            rows[name.split()[0]] = below.split()
    return rows


def differences(kind, wanted, named, place):
    """Yields a sentence for each word that the place doesn't name or names without need."""
    for word in sorted(set(wanted) - set(named)):
        yield f"{place} doesn't name the {kind} {word}"
    for word in sorted(set(named) - set(wanted)):
        yield f"{place} names the {kind} {word}, which doesn't exist"
