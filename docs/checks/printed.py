"""The built program prints what the documents show after a command."""
import functools
import os
import re
import shutil
import subprocess
import tempfile
from pathlib import Path
from typing import NamedTuple

from .shared import NotTried, parts, read

DOCUMENTS = ("README.md", "docs/HANDS.md", "docs/FORMATS.md", "examples/README.md")


class Block(NamedTuple):
    """A block of output in a document, with the command before it, or None."""
    command: str | None
    lines: list[str]


@functools.cache
def program():
    """Returns the path of the built program: that of EQUITY, or that of ./equity --which."""
    named = os.environ.get("EQUITY") or output("./equity --which").strip()
    if not os.access(named, os.X_OK):
        raise NotTried("there is no program of these sources. Run ./equity first.")
    return os.path.realpath(named)


def output(command):
    """Returns what a command of bash prints on standard output."""
    ran = subprocess.run(["bash", "-c", command], stdin=subprocess.DEVNULL, capture_output=True, check=False)
    return ran.stdout.decode(errors="replace")


def is_command(code):
    """Returns whether a block of shell code is one command whose output may follow."""
    return len(code) == 1 and re.search(r"\./equity [a-z]", code[0]) and " > " not in code[0] and "tail -f" not in code[0]


def blocks(document):
    """Yields each block of output in a document. Its command is a block of its own or begins a sentence with "prints", and ends at most
    four lines before it."""
    command = None
    since = 0
    for part in parts(document):
        if part.language is None and (sentence := re.match(r"`((?:[^`]*\./equity|examples/wide-ranges) [^`]*)` prints", part.lines[0])):
            command, since = sentence[1], part.last()
        elif part.language == "sh":
            command, since = part.lines[0] if is_command(part.lines) else None, part.last()
        elif part.language == "text":
            yield Block(command if part.first - since <= 4 else None, part.lines)
            command = None


def end_of(block, printed, at):
    """Returns where a block ends that begins at a line of the output, or None if it doesn't fit there. A line `..` of the block is any
    number of lines."""
    is_open = False
    for line in block:
        if line == "..":
            is_open = True
            continue
        while is_open and at < len(printed) and printed[at] != line:
            at += 1
        if at == len(printed) or printed[at] != line:
            return None
        at += 1
        is_open = False
    return len(printed) if is_open else at


def is_whole(block, printed):
    """Returns whether the block is all of the output."""
    return end_of(block, printed, 0) == len(printed)


def is_part(block, printed):
    """Returns whether the block is somewhere in the output."""
    return any(end_of(block, printed, at) is not None for at in range(len(printed)) if printed[at] == block[0])


def without_notes(block):
    """Returns the lines of a block without the notes to their right, which begin after two blanks or more."""
    return [re.sub(r"   *.*", "", line) for line in block]


def examples_printed():
    """Returns all lines that the program prints of the files of examples/, and of three hands that it makes."""
    text = ""
    for file in sorted(Path("examples").glob("*.txt")):
        is_history = re.search(r"^PokerStars ", read(file), re.MULTILINE)
        for mode in ("audit", "check", "results", "settle") if is_history else ("spots", "ranges"):
            text += output(f"{program()} {mode} <{file}")
    text += output(f"{program()} made --hands 3")
    return text.split("\n")


def printed():
    """The program prints each block of output after a command in README.md, docs/HANDS.md, docs/FORMATS.md, and examples/README.md, and
    of some example each block without a command that begins with a hand, a spot, or made hands."""
    program()
    of_examples = examples_printed()
    with tempfile.TemporaryDirectory() as work:
        # the commands have files as words, so run.sh reads them before the program does
        script = f"{work}/bin/equity"
        for folder in (f"{work}/bin", f"{work}/libexec/equity"):
            os.makedirs(folder)
        shutil.copy("run.sh", script)
        shutil.copy("tell.sh", f"{work}/libexec/equity/")
        os.chmod(script, 0o755)
        os.symlink(program(), f"{work}/libexec/equity/equity")
        for document in DOCUMENTS:
            for command, block in blocks(document):
                block = without_notes(block) if document == "README.md" else block
                if command is None:
                    if block and re.match(r"(hand|spot|made hands) [0-9]", block[0]) and not is_part(block, of_examples):
                        yield f"{document}: no example prints the block that begins with: {block[0]}"
                elif not is_whole(block, output(f"export EQUITY='{program()}'; {command.replace('./equity', script)}").removesuffix("\n").split("\n")):
                    yield f"{document}: another output of: {command}"


def queries():
    """Yields each query of docs/SCALE.md that has a block of output, with the block."""
    command = None
    for part in parts("docs/SCALE.md"):
        if part.language == "sh":
            command = part.lines[-1] if part.lines[-1].startswith("sqlite3 ") else None
        elif part.language == "text" and command:
            yield Block(command, part.lines)
        elif part.lines != [""]:
            command = None


def archive():
    """The queries of docs/SCALE.md that have a block of output print it, of an archive of examples/."""
    for tool in ("parallel", "sqlite3"):
        if not shutil.which(tool):
            raise NotTried(f"the queries of docs/SCALE.md need {tool}, which isn't installed")
    environment = {**os.environ, "EQUITY": program()}
    with tempfile.TemporaryDirectory() as work:
        made = subprocess.run(["examples/archive", "examples", f"{work}/audit"], env=environment, capture_output=True, text=True, check=False)
        if made.returncode:
            yield f"docs/SCALE.md: the archive of the examples can't be made: {(made.stdout + made.stderr).strip()}"
            return
        asked = list(queries())
        if not asked:
            yield "docs/SCALE.md has no query with a block"
        for command, block in asked:
            if not is_whole(block, output(f"{command.replace('~/audit', f'{work}/audit')} 2>&1").removesuffix("\n").split("\n")):
                yield f"docs/SCALE.md: another output of: {command}"
