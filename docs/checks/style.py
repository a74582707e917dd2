"""How sources and definitions are written."""
import re
from pathlib import Path

from .shared import lines


def comments(path):
    """Yields the first line of each comment of a source or a definition, with its number."""
    mark = r"--" if path.suffix == ".antt" else r"//[/!]?"
    is_before = False
    for number, line in enumerate(lines(path), 1):
        comment = re.match(rf"(.*?)(?<!:){mark}(?: (.*))?$", line)
        if comment and not (is_before and not comment[1].strip()):
            yield number, comment[2] or ""
        # an empty line of a comment begins a new paragraph
        is_before = bool(comment and not comment[1].strip() and comment[2])


def words():
    """In src/ and specs/ nothing says "so many", and no comment begins with "The same" or "Those"."""
    for folder in ("src", "specs"):
        for path in sorted(Path().glob(f"crates/*/{folder}/**/*")):
            if path.suffix not in (".rt", ".antt"):
                continue
            for number, line in enumerate(lines(path), 1):
                if "so many" in line.lower():
                    yield f'{path}:{number} says "so many"'
            for number, comment in comments(path):
                if begun := re.match(r"The same\b|Those\b", comment):
                    yield f'{path}:{number} has a comment that begins with "{begun[0]}"'


# asserts of tests that neither name a row nor have a message, by file and condition
WITHOUT_MESSAGE: list[tuple[str, str]] = []
WITHOUT_MESSAGE_MOST = 20


def arguments(text):
    """Returns the arguments of a macro, from a text that begins after its opening bracket."""
    found = [""]
    depth = 1
    for token in re.findall(r'b?"(?:\\.|[^"\\])*"|b?\'(?:\\.|[^\'\\])\'|//.*|\s+|.', text):
        if token.startswith("//"):
            continue
        depth += (token in "([{") - (token in ")]}")
        if depth == 0:
            break
        if depth == 1 and token in (",", ";"):
            found.append("")
        else:
            found[-1] += " " if token.isspace() else token
    return [argument.strip() for argument in found if argument.strip()]


def asserts():
    """Each assert of a test has a message, or compares the first wrong row of a table with None. At most 20 listed ones do neither."""
    if len(WITHOUT_MESSAGE) > WITHOUT_MESSAGE_MOST:
        yield f"docs/checks/style.py lists {len(WITHOUT_MESSAGE)} asserts without a message, and at most {WITHOUT_MESSAGE_MOST} are allowed"
    for path in sorted(Path().glob("crates/*/src/**/*.rt")):
        text = "\n".join(re.sub(r"^\s*//.*", "", line) for line in lines(path))
        for macro in re.finditer(r"\bassert(_eq|_ne)?!\(", text):
            # the first argument is the runtime
            compared = arguments(text[macro.end() :])[1:]
            count = 2 if macro[1] else 1
            has_message = len(compared) > count and compared[count].startswith('"')
            names_row = macro[1] == "_eq" and compared[1] == "None"
            if not has_message and not names_row and (str(path), compared[0]) not in WITHOUT_MESSAGE:
                number = text.count("\n", 0, macro.start()) + 1
                yield f"{path}:{number} has an assert that names no row and has no message"
