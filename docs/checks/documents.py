"""The documents: the names, links, and code in them, their sizes, and what two of them share."""
import re
from itertools import combinations
from pathlib import Path
from typing import NamedTuple

from .shared import lines, parts, read

# the most words of each document
WORDS = {
    "README.md": 2_500,
    "CONTRIBUTING.md": 2_600,
    "docs/ARCHITECTURE.md": 4_000,
    "docs/DECISIONS.md": 8_000,
    "docs/FORMATS.md": 8_500,
    "docs/CLAIMS.md": 12_500,
    "docs/HANDS.md": 5_000,
    "examples/README.md": 3_500,
    "bench/README.md": 3_500,
    "all": 67_000,
}
README_LINES = 175

# documents that don't count in the sum of all
UNCOUNTED = re.compile(r"CHANGELOG\.md|bench/runs/.*|packages/.*|docs/(PAGE|TRIALS|RELEASES)\.md")
# documents that may say again what another one says: each is read without the others
ALONE = re.compile(r"README\.md|CHANGELOG\.md|bench/runs/.*|packages/.*|crates/.*")
SHARED_WORDS = 12


def documents():
    """Returns the Markdown files of the repository."""
    return sorted(str(path) for path in Path().rglob("*.md") if not {".git", "out", "node_modules"} & set(path.parts))


def linked():
    """Returns the documents whose names and links are compared."""
    return ["README.md", "CONTRIBUTING.md", *sorted(map(str, Path("docs").glob("*.md")))]


class Place(NamedTuple):
    """A file of specs/ or proofs/ that a line of a document names, and the names that are said to be in it."""
    document: str
    line: int
    file: str
    names: list[str]


def places(document):
    """Yields each `File.antt` of a document, with the names before it in `name`, `other` in `File.antt`."""
    for number, line in enumerate(lines(document), 1):
        names = []
        parts = line.split("`")
        for before, word in zip(parts[::2], parts[1::2]):
            if re.fullmatch(r"[A-Za-z_/]+\.antt", word):
                yield Place(document, number, word, names if before == " in " else [])
                names = []
            elif re.fullmatch(r"[A-Za-z][A-Za-z0-9_-]*", word):
                names = [*(names if before in (", ", " and ") else []), word]
            else:
                names = []


def specs():
    """Each file of specs/ and proofs/ that a document names exists, and has the definitions that are said to be in it."""
    files = [path for path in Path("crates").rglob("*.antt") if "out" not in path.parts]
    for document in linked():
        for place in places(document):
            named = [path for path in files if str(path).endswith(f"/{place.file}")]
            if not named:
                yield f"{document}:{place.line} names {place.file}, and no crate has it"
                continue
            for name in place.names:
                if Path(f"crates/{name}").is_dir():
                    continue
                if not any(re.search(rf"(?<![\w-]){re.escape(name)}(?![\w-])", read(path), re.ASCII) for path in named):
                    yield f"{document}:{place.line} says that {name} is in {place.file}, and it isn't"


def anchors(document):
    """Returns what a link may name after a #, for each heading of a document."""
    headings = [re.sub(r"^#+ ", "", line).lower() for line in lines(document) if re.match(r"#+ ", line)]
    return {re.sub(r"[^a-z0-9 _-]", "", heading).replace(" ", "-") for heading in headings}


def links():
    """Each file that a document links to exists, and so does the heading."""
    for document in [*linked(), "CHANGELOG.md", "examples/README.md", "bench/README.md"]:
        for link in sorted(set(re.findall(r"\]\(([^):]*)\)", read(document)))):
            name, _, anchor = link.partition("#")
            target = Path(document).parent / name if name else Path(document)
            if not target.exists():
                yield f"{document} links to {link}, which doesn't exist"
            elif anchor and anchor not in anchors(target):
                yield f"{document} links to {link}, and there is no such heading"


def quotations(document):
    """Yields each paragraph of the Rust code that a document quotes."""
    for part in parts(document):
        if part.language == "rust":
            yield from filter(None, "\n".join(part.lines).split("\n\n"))


def pages():
    """README.md and the pages for callers, crates/*/README.md, quote code that is in the sources, where it is proved or tested."""
    sources = "".join(read(path) for path in sorted(Path().glob("crates/*/src/**/*.rt")))
    for page in ["README.md", *sorted(map(str, Path().glob("crates/*/README.md")))]:
        for part in quotations(page):
            if part + "\n" not in sources:
                yield f"{page} quotes code that is in no source: {part.splitlines()[0]}"
        if page != "README.md" and not read(page).startswith(f"# {Path(page).parent.name}: "):
            yield f"{page} doesn't begin with the name of its crate"


def counts():
    """Returns the number of words of each Markdown file and manual page, and of all together."""
    pages = [*Path().glob("*.1"), *sorted(Path("man").glob("*.[1-9]"))]
    found = {document: len(read(document).split()) for document in [*documents(), *map(str, pages)]}
    found["all"] = sum(count for document, count in found.items() if not UNCOUNTED.fullmatch(document))
    return found


def sizes():
    """README.md has at most 175 lines, and no document nor all together have more words than WORDS in docs/checks/documents.py says. With
    --verbose, prints the words and the limit of each document."""
    count = len(lines("README.md"))
    if count > README_LINES:
        yield f"README.md has {count} lines, and at most {README_LINES} are allowed"
    for document, count in counts().items():
        if count > WORDS.get(document, count):
            yield f"{document} has {count:,} words, and at most {WORDS[document]:,} are allowed"


def all_sizes():
    """Yields a line for each document: its words and its limit."""
    for document, count in counts().items():
        limit = f"of {WORDS[document]:,}" if document in WORDS else ""
        yield f"{count:7,} words {limit:10} {document}"


def prose(document):
    """Returns the words of a document outside code blocks and tables, in lower case, each with the number of its line."""
    words = []
    for part in parts(document):
        if part.language is None and not part.lines[0].startswith("|"):
            words += [(word, part.first) for word in re.findall(r"[a-z0-9'.,_-]*[a-z0-9]", part.lines[0].lower())]
    return words


def repeats():
    """No two documents share twelve words in a row outside code blocks and tables. README.md and the pages of packages and crates may."""
    texts = {document: prose(document) for document in documents() if not ALONE.fullmatch(document)}
    rows = {document: {} for document in texts}
    for document, words in texts.items():
        for at in range(len(words) - SHARED_WORDS + 1):
            rows[document].setdefault(tuple(word for word, _ in words[at : at + SHARED_WORDS]), at)
    for one, other in combinations(texts, 2):
        end = 0
        for row, at in rows[one].items():
            # of a longer text that both have, the first words alone
            if row in rows[other] and at >= end:
                yield f"{one}:{texts[one][at][1]} and {other}:{texts[other][rows[other][row]][1]} share: {' '.join(row)}"
            if row in rows[other]:
                end = at + SHARED_WORDS
