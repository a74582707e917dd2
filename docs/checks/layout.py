"""The crates: what each one depends on, in which layer, and what its proofs cite."""
import re
from pathlib import Path

from .shared import NotTried, crates as crates_below, lines, quoted, tables


def crates():
    """docs/ARCHITECTURE.md says of each crate of crates.txt what it depends on."""
    rows = {}
    for _, head, cells in tables("docs/ARCHITECTURE.md"):
        if head[0] == "Crate" and "Depends on" in head:
            rows[quoted(cells[0])[0]] = set(quoted(cells[head.index("Depends on")]))
    for crate, below in crates_below().items():
        if crate not in rows:
            yield f"docs/ARCHITECTURE.md has no row of the crate {crate}"
            continue
        for name in sorted(set(below) - rows[crate]):
            yield f"docs/ARCHITECTURE.md doesn't say that {crate} depends on {name}"
        for name in sorted(rows[crate] - set(below)):
            yield f"docs/ARCHITECTURE.md says that {crate} depends on {name}, and crates.txt doesn't"
    for crate in sorted(set(rows) - set(crates_below())):
        yield f"docs/ARCHITECTURE.md has a row of {crate}, which crates.txt doesn't name"


def layers():
    """In crates.txt each crate is below a heading `## LAYER`, and depends only on crates of its layer or of layers before it."""
    layer_of = {}
    layer = 0
    for line in lines("crates.txt"):
        if line.startswith("## "):
            layer += 1
        elif ":" in line.partition("#")[0]:
            layer_of[line.partition(":")[0].split()[0]] = layer
    if layer == 0:
        raise NotTried("crates.txt has no headings of layers")
    for crate, below in crates_below().items():
        if layer_of[crate] == 0:
            yield f"crates.txt has {crate} before the first layer"
        for name in below:
            if layer_of.get(name, 0) > layer_of[crate]:
                yield f"crates.txt has {crate} in a layer before that of {name}, on which it depends"


def imports():
    """Proofs cite of another crate's proofs only what its CallerLemmas.antt offers."""
    for path in sorted(Path("crates").rglob("*")):
        if path.suffix not in (".antt", ".rt") or "out" in path.parts:
            continue
        for line in lines(path):
            cited = re.match(r" *(?:ghost |pub )?use Rattle\.([a-z_]+)\.proofs\.", line)
            if not cited or cited[1] == path.parts[1] or not Path(f"crates/{cited[1]}").is_dir():
                continue
            if ".proofs.CallerLemmas." not in line:
                yield f"{path} cites of {cited[1]} what its CallerLemmas.antt doesn't offer: {line[:100]}"
