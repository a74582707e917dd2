"""Reads from the sources of the crates what each one exports, and the names of the clauses of each call."""
import collections
import functools
import re
from pathlib import Path

from .shared import lines

FUNCTION = re.compile(r" *(?:pub )?(?:const )?(?:ghost )?fn ([a-z_0-9]+)")
ITEM = re.compile(r"(pub )?(?:const (?=fn ))?(?:fn|struct|enum|trait|type|const) ([A-Za-z_0-9]+)")
METHOD = re.compile(r"    (pub )?(?:const )?(?:ghost )?fn ([a-z_0-9]+)")


def source_files():
    """Returns the files of all crates that may have public items."""
    return sorted([*Path().glob("crates/*/src/*.rt"), *Path().glob("crates/*/src/*/*.rt")])


def names_of_use(text):
    """Returns the names that a declaration `pub use ..;` exports."""
    text = text.removeprefix("pub use ").partition(";")[0]
    inner = text.partition("{")[2].rstrip("} ") or text
    last = [part.strip().split("::")[-1] for part in inner.replace("{", ",").replace("}", ",").split(",")]
    return [part.split(" as ")[-1] for part in last if part]


def items_of(path):
    """Yields the public items of a file with what they are: an item, a method, or a public module."""
    used = None
    is_inside = False
    is_public_impl = False
    for line in lines(path):
        line = line.partition("//")[0].replace('pub extern "C" fn ', "pub fn ")
        if line.startswith("pub use "):
            used = ""
        if used is not None:
            used += line
            if ";" in line:
                yield from (("item", name) for name in names_of_use(used))
                used = None
        if module := re.match(r"pub mod ([a-z_]+);", line):
            yield "module", module[1]
        if (item := ITEM.match(line)) and (item[1] or item[2] == "main"):
            yield "item", item[2]
        if re.match(r"(pub )?trait |impl", line):
            is_inside = True
            is_public_impl = not line.startswith("impl") or " for " in line
        if line.startswith("}"):
            is_inside = False
        if is_inside and (method := METHOD.match(line)) and (is_public_impl or method[1]):
            yield "method", method[2]


@functools.cache
def exports():
    """Returns for each crate the set of its public items, methods, and modules."""
    exported = collections.defaultdict(set)
    of_modules = []
    modules = set()
    for path in source_files():
        crate = path.parts[1]
        is_root = len(path.parts) == 4 and path.stem in ("lib", "main")
        for kind, name in items_of(path):
            if kind == "module" and is_root:
                modules.add((crate, name))
            if is_root or kind == "method":
                exported[crate].add(name)
            elif kind == "item":
                of_modules.append((crate, path.stem, name))
    for crate, module, name in of_modules:
        if (crate, module) in modules:
            exported[crate].add(name)
    return exported


@functools.cache
def facts():
    """Returns (crate, call, name) for each named clause of a call, and (crate, "", name) for each ghost field or fact of a record."""
    known = set()
    for path in source_files():
        crate = path.parts[1]
        call = ""
        for line in lines(path):
            if function := FUNCTION.match(line.replace('pub extern "C" fn ', "pub fn ")):
                call = function[1]
            if clause := re.match(r" *ensures ([a-z_0-9]+) \{", line):
                known.add((crate, call, clause[1]))
            if field := re.match(r" *ghost ([a-z_0-9]+)", line):
                known.add((crate, "", field[1]))
    for path in Path().glob("crates/*/specs/*.antt"):
        for line in lines(path):
            if fact := re.match(r"  pub ([a-z_0-9]*) :", line):
                known.add((path.parts[1], "", fact[1]))
    return known


def is_call(crate, word):
    """Returns whether the crate exports the call. Of `Type::call` it must export both."""
    return all(part in exports()[crate] for part in word.split("::"))


def is_clause(crate, word, calls):
    """Returns whether one of the calls has a clause of this name, or a record of the crate such a fact."""
    return any((crate, call, word) in facts() for call in ["", *calls])
