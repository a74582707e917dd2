"""Options, modes, causes, and the version are the same wherever they are named."""
import re
from pathlib import Path

from .shared import between, differences, found, lines, quoted, read, tables

# lines that name options of other programs
OTHER_PROGRAMS = re.compile(r"\brt |`perf|`git|equity --[a-z]|examples/archive")
WORDS = "crates/command_words/src/words.rt"
RUNS = "crates/run_loop/src/runs.rt"
FORMS = "crates/run_rows/src/reports/forms.rt"
BROKEN = "crates/run_rows/src/ends/broken_writes.rt"


def options_in(path):
    """Returns the options of the program that a document names."""
    text = read(path).replace(r"\-", "-").split("\n")
    return {option for line in text if not OTHER_PROGRAMS.search(line) for option in re.findall(r"--[a-z]+", line)}


def options():
    """The usage line and its options are the same in the program, the scripts, and the documents."""
    usage = (found(r'b"(usage: equity .*)\\n"', RUNS) or [""])[0]
    wanted = set(re.findall(r"--[a-z]+", usage))
    if not wanted:
        yield f"{RUNS} has no usage line"
    # the script before the program has options of its own
    allowed = set(" ".join(found(r'^    local options="(.*)"$', "man/completion.bash")).split())
    for path in ("README.md", "docs/FORMATS.md", "equity.1"):
        yield from differences("option", wanted, options_in(path) - (allowed - wanted), path)
    for option in sorted(allowed - options_in("equity.1") - wanted):
        yield f"equity.1 doesn't name the option {option}"
    for option in sorted(allowed):
        if not found(rf"^ *(?:--[a-z]+ \| )*{option}(?: \| -h| \| --[a-z]+)*\)", "run.sh"):
            yield f"run.sh doesn't have the option {option} of man/completion.bash"
        if f"'{option}:" not in read("man/completion.zsh"):
            yield f"man/completion.zsh doesn't have the option {option}"
        if not found(rf" -l {option[2:]}(?: |$)", "man/completion.fish"):
            yield f"man/completion.fish doesn't have the option {option}"
    if usage not in lines("docs/FORMATS.md"):
        yield "docs/FORMATS.md has another usage line"
    if f'usage="{usage}"' not in lines("run.sh"):
        yield "run.sh has another usage line"
    if f"echo '{usage}'" not in read("tests/statuses"):
        yield "tests/statuses expects another usage line"
    if not synopsis().startswith(usage.lower().removeprefix("usage: ").replace(" ", "")):
        yield "equity.1 has another synopsis than the usage line"


def synopsis():
    """Returns the synopsis of the manual page without its fonts and blanks."""
    text = [re.sub(r"^\.[A-Z]* *", "", line) for line in between("equity.1", r"^\.SH SYNOPSIS", r"^\.SH ")]
    return "".join(text).replace(r"\-", "-").replace(" ", "")


def modes():
    """The modes are the same in the program, the scripts, the documents, and the tests of all modes."""
    wanted = set(found(r'^ *"([a-z]*)" => Some\(Mode::', WORDS))
    if not wanted:
        yield f"{WORDS} has no modes"
    rows = [quoted(cells[0]) for _, head, cells in tables("docs/FORMATS.md") if head[0] == "Mode"]
    yield from differences("mode", wanted, sum(rows, []), "docs/FORMATS.md")
    manual = "\n".join(between("equity.1", r"^\.SS Modes", r"^\.S"))
    yield from differences("mode", wanted, re.findall(r"^\.TP\n\.B (.*)$", manual, re.MULTILINE), "equity.1")
    yield from differences("mode", wanted, found(r"\./equity ([a-z]+)", "README.md"), "README.md")
    yield from differences("mode", wanted, " ".join(found(r"^modes=\((.*)\)$", "run.sh")).split(), "run.sh")
    helped = "\n".join(between("tell.sh", r"^purpose\(\)", r"^}"))
    yield from differences("mode", wanted, re.findall(r"^    ([a-z]*)\) echo ", helped, re.MULTILINE), "the help of tell.sh")
    broken = "\n".join(between(BROKEN, r"^pub\(crate\) const MODES", r"^];"))
    yield from differences("mode", wanted, re.findall(r'^ *\("([a-z]*)", ', broken, re.MULTILINE), BROKEN)
    of_hands = between(FORMS, r"^pub\(crate\) const HAND_MODES", r"^];")
    yield from differences("mode", wanted - {"made", "spots", "ranges"}, re.findall(r'"([a-z]*)"', " ".join(of_hands)), FORMS)


def causes():
    """Each cause of a rejection is in docs/FORMATS.md and equity.1, and the page has a sentence for each cause of a hand."""
    names = {path: set(found(r'codes "([A-Z][A-Za-z]*)"', path)) for path in (
        "crates/hand_events/specs/TextFaultNames.antt", "crates/hand_events/specs/BetFaultNames.antt",
        "crates/hand_verdict/specs/CauseNames.antt", "crates/spot_text/specs/FaultNames.antt", "crates/range_lines/specs/Blocks.antt")}
    wanted = set().union(*names.values()) - {"Memory"}
    if not wanted:
        yield "the specs have no causes"
    # in FORMATS a cause has a row of a table, which may begin with its place in the order
    rows = [line for line in lines("docs/FORMATS.md") if not re.match(r"\| `[^`]*` \| `[a-z0-9]*` \|", line)]
    named = [row[1] for row in (re.match(r"\| (?:[0-9]* \| )*`([A-Z][a-z][A-Za-z]*)`", line) for line in rows) if row]
    yield from differences("cause", wanted, named, "docs/FORMATS.md")
    manual = [line for line in between("equity.1", r"^\.SH CAUSES", r"^\.SH ") if line.startswith(".B")]
    yield from differences("cause", wanted, set(re.findall(r"[A-Z][a-z][A-Za-z]*", " ".join(manual))) - {"Total"}, "equity.1")
    of_hands = set().union(*(words for path, words in names.items() if Path(path).parts[1] in ("hand_events", "hand_verdict")))
    sentences = found(r"^    ([A-Z][A-Za-z]*): \{(?: short: .*|)$", "page/src/causes.mjs")
    yield from differences("cause", of_hands, sentences, "page/src/causes.mjs")


def version():
    """VERSION is the first of CHANGELOG.md, and that of packages/js; equity.1 has a place for it."""
    now = read("VERSION").strip()
    first = (found(r"^## ([0-9][0-9.]*)", "CHANGELOG.md") or ["nothing"])[0]
    if first != now:
        yield f"VERSION is {now}, and CHANGELOG.md begins with {first}"
    if f'"version": "{now}"' not in read("packages/js/package.json"):
        yield "packages/js/package.json is of another version than VERSION"
    if "@VERSION@" not in read("equity.1"):
        yield "equity.1 has no place for the version"
