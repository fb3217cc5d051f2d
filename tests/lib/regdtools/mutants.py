"""Reads mutants, applies them, and finds which functions they change.

The mutants of a source file src/FILE.rt of a crate are in edits/src/FILE.edits in the folder of the crate, those of a source file FILE.go
of the gateway in gateway/edits/FILE.edits. A mutant is a block of lines there:

    # NAME
    why: why it is a plausible mistake
    - the old text
    + the new text

A line of a text follows `- ` or `+ ` as it is; a text of several lines has one such line for each, and one that ends with a line feed ends
with an empty one. The old text occurs exactly once in the file. Further pairs of texts apply to the result of the earlier ones. Before the
pairs of another source file stands a line `file: PATH`; the mutant is listed with the first file that it changes.

A goal of the prover refuses the mutant, unless a line `test: CRATE MODULE::TEST` or `script: SCRIPT WORD..` names what does. Each mutant of
the gateway has a line `test: TEST`, with the name of a unit test. `listed:` in place of `why:` gives the mutant a row in docs/TESTING.md.

A mutant of must-fail/ is in a file of its own there, with lines `file:`, `old:` and `new:`, as the toolchain reads it. Its name and its
reason are here, without texts.
"""

import collections
import dataclasses
import functools
import itertools
import os
import pathlib
import re

from regdtools.program import CRATES, ROOT
from regdtools.wrong import Wrong

GATEWAY = "gateway"
FUNCTION = re.compile(r"( *)(?:pub(?:\([a-z ]+\))? )?(?:const )?(?:unsafe )?fn (\w+)")
# a test in a source file with its comment
TEST = re.compile(r"(?:^//.*\n)*^#\[test\]\n(?:^#\[.*\n)*^fn (\w+)(?:.*\n)*?^}\n", re.MULTILINE)
# a line of a mutant that is no text
KEY = re.compile(r"(why|listed|test|script|file): +(\S.*)")


@dataclasses.dataclass
class Written:
    """A mutant as it is written: its name and the file with it, why it is a plausible mistake, whether docs/TESTING.md lists it, its edits
    as (path, old text, new text), and the words of its test or of its script."""

    name: str
    file: pathlib.Path
    why: str = ""
    is_listed: bool = False
    edits: list = dataclasses.field(default_factory=list)
    test: tuple | None = None
    script: tuple | None = None


@dataclasses.dataclass
class Mutant:
    """The files of a crate with the change, and the function that it changes: (file, first line, last line), or None."""

    name: str
    texts: dict
    function: tuple | None
    fault: str = ""
    # the crate and the name of the test that has to fail, where no goal can; or the script, with its words
    test: tuple | None = None
    script: tuple | None = None


# ---- reading


def home_of(name):
    """Returns the folder of a crate, or of the gateway."""
    return ROOT / name if name == GATEWAY else CRATES / name


def source_of(home, file):
    """Returns the path of the source file whose mutants a file has."""
    return str(file.relative_to(home / "edits").with_suffix(".go" if home.name == GATEWAY else ".rt"))


def blocks_of(file):
    """Yields the number of the first line and the lines of each block of a file."""
    block = []
    for number, line in enumerate([*file.read_text().split("\n"), ""], 1):
        if line:
            block.append(line)
        elif block:
            yield number - len(block), block
            block = []


def written_of(block, file, path, place):
    """Returns the mutant of a block of lines. The path is that of the source file to which the file belongs."""
    if not block[0].startswith("# "):
        raise Wrong(f"{place}: a mutant begins with a line `# NAME`")
    written, old = Written(block[0][2:].strip(), file), None
    for mark, group in itertools.groupby(block[1:], key=lambda line: line[0] if line[0] in "-+" else ""):
        lines = [*group]
        if (mark == "+") != (old is not None):
            raise Wrong(f"{place}: the new text follows the old one")
        text = "\n".join(line[1:].removeprefix(" ") for line in lines)
        if mark == "+":
            written.edits.append((path, old, text))
        elif not mark:
            path = read_keys(written, lines, path, place)
        old = text if mark == "-" else None
    if old is not None:
        raise Wrong(f"{place}: an old text without a new one")
    return written


def read_keys(written, lines, path, place):
    """Reads the lines of a mutant that are no texts. Returns the path of the file that the next texts change."""
    for line in lines:
        key = KEY.fullmatch(line)
        if not key:
            raise Wrong(f"{place}: the line {line!r}")
        if key[1] == "file":
            path = key[2]
        elif key[1] in ("why", "listed"):
            written.why, written.is_listed = key[2], key[1] == "listed"
        else:
            setattr(written, key[1], tuple(key[2].split()))
    return path


def written_in(home, file):
    """Returns the mutants of a file of edits, in its order."""
    return [written_of(block, file, source_of(home, file), f"{file.relative_to(ROOT)}:{number}") for number, block in blocks_of(file)]


def must_fail_of(file):
    """Returns the mutant of a file of must-fail/, without its reason."""
    written, path, old = Written(file.stem, file), "", ""
    for line in file.read_text().split("\n"):
        word, _, rest = line.partition(":")
        rest = rest.removeprefix(" ")
        if word == "file":
            path = rest.strip()
        elif word == "old":
            old = rest
        elif word == "new":
            written.edits.append((path, old, rest))
    return written


@functools.cache
def all_of(name):
    """Returns the mutants of a crate, or of the gateway: those of must-fail/, then the others."""
    home = home_of(name)
    written = [one for file in sorted(home.glob("edits/**/*.edits")) for one in written_in(home, file)]
    reasons = {one.name: one for one in written if not one.edits}
    must_fail = [must_fail_of(file) for file in sorted(home.glob("must-fail/*.edit"))]
    for one in must_fail:
        if one.name in reasons:
            one.why, one.is_listed = reasons[one.name].why, reasons[one.name].is_listed
    return must_fail + [one for one in written if one.edits or one.name not in {other.name for other in must_fail}]


def mutants_of(name, word=""):
    """Returns the mutants of a crate, or of the gateway, whose names contain the word."""
    return [one for one in all_of(name) if word in one.name]


def faults_of(name):
    """Yields what is wrong with the mutants of a crate, or of the gateway, as they are written."""
    home, counts = home_of(name), collections.Counter(one.name for one in all_of(name))
    for file in sorted(home.glob("edits/**/*")):
        if file.is_file() and (file.suffix != ".edits" or not (home / source_of(home, file)).is_file()):
            yield f"{file.relative_to(ROOT)}: mutants are read from edits/FILE.edits, where FILE is that of a source file"
    yield from (f"{name}: two mutants have the name {other}" for other, count in sorted(counts.items()) if count > 1)
    for one in all_of(name):
        place = f"{one.file.relative_to(ROOT)}: {one.name}"
        if not one.edits:
            yield f"{place}: it has no texts, and must-fail/ has no such mutant"
        elif one.file.suffix == ".edits" and one.edits[0][0] != source_of(home, one.file):
            yield f"{place}: it changes another file first"
        if not one.why:
            yield f"{place}: it has no reason"
        if one.file.suffix == ".edits" and any(re.search(r"[ \t]$", text, re.MULTILINE) for _, *texts in one.edits for text in texts):
            yield f"{place}: a line of a text ends in a space, which editors remove"


# ---- applying


def functions(text):
    """Returns the name, the first and the last line of each function of a formatted file, with its attributes, at which the prover reports
    goals."""
    lines, found = text.split("\n"), []
    for first, line in enumerate(lines):
        if begun := FUNCTION.match(line):
            closing = begun[1] + "}"
            last = next((at for at in range(first, len(lines)) if lines[at] == closing), first)
            while first > 0 and lines[first - 1].startswith(begun[1] + "#["):
                first -= 1
            found.append((begun[2], first, last))
    return found


def function_at(path, text, line):
    """Returns the innermost function that has this line, or None."""
    around = [(last - first, (path, first, last)) for _, first, last in functions(text) if first <= line <= last]
    return min(around)[1] if around else None


def mutant_of(name, written):
    """Applies a mutant to the files of its crate, or of the gateway."""
    home, texts, places = home_of(name), {}, set()
    for path, old, new in written.edits:
        if path not in texts:
            texts[path] = (home / path).read_text() if (home / path).is_file() else ""
        count = texts[path].count(old)
        if count != 1:
            return Mutant(written.name, {}, None, f"does not apply: this text is in {path} {count} times, not once: {old}")
        places.add(function_at(path, texts[path], texts[path][: texts[path].index(old)].count("\n")))
        texts[path] = texts[path].replace(old, new)
    for kind, words in (("test", written.test), ("script", written.script)):
        if words is not None and not (has_script if kind == "script" else has_test)(*words):
            return Mutant(written.name, {}, None, f"does not apply: there is no {kind} {' '.join(words)}")
    return Mutant(written.name, texts, places.pop() if len(places) == 1 else None, test=written.test, script=written.script)


def has_script(name="", *_):
    """Returns true if the repository has this script."""
    return bool(name) and os.access(ROOT / name, os.X_OK)


def has_test(crate="", name="", *more):
    """Returns whether a crate has a test, named MODULE::TEST, or whether the gateway has one of this single name."""
    if not name:
        return crate in gateway_tests()
    module, _, test = name.rpartition("::")
    file = CRATES / crate / "src" / f"{module.replace('::', '/')}.rt"
    return not more and file.is_file() and test in TEST.findall(file.read_text())


@functools.cache
def gateway_tests():
    """Returns the names of the gateway's unit tests."""
    texts = [file.read_text() for file in (ROOT / GATEWAY).rglob("*_test.go")]
    return {name for text in texts for name in re.findall(r"^func (Test\w+)\(", text, re.MULTILINE)}
