"""The manual pages, made of the help texts of the programs and of manual.toml in this folder.

A page has what the program prints as its help: usage, commands, options. The file has what no help text says: a description, exit
statuses, files and other pages. The pages are in the language of man(7), with requests alone that every formatter knows.
"""

import pathlib
import re
import subprocess
import tomllib
from typing import NamedTuple

from regdtools.program import ROOT

SOURCE = pathlib.Path(__file__).with_name("manual.toml")
# a line of a list: what it describes, and a text behind two blanks or more
LISTED = re.compile(r" {2,}(\S+(?: \S+)*)(?: {2,}(.*))?")
# a line with the text of what the line before describes
CONTINUED = re.compile(r" *\t *(.*)| {8,}(.*)")


class Entry(NamedTuple):
    """A command or an option, and what it does."""

    word: str
    about: str


def read():
    return tomllib.loads(SOURCE.read_text())


def path_of(name):
    """Returns where the page of a program is, below a prefix."""
    section = read()[name]["section"]
    return f"share/man/man{section}/{name}.{section}"


def help_of(program, *words):
    """Returns what a program prints when it is asked for its help, on whichever output."""
    done = subprocess.run([program, *words], env={}, stdin=subprocess.DEVNULL, capture_output=True, text=True)
    return done.stdout or done.stderr


def listed(text):
    """Returns the entries of the lists in a help text."""
    found = []
    for line in text.splitlines():
        if found and not found[-1].about and (more := CONTINUED.fullmatch(line)):
            found[-1] = found[-1]._replace(about=more[1] or more[2])
        elif match := LISTED.fullmatch(line.replace("\t", "  ")):
            found.append(Entry(match[1], match[2] or ""))
    return found


# ---- man(7)

def escaped(text):
    """Returns a text in which no character means anything to a formatter."""
    for character, name in (("\\", "\\e"), ("-", "\\-"), ("'", "\\(aq"), ("`", "\\(ga"), ("^", "\\(ha"), ("~", "\\(ti")):
        text = text.replace(character, name)
    return re.sub(r"^\.", r"\\&.", text, flags=re.M)


def section(title, *lines):
    return [f".SH {title}", *lines]


def terms(entries):
    return [line for word, about in entries for line in (".TP", f".B {escaped(word)}", escaped(about) or "\\&")]


def references(pages):
    """Returns the lines that name other pages."""
    found = []
    for number, name in enumerate(pages, 1):
        word, where = re.fullmatch(r"(.*)(\(\d\))", name).groups()
        found.append(f".BR {escaped(word)} {where}{',' * (number < len(pages))}")
    return found


# ---- the pages

def of_regd(program):
    """Returns the usage of regd, and the sections with its commands and options."""
    top, commands, options = re.split(r"^(?:Commands|Options):\n", help_of(program, "--help"), flags=re.M)
    usage, middle = [], section("COMMANDS", *terms(listed(commands)))
    for command, _ in listed(commands):
        text = help_of(program, command, "--help")
        words = re.search(rf"^Usage: \S+ ({command}.*)$", text, re.M)
        usage += [".br" * bool(usage) or ".nh", f".B regd {escaped(words[1] if words else command)}"]
        if words:
            middle += [f".SS regd {command}", *terms(listed(text))]
    return usage, [*middle, *section("OPTIONS", *terms(listed(options)))]


def of_regdctl(program):
    """Returns the usage of regdctl, and the sections with its commands, flags and exit statuses."""
    first, rest = help_of(program, "--help").split("`regdctl COMMAND -h`")
    settings, statuses = rest.split("Exit status: ")
    middle = section("COMMANDS", *terms(listed(first)))
    for command, _ in listed(first):
        words = re.match(r"[a-z-]+(?: [a-z-]+)*(?= |$)", command)[0].removesuffix(" bash")
        flags = listed(help_of(program, *words.split(), "-h"))
        if flags:
            middle += [f".SS regdctl {escaped(words)}", *terms(flags)]
    known = [Entry(flag, re.sub(r"^(REGDCTL_\w+) +", r"\1: ", about)) for flag, about in listed(settings)]
    middle += section("FLAGS OF ALL COMMANDS", "Most can be set by an environment variable, which stands first.", *terms(known))
    exits = [Entry(*one.strip().rstrip(".").split(" ", 1)) for one in statuses.split(";")]
    return [".B regdctl", ".I COMMAND", "[FLAGS] [ARGUMENTS]"], [*middle, *section("EXIT STATUS", *terms(exits))]


def of_gateway(program):
    """Returns the usage of regd-gateway, and the section with its options."""
    return [".B regd\\-gateway", "[OPTIONS]"], section("OPTIONS", *terms(listed(help_of(program, "-help"))))


MAKERS = {"regd": of_regd, "regdctl": of_regdctl, "regd-gateway": of_gateway}


def page(name, program):
    """Returns the manual page of a program, which is asked for its help."""
    known = read()[name]
    usage, middle = MAKERS[name](program)
    lines = [f'.TH {name.upper()} {known["section"]} "" "regd {(ROOT / "VERSION").read_text().strip()}"']
    lines += section("NAME", f"{escaped(name)} \\- {escaped(known['about'])}")
    lines += section("SYNOPSIS", *usage)
    first, *others = known["description"]
    lines += section("DESCRIPTION", escaped(first), *(line for text in others for line in (".PP", escaped(text))))
    lines += middle
    if known["exit"]:
        lines += section("EXIT STATUS", *terms(known["exit"]))
    lines += section("FILES", *terms(known["files"]))
    lines += section("SEE ALSO", *references(known["also"]))
    return "".join(f"{line}\n" for line in lines)
