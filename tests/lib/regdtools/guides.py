"""Reads the pages of the repository, and runs the commands that a page shows.

A block marked `sh` holds commands. The next unmarked block, if it precedes the next `sh` block, is exactly what they print; otherwise
they print nothing and the last one succeeds. Blocks with any other mark are not run.
"""

import contextlib
import dataclasses
import os
import pathlib
import re
import shutil
import signal
import socket
import subprocess
import tempfile

from regdtools.program import ROOT, program

PORT = "8471"
SECONDS = 120
TOOLS = ["bash", "go", "jq", "nc", "openssl", "python3"]
FENCE = re.compile(r"(\s*)(`{3,})\s*(\S*)")


@dataclasses.dataclass
class Block:
    """A fenced block: the number of its first line, its mark ("" without one), and its text."""

    line: int
    mark: str
    text: str


@dataclasses.dataclass
class Step:
    """A block of commands, the number of its first line, and what it has to print."""

    line: int
    commands: str
    expected: str


@dataclasses.dataclass
class Result:
    """What a step printed, its exit status, and its error output; None for all three if the shell ended before the step."""

    printed: str | None = None
    status: int | None = None
    errors: str | None = None


def pages():
    """Returns all pages: those at the root and those in docs/."""
    top = ("README.md", "CONTRIBUTING.md", "CHANGELOG.md", "SECURITY.md")
    names = [*(ROOT / name for name in top), *sorted((ROOT / "docs").glob("*.md"))]
    return [page for page in names if page.exists()]


def split(text):
    """Returns the fenced blocks of a page, and its other lines by their numbers."""
    blocks, prose, fence = [], {}, None
    for number, line in enumerate(text.splitlines(), 1):
        found = FENCE.match(line)
        if fence is None and found:
            fence, block = found[2], Block(number + 1, found[3], "")
            indent = len(found[1])
        elif fence is None:
            prose[number] = line
        elif found and found[2].startswith(fence) and not found[3]:
            blocks.append(block)
            fence = None
        else:
            block.text += line.removeprefix(" " * indent) + "\n"
    if fence is not None:
        raise ValueError(f"the block at line {block.line} has no end")
    return blocks, prose


def steps(text):
    """Returns the steps of a page."""
    found, is_open = [], False
    for block in split(text)[0]:
        if block.mark == "sh":
            found.append(Step(block.line, block.text, ""))
            is_open = True
        elif block.mark == "" and is_open:
            found[-1].expected = block.text
            is_open = False
    return found


def missing_tools(page_steps):
    """Returns the tools that the steps call and that are not installed."""
    words = set(re.findall(r"[\w./-]+", "\n".join(step.commands for step in page_steps))) | {"bash"}
    return [tool for tool in TOOLS if tool in words and not shutil.which(tool)]


def free_port():
    with socket.create_server(("127.0.0.1", 0)) as listener:
        return str(listener.getsockname()[1])


def run(page_steps):
    """Runs the steps in one bash in a fresh folder. Returns the steps as they were run and their results.

    The folder has the program as `regd`, which is also on PATH, and links to all else at the root of the repository. A free port
    replaces 8471.
    """
    port = free_port()
    played = [Step(step.line, step.commands.replace(PORT, port), step.expected.replace(PORT, port)) for step in page_steps]
    with tempfile.TemporaryDirectory() as name:
        folder = pathlib.Path(name)
        return played, _results(played, folder)


def _results(played, folder):
    top, bin_folder = folder / "top", folder / "bin"
    for made in (top, bin_folder):
        made.mkdir()
        (made / "regd").symlink_to(program(unverified=True))
    for linked in ROOT.iterdir():
        if linked.name not in ("regd", "out") and not linked.name.startswith("."):
            (top / linked.name).symlink_to(linked)
    script = "".join(
        f"exec >'{folder}/{index}' 2>'{folder}/{index}.errors'\n{step.commands}\necho $? >'{folder}/{index}.status'\n"
        for index, step in enumerate(played)
    )
    variables = os.environ | {"PATH": f"{bin_folder}:{os.environ['PATH']}"}
    shell = subprocess.Popen(
        ["bash", "-c", script], cwd=top, env=variables, stdin=subprocess.DEVNULL, stdout=subprocess.DEVNULL, stderr=subprocess.DEVNULL,
        start_new_session=True,
    )  # fmt: skip
    with contextlib.suppress(subprocess.TimeoutExpired):
        shell.wait(SECONDS)
    # ends what the page left in the background, too
    with contextlib.suppress(ProcessLookupError):
        os.killpg(shell.pid, signal.SIGKILL)
    shell.wait()
    return [_result(folder, index) for index in range(len(played))]


def _result(folder, index):
    printed, status, errors = folder / str(index), folder / f"{index}.status", folder / f"{index}.errors"
    if not printed.exists():
        return Result()
    ended = int(status.read_text()) if status.exists() else None
    return Result(printed.read_text(errors="replace"), ended, errors.read_text(errors="replace"))
