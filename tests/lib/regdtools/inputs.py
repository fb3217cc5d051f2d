"""Finds the files of the repository that decide what a script does. A result of the script counts while they are the same."""

import ast
import re

from regdtools.program import ROOT

LIBRARY = ROOT / "tests/lib"
GATEWAY = ROOT / "gateway/lib"
# a text that can be the path of a file of the repository
PATH = re.compile(r"[\w.-]+(/[\w.-]+)+")
NAME = re.compile(r"[\w-]+\.\w+")


def is_python(file):
    """Returns whether a file is a module or a script in Python."""
    return file.suffix == ".py" or "python3" in file.read_text(errors="replace").partition("\n")[0]


def modules(folders, names):
    """Returns the files of the modules and packages among these names, which are looked up in some folders."""
    paths = [folder / name.replace(".", "/") for folder in folders for name in names if name]
    return [file for path in paths for file in (path.with_suffix(".py"), path / "__init__.py") if file.exists()]


def read_by(file, *libraries):
    """Yields what a file in Python reads: the modules of these folders that it imports, and the files whose paths are texts in it."""
    for node in ast.walk(ast.parse(file.read_text())):
        if isinstance(node, ast.Import):
            yield from modules(libraries, [alias.name for alias in node.names])
        elif isinstance(node, ast.ImportFrom):
            prefix = f"{node.module}." if node.module else ""
            names = [node.module, *(f"{prefix}{alias.name}" for alias in node.names)]
            yield from modules([file.parent] if node.level else libraries, names)
        elif isinstance(node, ast.Constant) and isinstance(node.value, str) and PATH.fullmatch(node.value) and (ROOT / node.value).is_file():
            yield ROOT / node.value


def files_of(*scripts):
    """Returns the files that decide what these scripts do, as paths in the repository: the scripts, what they read, and what that reads.
    For a script in another language than Python this has all of tests/lib."""
    found, left = set(), [ROOT / script for script in scripts]
    if not all(map(is_python, left)):
        found.add(LIBRARY)
    while left:
        file = left.pop()
        if file not in found:
            found.add(file)
            left += read_by(file, LIBRARY) if is_python(file) else []
    return sorted(str(path.relative_to(ROOT)) for path in found)
