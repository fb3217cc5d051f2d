"""What an installation has, and how it is put below a prefix and removed.

scripts/install and scripts/package take the same list of files. Below the prefix are

    bin                     regd, regd-gateway, regdctl
    lib/systemd/system      the units of deploy/, with the paths of these programs
    lib/sysusers.d          the users of the units
    share/bash-completion, share/zsh, share/fish    the completion of regdctl
    share/man               the manual pages of the programs
    share/doc/regd          the pages at the root, docs/ and examples/
    share/regd/deploy       the other files of deploy/
    share/regd/manifest     what scripts/install has put there; a package has none

The manifest has a line `SHA256  PATH` for each file and a line `folder  PATH` for each folder that was made; paths are relative to the
prefix. It is written before any other file, and then has the files of an earlier installation too, so that an interrupted call leaves
nothing that scripts/uninstall doesn't find.
"""

import contextlib
import hashlib
import os
import pathlib
import re
import shutil
import subprocess
import sys
import tempfile
from typing import NamedTuple

from gatewaytools import tools
from regdtools import guides, manual
from regdtools.program import BUILT, ROOT, is_current

DEPLOY, DOCS, EXAMPLES = ROOT / "deploy", ROOT / "docs", ROOT / "examples"
YAML = ROOT / "gateway/vendor/gopkg.in/yaml.v3"
UNITS = (".service", ".timer")
USERS = "sysusers.conf"
MANIFEST = "share/regd/manifest"
FOLDER = "folder"
# where the files of deploy/ have the programs
USUAL = "/usr/local/bin/"
# systemd reads other characters of a path in its own way
PREFIX = re.compile(r"/[\w./+-]*", re.ASCII)


class Missing(Exception):
    """What an installation needs, and isn't there."""


class Refused(Exception):
    """Why nothing was changed."""


class Item(NamedTuple):
    """A file of an installation: its path below the prefix, its text, and whether it is a program or a script."""

    path: str
    text: bytes
    is_executable: bool


def regular(folder):
    """Returns the files of a folder of the repository, without hidden ones and those in folders below it."""
    return [path for path in sorted(folder.iterdir()) if path.is_file() and not path.name.startswith(".")]


# where shells look for the completion of regdctl below a prefix
COMPLETIONS = {
    "bash": "share/bash-completion/completions/regdctl",
    "zsh": "share/zsh/vendor-completions/_regdctl",
    "fish": "share/fish/vendor_completions.d/regdctl.fish",
}


def built_by_go():
    """Returns the items that the command go builds from the sources as they are: the gateway, and its client with completions, and their
    manual pages."""
    if not shutil.which("go"):
        raise Missing("the command go is missing (Debian's package golang-go)")
    tools.warn_of_go()
    with tempfile.TemporaryDirectory(prefix="regd-install-") as folder:
        # go stores what it compiles in a folder that one of these variables names
        places = {} if {"HOME", "GOPATH"} & {*os.environ} else {"GOPATH": f"{folder}/path"}
        if not {"HOME", "GOCACHE", "XDG_CACHE_HOME"} & {*os.environ}:
            places["GOCACHE"] = f"{folder}/cache"
        found = []
        for name, package in (("regd-gateway", "."), ("regdctl", "./regdctl")):
            program = pathlib.Path(folder) / name
            # the client is for other machines, too, so it needs no library
            env = places | ({"CGO_ENABLED": "0"} if name == "regdctl" else {})
            if tools.go("build", "-trimpath", "-buildvcs=false", "-o", str(program), package, env=env).returncode:
                raise Missing(f"{name} doesn't compile")
            found.append(Item(f"bin/{name}", program.read_bytes(), True))
            found.append(manual_page(name, program))
        for shell, path in COMPLETIONS.items():
            script = subprocess.run([program, "completion", shell], check=True, capture_output=True).stdout
            found.append(Item(path, script, False))
        return found


def manual_page(name, program):
    return Item(manual.path_of(name), manual.page(name, program).encode(), False)


def items(prefix):
    """Returns the files of an installation at a prefix. The program is the proved one, and nothing here builds it."""
    if not is_current(BUILT):
        raise Missing("regd is not proved and built from the sources as they are: run scripts/prove first")
    found = [Item("bin/regd", BUILT.read_bytes(), True), manual_page("regd", BUILT), *built_by_go()]
    for path in regular(DEPLOY):
        text = path.read_bytes()
        if path.suffix in UNITS:
            found.append(Item(f"lib/systemd/system/{path.name}", text.replace(USUAL.encode(), f"{prefix}/bin/".encode()), False))
        elif path.name == USERS:
            found.append(Item("lib/sysusers.d/regd.conf", text, False))
        else:
            found.append(Item(f"share/regd/deploy/{path.name}", text, os.access(path, os.X_OK)))
    examples = [path for folder in (EXAMPLES, *(it for it in sorted(EXAMPLES.iterdir()) if it.is_dir())) for path in regular(folder)]
    for path in [*sorted({*guides.pages(), ROOT / "LICENSE", *regular(DOCS), *regular(DOCS / "charts")}), *examples]:
        found.append(Item(f"share/doc/regd/{path.relative_to(ROOT)}", path.read_bytes(), os.access(path, os.X_OK)))
    for name in ("NOTICE", "copyright"):  # of the code of others that regdctl contains
        found.append(Item(f"share/doc/regd/yaml.v3/{name}", (YAML / name).read_bytes(), False))
    return found


def checked_prefix(word):
    """Returns a prefix without a slash at its end."""
    prefix = os.path.abspath(word).rstrip("/")
    if not PREFIX.fullmatch(f"{prefix}/"):
        raise Refused(f"{prefix}: a prefix has only letters, digits and the characters / . _ + -")
    return prefix


# ---- files and the manifest

def checksum(text):
    return hashlib.sha256(text).hexdigest()


def write(top, item):
    """Puts a file in its place by renaming another one, since a program that is running can't be written to."""
    path = top / item.path
    new = path.with_name(f".{path.name}.new")
    new.unlink(missing_ok=True)
    new.write_bytes(item.text)
    new.chmod(0o755 if item.is_executable else 0o644)
    new.replace(path)


class Manifest:
    """The files that were installed, each with the checksums that it may have, and the folders that were made, outer ones first."""

    def __init__(self):
        self.files, self.folders = {}, []

    @classmethod
    def read(cls, top):
        """Returns the manifest below a prefix, or None."""
        if not (top / MANIFEST).is_file():
            return None
        found = cls()
        for line in (top / MANIFEST).read_text().splitlines():
            sum, _, path = line.partition("  ")
            if sum == FOLDER:
                found.folders.append(path)
            else:
                found.files.setdefault(path, set()).add(sum)
        return found

    def write(self, top):
        lines = [f"{FOLDER}  {path}" for path in self.folders]
        lines += [f"{sum}  {path}" for path, sums in sorted(self.files.items()) for sum in sorted(sums)]
        write(top, Item(MANIFEST, "".join(f"{line}\n" for line in lines).encode(), False))

    def has(self, top, path):
        """Returns true if the file is there and is one that was installed."""
        file = top / path
        return file.is_file() and not file.is_symlink() and checksum(file.read_bytes()) in self.files.get(path, ())

    def make_folders(self, top, path):
        """Makes the folders of a file, and notes those that were not there."""
        for folder in [*reversed(pathlib.PurePath(path).parents)]:
            place = top / folder
            if not place.is_dir():
                place.mkdir()
                place.chmod(0o755)
                self.folders.append(str(folder))

    def remove_folders(self, top):
        """Removes the folders that were made, inner ones first, and forgets them. Those with other files stay."""
        left = []
        for folder in reversed(self.folders):
            try:
                (top / folder).rmdir()
            except FileNotFoundError:
                pass
            except OSError:
                left.append(folder)
        self.folders = left[::-1]


def put(top, found):
    """Installs these files below a prefix, in place of those of an earlier installation. Refuses to replace any other file."""
    before = Manifest.read(top) or Manifest()
    foreign = [item.path for item in found if os.path.lexists(top / item.path) and not before.has(top, item.path)]
    if foreign:
        lines = [f"{top / path}: is there, and is not as scripts/install has written it\n" for path in foreign]
        raise Refused("".join(lines) + "nothing was changed")
    both, now = Manifest(), Manifest()
    both.folders = now.folders = before.folders
    both.files = {path: {*sums} for path, sums in before.files.items()}
    try:
        for path in [MANIFEST, *(item.path for item in found)]:
            now.make_folders(top, path)
    except OSError:
        now.remove_folders(top)
        raise
    for item in found:
        now.files[item.path] = {checksum(item.text)}
        both.files.setdefault(item.path, set()).add(checksum(item.text))
    both.write(top)
    for item in found:
        write(top, item)
    for path in before.files.keys() - now.files.keys():
        if before.has(top, path):
            (top / path).unlink()
    now.write(top)


def remove(top):
    """Removes what was installed below a prefix. Returns the files that have changed since, which stay."""
    before = Manifest.read(top)
    if before is None:
        raise Refused(f"{top / MANIFEST} is missing: nothing was installed there by scripts/install")
    changed = [path for path in before.files if os.path.lexists(top / path) and not before.has(top, path)]
    for path in before.files.keys() - {*changed}:
        (top / path).unlink(missing_ok=True)
    if changed:
        before.files = {path: before.files[path] for path in changed}
        before.write(top)
        return changed
    (top / MANIFEST).unlink()
    before.remove_folders(top)
    return []


@contextlib.contextmanager
def usual_errors(name):
    """Ends a script that calls these functions: with status 2 if something is missing, with 1 if something is refused or a file can't be
    written."""
    try:
        yield
    except (Missing, Refused, OSError) as error:
        print(f"{name}: {error}", file=sys.stderr)
        sys.exit(2 if isinstance(error, Missing) else 1)
