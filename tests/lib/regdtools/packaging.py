"""Makes a Debian package of the files of an installation, with dpkg-deb alone."""

import hashlib
import os
import pathlib
import platform
import re
import shutil
import subprocess
import tempfile

from regdtools import installing
from regdtools.program import ROOT

PREFIX = "/usr"
NAME = "regd"
ARCHITECTURES = {"x86_64": "amd64", "aarch64": "arm64"}
# the versions of symbols of the C library, in the string table of a program
SYMBOLS = re.compile(rb"\0GLIBC_2\.(\d+)")
SUGGESTED = ["etcd-client", "etcd-server", "haproxy", "openssl", "python3"]
CONTROL = """\
Package: {name}
Version: {version}
Architecture: {architecture}
Maintainer: {maintainer}
Installed-Size: {kilobytes}
Depends: {libraries}
Suggests: {suggested}
Section: net
Priority: optional
Description: workload registration server for SPIFFE
 A server that stores which workload may hold which SPIFFE ID, with a gateway
 that replicates it over etcd. The server's properties are proved; the
 gateway's are not.
"""
# what dpkg runs after it has put the files in their places, and before it removes them
SCRIPTS = {
    "postinst": """\
#!/bin/sh
set -e
if [ "$1" = configure ]; then
    if command -v systemd-sysusers >/dev/null; then systemd-sysusers regd.conf; fi
    if [ -d /run/systemd/system ]; then systemctl daemon-reload; fi
fi
""",
    "prerm": """\
#!/bin/sh
set -e
if [ "$1" = remove ] && [ -d /run/systemd/system ]; then systemctl disable --now {units}; fi
""",
    "postrm": """\
#!/bin/sh
set -e
if [ "$1" = remove ] && [ -d /run/systemd/system ]; then systemctl daemon-reload; fi
""",
}


def version():
    """Returns the version of the package: the text of VERSION, with the time of the commit if it isn't that of a release."""
    found = (ROOT / "VERSION").read_text().strip()
    return f"{found}.{moment()}" if found.endswith("+unreleased") else found


def architecture():
    machine = platform.machine()
    return ARCHITECTURES.get(machine, machine)


def moment():
    """Returns the time of the package's files: that of SOURCE_DATE_EPOCH, or of the commit, or 0."""
    words = ["git", "log", "-1", "--format=%ct"]
    done = subprocess.run(words, cwd=ROOT, capture_output=True, text=True) if shutil.which("git") else None
    committed = done.stdout.strip() if done and done.returncode == 0 else ""
    return os.environ.get("SOURCE_DATE_EPOCH") or committed or "0"


def control(found):
    """Returns the text of the package's control file."""
    programs = [item.text for item in found if item.path.startswith("bin/")]
    symbols = max((int(number) for text in programs for number in SYMBOLS.findall(text)), default=0)
    return CONTROL.format(
        name=NAME, version=version(), architecture=architecture(),
        maintainer=f"{os.environ.get('DEBFULLNAME', 'regd')} <{os.environ.get('DEBEMAIL', 'regd@localhost')}>",
        kilobytes=sum(len(item.text) // 1024 + 1 for item in found),
        libraries=f"libc6 (>= 2.{symbols})",
        suggested=", ".join(SUGGESTED),
    )  # fmt: skip


def make(folder):
    """Writes the package into a folder and returns its path."""
    if not shutil.which("dpkg-deb"):
        raise installing.Missing("the command dpkg-deb is missing (Debian's package dpkg)")
    found = installing.items(PREFIX)
    package = folder / f"{NAME}_{version()}_{architecture()}.deb"
    with tempfile.TemporaryDirectory(prefix="regd-package-") as name:
        top = pathlib.Path(name) / NAME
        units = " ".join(pathlib.PurePath(item.path).name for item in found if item.path.startswith("lib/systemd/"))
        scripts = [installing.Item(f"DEBIAN/{script}", text.format(units=units).encode(), True) for script, text in SCRIPTS.items()]
        inside = [item._replace(path=f"{PREFIX[1:]}/{item.path}") for item in found]
        sums = "".join(f"{hashlib.md5(item.text).hexdigest()}  {item.path}\n" for item in inside)
        own = [installing.Item("DEBIAN/control", control(found).encode(), False), installing.Item("DEBIAN/md5sums", sums.encode(), False)]
        folders = installing.Manifest()
        for item in [*inside, *scripts, *own]:
            folders.make_folders(top, item.path)
            installing.write(top, item)
        folder.mkdir(parents=True, exist_ok=True)
        words = ["dpkg-deb", "--root-owner-group", "--build", str(top), str(package)]
        done = subprocess.run(words, stdout=subprocess.DEVNULL, env={**os.environ, "SOURCE_DATE_EPOCH": moment()})
    if done.returncode:
        raise OSError(f"dpkg-deb failed with status {done.returncode}")
    return package
