"""Builds the programs of the gateway, and finds what they need."""
import collections
import datetime
import os
import pathlib
import re
import shutil
import subprocess
import sys

TOP = next(top for top in pathlib.Path(__file__).resolve().parents if (top / "HANDLES").exists())
SOURCES = TOP / "gateway"
# the commands that are needed, by their Debian packages
COMMANDS = {"go": "golang-go", "etcd": "etcd-server", "etcdctl": "etcd-client", "haproxy": "haproxy", "openssl": "openssl", "jq": "jq", "nc": "netcat-openbsd", "curl": "curl",
            "systemd-analyze": "systemd", "zsh": "zsh", "fish": "fish"}

# the number of a release of Go, and its year and month
KNOWN_GO = 24, 2025, 2

Programs = collections.namedtuple("Programs", "gateway regd load regdctl", defaults=[""])


def commands_of(parts):
    """Returns the commands that parts of gateway/test need."""
    commands = ["go"]
    alone = ("fast", "unit-race", "fuzz/", "oracle", "removals", "client/states", "client/model", "client/files")
    if not all(part.startswith(alone) for part in parts):
        commands += ["etcd", "etcdctl", "haproxy", "openssl", "curl"]
    commands += ["zsh", "fish"] * ("client/shell" in parts) + ["nc"] * ("client/speed" in parts)
    return commands + ["systemd-analyze"] * ("operation/units" in parts)


def need(*commands):
    """Installs the packages of missing commands if the caller is root. Otherwise prints the command that does, and ends with status 2."""
    os.environ["PATH"] += ":/usr/sbin:/sbin"  # where Debian has haproxy
    packages = sorted({COMMANDS[command] for command in commands if not shutil.which(command)})
    if not packages:
        return
    words = ["apt-get", "install", "-y", "--no-install-recommends", *packages]
    name = pathlib.Path(sys.argv[0]).name
    if os.geteuid() != 0:
        print(f"{name}: run `sudo {' '.join(words)}` first", file=sys.stderr)
        sys.exit(2)
    # a new machine has no list of packages; and packages may start a service on the usual port, which nothing here uses
    for command in (["apt-get", "update"], words):
        print(f"{name}: {' '.join(command)}", file=sys.stderr)
        subprocess.run(command, check=True, stdout=subprocess.DEVNULL, env={**os.environ, "DEBIAN_FRONTEND": "noninteractive"})


def go_environment(env=None):
    """Returns the variables for the command go, which then needs no network."""
    return {**os.environ, "GOFLAGS": "-mod=vendor", "GOPROXY": "off", "GOTOOLCHAIN": "local", **(env or {})}


def go(*words, env=None, cwd=SOURCES, **more):
    """Runs the command go on the sources."""
    return subprocess.run(["go", *words], cwd=cwd, env=go_environment(env), **more)


def started_go(*words, env=None, cwd=SOURCES, **more):
    """Starts the command go on the sources, and returns its process."""
    return subprocess.Popen(["go", *words], cwd=cwd, env=go_environment(env), **more)


def go_warning(version, today):
    """Returns why a gateway should not be built with the Go that prints a version, or None.

    A release of Go comes every six months, and upstream fixes the two newest ones.
    """
    found = re.search(r"\bgo1\.(\d+)", version)
    number, year, month = KNOWN_GO
    oldest = number + ((today.year - year) * 12 + today.month - month) // 6 - 1
    if found and int(found[1]) >= oldest:
        return None
    return f"{found[0] if found else version} gets no security updates from upstream, which fixes go1.{oldest} and later: see docs/GATEWAY.md, Go and etcd"


def warn_of_go():
    """Prints a warning if the command go gets no security updates."""
    version = subprocess.run(["go", "env", "GOVERSION"], env=go_environment(), capture_output=True, text=True).stdout.strip()
    warning = go_warning(version, datetime.date.today())
    if warning:
        print(f"{pathlib.Path(sys.argv[0]).name}: warning: {warning}", file=sys.stderr)


def build(folder, regd, *words):
    """Builds the gateway, its client and the load generator in a folder outside the tree."""
    folder = pathlib.Path(folder)
    folder.mkdir(parents=True, exist_ok=True)
    for name, package in (("regd-gateway", "."), ("load", "./load"), ("regdctl", "./regdctl")):
        go("build", *words, "-o", str(folder / name), package, check=True)
    return Programs(str(folder / "regd-gateway"), os.fspath(regd), str(folder / "load"), str(folder / "regdctl"))
