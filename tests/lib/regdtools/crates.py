"""The crates of the repository."""

import hashlib

from regdtools.program import ROOT, sources_of


def listed(root=ROOT):
    """Returns the libraries that each crate of a checkout lists in crates.txt, by the crate's name, lowest crate first."""
    lines = (line.partition("#")[0].partition(":") for line in (root / "crates.txt").read_text().splitlines())
    return {name.split()[0]: libraries.split() for name, _, libraries in lines if name.strip()}


def below(crates, root=ROOT):
    """Returns the crates of a checkout that these depend on, lowest first."""
    libraries, found = listed(root), {*crates}
    for crate in reversed(libraries):
        if crate in found:
            found.update(libraries[crate])
    return [crate for crate in libraries if any(crate in libraries[other] for other in found if other in libraries)]


def checksum(names, toolchain, root=ROOT):
    """Returns a checksum of what decides the proofs of these crates of a checkout: their sources, what crates.txt and HANDLES say, and a text
    that identifies the toolchain."""
    libraries = listed(root)
    digest = hashlib.sha256(repr([toolchain, *((name, libraries[name]) for name in names)]).encode())
    for path in [root / "HANDLES", *(path for name in names for path in sources_of(root / "crates" / name))]:
        text = path.read_bytes()
        digest.update(f"{path.relative_to(root)} {len(text)}\n".encode() + text)
    return digest.hexdigest()
