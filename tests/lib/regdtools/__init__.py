"""Modules that the scripts under scripts/, tests/, bench/ and gateway/ share.

A script finds this package by one line. Python puts the script's own folder at the front of sys.path, and the line makes it the folder of
this package; below tests/ it is

    sys.path[0] += "/../lib"

and elsewhere "/../tests/lib". This package then finds gateway/lib, so a script that needs `gatewaytools` imports `regdtools` before.
"""
import pathlib
import sys

sys.path.append(str(pathlib.Path(__file__).resolve().parents[3] / "gateway/lib"))
