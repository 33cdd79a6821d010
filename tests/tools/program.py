"""The program that a script runs: the one that it is given, or else the one that the launcher builds."""

import pathlib
import subprocess

TOP = pathlib.Path(__file__).resolve().parent.parent.parent


def program_of(given):
    """The path of the program that a script is given; where it is given none the launcher is asked to build one."""
    if given is None:
        subprocess.run([TOP / "skk", "type"], stdin=subprocess.DEVNULL, check=True)
    return pathlib.Path(given or TOP / "out" / "skk").resolve()
