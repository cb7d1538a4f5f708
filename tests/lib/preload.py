"""Libraries that are loaded before the C library of a program: tests/lib/growths.c, which refuses or watches its memory, and
tests/lib/failing.c, which fails its calls on files."""

import os
import subprocess

HERE = os.path.dirname(os.path.abspath(__file__))


def build(folder, name):
    """Builds the library of a name in a folder, and gives its path."""
    library = os.path.join(folder, f"{name}.so")
    words = ["gcc", "-shared", "-fPIC", "-O2", "-Wall", "-Werror", "-fno-builtin", "-o", library]
    subprocess.run([*words, os.path.join(HERE, f"{name}.c")], check=True)
    return library


def refused(library, number):
    """The surroundings of a program to which the growth of this number is refused (0: none)."""
    return {"LD_PRELOAD": library, "REFUSED_GROWTH": str(number)}


def watched(library):
    """Those of one whose memory is watched."""
    return {"LD_PRELOAD": library, "WATCHED_GROWTHS": "yes"}


def failed(library, below, way, number, behind=0):
    """Those of one of which a call on a file below a folder fails in this way, that of this number (0: none), and a second one
    so many calls behind it (0: none)."""
    surroundings = {"LD_PRELOAD": library, "FAILED_BELOW": below, "FAILED_AS": way, "FAILED_CALL": str(number)}
    return {**surroundings, "FAILED_BEHIND": str(behind)}
