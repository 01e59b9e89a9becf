"""Libraries that are loaded over a program by LD_PRELOAD, built by the toolchain's own clang."""

import os
import subprocess

TOOLS = os.path.dirname(os.path.abspath(__file__))


def compiler():
    """The toolchain's own clang, beside the page that `rt doc` names."""
    page = subprocess.run(["rt", "doc"], capture_output=True, text=True, check=True).stdout.strip()
    return os.path.join(os.path.dirname(page), "toolchain", "bin", "clang")


def built(name, place):
    """The library of tools/NAME.c, built in a folder."""
    library = os.path.join(place, name + ".so")
    source = os.path.join(TOOLS, name + ".c")
    subprocess.run([compiler(), "-shared", "-fPIC", "-O1", "-w", "-o", library, source], check=True)
    return library
