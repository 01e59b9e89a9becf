#!/usr/bin/python3 -SI
"""Runs the Python package that stands beside this program."""

import _signal  # Python's own, there at once: the module `signal` takes a while.

if _signal.getsignal(_signal.SIGINT) is _signal.default_int_handler:
    # Until there is something that an interrupt could stop it just ends the process.
    _signal.signal(_signal.SIGINT, _signal.SIG_DFL)

import os  # Other modules come behind that.
import sys

TOP = os.path.dirname(os.path.dirname(os.path.realpath(__file__)))
os.environ["RUBEWOLA_PROGRAM"] = os.environ.get("RUBEWOLA_PROGRAM") or f"{TOP}/bin/pk_find"
sys.path.append(f"{TOP}/lib/rubewola")

from rubewola.__main__ import run  # The path is known only now.

run()
