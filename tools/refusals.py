"""Runs of a program with its first request for memory refused, then its second, and so on, up to a
run that meets no refusal (refuse_memory.c)."""

import itertools
import os
import tempfile


def each(shim, run):
    """How many requests were refused, and what is wrong with runs, each behind the number of its
    request. `run` runs the program in an environment, and tells whether it told of want of memory,
    and what is wrong, or None; `shim` is the library that refuses. In the last run nothing is
    refused, so that no want is to be told of."""
    faults = []
    with tempfile.TemporaryDirectory() as place:
        told = os.path.join(place, "told")
        for request in itertools.count(1):
            refusal = {"LD_PRELOAD": shim, "REFUSE_REQUEST": str(request), "REFUSE_TOLD": told}
            is_short, fault = run({**os.environ, **refusal})
            is_refused = os.path.exists(told)
            if is_short and not is_refused and not fault:
                fault = "it lacks memory, and none was refused"
            if fault:
                faults.append((request, fault))
            if not is_refused:
                return request - 1, faults
            os.remove(told)
