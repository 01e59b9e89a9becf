#!/bin/sh
# Runs the Python package that stands beside this program, by a Python that has Dask's distributed:
# Debian's, or the one that RUBEWOLA_PYTHON names. No module of the folder in which it is started is
# one of its own, nor of the processes that it starts.
top=$(dirname "$(dirname "$(realpath "$0")")")
lib=$top/lib/rubewola
export PYTHONPATH="$lib${PYTHONPATH:+:$PYTHONPATH}" PYTHONSAFEPATH=1
export RUBEWOLA_PROGRAM="${RUBEWOLA_PROGRAM:-$top/bin/pk_find}"
exec "${RUBEWOLA_PYTHON:-/usr/bin/python3}" -c 'import sys
sys.path[0] = sys.argv.pop(1)
import runpy
runpy.run_module("rubewola_shards", run_name="__main__", alter_sys=True)' "$lib" "$@"
