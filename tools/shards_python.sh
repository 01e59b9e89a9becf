#!/bin/sh
# A Python that may have Debian's distributed: the one that RUBEWOLA_PYTHON names, the system's, or
# another.
for python in "$RUBEWOLA_PYTHON" /usr/bin/python3 "$(command -v python3)"; do
    if [ -x "$python" ]; then exec "$python" "$@"; fi
done
echo "tools/shards_python.sh: there is no Python" >&2
exit 1
