#!/bin/sh
# Puts English text into the file DATA/source, if it is not there.
#   bench/english.sh DATA
# It is a dictionary with its quotations, 40 MB, from a Debian package; nothing is installed. Without
# the package the file is empty, and words are drawn by chance instead.
data=${1:?name the folder}
package=dict-gcide
mkdir -p "$data" || exit 1
[ ! -e "$data/source" ] || exit 0
if (cd "$data" && apt-get download "$package" && dpkg-deb -x "$package"_*.deb unpacked); then
    gzip -dc "$data/unpacked/usr/share/dictd/gcide.dict.dz" > "$data/source"
else
    echo "bench: no package $package (apt-get update may help): words drawn by chance instead" >&2
    : > "$data/source"
fi
rm -rf "$data/unpacked" "$data/$package"_*.deb
