#!/bin/sh
# deb.sh STAGE FOLDER: a package for Debian in a folder, of what `make install` has put below
# STAGE/usr. As any user.
set -e
stage=$1 folder=$2
cd "$(dirname "$(realpath "$0")")/.."
doc=$stage/usr/share/doc/rubewola
version=$(dpkg-parsechangelog -S Version)
architecture=$(dpkg --print-architecture)

strip --strip-unneeded --remove-section=.comment --remove-section=.note "$stage/usr/bin/pk_find"
find "$stage" -name __pycache__ -exec rm -r {} +
gzip -9n "$stage"/usr/share/man/man1/*.1
install -d "$doc/docs" "$doc/examples" "$stage/DEBIAN"
install -m 644 debian/copyright README.md CHANGELOG.md "$doc"
install -m 644 docs/*.md "$doc/docs"
install -m 644 examples/*.* "$doc/examples"
python3 packages/links.py "$doc"
gzip -9nc debian/changelog > "$doc/changelog.gz"

# What the program wants of the C library, by its symbols.
work=$(mktemp -d)
trap 'rm -rf "$work"' EXIT
dpkg-shlibdeps -O "$stage/usr/bin/pk_find" > "$work/substvars"
dpkg-gencontrol -prubewola -P"$stage" -T"$work/substvars" -f"$work/files" -O > "$stage/DEBIAN/control"
install -m 755 debian/postinst debian/prerm "$stage/DEBIAN"
(cd "$stage" && find usr -type f -print0 | sort -z | xargs -0 md5sum) > "$stage/DEBIAN/md5sums"
chmod -R u=rwX,go=rX "$stage"
mkdir -p "$folder"
dpkg-deb --root-owner-group --build "$stage" "$folder/rubewola_${version}_$architecture.deb"
