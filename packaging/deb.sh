#!/usr/bin/env bash
# Makes a Debian package of what `make install` installs: packaging/deb.sh VERSION FILE. Two runs give the same bytes: all times are SOURCE_DATE_EPOCH, else the
# commit's, else (in a tarball of it) that of the Makefile.
set -euo pipefail
export LC_ALL=C
umask 022
version=$1
mkdir -p "$(dirname "$2")"
file=$(realpath "$2")
cd "$(dirname "$0")/.."
SOURCE_DATE_EPOCH=${SOURCE_DATE_EPOCH:-$(git log -1 --format=%ct 2> /dev/null || stat -c %Y Makefile)}
export SOURCE_DATE_EPOCH
scratch=$(mktemp -d)
trap 'rm -rf "$scratch"' EXIT
tree=$scratch/tree
"${MAKE:-make}" -s install DESTDIR="$tree" PREFIX=/usr PYTHON=/usr/bin/python3 ZSH=share/zsh/vendor-completions LIBRARY="${LIBRARY-}"
gzip -9n "$tree"/usr/share/man/man1/*.1

with_library=${LIBRARY:+, the C library}

# What the program and the library need of the system. dpkg-shlibdeps asks for a debian/control beside it.
mkdir "$scratch/debian" "$tree/DEBIAN"
printf 'Source: ringplan\n\nPackage: ringplan\nArchitecture: amd64\n' > "$scratch/debian/control"
shopt -s nullglob
if ! needs=$(cd "$scratch" && dpkg-shlibdeps -O -Stree tree/usr/bin/ringplan tree/usr/lib/*.so.* 2> said); then
    cat "$scratch/said" >&2
    exit 1
fi
size=$(find "$tree/usr" -type f -printf '%s\n' | awk '{ kib += int(($1 + 1023) / 1024) } END { print kib }')
cat > "$tree/DEBIAN/control" << END
Package: ringplan
Version: $version
Architecture: amd64
Maintainer: Rowaypas maintainers <maintainers@users.noreply.rowaypas.example>
Installed-Size: $size
Depends: ${needs#shlibs:Depends=}, python3 (>= 3.11)
Recommends: python3-argcomplete
Section: database
Priority: optional
Description: plans and checks ring changes of Dynamo-style stores
 ringplan makes a plan for a change of a live ring, and checks each plan before
 it runs. The checker is proved: if it says yes, every run of the plan keeps
 acknowledged puts readable.
 .
 The package has the program$with_library and a Python package that runs a plan
 by hooks. The processor must be an x86-64-v2 or later.
END
(cd "$tree" && find usr -type f -print0 | sort -z | xargs -0 md5sum > DEBIAN/md5sums)
[ -z "${LIBRARY-}" ] || echo 'activate-noawait ldconfig' > "$tree/DEBIAN/triggers"
# Python writes these folders where root runs the package, and dpkg does not know them.
cat > "$tree/DEBIAN/prerm" << 'END'
#!/bin/sh
set -e
find "$DPKG_ROOT/usr/lib/python3/dist-packages/ringplan" -name __pycache__ -prune -exec rm -rf {} +
END
chmod 755 "$tree/DEBIAN/prerm"
find "$tree" -exec touch -hd "@$SOURCE_DATE_EPOCH" {} +
dpkg-deb --root-owner-group --threads-max=1 -Zxz --build "$tree" "$file" > /dev/null
