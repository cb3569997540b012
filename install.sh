#!/bin/sh
# Proves and builds the library and the program `price`, and installs them:
#
#     ./install.sh PREFIX
#
# puts PREFIX/lib/libldfs.a, PREFIX/include/ldfs.h, PREFIX/lib/pkgconfig/ldfs.pc and PREFIX/bin/price there, and beside them
# PREFIX/share/doc/ldfs with HOST.md, SPEC.md, host.c, which is a host to start from, draft.c, a short one for drafts, and the sample sheets. A host
# is then built with
#
#     cc host.c -IPREFIX/include -LPREFIX/lib -lldfs
#
# or with the flags that pkg-config gives for ldfs. PREFIX may be moved as a whole afterwards. It needs the Rattle kit (rt on the path).
set -eu

if [ $# -ne 1 ] || [ -z "$1" ]; then
    echo "usage: $0 PREFIX" >&2
    exit 2
fi
umask 022
mkdir -p "$1/bin" "$1/lib/pkgconfig" "$1/include" "$1/share/doc/ldfs/samples"
prefix=$(CDPATH='' cd "$1" && pwd)
doc=$prefix/share/doc/ldfs
cd "$(dirname "$0")"

# document FILE TO: installs a document, with its links as they are there; a link to a file that is not installed becomes its words
document() {
    rm -f "$2"
    away='\.\./(crates|tests)/|(\.\./docs/)?(PROMISES|DECISIONS|PERFORMANCE|GLOSSARY)\.md'
    sed -E -e 's#\[([^]]*)\]\(('"$away"')[^)]*\)#\1 (in the source)#g' \
        -e 's#\[examples/([a-z]+\.c)\]\(\.\./examples/[a-z]+\.c\)#[\1](\1)#g' -e 's#\]\(\.\./include/#](../../../include/#g' \
        -e 's#\]\(\.\./docs/#](../#g' -e 's#\]\(\.\./samples/#](samples/#g' "$1" >"$2"
}

./build.sh
version=$(sed -n 's/^#define LDFS_VERSION "\(.*\)"$/\1/p' include/ldfs.h)
[ -n "$version" ] || { echo "$0: include/ldfs.h has no LDFS_VERSION" >&2 && exit 1; }

install -m 755 target/bin/price "$prefix/bin/price"
install -m 644 include/ldfs.h "$prefix/include/ldfs.h"
install -m 644 target/staticlib/libhost.a "$prefix/lib/libldfs.a"
install -m 644 examples/host.c examples/draft.c "$doc"
install -m 644 samples/*.sheet samples/make_samples.py "$doc/samples"
document docs/HOST.md "$doc/HOST.md"
document docs/SPEC.md "$doc/SPEC.md"
document samples/README.md "$doc/samples/README.md"
rm -f "$prefix/lib/pkgconfig/ldfs.pc"
cat >"$prefix/lib/pkgconfig/ldfs.pc" <<END
prefix=\${pcfiledir}/../..
libdir=\${prefix}/lib
includedir=\${prefix}/include

Name: ldfs
Description: Verified least-cost planning on fault sheets
Version: $version
Cflags: -I\${includedir}
Libs: -L\${libdir} -lldfs
END
echo "ldfs $version is installed in $prefix"
