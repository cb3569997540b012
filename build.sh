#!/bin/sh
# Proves and builds the program `price` and the static library, and puts them where the documents and the tests look for them:
#
#     ./build.sh
#
# writes target/bin/price and target/staticlib/libhost.a. The crates below them are proved first, where that has not been done. It needs the Rattle
# kit (rt on the path).
set -eu
cd "$(dirname "$0")"
mkdir -p target/bin target/staticlib
(cd crates/price && rt run -- --version)
(cd crates/host && rt lib)
install -m 755 crates/price/out/price target/bin/price
install -m 644 crates/host/out/libhost.a target/staticlib/libhost.a
