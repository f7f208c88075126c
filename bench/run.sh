#!/bin/sh
# Builds and runs the benchmark over libnetread_c.a: bench/run.sh [how many names]
set -e
cd "$(dirname "$0")/.."
kit=$(dirname "$(rt doc)")
mkdir -p target/bench
(cd crates/netread_c && rt lib) >target/bench/lib.log 2>&1 || { cat target/bench/lib.log; exit 1; }
with= libs=
if echo '#include <re2/re2.h>' | g++ -std=c++17 -x c++ -fsyntax-only - 2>/dev/null; then with="$with -DWITH_RE2" libs="$libs -lre2"; fi
if echo '#include <tre/tre.h>' | g++ -x c++ -fsyntax-only - 2>/dev/null; then with="$with -DWITH_TRE" libs="$libs -ltre"; fi
g++ -O2 -std=c++17 -Wall -Wextra -Iinclude $with bench/names.cc crates/netread_c/out/libnetread_c.a "$kit/c/liblibc_c.a" $libs -lpthread -o target/bench/names
target/bench/names "$@"
