#!/bin/sh
# Builds the C and the Rust example over libnetread_c.a, runs both on two constraint files, and compares what they print.
set -e
cd "$(dirname "$0")/.."
kit=$(dirname "$(rt doc)")
(cd crates/netread_c && rt lib) >/dev/null
lib=crates/netread_c/out/libnetread_c.a
out=target/examples
mkdir -p "$out"
gcc -O2 -Wall -Wextra -Iinclude examples/c/main.c "$lib" "$kit/c/liblibc_c.a" -o "$out/c"
rustc -O --edition 2024 examples/rust/main.rs -C link-arg="$lib" -C link-arg="$kit/c/liblibc_c.a" -o "$out/rust"
for file in nets complete; do
    "$out/c" "examples/$file.txt" >"$out/$file.c.txt"
    "$out/rust" "examples/$file.txt" >"$out/$file.rust.txt"
    cmp "$out/$file.c.txt" "$out/$file.rust.txt"
done
cmp "$out/complete.c.txt" examples/complete.out
cat "$out/nets.c.txt"
echo 'examples: C and Rust print the same, and what examples/complete.out has'
