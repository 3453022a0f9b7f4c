#!/bin/sh
# Remakes xxhsum-h3.txt with the reference program xxhsum of xxHash.
# Takes the program `second` as its argument, by default the one that
# `cargo build --release` makes.
set -eu

here=$(dirname "$0")
second=${1:-$here/../target/release/second}
list=$here/xxhsum-h3.txt
part=$list.part
input=$list.input
trap 'rm -f "$part" "$input"' EXIT

version=$(xxhsum --version 2>&1 | head -n 1 | sed 's/ *$//')
package=$(dpkg-query -W -f '${Package} ${Version}' xxhash 2>/dev/null) ||
    package='not from a Debian package'

{
    echo "# XXH3-64 sums of the reference program, one line LENGTH SUM for each length."
    echo "# Program: $version"
    echo "# Debian package: $package"
    echo "# Command, for each LENGTH: second family LENGTH >input; xxhsum -H3 <input"
    echo "# The input is the first LENGTH bytes of this family: x starts at 1; for each byte,"
    echo "# x = (x * 1103515245 + 12345) mod 2^31, and the byte is (x / 65536) mod 256."
    echo "# Remade by obtain.sh."
} >"$part"

one() {
    "$second" family "$1" >"$input"
    # Versions differ in how they print a sum; its 16 digits are the same in all.
    sum=$(xxhsum -H3 <"$input" | sed -n 's/.*\([0-9a-f]\{16\}\).*/\1/p')
    test -n "$sum"
    echo "$1 $sum" >>"$part"
}

n=0
while [ "$n" -le 240 ]; do
    one "$n"
    n=$((n + 1))
done
for n in 256 511 512 513 1023 1024 1025 2048 4096 65536; do
    one "$n"
done
mv "$part" "$list"
