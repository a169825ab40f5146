#!/usr/bin/env bash
# Builds the C test against the header and the archive, and runs it.
# DILBRETH_LIB: the folder of libdilbreth.a (crates/dilbreth/out of the repository).
set -euo pipefail
here=$(cd "$(dirname "${BASH_SOURCE[0]}")" && pwd)
root=$(cd "$here/../.." && pwd)
lib=${DILBRETH_LIB:-$root/crates/dilbreth/out}
out=${DILBRETH_BUILD:-$root/build}/c
mkdir -p "$out"
gcc -std=c99 -Wall -Wextra -Werror -pedantic -O1 -I "$root/include" \
    "$here/dilbreth_test.c" "$lib/libdilbreth.a" -o "$out/dilbreth_test"
"$out/dilbreth_test"
