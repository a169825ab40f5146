#!/usr/bin/env bash
# Builds the Pascal test against the unit and the archive, and runs it; then sees that a number of another size does not
# compile, and that an archive of another version does not link.
# DILBRETH_LIB: the folder of libdilbreth.a (crates/dilbreth/out of the repository).
set -euo pipefail
export LC_ALL=C
here=$(cd "$(dirname "${BASH_SOURCE[0]}")" && pwd)
root=$(cd "$here/../.." && pwd)
lib=${DILBRETH_LIB:-$root/crates/dilbreth/out}
out=${DILBRETH_BUILD:-$root/build}/pascal
mkdir -p "$out/other"

# compile FOLDER_OF_THE_ARCHIVE PROGRAM [OPTION..]
compile() {
    fpc -B -v0e -O1 -Fu"$root/include" -Fl"$1" -FU"$out" -FE"$out" "${@:3}" "$here/$2.pas" 2>&1
}

# see WHAT COMMAND..: says whether the command succeeds; ends the test where it does not.
see() {
    if "${@:2}"; then
        echo "$1: ok"
    else
        echo "$1: WRONG"
        exit 1
    fi
}

compile "$lib" dilbreth_test
"$out/dilbreth_test"

compile "$lib" wrong_size -dRIGHT
compile "$lib" wrong_size >"$out/wrong_size.log" && status=0 || status=$?
see "numbers of another size do not compile" test "$status" -ne 0
marked=$(grep -n '{ refused }' "$here/wrong_size.pas" | cut -d: -f1)
refused=$(sed -nE 's/^wrong_size\.pas\(([0-9]+),.* for arg no\. [0-9]+( has to match exactly)?: Got .*/\1/p' "$out/wrong_size.log")
see "each of them is named" test "$refused" = "$marked"

version=$(sed -nE 's/^  DILBRETH_VERSION = ([0-9]+);$/\1/p' "$root/include/dilbreth.pas")
objcopy --redefine-sym "dilbreth_version_$version=dilbreth_version_$((version + 1))" \
    "$lib/libdilbreth.a" "$out/other/libdilbreth.a"
compile "$out/other" dilbreth_test >"$out/other.log" && status=0 || status=$?
see "an archive of another version does not link" test "$status" -ne 0
see "the linker names the version" grep "undefined reference to .dilbreth_version_$version'" "$out/other.log"
