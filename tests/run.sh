#!/usr/bin/env bash
# The Rust tests, the C test and, where fpc is installed, the Pascal test, against the archive and the programs.
# They must be there: `rt ci` builds the programs, and so does `rt run` in the folder of each, and `rt lib` in crates/dilbreth the archive.
# DILBRETH_LIB: the folder of libdilbreth.a (crates/dilbreth/out of the repository).
# DILBRETH_ASSIGN: the program that assigns (crates/assign/out/assign of the repository).
# DILBRETH_CHANGE_FORM: the program that changes a text (crates/change_form/out/change_form of the repository).
# DILBRETH_BUILD: where to build (build of the repository).
set -euo pipefail
here=$(cd "$(dirname "${BASH_SOURCE[0]}")" && pwd)
root=$(cd "$here/.." && pwd)
export DILBRETH_LIB=${DILBRETH_LIB:-$root/crates/dilbreth/out}
export DILBRETH_ASSIGN=${DILBRETH_ASSIGN:-$root/crates/assign/out/assign}
export DILBRETH_CHANGE_FORM=${DILBRETH_CHANGE_FORM:-$root/crates/change_form/out/change_form}
export DILBRETH_BUILD=${DILBRETH_BUILD:-$root/build}
# cargo runs tests in another folder.
DILBRETH_LIB=$(realpath -m "$DILBRETH_LIB")
DILBRETH_ASSIGN=$(realpath -m "$DILBRETH_ASSIGN")
DILBRETH_CHANGE_FORM=$(realpath -m "$DILBRETH_CHANGE_FORM")
DILBRETH_BUILD=$(realpath -m "$DILBRETH_BUILD")
export CARGO_TARGET_DIR=$DILBRETH_BUILD/cargo
mkdir -p "$DILBRETH_BUILD"
log=$DILBRETH_BUILD/rust-tests.log

passed=0
failed=0

# Each test binary ends with a line 'test result: .. N passed; M failed; ..'.
rust=0
(cd "$root/rust" && cargo test --release --offline --no-fail-fast -- --nocapture) 2>&1 | tee "$log" || rust=1
while read -r p f; do
    passed=$((passed + p))
    failed=$((failed + f))
done < <(sed -nE 's/^test result: .* ([0-9]+) passed; ([0-9]+) failed;.*/\1 \2/p' "$log")
# A build that failed, or a test binary that broke off, has no such line.
if [ "$rust" -ne 0 ] && [ "$failed" -eq 0 ]; then
    failed=1
fi
if [ "$passed" -eq 0 ] && [ "$failed" -eq 0 ]; then
    failed=1
fi

# A test program is one check.
program_test() {
    if bash "$1"; then
        passed=$((passed + 1))
    else
        failed=$((failed + 1))
    fi
}

program_test "$here/c/run.sh"
if command -v fpc >/dev/null; then
    program_test "$here/pascal/run.sh"
else
    echo "Pascal: skipped, fpc is not installed"
fi

echo "Rust, C and Pascal: $passed passed, $failed failed"
[ "$failed" -eq 0 ]
