#!/bin/sh
# Tries edits that the prover has to refuse and the gate does not try: bench/edits/PACKAGE/*.edit, in the format of
# must-fail/ of a package.
#
#   bench/edits.sh [PACKAGE..]
#
# It tries the edits of the named packages, or of all, on a copy of the committed crates, whose folders must-fail/ have
# only these edits. rt ci proves the packages there, and those below them, and reuses what it passed earlier on this
# machine. The last line says how many packages were proved and edits refused, and how many were not.
here=$(cd "$(dirname "$0")/.." && pwd)
[ $# -gt 0 ] || set -- $(cd "$here/bench/edits" && ls)
copy=$(mktemp -d)
trap 'rm -rf "$copy"' EXIT
git -C "$here" archive HEAD crates crates.txt HANDLES | tar -x -C "$copy" || exit 2
rm -rf "$copy"/crates/*/must-fail
for package in "$@"; do
    mkdir "$copy/crates/$package/must-fail" || exit 2
    cp "$here/bench/edits/$package"/*.edit "$copy/crates/$package/must-fail/" || exit 2
done
cd "$copy" || exit 2
rt ci "$@"
