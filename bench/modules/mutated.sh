#!/bin/sh
# bench/modules/mutated.sh COUNT [FIRST] [FOLDER]: COUNT mutants of the modules of asn1_notation_rows, from
# number FIRST on, are read, and the table of their type T is made and printed. It fails if one takes more than its share
# of the time, or ends the program. It runs unproved code (rt try).
here=$(cd "$(dirname "$0")/.." && pwd)
count=$1
first=${2:-0}
work=${3:-$(mktemp -d)}
. "$here/shared.sh"
take_packages asn1_notation_syntax asn1_notation_types asn1_notation_printing
make_package modules_mutated "asn1_notation_printing asn1_notation_syntax asn1_notation_types" main=modules/mutated.in
cd "$work/crates/modules_mutated"
${RT:-rt} try --seconds 1200 --data rows="$here/../crates/asn1_notation_rows/stdin" -- "$count" "$first" < /dev/null
