#!/bin/sh
# bench/bits_cost.sh [FOLDER]: builds the programs of bits_cost.in and bits_cost.c in a folder of its own, and prints
# how many instructions each work takes in C and here, for each bit, number or octet. valgrind counts them; RT and CC
# are as in shared.sh. It ends with an error if the outputs of the two programs differ.
here=$(cd "$(dirname "$0")" && pwd)
work=${1:-$(mktemp -d)}
. "$here/shared.sh"
take_packages asn1_values_bits
make_package bench_common '' lib=common.in
make_package bits_cost 'asn1_values_bits bench_common anyhow' main=bits_cost.in
prove bits_cost
compile "$here/bits_cost.c"
# counted WHO PROGRAM: a line for each work, with its instructions.
counted() {
    callgrind --callgrind-out-file="$work/counted" "$2" > "$work/said.$1" 2> "$work/log"
    callgrind_annotate --inclusive=yes --threshold=100 "$work/counted" | awk -v who="$1" '
        match($0, /(:|::)(append|read)_(bits|11|16|64|runs|octets)/) {
            name = substr($0, RSTART, RLENGTH)
            gsub(/:/, "", name)
            count = $1
            gsub(/,/, "", count)
            units = name ~ /_runs$/ ? 3200000 : 100000
            if (!(name in seen)) printf "%s %s %.2f\n", who, name, count / units
            seen[name] = 1
        }'
}
counted plain "$work/plain" > "$work/counts"
counted proved "$work/crates/bits_cost/out/bits_cost" >> "$work/counts"
cmp "$work/said.plain" "$work/said.proved" || exit 1
awk '$1 == "plain" { c[$2] = $3 }
     $1 == "proved" { printf "%-14s %6.2f %6.2f %5.2f\n", $2, c[$2], $3, $3 / c[$2] }' "$work/counts"
