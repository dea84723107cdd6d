#!/bin/sh
# bench/growth/run.sh [FOLDER]: how many instructions per octet a relay takes for messages that a sender may choose, in
# pieces that the sender may choose, for a size and for twice that size. If the cost is linear, both figures are the
# same. valgrind counts them; RT is as in shared.sh.
here=$(cd "$(dirname "$0")/.." && pwd)
work=${1:-$(mktemp -d)}
. "$here/shared.sh"
take_packages $schema asn1_relay_core asn1_relay_types
make_bench_common
make_package growth_bench "$schema bench_common asn1_relay_core asn1_relay_types anyhow" main=growth/main.in sample=types/sample.in
prove growth_bench

# an_octet SHAPE SIZE PIECE: the instructions of the relay, divided by the octets of the message.
an_octet() {
    rm -f "$work"/counted*
    callgrind --dump-before='clock_gettime*' --callgrind-out-file="$work/counted" \
        "$work/crates/growth_bench/out/growth_bench" "$@" > "$work/said" 2> "$work/log" || { tail -20 "$work/log" >&2; exit 1; }
    awk -v octets="$(cut -d' ' -f3 "$work/said")" '/^totals: / { printf "%.1f", $2 / octets }' "$work/counted.2"
}

echo "| Shape | Pieces of | Size | Instructions an octet | of twice the size |"
echo "|---|---|---|---|---|"
while read -r shape piece size; do
    once=$(an_octet "$shape" "$size" "$piece")
    twice=$(an_octet "$shape" $((2 * size)) "$piece")
    echo "| $shape | $piece | $size | $once | $twice |"
done <<SHAPES
string 1 32768
string 4096 65536
packed_string 1 32768
packed_string 4096 65536
list 1 1000
list 1 50000
list 4096 65536
packed_list 1 1000
packed_list 1 50000
packed_list 4096 65536
strings 1 20
strings 4096 1000
packed_strings 1 20
packed_strings 4096 1000
sequences 1 20
sequences 4096 1000
packed_sequences 1 20
packed_sequences 4096 1000
bitmap 100000000 10000
fragments 100000000 4
nested 100000000 64
SHAPES
