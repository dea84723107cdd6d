#!/bin/sh
# bench/modules/run.sh CASES [FOLDER]: translates messages of types in modules to COER, UPER, APER and OER and back, and
# prints for each in how many of them the same octets came back. A line of CASES has the file of a module, a type, the
# rules of the message (uper, aper, oer or coer) and its octets in hexadecimal. It runs unproved code (rt try).
here=$(cd "$(dirname "$0")/.." && pwd)
cases=$1
work=${2:-$(mktemp -d)}
. "$here/shared.sh"
take_packages asn1_notation_syntax asn1_notation_types asn1_relay_core asn1_table_relay asn1_table_types
make_package modules_bench "asn1_notation_syntax asn1_notation_types asn1_relay_core asn1_table_relay asn1_table_types" main=modules/main.in
words= data= number=0
while read -r module type rules octets; do
    number=$((number + 1))
    cp "$module" "$work/module$number"
    printf %s "$octets" | xxd -r -p > "$work/message$number"
    data="$data --data module$number=$work/module$number --data message$number=$work/message$number"
    words="$words module$number $type $rules message$number"
done < "$cases"
cd "$work/crates/modules_bench"
${RT:-rt} try --seconds 300 $data -- $words < /dev/null
