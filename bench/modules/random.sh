#!/bin/sh
# bench/modules/random.sh PROGRAM COUNT MODULE TYPE [MODULE TYPE ..]: COUNT random values of each type, made and encoded
# in UPER and APER by Erlang's asn1ct (apt-get install erlang-asn1), go through the built program asn1_relay as streams:
# from UPER to APER and from APER to UPER, whose octets are compared with Erlang's, and by way of COER, OER, strict PER
# and JSON to both. MODULE is a file that has its module's name; OPTIONS, if it is set, has options of the program, such as
# --named-bits as-sent. It prints a line for each type, and ends with an error if octets differ.
here=$(cd "$(dirname "$0")" && pwd)
program=$1 count=$2
shift 2
work=$(mktemp -d)
erlc -o "$work" "$here/random_values.erl" || exit 2
status=0

# translate FROM TO: a stream from standard input to standard output, octets as hexadecimal digits.
translate() {
    "$program" stream --module "$module" --type "$type" $OPTIONS --from "$1" --to "$2" --limit 1000000 --hex
}

# expect FILE WORDS: what is on standard input is the octets of FILE.
expect() {
    if ! tr -d '\n' | cmp -s - "$1"; then
        echo "$type: $2: the octets differ from Erlang's"
        status=1
    fi
}

while [ $# -gt 1 ]; do
    module=$1 type=$2
    shift 2
    cp "$module" "$work"
    (cd "$work" && erl -noshell -pa . -eval "random_values:main([\"$(basename "$module")\", \"$type\", \"$count\"])") || exit 2
    tr -d '\n' < "$work/$type.uper" > "$work/uper"
    tr -d '\n' < "$work/$type.aper" > "$work/aper"
    translate uper aper < "$work/uper" | expect "$work/aper" "UPER to APER"
    translate aper uper < "$work/aper" | expect "$work/uper" "APER to UPER"
    for way in coer oer uper-strict aper-strict json; do
        translate uper "$way" < "$work/uper" > "$work/way"
        translate "$way" uper < "$work/way" | expect "$work/uper" "UPER by way of $way"
        translate "$way" aper < "$work/way" | expect "$work/aper" "UPER by way of $way to APER"
    done
    echo "$type: $count values, $(wc -c < "$work/uper") digits in UPER"
done
rm -rf "$work"
exit $status
