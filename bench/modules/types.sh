#!/bin/sh
# bench/modules/types.sh PROGRAM FILE..: which types of the ASN.1 modules in these files the built program asn1_relay
# understands, with each option. It prints the first line that is said of each type that is refused, and how many types
# there are; those with parameters are left out.
program=$1
shift
for file; do
    set -- "$@" --module "$file"
    shift
done
work=$(mktemp -d)
"$program" types "$@" > "$work/all" || exit 2
grep -v '{' "$work/all" > "$work/types"
while read -r type; do
    "$program" types "$@" --open-types octets --named-bits as-sent --times as-sent --type "$type" > "$work/printed" \
        2> "$work/said" < /dev/null && continue
    echo "$type: $(head -n 1 "$work/said")"
done < "$work/types" > "$work/refused"
cat "$work/refused"
echo "$(wc -l < "$work/types") types, $(wc -l < "$work/refused") refused"
rm -rf "$work"
