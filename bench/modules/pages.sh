#!/bin/sh
# bench/modules/pages.sh PROGRAM PAGE..: the messages of pages go through the built program asn1_relay: from their own
# rules to each of the others and to JSON, and from there back. It prints a line for each message whose octets differ
# then, and how many there were, and ends with an error if octets differ.
#
# A page in Markdown has `- rules: RULES`, the text of a module in a block of `asn1`, and for each message
# `- type: TYPE` and `- octets: DIGITS`. Another page has a line RULES | MODULE | TYPE | DIGITS for each message, and the file
# modules/MODULE.asn beside it.
program=$1
shift
work=$(mktemp -d)
for page in "$@"; do
    case $page in
    *.md)
        awk -v module="$work/$(basename "$page" .md).asn" '
            /^- rules:/ && !rules { rules = tolower($3) }
            /^```asn1/ { inside = 1; next }
            /^```/ { inside = 0 }
            inside { print > module }
            /^- type:/ { type = $3 }
            /^- octets:/ { print module, type, rules, tolower($3) }' "$page"
        ;;
    *)
        awk -F ' *[|] *' -v folder="$(dirname "$page")/modules" '
            !/^#/ && NF > 3 { print folder "/" $2 ".asn", $3, tolower($1), tolower($4) }' "$page"
        ;;
    esac
done > "$work/cases"
wrong=0
while read -r module type rules octets; do
    if [ ! -f "$module" ]; then
        echo "$type: there is no $module"
        continue
    fi
    translate() {
        "$program" once --module "$module" --type "$type" --from "$1" --to "$2" --hex
    }
    for way in uper aper uper-strict aper-strict oer coer json; do
        back=$(printf %s "$octets" | translate "$rules" "$way" | translate "$way" "$rules" | tr A-F a-f)
        if [ "$back" != "$octets" ]; then
            echo "$type of $module: $rules by way of $way: $back"
            wrong=$((wrong + 1))
        fi
    done
done < "$work/cases"
echo "$(wc -l < "$work/cases") messages, $wrong ways wrong"
rm -rf "$work"
[ "$wrong" -eq 0 ]
