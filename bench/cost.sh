#!/bin/sh
# bench/cost.sh [FOLDER [RULES..]]: builds the programs of «Types», «Scalars» and «Kinds» and the works in C in a folder
# of its own. It prints, as tables in Markdown, how many instructions each work takes by each set of rules, or by those
# that are named (coer, oer, uper, aper, recode, recode_aligned). valgrind counts them, over a hundredth of the values;
# RT and CC are as in shared.sh.
here=$(cd "$(dirname "$0")" && pwd)
work=${1:-$(mktemp -d)}
[ $# -eq 0 ] || shift
wanted=${*:-coer oer uper aper recode recode_aligned}
. "$here/shared.sh"

# flags RULES: the flags of the C code for a set of rules.
flags() {
    case $1 in
        coer | recode) ;;
        oer) echo -DBASIC ;;
        uper) echo -DPACKED ;;
        aper) echo -DPACKED -DALIGNED ;;
        recode_aligned) echo -DBASIC -DALIGNED ;;
        *) echo "no such rules: $1" >&2; exit 2 ;;
    esac
}

# count WHO RULES COMMAND..: the instructions of each work that a program prints: those between two readings of the
# clock.
count() {
    who=$1
    rules=$2
    shift 2
    rm -f "$work"/counted*
    callgrind --dump-before='clock_gettime*' --callgrind-out-file="$work/counted" "$@" > "$work/said" 2> "$work/log" \
        || { tail -20 "$work/log" >&2; exit 1; }
    awk -v who="$who" -v rules="$rules" -v counted="$work/counted." '{
        file = counted 2 * NR
        while ((getline line < file) > 0)
            if (line ~ /^totals: /) print who, rules, $1, substr(line, 9), $3
        close(file)
    }' "$work/said" >> "$work/costs"
}

# count_rules RULES: the works of «Types», «Scalars» and «Kinds» by a set of rules.
count_rules() {
    octets=$here/types/oer.c
    case $1 in uper | aper) octets=$here/types/per.c ;; esac
    compile -DFEW $(flags "$1") "$octets"
    count plain "$1" "$work/plain"
    count proved "$1" "$work/crates/types_bench/out/types_bench" "$1" few
    compile -DFEW $(flags "$1") "$here/scalars/plain.c"
    count plain "$1" "$work/plain"
    count proved "$1" "$work/crates/scalars_bench/out/scalars_bench" "$1" few
    compile -DFEW $(flags "$1") "$here/kinds/plain.c"
    count plain "$1" "$work/plain"
    count proved "$1" "$work/crates/kinds_bench/out/kinds_bench" "$1" few choices additions bags_1000 bags_10000
    [ "$1" = uper ] || return 0
    for part in types/sample.asn1 kinds/kinds.asn1; do
        generate "$here/${part%/*}" "${part#*/}" -DFEW
        [ -z "$generated" ] || count asn1c "$1" "$generated"
    done
}

: > "$work/costs"
case " $wanted " in
    *recode*) take_packages $schema $scalars $codecs asn1_relay_core ;;
    *) take_packages $schema $scalars $codecs ;;
esac
make_bench_common
make_bench_rules
make_types_bench
make_scalars_bench
make_kinds_types
make_kinds_bench
prove types_bench
prove scalars_bench
prove kinds_bench
for rules in $wanted; do
    case $rules in
        recode*)
            [ -n "$recodes" ] || { make_kinds_recode; prove kinds_recode; recodes=1; }
            compile -DFEW $(flags $rules) "$here/kinds/recode.c"
            count plain $rules "$work/plain"
            count proved $rules "$work/crates/kinds_recode/out/kinds_recode" $rules few
            ;;
        *) count_rules $rules ;;
    esac
done
awk -f "$here/cost.awk" "$work/costs"
