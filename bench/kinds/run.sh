#!/bin/sh
# bench/kinds/run.sh coer|oer|uper|aper|recode|recode_aligned [FOLDER]: times a CHOICE, a SEQUENCE with additions and
# SET OF values by one set of rules, or their translation between COER and UPER or between OER and APER, and compares
# the times with those of the same work in C, and in UPER of the code that asn1c generates, if it is installed. The rest
# is as in bench/run.sh.
here=$(cd "$(dirname "$0")/.." && pwd)
rules=${1:-coer}
work=${2:-$(mktemp -d)}
program=kinds_bench
. "$here/shared.sh"
case $rules in
    coer) compile "$here/kinds/plain.c" ;;
    oer) compile -DBASIC "$here/kinds/plain.c" ;;
    uper) compile -DPACKED "$here/kinds/plain.c"; generate "$here/kinds" kinds.asn1 ;;
    aper) compile -DPACKED -DALIGNED "$here/kinds/plain.c" ;;
    recode) compile "$here/kinds/recode.c"; program=kinds_recode ;;
    recode_aligned) compile -DBASIC -DALIGNED "$here/kinds/recode.c"; program=kinds_recode ;;
    *) echo "no such rules" >&2; exit 2 ;;
esac
take_packages $schema $codecs asn1_relay_core
make_bench_common
make_bench_rules
make_kinds_types
make_kinds_bench
make_kinds_recode
prove $program
measure $program "$rules"
