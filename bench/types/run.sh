#!/bin/sh
# bench/types/run.sh coer|oer|uper|aper [FOLDER]: times sequences, a list and octets by one set of rules, and compares
# them with the same work in C, and for the sequences in UPER with the code that asn1c generates, if it is installed.
# The rest is as in bench/run.sh.
here=$(cd "$(dirname "$0")/.." && pwd)
rules=${1:-coer}
work=${2:-$(mktemp -d)}
. "$here/shared.sh"
case $rules in
    coer) compile "$here/types/oer.c" ;;
    oer) compile -DBASIC "$here/types/oer.c" ;;
    uper) compile "$here/types/per.c"; generate "$here/types" sample.asn1 ;;
    aper) compile -DALIGNED "$here/types/per.c" ;;
    *) echo "no such rules" >&2; exit 2 ;;
esac
take_packages $schema $codecs
make_bench_common
make_bench_rules
make_types_bench
prove types_bench
measure types_bench "$rules"
