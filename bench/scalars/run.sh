#!/bin/sh
# bench/scalars/run.sh coer|oer|uper|aper [FOLDER]: times lists of values of each scalar type by one set of rules, and
# compares them with the same work in C. Lists have 250,000 elements; times are those of 10^6. The rest is as in
# bench/run.sh.
here=$(cd "$(dirname "$0")/.." && pwd)
rules=${1:-coer}
work=${2:-$(mktemp -d)}
. "$here/shared.sh"
case $rules in
    coer) compile "$here/scalars/plain.c" ;;
    oer) compile -DBASIC "$here/scalars/plain.c" ;;
    uper) compile -DPACKED "$here/scalars/plain.c" ;;
    aper) compile -DPACKED -DALIGNED "$here/scalars/plain.c" ;;
    *) echo "no such rules" >&2; exit 2 ;;
esac
take_packages $schema $scalars $codecs
make_bench_common
make_bench_rules
make_scalars_bench
prove scalars_bench
scale=4
measure scalars_bench "$rules"
