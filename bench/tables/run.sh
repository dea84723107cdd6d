#!/bin/sh
# bench/tables/run.sh [FOLDER]: how many instructions, and requests for memory a message, `recode` of a type of the
# program takes and `recode_by` of the same type in a table, between COER and UPER: for a message, or for an element of a
# list or SET OF. valgrind counts both; RT is as in shared.sh.
here=$(cd "$(dirname "$0")/.." && pwd)
work=${1:-$(mktemp -d)}
. "$here/shared.sh"
take_packages $schema $codecs asn1_relay_core asn1_table_relay
make_bench_common
make_kinds_types
make_tables_bench
prove tables_bench

rm -f "$work"/counted*
callgrind --dump-before='clock_gettime*' --callgrind-out-file="$work/counted" \
    "$work/crates/tables_bench/out/tables_bench" few > "$work/said" 2> "$work/log" || { tail -20 "$work/log" >&2; exit 1; }
awk -v counted="$work/counted." -f "$here/tables/table.awk" "$work/said"
