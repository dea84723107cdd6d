#!/bin/sh
# bench/run.sh [FOLDER]: builds the benchmark of bits and the same work in C in a folder of its own, runs both five
# times in turn, and prints the best time of each in milliseconds, and the ratio to C, as a table. RT, CC and RUN are as
# in shared.sh.
here=$(cd "$(dirname "$0")" && pwd)
work=${1:-$(mktemp -d)}
. "$here/shared.sh"
take_packages asn1_values_bits
make_package bench_common '' lib=common.in
make_package bits_bench 'asn1_values_bits bench_common anyhow' main=bits_bench.in
compile "$here/plain.c"
prove bits_bench
measure bits_bench
