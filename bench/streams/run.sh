#!/bin/sh
# bench/streams/run.sh [FOLDER]: times a relay over 10^6 messages in sequence, from COER to UPER and back, in pieces of
# several lengths, and compares it with `recode` of the same messages one by one and the same work in C; then times a
# run over a file of 64 MiB of such messages. The rest is as in bench/run.sh.
here=$(cd "$(dirname "$0")/.." && pwd)
work=${1:-$(mktemp -d)}
. "$here/shared.sh"
compile "$here/streams/plain.c"
take_packages $schema asn1_relay_core
make_bench_common
make_package streams_bench "$schema bench_common asn1_relay_core anyhow" main=streams/main.in sample=types/sample.in
prove streams_bench
: > "$work/times"
for round in 1 2 3 4 5; do
    timed plain "$work/plain"
    timed proved "$work/crates/streams_bench/out/streams_bench" memory all
done
awk -f "$here/streams/table.awk" "$work/times"
"$work/plain" make coer 1400000 > "$work/messages.coer"
"$work/plain" run coer uper < "$work/messages.coer" > "$work/messages.uper"
# run_file WHO FROM TO PROGRAM: translates the file, and prints how many of its octets per second.
run_file() {
    best=
    for round in 1 2 3 4 5; do
        before=$(date +%s%N)
        $RUN "$4" run "$2" "$3" < "$work/messages.$2" > "$work/answer"
        after=$(date +%s%N)
        cmp "$work/answer" "$work/messages.$3"
        taken=$((after - before))
        [ -n "$best" ] && [ "$best" -le "$taken" ] || best=$taken
    done
    size=$(wc -c < "$work/messages.$2")
    echo "| $1, $2 to $3 | $((size * 1000 / best)) |"
}
echo
echo "| A file of 64 MiB | MB/s |"
echo "|---|---|"
for way in 'coer uper' 'uper coer'; do
    set -- $way
    run_file C "$1" "$2" "$work/plain"
    run_file here "$1" "$2" "$work/crates/streams_bench/out/streams_bench"
done
