#!/bin/sh
# bench/vehicle/run.sh count|time [FOLDER]: messages of vehicles through the table of vehicle.asn1 from UPER to COER and
# back (`here`), the same by types of Rust (`types`) and in C by hand (`plain`), each also read alone and written alone,
# and reading and writing in UPER in the code that asn1c generates; then signed records, a list and a string of 8 MiB.
# `count` prints the instructions of a message, an element and an octet, over a hundredth of them, as valgrind counts;
# `time` the best of five runs, and how many a second that is. RT, CC and RUN are as in shared.sh.
here=$(cd "$(dirname "$0")/.." && pwd)
wanted=${1:-count}
work=${2:-$(mktemp -d)}
. "$here/shared.sh"
[ "$wanted" = count ] && few=few flags=-DFEW
take_packages asn1_schema asn1_values $codecs asn1_notation_syntax asn1_notation_types asn1_relay_core asn1_table_relay
make_bench_common
make_bench_rules
make_vehicle_bench
make_vehicle_types
make_vehicle_typed
prove vehicle_bench
prove vehicle_typed
compile $flags "$here/vehicle/alone.c"
mv "$work/plain" "$work/alone"
compile $flags "$here/vehicle/plain.c"
generate "$here/vehicle" vehicle.asn1 $flags

# measured WHO COMMAND..: the lines of a program, with instructions in place of times if these are wanted.
measured() {
    who=$1
    shift
    if [ "$wanted" = time ]; then
        timed "$who" "$@"
        return
    fi
    rm -f "$work"/counted*
    callgrind --dump-before='clock_gettime*' --callgrind-out-file="$work/counted" "$@" > "$work/said" 2> "$work/log" \
        || { tail -20 "$work/log" >&2; exit 1; }
    awk -v who="$who" -v counted="$work/counted." '{
        file = counted 2 * NR
        while ((getline line < file) > 0) if (line ~ /^totals: /) print who, $1, substr(line, 9), $3
        close(file)
    }' "$work/said" >> "$work/times"
}

: > "$work/times"
for round in $([ "$wanted" = time ] && echo 1 2 3 4 5 || echo 1); do
    measured plain "$work/plain"
    measured plain "$work/alone"
    [ -z "$generated" ] || measured asn1c "$generated"
    measured types "$work/crates/vehicle_typed/out/vehicle_typed" ${few:-all}
    measured here "$work/crates/vehicle_bench/out/vehicle_bench" ${few:-all}
done
awk -v wanted="$wanted" '
    { key = $1 " " $2; if (!(key in best) || $3 < best[key]) best[key] = $3; if (!(key in seen)) { seen[key] = 1; order[++n] = key }
      work = $2; sub(/^write_messages_in/, "recode_messages_to", work)
      if ($2 ~ /^read/) next
      if ((work in sum) && sum[work] != $4) { print work ": the sums differ"; exit 1 }
      sum[work] = $4 }
    END {
        for (i = 1; i <= n; i++) {
            units = order[i] ~ /messages|records/ ? 1000000 : 8388608
            if (wanted == "count") printf "%-32s %10.1f\n", order[i], best[order[i]] / int(units / 100)
            else printf "%-32s %10.1f ms %12.0f a second\n", order[i], best[order[i]] / 1000, units * 1000000 / best[order[i]]
        }
    }' "$work/times"
