#!/bin/sh
# bench/routes/run.sh [FOLDER]: times routes of 10^6 messages over one, two and three hops, and compares them with the
# same translations by `recode`. The rest is as in bench/run.sh.
here=$(cd "$(dirname "$0")/.." && pwd)
work=${1:-$(mktemp -d)}
. "$here/shared.sh"
take_packages $schema asn1_schema_authored asn1_relay_types asn1_relay_core
make_bench_common
make_package routes_types "$schema asn1_relay_types bench_common" lib=routes/types.in added=kinds/added.in grown=kinds/grown.in versions=routes/versions.in
make_package routes_bench "routes_types bench_common asn1_relay_core asn1_relay_types anyhow" main=routes/main.in
prove routes_bench
: > "$work/times"
for round in 1 2 3 4 5; do
    timed proved "$work/crates/routes_bench/out/routes_bench" memory
done
awk '
    { split($2, name, "_"); if (!($2 in best) || $3 < best[$2]) best[$2] = $3 }
    (name[2] in sum) && sum[name[2]] != $4 { wrong = 1 }
    { sum[name[2]] = $4 }
    END {
        if (wrong) { print "the sums differ"; exit 1 }
        print "| 10^6 messages | `recode`, hop by hop | `route` | ratio |\n|---|---|---|---|"
        for (n = 1; n <= 3; n++)
            printf "| %d hop%s | %.0f | %.0f | %.2f |\n", n, (n > 1 ? "s" : ""), best["recode_" n] / 1000, best["route_" n] / 1000, best["route_" n] / best["recode_" n]
    }' "$work/times"
