#!/bin/sh
# bench/vehicle/stream.sh [FOLDER]: translates 64 MiB of messages of vehicles, one after another, from UPER to COER and
# back, by `asn1_relay stream` over vehicle.asn1 and in C by hand between `fread` and `fwrite`. It fails if they write
# different octets. It prints, of five runs of each, the fewest seconds of processor, the most memory, and the shortest
# time until the first octet is out. RT, CC and RUN are as in shared.sh.
here=$(cd "$(dirname "$0")/.." && pwd)
work=${1:-$(mktemp -d)}
. "$here/shared.sh"
take_packages asn1_relay
prove asn1_relay types --module "$here/vehicle/vehicle.asn1"
compile "$here/vehicle/stream.c"
"$work/plain" make > "$work/messages.uper"
"$work/plain" run uper coer < "$work/messages.uper" > "$work/messages.coer"

# run_file WHO FROM TO COMMAND..: translates the file, and prints what that takes.
run_file() {
    who=$1 from=$2 to=$3
    shift 3
    rm -f "$work/costs"
    for round in 1 2 3 4 5; do
        "$work/plain" watch "$work/costs" $RUN "$@" < "$work/messages.$from" > "$work/answer"
        cmp "$work/answer" "$work/messages.$to"
    done
    awk -v name="$who, $from to $to" '
        NR == 1 || $1 < best { best = $1 }
        $2 > most { most = $2 }
        NR == 1 || $3 < first { first = $3 }
        END { printf "| %s | %.2f | %.1f | %.1f |\n", name, best, most / 1024, first }' "$work/costs"
}

echo "| 64 MiB of messages | seconds of processor | MiB of memory | ms to the first octet |"
echo "|---|---|---|---|"
for way in 'uper coer' 'coer uper'; do
    set -- $way
    run_file C "$1" "$2" "$work/plain" run "$1" "$2"
    run_file here "$1" "$2" "$work/crates/asn1_relay/out/asn1_relay" stream --module "$here/vehicle/vehicle.asn1" \
        --type Awareness --from "$1" --to "$2" --limit 1000
done
