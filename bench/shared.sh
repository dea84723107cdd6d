# Shared by the benchmarks. A script that reads this file has set here to the folder bench, and work to the folder in
# which everything is built.
#
# RT is the command that proves and builds, rt by default; CC the compiler of C, clang by default; RUN a command that
# starts each program that is timed, such as taskset -c 3, empty by default.
set -e
top=$here/..
generated=
mkdir -p "$work/crates"

# The lines of crates.txt for these packages and for all that they use.
reached() {
    awk -v wanted="$*" '
        function reach(name,   words, count, i) {
            if (!(name in line) || (name in seen)) return
            seen[name] = 1
            count = split(uses[name], words, " ")
            for (i = 1; i <= count; i++) reach(words[i])
            print line[name]
        }
        /^[a-z]/ { split($0, parts, ":"); split(parts[1], words, " "); line[words[1]] = $0; uses[words[1]] = parts[2] }
        END { count = split(wanted, names, " "); for (i = 1; i <= count; i++) reach(names[i]) }' "$top/crates.txt"
}

# take_packages NAME..: copies these packages and all that they use, and links to their libraries if these are newer
# than the copy's. rt makes such a folder anew when it builds.
take_packages() {
    reached "$@" > "$work/crates.txt"
    for name in $(sed 's/[ :].*//' "$work/crates.txt"); do
        from=$top/crates/$name
        to=$work/crates/$name
        mkdir -p "$to/out"
        for part in src specs proofs; do
            rm -rf "${to:?}/$part"
            [ ! -d "$from/$part" ] || cp -r "$from/$part" "$to/$part"
        done
        if [ -e "$from/out/rlib/stamp" ] && { [ ! -e "$to/out/rlib/stamp" ] || [ "$from/out/rlib/stamp" -nt "$to/out/rlib/stamp" ]; }; then
            rm -rf "$to/out/rlib"
            cp -rl "$from/out/rlib" "$to/out/" 2> "$work/found" || cp -r "$from/out/rlib" "$to/out/"
        fi
    done
}

# make_package NAME USES MODULE=FILE..: a package of the benchmark itself; each of its modules is a file below bench.
make_package() {
    name=$1
    echo "$name: $2" >> "$work/crates.txt"
    shift 2
    rm -rf "${work:?}/crates/$name/src"
    mkdir -p "$work/crates/$name/src"
    for module in "$@"; do
        cp "$here/${module#*=}" "$work/crates/$name/src/${module%%=*}.rt"
    done
}

# The packages below the types of «Types» and «Kinds», those of «Scalars», constraints of these, and the codecs.
schema='asn1_model asn1_schema_authored asn1_schema_constraints asn1_schema_constructed asn1_schema_decode asn1_schema_encode'
schema="$schema asn1_schema_errors asn1_schema_laws asn1_schema_tags asn1_schema_types asn1_schema_wrapped asn1_values_octets"
scalars='asn1_schema_example asn1_values_bit_strings asn1_values_identifiers asn1_values_integers asn1_values_octets'
scalars="$scalars asn1_values_strings"
constraints='asn1_model asn1_schema_constraints asn1_schema_laws asn1_schema_types asn1_schema_wrapped'
codecs='asn1_schema_decode asn1_schema_encode asn1_schema_errors oer_codec per_codec'

# make_bench_common, make_bench_rules, make_types_bench, make_scalars_bench, make_kinds_types, make_kinds_bench,
# make_kinds_recode, make_tables_bench, make_vehicle_bench, make_vehicle_types, make_vehicle_typed: the packages with
# these names.
make_bench_common() {
    make_package bench_common '' lib=common.in
}
make_bench_rules() {
    make_package bench_rules "$codecs" lib=rules.in
}
make_types_bench() {
    make_package types_bench "$schema bench_common bench_rules anyhow" main=types/main.in sample=types/sample.in
}
make_scalars_bench() {
    make_package scalars_bench "$scalars $constraints asn1_schema_decode asn1_schema_encode bench_common bench_rules anyhow" \
        main=scalars/main.in digits=scalars/digits.in scalar=scalars/scalar.in
}
make_kinds_types() {
    make_package kinds_types "$schema bench_common" lib=kinds/types.in added=kinds/added.in grown=kinds/grown.in made=kinds/made.in pick=kinds/pick.in
}
make_kinds_bench() {
    make_package kinds_bench "kinds_types bench_common bench_rules asn1_schema_decode asn1_schema_encode asn1_schema_errors anyhow" main=kinds/main.in
}
make_kinds_recode() {
    make_package kinds_recode "kinds_types bench_common asn1_relay_core asn1_schema_decode asn1_schema_encode anyhow" main=kinds/recode.in
}
make_tables_bench() {
    make_package tables_bench "kinds_types $schema bench_common asn1_relay_core asn1_table_nodes asn1_table_relay asn1_table_tape asn1_table_types per_codec_reading anyhow" \
        main=tables/main.in nodes=tables/nodes.in sample=types/sample.in
}
make_vehicle_bench() {
    make_package vehicle_bench 'asn1_values_bits bench_common asn1_notation_syntax asn1_notation_types asn1_relay_core asn1_table_relay anyhow' \
        main=vehicle/main.in messages=vehicle/messages.in
    {
        echo '//! The module.'
        echo "pub(crate) const MODULE: &[u8] = b\""
        sed 's/\\/\\\\/g; s/"/\\"/g' "$here/vehicle/vehicle.asn1"
        echo '";'
    } > "$work/crates/vehicle_bench/src/module.rt"
}

make_vehicle_types() {
    make_package vehicle_types 'asn1_schema asn1_values' \
        lib=vehicle/types.in awareness=vehicle/awareness.in bend=vehicle/bend.in kind=vehicle/kind.in motion=vehicle/motion.in \
        path=vehicle/path.in position=vehicle/position.in
    proof=$work/crates/vehicle_types/proofs/bend/BendAlternativeChoiceAlternatives/write_chosen
    mkdir -p "$proof"
    cp "$here/vehicle/bend_proof.in" "$proof/Answers.antt"
}
make_vehicle_typed() {
    make_package vehicle_typed 'vehicle_types bench_common bench_rules asn1_relay_core asn1_schema_errors asn1_values_bits anyhow' \
        main=vehicle/typed.in messages=vehicle/messages.in
}

# compile FLAG.. FILE: the work in C.
compile() {
    ${CC:-clang} -O2 -o "$work/plain" "$@"
}

# generate FOLDER SCHEMA [FLAG..]: the work in the code that asn1c generates from a schema, if asn1c is installed.
generate() {
    command -v asn1c > "$work/found" || return 0
    rm -rf "$work/generated"
    mkdir -p "$work/generated"
    (cd "$work/generated" && asn1c -gen-PER -fcompound-names "$1/$2" > log 2>&1 && rm -f converter-sample.c)
    generated=$work/asn1c
    folder=$1
    shift 2
    ${CC:-clang} -O2 -w "$@" -I"$work/generated" -o "$generated" "$folder/asn1c.c" "$work"/generated/*.c
}

# prove PROGRAM [WORD..]: proves a program, with all packages that are not built yet, builds it, and runs it with these
# words, or with `nothing`.
prove() {
    program=$work/crates/$1
    shift
    [ $# -gt 0 ] || set -- nothing
    (cd "$program" && ${RT:-rt} run -- "$@" > "$work/first" 2> "$work/log") || { tail -20 "$work/log" >&2; exit 1; }
}

# callgrind WORD..: runs a command under callgrind, after its options. Callgrind counts each octet that `rep movsb` moves as
# an instruction; so here the C library moves long runs by vectors, as it does shorter ones.
callgrind() {
    GLIBC_TUNABLES=glibc.cpu.x86_rep_movsb_threshold=0x40000000:glibc.cpu.x86_rep_stosb_threshold=0x40000000 \
        valgrind --tool=callgrind "$@"
}

# timed WHO COMMAND..: the lines that a program prints for its works, each after WHO.
timed() {
    who=$1
    shift
    $RUN "$@" > "$work/said" || { echo "$*: it failed" >&2; exit 1; }
    sed "s/^/$who /" "$work/said" >> "$work/times"
}

# measure PROGRAM [WORD]: runs the work in C, in generated code and in the proved program five times in turn, and prints
# the best times as a table, each times scale.
measure() {
    : > "$work/times"
    for round in 1 2 3 4 5; do
        timed plain "$work/plain"
        [ -z "$generated" ] || timed asn1c "$generated"
        timed proved "$work/crates/$1/out/$1" $2
    done
    awk -v scale="$scale" -f "$here/table.awk" "$work/times"
}
