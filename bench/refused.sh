#!/bin/sh
# Refuses each request for memory in turn, in the tests of each named package, or of those of values and of the relay.
# For each call it prints how many requests the call makes, and the result of refusing them.
#
#   bench/refused.sh [PACKAGE..]
#
# With N from 1 on, all tests of a package are run with the Nth request of each refused. The tests named refused_* have
# to pass each time. A package without such a test is an error, because nothing would be checked. A test ample_X makes
# the same requests as refused_X, and fails if one was refused. A package is done with the first N from which on, twice
# in a row, all of its ample_* tests pass, or all of its tests if it has none. So refused_X has then met each request of
# ample_X. The requests of a test before its call count as its requests too. Tests of other names are run too, but are
# not checked if there are ample_* tests: those of asn1_relay_tests_memory that take all memory fail here, because a
# sanitizer's heap has no limit. Each run builds the tests anew, which takes a minute and a half of a processor in a
# package of the relay. Nothing is proved.
#
#   RT     the command that runs them, if it is not rt
#   JOBS   the number of parallel runs, if it is not one
here=$(cd "$(dirname "$0")/.." && pwd)
rt=${RT:-rt}
jobs=${JOBS:-1}
[ $# -gt 0 ] || set -- $(sed -n 's/^\(asn1_values_tests[a-z_]*\|asn1_relay_tests_memory\)[ :].*/\1/p' "$here/crates.txt")
[ $# -gt 0 ] || { echo "no package of such tests in crates.txt" >&2; exit 2; }
logs=$(mktemp -d)
trap 'rm -rf "$logs"' EXIT
status=0

# Whether the run with request $1 refused has ended, and each test that checks a refusal has passed.
is_right() {
    if ! grep -q '^test result: ' "$logs/$1"; then
        echo "$package: request $1: no answer"
        tail -5 "$logs/$1"
        return 1
    fi
    if ! grep -Eq '^test ([a-z0-9_]+::)*refused_[a-z0-9_]* \.\.\. ' "$logs/$1"; then
        echo "$package: no test refused_*, so nothing is judged"
        return 1
    fi
    if grep -E '^test ([a-z0-9_]+::)*refused_[a-z0-9_]* \.\.\. ' "$logs/$1" | grep -v ' \.\.\. ok$'; then
        echo "$package: wrong where request $1 is refused"
        return 1
    fi
}

# Whether no test that notices a refusal has met one.
has_met_none() {
    ! grep -E "^test ([a-z0-9_]+::)*$last \.\.\. " "$logs/$1" | grep -qv ' \.\.\. ok$'
}

# A line for each call: how often ample_X failed, and up to which N.
table() {
    awk -v package="$package" '
        FNR == 1 { n = FILENAME; sub(/.*\//, "", n); n += 0 }
        /^test .* \.\.\. / {
            name = $2
            sub(/.*::/, "", name)
            if (sub(/^ample_/, "", name) && !/ \.\.\. ok$/) { count[name]++; if (n > most[name]) most[name] = n }
            if (sub(/^refused_/, "", name)) judged[name] = 1
        }
        END {
            for (name in judged) {
                more = most[name] > count[name] ? " (of " most[name] ", the others not needed)" : ""
                printf "| `%s` | `%s` | %d%s | right |\n", package, name, count[name], more | "sort"
            }
        }' "$logs"/[0-9]*
}

for package in "$@"; do
    cd "$here/crates/$package" || exit 2
    last='[a-z0-9_]*'
    grep -rq '^fn ample_' src && last='ample_[a-z0-9_]*'
    rm -f "$logs"/*
    n=1
    without=0
    while [ $without -lt 2 ]; do
        side=0
        while [ $side -lt "$jobs" ]; do
            "$rt" try --test --fail-alloc $((n + side)) > "$logs/$((n + side))" 2>&1 < /dev/null &
            side=$((side + 1))
        done
        wait
        while [ $side -gt 0 ] && [ $without -lt 2 ]; do
            is_right $n || { status=1; break 2; }
            if has_met_none $n; then
                without=$((without + 1))
            else
                without=0
            fi
            n=$((n + 1))
            side=$((side - 1))
        done
    done
    [ $without -lt 2 ] || { echo "$package: each of $((n - 3)) requests refused"; table; }
done
exit $status
