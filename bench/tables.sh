#!/bin/sh
# bench/tables.sh [FOLDER]: runs all benchmarks of speed, one after another, in a folder of its own, and prints their
# times as tables in Markdown. RT, CC and RUN are as in shared.sh.
set -e
here=$(cd "$(dirname "$0")" && pwd)
work=${1:-$(mktemp -d)}
echo "## vehicle"
echo
"$here/vehicle/run.sh" time "$work"
echo
"$here/vehicle/stream.sh" "$work"
echo
echo "## bits"
echo
"$here/run.sh" "$work"
for rules in coer oer uper aper; do
    echo
    echo "## types, $rules"
    echo
    "$here/types/run.sh" $rules "$work"
done
for rules in coer oer uper aper; do
    echo
    echo "## scalars, $rules"
    echo
    "$here/scalars/run.sh" $rules "$work"
done
for rules in coer oer uper aper recode recode_aligned; do
    echo
    echo "## kinds, $rules"
    echo
    "$here/kinds/run.sh" $rules "$work"
done
for name in streams routes; do
    echo
    echo "## $name"
    echo
    "$here/$name/run.sh" "$work"
done
