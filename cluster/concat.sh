#!/usr/bin/env bash
# The ranges of WORK, one behind the other, as OUT: the archive of the records of all inputs.
# usage: concat.sh WORK OUT
set -euo pipefail
export LC_ALL=C
work=$1
out=$2

part=$(mktemp "$out.XXXXXX")
trap 'rm -f "$part"' EXIT
for plan in "$work"/plan/?????; do
    cat "$work/ranges/${plan##*/}"
done > "$part"
chmod '=rw' "$part"
sync "$part"
mv -T "$part" "$out"
echo "$out: $(stat -c %s "$out") octets" >&2
