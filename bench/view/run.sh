#!/bin/sh
# Prints the time of `view` over three usual records, those of memchr, `decode`, `to_record`, `canon` and
# `write_canonical_view` as ratios to it, and the times of records with 13,000 ids in ascending, descending and
# scattered order beside a record of as many octets with one id. Elapsed times, each the least of seven runs.
# `to_record` of the descending ids is to take at most 5 times their `view`, and that at most 20 times the view of one
# id.
# The program is proved and built in a copy of the crates.
set -eu
unset CDPATH
top=$(cd "$(dirname "$0")/../.." && pwd)
copy=$(mktemp -d)
trap 'rm -rf "$copy"' EXIT
mkdir "$copy/crates"
for crate in octet_language octet_devices syslog_value syslog_fields syslog_reading syslog_grammar; do
    cp -r "$top/crates/$crate" "$copy/crates"
    grep "^$crate:" "$top/crates.txt" >> "$copy/crates.txt"
done
echo 'view_bench: syslog_grammar syslog_value memchr' >> "$copy/crates.txt"
mkdir -p "$copy/crates/view_bench/src" "$copy/crates/view_bench/specs" "$copy/crates/view_bench/proofs"
cp "$top/bench/view/main.txt" "$copy/crates/view_bench/src/main.rt"
: > "$copy/crates/view_bench/specs/Lib.antt"
: > "$copy/crates/view_bench/proofs/Lib.antt"
git -C "$copy" init -q
cd "$copy/crates/view_bench"
rt run 2>/dev/null
