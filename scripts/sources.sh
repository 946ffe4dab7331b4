#!/bin/sh
# Prints the checksum of the sources: of the sorted list of all files that a proof reads, with the checksum of each.
set -eu
unset CDPATH
cd "$(dirname "$0")/.."
find crates/*/src crates/*/specs crates/*/proofs crates.txt HANDLES -type f |
    LC_ALL=C sort | tr '\n' '\0' | xargs -0 sha256sum | sha256sum | cut -d ' ' -f 1
