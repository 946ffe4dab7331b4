#!/bin/sh
# Lays the objects of release/, and the C archives that they are linked with, into build/release, by their checksums.
set -eu
unset CDPATH
cd "$(dirname "$0")/.."
machine=$(uname -sm)
if [ "$machine" != "Linux x86_64" ]; then
    echo "There is no object for $machine: release/ has one for Linux x86_64 alone." >&2
    exit 1
fi
mkdir -p build/release
for packed in release/*.o.gz; do
    object=${packed#release/}
    gzip -dc "$packed" > "build/release/${object%.gz}"
done
cp release/libos_c.a release/liblibc_c.a build/release/
cd build/release
sha256sum --quiet -c ../../release/SHA256SUMS
