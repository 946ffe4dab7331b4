#!/bin/sh
# Writes release/ from the objects that 'make check' or 'make proved' has built of the sources as they are.
set -eu
unset CDPATH
cd "$(dirname "$0")/.."
made=build/proved
kit=$(dirname "$(rt doc)")
sources=$(sh scripts/sources.sh)
names=
for name in syslogbox libsyslogbox fault_injection store_trial; do
    if [ "$(cat "$made/$name.of" 2> /dev/null)" = "$sources $(rt version)" ]; then
        names="$names $name"
        continue
    fi
    echo "No object of $name is built of these sources by this toolchain: 'make check' or 'make proved' does." >&2
    # a release may lack the programs that tests run
    case $name in syslogbox | libsyslogbox) exit 1 ;; esac
done
mkdir -p release
rm -f release/*.o.gz
cp "$kit/c/libos_c.a" "$kit/c/liblibc_c.a" release/
for name in $names; do
    gzip -9nc "$made/$name.o" > "release/$name.o.gz"
    (cd "$made" && sha256sum "$name.o")
done > release/SHA256SUMS
(cd release && sha256sum libos_c.a liblibc_c.a) >> release/SHA256SUMS
echo "$sources" > release/SOURCES
rt version > release/KIT
sh scripts/compare.sh
