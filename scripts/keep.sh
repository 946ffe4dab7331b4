#!/bin/sh
# Keeps what rt has built: the programs in build/, and their objects and that of the library in build/proved, each with a
# file NAME.of that says of which sources and by which toolchain it is. 'make release' writes release/ from these. Where rt
# took one from an earlier run it leaves no object, and that which was kept stays.
set -eu
unset CDPATH
cd "$(dirname "$0")/.."
mkdir -p build/proved
sources=$(sh scripts/sources.sh)
of="$sources $(rt version)"
for name in syslogbox fault_injection store_trial; do
    built=crates/$name/out/$name
    cp "$built" "build/$name"
    echo "$sources" > "build/$name.sources"
    if [ -f "$built.o" ]; then
        cp "$built.o" "build/proved/$name.o"
        echo "$of" > "build/proved/$name.of"
    fi
done
library=crates/c_library/out/libc_library.a
if [ -f "$library" ]; then
    ar p "$library" > build/proved/libsyslogbox.o
    echo "$of" > build/proved/libsyslogbox.of
fi
