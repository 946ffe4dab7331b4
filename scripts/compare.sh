#!/bin/sh
# Compares release/ with what rt has built of the sources as they are. The last line is 'N passed, M failed'; the status
# is 0 exactly where nothing failed, and 2 where release/ was built from other sources. Under another toolchain than
# release/ names nothing is compared.
set -eu
unset CDPATH
cd "$(dirname "$0")/.."
kit=$(dirname "$(rt doc)")

end() {
    echo "release: $1"
    echo "$2 passed, $3 failed"
    exit "${4-$3}"
}

if [ "$(cat release/SOURCES)" != "$(sh scripts/sources.sh)" ]; then
    end "it was built from other sources; 'make release' writes it anew" 0 1 2
fi
if [ "$(cat release/KIT)" != "$(rt version)" ]; then
    end "not compared: it was proved by $(cat release/KIT), and this is $(rt version)" 0 0
fi
for name in syslogbox libsyslogbox; do
    [ -f "release/$name.o.gz" ] || end "FAILED: it lacks the object of $name" 0 1
done
programs=syslogbox
# the programs that tests run may be left out of a release
for name in fault_injection store_trial; do
    if [ -f "release/$name.o.gz" ]; then
        programs="$programs $name"
    elif grep -q " $name.o\$" release/SHA256SUMS; then
        end "FAILED: its files are not those of its checksums" 0 1
    else
        echo "release: it has no object of $name"
    fi
done
sh scripts/unpack.sh || end "FAILED: its files are not those of its checksums" 0 1
cd build/release
for archive in libos_c.a liblibc_c.a; do
    cmp "$archive" "$kit/c/$archive" || end "FAILED: $archive is not the toolchain's" 0 1
done
for name in $programs; do
    built=../../crates/$name/out/$name
    # the program, as rt links it, is there also where the object is not
    "$kit/bin/rattle-link" --target x86_64-unknown-linux-gnu --toolchain "$kit/toolchain" \
        -o "$name" "$name.o" libos_c.a liblibc_c.a || end "FAILED: its object of $name does not link" 0 1
    cmp "$name" "$built" || end "FAILED: its program $name is not the one that these sources give" 0 1
    if [ -f "$built.o" ]; then
        cmp "$name.o" "$built.o" || end "FAILED: its object of $name is not the one that these sources give" 0 1
    fi
done
library=../../crates/c_library/out/libc_library.a
if [ -f $library ]; then
    ar p $library | cmp libsyslogbox.o - || end "FAILED: its library is not the one that these sources give" 0 1
fi
end "it is what these sources give" 1 0
