#!/bin/sh
# Links programs in build/ from their objects in release/, unless they stand there, built from these very sources, and says of
# which sources they are: link.sh [NAME..], syslogbox where none is named.
set -eu
unset CDPATH
cd "$(dirname "$0")/.."
sources=$(sh scripts/sources.sh)

linked=false
for name in "${@:-syslogbox}"; do
    if [ -x "build/$name" ] && [ "$(cat "build/$name.sources" 2> /dev/null)" = "$sources" ]; then
        echo "build/$name was built from the sources as they are ($sources)"
        continue
    fi
    if [ ! -f "release/$name.o.gz" ]; then
        # what is left there is of other sources
        rm -f "build/$name" "build/$name.sources"
        echo "release/ lacks the object of $name, so that build/$name is not there."
        continue
    fi
    $linked || sh scripts/unpack.sh
    (cd build/release && gcc -Wl,-z,relro,-z,now -o "../$name" "$name.o" libos_c.a liblibc_c.a)
    cp release/SOURCES "build/$name.sources"
    linked=true
    echo "build/$name is linked from release/"
done
$linked || exit 0
echo "release/ was proved by $(cat release/KIT), and built from the sources"
cat release/SOURCES
if [ "$(cat release/SOURCES)" != "$sources" ]; then
    echo "These sources ($sources) are different: 'make proved' proves and builds them."
fi
