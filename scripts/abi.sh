#!/bin/sh
# Compares the binary interface of build/libsyslogbox.so.0 with the one that c/libsyslogbox.so.0.abi describes. What a program
# was built with may not change as long as the library has this name: a call may only be added, and then --write describes the
# interface anew. The status is 2 where libabigail is not here.
set -u
unset CDPATH
cd "$(dirname "$0")/.." || exit 1
library=build/libsyslogbox.so.0 described=c/libsyslogbox.so.0.abi

if ! command -v abidiff > /dev/null; then
    echo "The interface of the library is not compared: there is no abidiff here (Debian: abigail-tools)." >&2
    exit 2
fi
if [ "${1-}" = --write ]; then
    exec abidw --no-show-locs --no-corpus-path --no-comp-dir-path --out-file "$described" "$library"
fi

# what has changed or gone alone, and then whether anything has come
if ! abidiff --no-added-syms "$described" "$library"; then
    echo "Programs that were built with $described may not run with $library: it needs another name." >&2
    exit 1
elif ! abidiff "$described" "$library"; then
    echo "The interface has grown: run 'scripts/abi.sh --write', and commit $described." >&2
    exit 1
fi
echo "$library has the interface that $described describes."
