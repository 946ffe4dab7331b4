#!/bin/sh
# Tries the programs that were built from these sources, or else those of release/, which gcc links: linters, what is handed
# out, and tests/run.py. Needs no toolchain. The last line is 'N passed, M failed' over all parts; the status is 0 exactly where
# nothing failed, and 2 where gcc or python3 is not here.
set -u
unset CDPATH
cd "$(dirname "$0")/.." || exit 1
for name in gcc python3; do
    if ! command -v "$name" > /dev/null; then
        echo "The tests need $name, which is not here." >&2
        exit 2
    fi
done
# a library whose name has a space or a colon cannot be preloaded
case ${TMPDIR-} in *[[:space:]:]*) unset TMPDIR ;; esac
. scripts/parts.sh

sh scripts/link.sh syslogbox fault_injection store_trial || exit 1
# the parts that need a program that is not there are left out, and told
for name in syslogbox fault_injection store_trial; do
    if [ -x "build/$name" ]; then set -- "$@" "build/$name"; else set -- "$@" -; fi
done
part sh scripts/lint.sh
part python3 tests/release/run.py build/syslogbox
part python3 tests/run.py "$@"
end_parts
