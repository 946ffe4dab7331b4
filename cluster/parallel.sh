#!/usr/bin/env bash
# The archive of the records of many archives, on all cores of one machine, by GNU parallel.
# usage: parallel.sh LIST OUT [RANGES [JOBS]]
#
# LIST has the name of an archive in each line. RANGES are by default four for each core, JOBS that run at once one for
# each core. What is done is in OUT.work, and a run that was stopped goes on from there when it is run again; remove the
# folder when OUT is there. Pieces are in TMPDIR (/tmp); SYSLOGBOX names the program.
set -euo pipefail
if (($# < 2 || $# > 4)); then
    echo "usage: parallel.sh LIST OUT [RANGES [JOBS]]" >&2
    exit 2
fi
# moreutils has another program of this name
if [[ $(parallel --version 2> /dev/null) != "GNU parallel"* ]]; then
    echo "parallel.sh: GNU parallel is not here; Debian's package is parallel" >&2
    exit 2
fi
if ! command -v "${SYSLOGBOX:-syslogbox}" > /dev/null; then
    echo "parallel.sh: ${SYSLOGBOX:-syslogbox} is not here; put it on the path, or name it by SYSLOGBOX" >&2
    exit 2
fi
here=$(dirname "$(realpath "$0")")
list=$1
out=$2
cores=$(nproc)
ranges=${3:-$((4 * cores))}
jobs=${4:-$cores}

"$here/plan.py" "$list" "$out.work" "$ranges"
seq 0 "$ranges" |
    parallel --will-cite --quote --line-buffer --jobs "$jobs" --retries 3 --halt soon,fail=1 \
        "$here/range.sh" "$out.work"
"$here/concat.sh" "$out.work" "$out"
