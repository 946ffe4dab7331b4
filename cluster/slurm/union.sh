#!/usr/bin/env bash
# The archive of the records of many archives, by Slurm: a plan, an array of ranges behind it, and their concatenation
# behind that. usage: slurm/union.sh LIST OUT RANGES [JOBS]
#
# LIST has the name of an archive in each line. It, the archives, this folder and OUT are in a file system that all
# nodes share. JOBS ranges run at once, by default as many as there is room for. RANGES are less than MaxArraySize of
# slurm.conf. What is done is in OUT.work, with the logs of the jobs; a run that failed goes on from there when it is
# run again; remove the folder when OUT is there. Options for sbatch, as a partition, come by its variables (SBATCH_..).
set -euo pipefail
shopt -s inherit_errexit
if (($# < 3 || $# > 4)); then
    echo "usage: slurm/union.sh LIST OUT RANGES [JOBS]" >&2
    exit 2
fi
if ! command -v sbatch > /dev/null; then
    echo "union.sh: Slurm's sbatch is not here; Debian's package is slurm-client" >&2
    exit 2
fi
here=$(dirname "$(realpath "$0")")
list=$(realpath "$1")
out=$(realpath -m "$2")
work=$out.work
ranges=$3
array=0-$ranges${4:+%$4}

mkdir -p "$work/logs" "$work/ranges"
submit() { # LOG WORD..: the number of a job
    local job
    job=$(sbatch --parsable --kill-on-invalid-dep=yes --output "$work/logs/$1" "${@:2}")
    echo "${job%%;*}" # without the name of a cluster
}
plan=$(submit plan "$here/task.sh" "$here/../plan.py" "$list" "$work" "$ranges")
joined=$(submit range.%a --dependency "afterok:$plan" --array "$array" "$here/task.sh" "$here/../range.sh" "$work")
last=$(submit concat --dependency "afterok:$joined" "$here/task.sh" "$here/../concat.sh" "$work" "$out")
echo "jobs $plan, $joined and $last" >&2

# the jobs go on where this is stopped
ended='COMPLETED|CANCELLED|FAILED|TIMEOUT|NODE_FAIL|BOOT_FAIL|DEADLINE|OUT_OF_MEMORY|PREEMPTED'
untold=0 # how often in turn the state was not told
until state=$(squeue --noheader --states all --jobs "$last" --format %T || true) && [[ $state =~ $ended ]]; do
    [[ $state ]] && untold=0
    ((untold++ < 15)) || break
    sleep 2
    there=$(find "$work/ranges" -name '[0-9]*' | wc -l)
    echo "$there of $((ranges + 1)) ranges are there" >&2
done
if [[ $state != COMPLETED ]]; then
    echo "the last job: ${state:-unknown}; see $work/logs" >&2
    exit 1
fi
