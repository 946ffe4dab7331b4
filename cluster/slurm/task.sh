#!/usr/bin/env bash
# A job of slurm/union.sh: a program with its words and, in an array, the number of the task. One that fails
# or is killed is put into the queue again, at most three times.
#SBATCH --ntasks=1
#SBATCH --cpus-per-task=1
#SBATCH --requeue
#SBATCH --open-mode=append
set -euo pipefail
if "$@" ${SLURM_ARRAY_TASK_ID:+"$SLURM_ARRAY_TASK_ID"}; then
    exit 0
fi
if ((${SLURM_RESTART_COUNT:-0} < 3)); then
    # the id of an array alone would name all of its tasks
    task=${SLURM_ARRAY_JOB_ID:+${SLURM_ARRAY_JOB_ID}_$SLURM_ARRAY_TASK_ID}
    scontrol requeue "${task:-$SLURM_JOB_ID}"
    sleep 60 # until it is ended
fi
exit 1
