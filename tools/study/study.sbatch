#!/usr/bin/env bash
#SBATCH --job-name=hexmatch
#SBATCH --cpus-per-task=1
# study.sbatch STUDY FOLDER: one task of a Slurm array of N, which plays every N-th block of a study. `make slurm` starts it in
# this folder; started once more it plays what is left.
status=0
for ((block = SLURM_ARRAY_TASK_ID; block < $(../strength count "$1"); block += SLURM_ARRAY_TASK_COUNT)); do
    ../strength block "$1" "$block" "$2" || status=1
done
exit "$status"
