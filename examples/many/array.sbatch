#!/bin/bash
#SBATCH --job-name=virage
#SBATCH --ntasks=1
#SBATCH --cpus-per-task=1
# The task of a Slurm array job that takes the part of its number: the command, with that part as its last word.
#   sbatch --array=0-9 examples/many/array.sbatch FOLDER examples/many/part RULE
set -eu
part=$(printf '%s/part.%05d' "$1" "${SLURM_ARRAY_TASK_ID:?this is a task of an array}")
exec "${@:2}" "$part"
