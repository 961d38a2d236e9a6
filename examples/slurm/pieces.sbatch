#!/bin/sh
# One piece of a sweep for each task of an array; from the folder that is to hold the pieces:
#
#     sbatch --wait --array=1-8 pieces.sbatch slow-member.toml --seeds 1..200 --set suspicion.alpha=2,4,6
#     swimsim join piece-*.csv --table runs.csv
#
# A task that is run again goes on after the last whole line of its piece; a piece of another sweep in the folder is
# refused, so remove it first. SWIMSIM names the program, where it isn't on the path.
#SBATCH --job-name=swimsim
#SBATCH --array=1-8
#SBATCH --output=piece-%a.log
set -eu
number=$SLURM_ARRAY_TASK_ID
exec "${SWIMSIM:-swimsim}" sweep "$@" --table "piece-$number.csv" \
    --shard "$number/$SLURM_ARRAY_TASK_COUNT" --resume --workers "${SLURM_CPUS_PER_TASK:-1}"
