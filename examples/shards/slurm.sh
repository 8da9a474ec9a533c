#!/bin/sh
# Writes a catalogue by 8 shards, each a task of a Slurm job array. Submit it at the top of the checkout:
#
#     job=$(sbatch --parsable examples/shards/slurm.sh catalogue.ds 20 --minimal)
#     sbatch --dependency=afterok:$job --wrap 'examples/shards/join catalogue.ds 8'
#
# A task that Slurm stops and puts back into the queue resumes its shard.
#SBATCH --array=1-8
#SBATCH --cpus-per-task=1
#SBATCH --mem=4G
#SBATCH --requeue
#SBATCH --open-mode=append
set -eu
out=$1
shift
exec "${SLURM_SUBMIT_DIR:-.}/examples/shards/part" "$out" "$SLURM_ARRAY_TASK_ID" "$SLURM_ARRAY_TASK_MAX" "$@"
