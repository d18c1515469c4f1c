#!/bin/bash
#SBATCH --job-name=ept-part --output=ept-part-%a.log --cpus-per-task=1
# One part, as a task of a job array: task 0 makes the first of PARTS.
# Usage: sbatch --array=0-3 part.sh SURVEY.ENV
. "$1"
octants=${PARTS[SLURM_ARRAY_TASK_ID]}
exec "$TOOL" part "$CONFIG" "$OUT-${octants//,/}" "$octants"
