#!/bin/bash
# Builds a dataset by Slurm: a task for each part, and after all of them the merge.
# Usage: slurm.sh SURVEY.ENV
set -euo pipefail
. "$1"
here=$(dirname "$0")
parts=$(sbatch --parsable --array="0-$((${#PARTS[@]} - 1))" "$here/part.sh" "$1")
merge=$(sbatch --parsable --dependency="afterok:$parts" --kill-on-invalid-dep=yes "$here/merge.sh" "$1")
echo "parts: job $parts, merge: job $merge"
