#!/bin/bash
#SBATCH --job-name=ept-merge --output=ept-merge.log --cpus-per-task=4
# Copies the parts into the folder of the dataset, and merges them.
# Usage: merge.sh SURVEY.ENV
set -euo pipefail
. "$1"
for octants in "${PARTS[@]}"; do
  part=ept-work/part-${octants//,/}
  from=$OUT-${octants//,/}/$part to=$OUT/$part
  mkdir -p "$to"
  rm -f "$to/gate"                                               # a copy counts only if it is whole:
  sync                                                           # without a gate there is no part,
  tar -C "$from" --exclude=./gate -cf - . | tar -C "$to" -xf -
  sync                                                           # and once all other files are flushed
  cp "$from/gate" "$to/gate"                                     # the gate comes last
done
sync
exec "$TOOL" merge "$CONFIG" "$OUT" "${PARTS[@]}"
