#!/bin/bash
# Builds a dataset by GNU parallel: the parts on the machines that are named, and then the merge on this one.
# Usage: parallel.sh SURVEY.ENV [--sshlogin 4/HOST,4/HOST ..]     (any options of parallel)
set -euo pipefail
. "$1"
parallel --quote --workdir "$PWD" --joblog "$OUT.jobs" --resume-failed "${@:2}" \
  "$TOOL" part "$CONFIG" "$OUT-{= s/,//g =}" {} ::: "${PARTS[@]}"
exec bash "$(dirname "$0")/merge.sh" "$1"
