#!/bin/sh
# Covers the jobs of a folder, N at a time, and judges the coverings, with GNU parallel; then the summary. What was covered and
# judged in an earlier run is not done again.
# usage: tools/many-jobs/parallel.sh FOLDER [N]        MCB: the program (default: the script ./mcb of the repository)
tools=$(CDPATH='' cd -- "$(dirname -- "$0")" && pwd -P) || exit 1
MCB=$(realpath -- "${MCB:-$tools/../../mcb}") || exit 1
export MCB tools
"$MCB" word <"$tools/../../examples/123123.word" >/dev/null || exit 1
cd -- "$1" || exit 1
# shellcheck disable=SC2016 # parallel's own shells read the variables
find . -name '*.job' | LC_ALL=C sort | parallel -j "${2:-100%}" '"$tools/cover.sh" {} && "$tools/judge.sh" {.}.cover'
"$tools/summary.sh"
