#!/bin/sh
# Covers one job: NAME.job gives NAME.cover where the covering is complete, and NAME.open, with status 1, where boxes were left
# uncovered. Nothing is done where NAME.cover is newer than the job.
# usage: tools/many-jobs/cover.sh NAME.job        MCB: the program (default: the script ./mcb of the repository)
name=${1%.job}
program=${MCB:-$(dirname -- "$0")/../../mcb}
[ -f "$name.cover" ] && [ -z "$(find "$1" -newer "$name.cover")" ] && exit 0
rm -f "$name.cover" "$name.open" "$name.verdict"
"$program" cover <"$1" >"$name.part"
status=$?
case $status in
0) mv "$name.part" "$name.cover" ;;
1) mv "$name.part" "$name.open" ;;
*) rm -f "$name.part" ;;
esac
[ "$status" -eq 0 ] || echo "$1: cover ended with $status" >&2
exit "$status"
