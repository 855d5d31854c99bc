#!/bin/sh
# Judges one covering file: NAME.cover gives NAME.verdict, one line with the file's name, the exit status of `mcb check` and what
# it wrote. The status is that of the check.
# usage: tools/many-jobs/judge.sh NAME.cover        MCB: the program (default: the script ./mcb of the repository)
program=${MCB:-$(dirname -- "$0")/../../mcb}
text=$("$program" check <"$1")
status=$?
echo "${1#./} $status $text" >"${1%.cover}.verdict"
exit "$status"
