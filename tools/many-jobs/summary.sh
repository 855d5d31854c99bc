#!/bin/sh
# Gathers the verdicts below the current folder in check.log: first what program judged them, by the commit that it was built
# from, the git tree of its sources and the kit; then one line for each covering, and for each job without one. Writes the sum,
# and each line that is not `accepted`; the status is 1 where there is one, or no verdict at all.
# usage: cd FOLDER && tools/many-jobs/summary.sh        MCB: the program (default: the script ./mcb of the repository)
program=${MCB:-$(dirname -- "$0")/../../mcb}

of_program() {
    git -C "$(dirname -- "$program")" "$@" 2>/dev/null
}

identity() {
    changes=$(of_program status --porcelain -- :/crates :/crates.txt)
    echo "commit $(of_program describe --always || echo unknown)${changes:+ and changes}"
    echo "crates $(of_program rev-parse HEAD:crates || echo unknown)"
    rt version || echo 'kit unknown'
}

verdicts() {
    find . -name '*.job' -o -name '*.cover' | sed -e 's/^\.\///' -e 's/\.[a-z]*$//' | LC_ALL=C sort -u | while read -r name; do
        if [ ! -f "$name.cover" ]; then
            echo "$name.job - not covered"
        else
            cat "$name.verdict" || echo "$name.cover - not judged"
        fi
    done
}

{ identity && verdicts; } >check.log
awk 'NR <= 3 { next }
    $2 == "0" && $3 == "accepted" { files++; split($4, count, "="); nodes += count[2]; next }
    { others++; print }
    END { printf "%d accepted, %d nodes in all; %d not accepted\n", files, nodes, others; exit files == 0 || others > 0 }' check.log
