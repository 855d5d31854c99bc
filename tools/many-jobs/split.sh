#!/bin/sh
# Splits a job: each polygon is cut from its first corner into triangles, and each of these N times into four by the middles of
# its sides, so that the triangles together are the region. FOLDER gets a job in version 3 for each, with the words and the depth
# of the job that is read. The new grid is 2^N times as fine.
# usage: tools/many-jobs/split.sh N FOLDER <JOB
mkdir -p -- "$2" || exit 1
awk -v times="$1" -v folder="$2" '
    function halves(n, ax, ay, bx, by, cx, cy) {
        if (n == 0) {
            file = sprintf("%s/part%05d.job", folder, ++files)
            printf "mcbjob 3\ngrid %d\nregions 1\npolygon 3\n%d %d\n%d %d\n%d %d\n%s", grid, ax, ay, bx, by, cx, cy, rest >file
            close(file)
            return
        }
        halves(n - 1, ax, ay, (ax + bx) / 2, (ay + by) / 2, (cx + ax) / 2, (cy + ay) / 2)
        halves(n - 1, (ax + bx) / 2, (ay + by) / 2, bx, by, (bx + cx) / 2, (by + cy) / 2)
        halves(n - 1, (cx + ax) / 2, (cy + ay) / 2, (bx + cx) / 2, (by + cy) / 2, cx, cy)
        halves(n - 1, (bx + cx) / 2, (by + cy) / 2, (cx + ax) / 2, (cy + ay) / 2, (ax + bx) / 2, (ay + by) / 2)
    }
    $1 == "grid" { scale = 2 ^ times; grid = $2 * scale }
    $1 == "polygon" { polygons++; corners[polygons] = 0; inside = 1; next }
    $1 == "words" { inside = 0; words = 1 }
    inside { k = ++corners[polygons]; x[polygons, k] = $1 * scale; y[polygons, k] = $2 * scale }
    words { rest = rest $0 "\n" }
    END {
        if (grid > 1048576) { print "split: the grid would be finer than 1048576" >"/dev/stderr"; exit 1 }
        for (p = 1; p <= polygons; p++)
            for (k = 2; k < corners[p]; k++)
                halves(times, x[p, 1], y[p, 1], x[p, k], y[p, k], x[p, k + 1], y[p, k + 1])
        print files " jobs"
    }'
