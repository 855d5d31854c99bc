#!/bin/sh
# Draws the polygons of jobs or covering files as an SVG, a colour for each file: what the files together speak of. One unit is a
# thousandth of a degree; the angle at corner 1 grows to the right, that at corner 2 upwards. No tree is looked at, and nothing
# of this is proved.
# usage: tools/many-jobs/regions.sh FILE.. >SVG
exec awk '
    function lower(a, b) { return a < b ? a : b }
    function upper(a, b) { return a > b ? a : b }
    FNR == 1 { files++ }
    $1 == "grid" { scale = 180000 / $2 }
    $1 == "words" { due = 0; nextfile }
    due > 0 {
        x = int($1 * scale + 0.5)
        y = 180000 - int($2 * scale + 0.5)
        left = seen ? lower(left, x) : x
        top = seen ? lower(top, y) : y
        right = upper(right, x)
        bottom = upper(bottom, y)
        seen = 1
        text = text (due == count ? "" : " ") x "," y
        if (--due == 0)
            shapes = shapes sprintf("<polygon points=\"%s\" fill=\"hsl(%d,60%%,70%%)\" stroke=\"black\" stroke-width=\"40\"><title>%s</title></polygon>\n",
                text, files * 137 % 360, FILENAME)
    }
    $1 == "polygon" { count = due = $2; text = "" }
    END {
        printf "<svg xmlns=\"http://www.w3.org/2000/svg\" viewBox=\"%d %d %d %d\">\n", left, top, right - left, bottom - top
        printf "%s</svg>\n", shapes
    }' "$@"
