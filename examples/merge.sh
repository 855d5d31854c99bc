#!/bin/sh
# Two halves of a covering, each of which leaves boxes uncovered, made into one file, and the verdict on that.
cd "$(dirname "$0")/.." || exit 1
cat examples/equilateral_first.cover examples/equilateral_second.cover | ./mcb merge | ./mcb check
