#!/bin/sh
# Answers the sheet on standard input and keeps the kernels whose column, the last field of an
# answer, is at most LIMIT units; an EXP line's is times 2^k, k being the field before it. The
# heading and REF lines have no column.
#
#     sh examples/small_bounds.sh LIMIT < examples/kernels.sheet
limit=${1:?usage: small_bounds.sh LIMIT < SHEET}
program=${BKM_PROGRAM:-$(dirname "$0")/../target/bin/bkm}
"$program" | awk -F '\t' -v limit="$limit" '$2 == "EXP" && $NF * 2 ^ $(NF - 1) <= limit + 0 || $2 == "LOG" && $NF + 0 <= limit + 0'
