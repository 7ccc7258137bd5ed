#!/usr/bin/env bash
# Times `./census replay` on a schedule of 20,000 lines, or of so many as the first word says. Run by hand.
#
# Of the seconds and the lines of input per second that it prints, compare only those of one machine, and
# take the best of three runs. The printed blocks are most of the output, so `written` says how much the
# program had to write. The schedule is the same each time: bench/schedule.py says what is in it.
set -eu
top=$(cd "$(dirname "$0")/.." && pwd)
count=${1:-20000}
room=$(mktemp -d)
trap 'rm -r "$room"' EXIT

# The first run builds the program where that is needed. The schedule is made by it too, which takes half a minute.
"$top/census" replay </dev/null
python3 "$top/bench/schedule.py" "$count" >"$room/schedule"

start=$(date +%s%N)
"$top/census" replay <"$room/schedule" >"$room/transcript"
end=$(date +%s%N)

awk -v lines="$count" -v nanos="$((end - start))" -v bytes="$(wc -c <"$room/transcript")" 'BEGIN {
    seconds = nanos / 1e9
    printf "%d lines, %d bytes written, %.2f seconds, %.0f lines per second\n", lines, bytes, seconds, lines / seconds
}'
