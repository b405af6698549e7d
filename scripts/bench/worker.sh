#!/usr/bin/env bash
# Appends by a worker at a seat, which goes on from what it knows of the log: scripts/bench/worker.sh [COUNT ..]
#
# Runs the line `0 appends N a` of the program `seat_cases` over a new table, for 2,000, 8,000 and 32,000 appends, if it
# isn't told otherwise, and prints the seconds of the processor for each, least of five runs, and how many times those of
# the count before they are. A linear cost is four times as much for four times as many. It needs the built program: `rt
# run` in crates/seat_cases, or SEAT_CASES=PATH.
set -euo pipefail
cd "$(dirname "$0")/../.."
program="${SEAT_CASES:-$PWD/crates/seat_cases/out/seat_cases}"
work="$(mktemp -d)"
trap 'rm -rf "$work"' EXIT

if [ ! -x "$program" ]; then
    echo "a worker's appends: not timed, for want of $program ('rt run' in crates/seat_cases makes it)" >&2
    exit 0
fi

field='{"name":"x","type":"long","nullable":false,"metadata":{}}'
before=
[ $# -gt 0 ] || set -- 2000 8000 32000
for n in "$@"; do
    {
        echo "script create 00000000-0000-4000-8000-000000000001 0 {\"type\":\"struct\",\"fields\":[$field]}"
        echo "open 1"
        echo "0 appends $n a"
        echo "finish"
    } > "$work/lines"
    TIMEFORMAT='%U %S'
    least=$(for _ in 1 2 3 4 5; do
        { time "$program" < "$work/lines" > "$work/told"; } 2>&1 | awk '{ print $1 + $2 }'
    done | sort -n | head -1)
    grep -qx "Committed $n" "$work/told"
    echo "$n $least $before" | awk '{
        printf "%d appends by a worker at a seat: %.3f s", $1, $2
        if (NF == 4) printf ", %.2f times those of %d", $2 / ($4 > 0 ? $4 : 0.001), $3
        print ""
    }'
    before="$n $least"
done
