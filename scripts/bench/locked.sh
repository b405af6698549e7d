#!/usr/bin/env bash
# Calls of a log that threads share, beside the same in plain Rust: scripts/bench/locked.sh [CALLS [THREADS]]
#
# Runs the line `calls N THREADS` of the program `seat_cases` over a table's first commit, and `locked.rs`, which makes the
# same calls of a map behind a mutex and keeps their history, too; 100,000 calls by 4 threads, if it isn't told otherwise
# (1 to 64). It prints the seconds of the clock of both, least of three runs, and their ratio. The start of a program, the
# audit of the store and the end of its memory are in them. It needs rustc, which builds `locked.rs` by `-O`, and the built
# program: `rt run` in crates/seat_cases, or SEAT_CASES=PATH.
set -euo pipefail
cd "$(dirname "$0")/../.."
program="${SEAT_CASES:-$PWD/crates/seat_cases/out/seat_cases}"
calls="${1:-100000}"
threads="${2:-4}"
work="$(mktemp -d)"
trap 'rm -rf "$work"' EXIT

if [ ! -x "$program" ] || ! command -v rustc > /dev/null; then
    echo "shared log: not timed, for want of rustc or of $program ('rt run' in crates/seat_cases makes it)" >&2
    exit 0
fi

rustc -O --edition 2024 -o "$work/locked" scripts/bench/locked.rs
field='{"name":"x","type":"long","nullable":false,"metadata":{}}'
{
    echo "script create 00000000-0000-4000-8000-000000000001 0 {\"type\":\"struct\",\"fields\":[$field]}"
    echo "open $threads"
    echo "calls $calls $threads"
} > "$work/lines"

# The least seconds of three runs of a command, whose last line has to be the one that both print.
least() {
    local TIMEFORMAT=%R
    for _ in 1 2 3; do
        { time "$@" < "$work/lines" > "$work/told"; } 2>&1
        [ "$(tail -1 "$work/told")" = "calls $calls" ] || exit 1
    done | sort -n | head -1
}

ours=$(least "$program")
theirs=$(least "$work/locked" "$calls" "$threads")
echo "$ours $theirs" | awk -v calls="$calls" -v threads="$threads" '{
    printf "%d calls by %d threads: %.3f s, in plain Rust %.3f s: %.2f times as long\n", calls, threads, $1, $2, $1 / ($2 > 0 ? $2 : 0.001)
}'
