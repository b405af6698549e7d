#!/usr/bin/env bash
# What the program does when it runs: scripts/program.sh demo | bench | schedules [COUNT [SEED ..]]
#
# demo       builds the program without a proof, runs its stored script, and shows each line before its replies, which
#            have to be the stored ones.
# bench      times the built program (`make lake`) on a few scripts and on commands on folders: the seconds of the
#            processor, or those of the clock, least of three runs, and rows a second. Start of the program and reading
#            of the script are in it. It needs 100 MB where temporary files lie. At last it has `scripts/bench/locked.sh`
#            time 100,000 calls of a log that four threads share, beside the same calls in plain Rust, and prints the
#            ratio, where rustc and the built program `seat_cases` are there; and `scripts/bench/worker.sh` 2,000, 8,000
#            and 32,000 appends by a worker at a seat.
# schedules  runs the built program on random scripts of several actors, and compares what it is told with the model,
#            and with what has to hold of batches and reads.
set -euo pipefail
cd "$(dirname "$0")/.."
lake="${LAKE:-$PWD/crates/lake/out/lake}"
work="$(mktemp -d)"
trap 'rm -rf "$work"' EXIT

need_program() {
    if [ ! -x "$lake" ]; then
        echo "there is no $lake: run 'make lake' first" >&2
        exit 1
    fi
}

# Shows a script line by line, each line before its replies. A line has one reply line, but for these: `tail`, and a
# line of an actor that ends its read (rows, up to `next` or a refusal), `history` (a line a version, and a refusal
# where it ends with one) and `show` (the lines of a commit). Blank lines, comments and `fault` have none. It ends with
# status 1 where replies are left over or missing. The first file is the script, the second one what it is told.
replies='
NR == FNR { script[++lines] = $0; next }
{ told[++replies] = $0 }

function short(text) {
    return length(text) > 160 ? substr(text, 1, 140) " .. (" length(text) " characters)" : text
}

function give() {
    if (at >= replies) { print "demo: no reply is left for line " i > "/dev/stderr"; failed = 1; exit 1 }
    print "    " short(told[++at])
}

function is_refused(text) { return text ~ /^refused / }

function give_rows() {
    do give(); while (told[at] !~ /^next / && !is_refused(told[at]))
}

function give_history(version) {
    for (version = 0; told[at + 1] == version "" || index(told[at + 1], version " ") == 1; version++) give()
    if (version == 0 || told[at + 1] == "refused K7 BadLog " version) give()
}

function give_commit() {
    give()
    if (is_refused(told[at])) return
    while (told[at + 1] ~ /^\{"(add|remove|txn|protocol|metaData|domainMetadata)":\{/) give()
}

END {
    if (failed) exit 1
    for (i = 1; i <= lines; i++) {
        print short(script[i])
        if (script[i] ~ /^#/ || script[i] ~ /^[ \t\r]*$/) continue
        if (told[at + 1] == "bad line " i) { give(); break }
        if (script[i] ~ /^fault /) continue
        if (script[i] ~ /^tail / || script[i] ~ /^(until|step|finish) / && told[at + 1] ~ /^\{/) give_rows()
        else if (script[i] == "history") give_history(0)
        else if (script[i] ~ /^show /) give_commit()
        else give()
    }
    if (at != replies) { print "demo: " replies - at " lines are left over" > "/dev/stderr"; exit 1 }
}'

demo() {
    echo "building lake without a proof .."
    # (the words of the file `args`, one a line)
    if ! (cd crates/lake && rt try -- $(cat args) < stdin > "$work/told" 2> "$work/said"); then
        cat "$work/said" >&2
        exit 1
    fi
    awk "$replies" crates/lake/stdin "$work/told"
    cmp "$work/told" crates/lake/stdout
    echo "these are the stored replies, to the byte"
}

schedules() {
    need_program
    local count="${1:-10000}" seed option words
    shift || true
    for seed in "${@:-1}"; do
        for option in "" --no-checkpoint; do
            words=(${option:+"$option"})
            python3 scripts/model/schedules.py "$seed" "$count" "${words[@]}" > "$work/script"
            "$lake" script "${words[@]}" < "$work/script" > "$work/told"
            echo "seed $seed${option:+, $option}:"
            python3 scripts/model/schedules.py --check "$work/script" "$work/told" "${words[@]}"
        done
    done
}

id=00000000-0000-4000-8000-000000000001
beginning='{"file":0,"row":0,"version":0}'
long='{"name":"x","type":"long","nullable":false}'
string='{"name":"s","type":"string"}'

# A line that creates a table of these fields.
create() {
    local IFS=,
    echo "create $id 0 {\"type\":\"struct\",\"fields\":[$*]}"
}

# An append of N rows of application `a` under a number: long columns, or a long and a text.
append() {
    awk -v number="$1" -v rows="$2" -v text="$3" 'BEGIN {
        srand(1)
        printf "append a %d 0 [", number
        for (i = 0; i < rows; i++) {
            printf "%s{\"x\":%d", (i ? "," : ""), int(rand() * 2000000000000) - 1000000000000
            if (text) printf ",\"s\":\"row %d of some text\"", i
            printf "}"
        }
        print "]"
    }'
}

# COUNT appends of one row, each of which looks at the log, and a checkpoint behind each EVERY of them, if that isn't 0.
appends() {
    create "$long"
    awk -v count="$1" -v every="$2" 'BEGIN {
        srand(1)
        for (n = 0; n < count; n++) {
            printf "append a %d 0 [{\"x\":%d}]\n", n, int(rand() * 2000000000000) - 1000000000000
            if (every && (n + 1) % every == 0) print "checkpoint"
        }
    }'
}

# Appends of one row, each followed by a read of what is new.
follows() {
    appends "$1" 0 | awk '{ print }
        NR > 1 { printf "tail 10 {\"file\":0,\"row\":0,\"version\":%d}\n", NR - 1 }'
}

# The scripts that are timed.
write_scripts() {
    local row
    # One append and one read of all, of a long column, and of a long and a nullable text.
    { create "$long"; append 0 65536 0; echo "tail 65536 $beginning"; } > "$work/long-65536"
    { create "$long" "$string"; append 0 65536 1; echo "tail 65536 $beginning"; } > "$work/text-65536"
    # Many appends, also with checkpoints between them; and a batch that is handed in again and again.
    { appends 800 0; echo "tail 65536 $beginning"; } > "$work/appends-800"
    appends 2000 0 > "$work/appends-2000"
    appends 2000 100 > "$work/checked-2000"
    appends 8000 0 > "$work/appends-8000"
    # The same behind a fault, by which a script is run in a world; and with reads between them.
    { echo "fault pass"; appends 2000 0; } > "$work/faulted-2000"
    follows 2000 > "$work/follows-2000"
    append 0 4096 0 > "$work/one"
    { create "$long"; for _ in $(seq 51); do cat "$work/one"; done; } > "$work/repeats-50"
    # Reads of ten rows, each from where the one before ended.
    {
        create "$long"
        cat "$work/one"
        for row in $(seq 0 10 4095); do echo "tail 10 {\"file\":0,\"row\":$row,\"version\":1}"; done
    } > "$work/reads-4096"
}

# The processor's seconds of one run, user and system.
seconds() {
    local TIMEFORMAT='%U %S'
    { time "$lake" script < "$1" > "$work/out"; } 2>&1 | awk '{ print $1 + $2 }'
}

time_scripts() {
    local script name rows
    printf '%-12s %8s %8s %12s\n' script rows seconds 'rows/second'
    for script in long-65536:65536 text-65536:65536 appends-800:800 appends-2000:2000 checked-2000:2000 \
        appends-8000:8000 faulted-2000:2000 follows-2000:2000 repeats-50:208896 reads-4096:4096; do
        name=${script%:*}
        rows=${script#*:}
        for _ in 1 2 3; do seconds "$work/$name"; done | sort -n | head -1 | awk -v name="$name" -v rows="$rows" '
            { printf "%-12s %8d %8.3f %12d\n", name, rows, $1, rows / ($1 > 0 ? $1 : 0.001) }'
    done
}

schema='{"type":"struct","fields":['$long','${string/\}/,\"nullable\":true\}}']}'

# An empty folder with a table.
fresh() {
    rm -rf "$1"
    mkdir "$1"
    "$lake" create "$1" --id "$id" --schema "$schema" > "$work/out"
}

# A table in a folder, with one batch of these rows.
folder() {
    fresh "$1"
    "$lake" append "$1" a 0 < "$2" > "$work/out"
}

# Has a table of one batch COUNT of them, of which the last LINKS have data files: links to the first's.
fill() {
    local log=$1/_delta_log n
    awk -v count="$2" -v log_dir="$log" '{ lines = lines $0 "\n" } END {
        for (n = 1; n < count; n++) {
            text = lines
            gsub(/0+\.parquet/, sprintf("%020d.parquet", n), text)
            gsub(/"version":0/, "\"version\":" n, text)
            name = sprintf("%s/%020d.json", log_dir, n + 1)
            printf "%s", text >name
            close(name)
        }
    }' "$log/00000000000000000001.json"
    for ((n = $2 - $3; n < $2; n++)); do
        [ "$n" -eq 0 ] || ln "$1/part-61-00000000000000000000.parquet" "$1/part-61-$(printf %020d "$n").parquet"
    done
}

# The clock's seconds of one command.
clock() {
    local TIMEFORMAT=%R
    { time "$@" > "$work/out"; } 2>&1
}

# The least of three runs of a command.
least() {
    local name=$1
    for _ in 1 2 3; do clock "${@:2}"; done | sort -n | head -1 |
        awk -v name="$name" '{ printf "%-12s %17.3f\n", name, $1 }'
}

# Commands on folders, in seconds of the clock, since they wait for the disk.
time_folders() {
    local rows=$work/rows longer=$work/long-rows
    awk 'BEGIN { for (i = 0; i < 65536; i++) printf "{\"x\":%d,\"s\":\"row %d of some text\"}\n", i * 7919, i }' \
        > "$rows"
    awk 'BEGIN { for (i = 0; i < 700; i++) text = text "x"
                 for (i = 0; i < 65536; i++) printf "{\"x\":%d,\"s\":\"%s\"}\n", i, text }' > "$longer"
    echo '{"x":1,"s":"one"}' > "$work/row"
    printf '\n%-12s %17s\n' 'folder' 'seconds (clock)'
    # An append of 65,536 rows to a fresh folder.
    for _ in 1 2 3; do
        fresh "$work/fresh"
        clock "$lake" append "$work/fresh" a 0 < "$rows"
    done | sort -n | head -1 | awk '{ printf "%-12s %17.3f\n", "append-65536", $1 }'
    # The last rows of a table of 10,000 commits with a checkpoint.
    folder "$work/commits" "$work/row"
    fill "$work/commits" 10000 10
    "$lake" checkpoint "$work/commits" > "$work/out"
    least tail-10000 "$lake" tail "$work/commits" --from '{"file":0,"row":0,"version":9995}' --max 10
    # The first rows and the last rows of a table of 1 GiB.
    folder "$work/large" "$longer"
    fill "$work/large" 23 23
    least first-1GiB "$lake" tail "$work/large" --from "$beginning" --max 10
    least last-1GiB "$lake" tail "$work/large" --from '{"file":0,"row":0,"version":23}' --max 10
}

bench() {
    need_program
    write_scripts
    time_scripts
    time_folders
    echo
    scripts/bench/locked.sh
    scripts/bench/worker.sh
}

case "${1:-}" in
    demo | bench) "$1" ;;
    schedules) schedules "${@:2}" ;;
    *)
        echo "usage: scripts/program.sh demo | bench | schedules [COUNT [SEED ..]]" >&2
        exit 2
        ;;
esac
