#!/usr/bin/env bash
# Tries the wrong bodies that are kept as text: scripts/edits.sh CRATE..
#
# Beside the must-fail edits that the gate tries (must-fail/NAME.edit), each crate has wrong bodies in the same notation
# that were tried once (must-fail/NAME.md). This makes edits of those of the crates named, on a copy of the checkout,
# and has the prover try them: to be run when a contract that refuses them changes. The copy has what checks and the
# gate left in out/: run it where `rt ci` has passed, or the crates below are proved anew first, which takes long.
#
# It tells for each one of four things: it is refused; it is refused only because a proof file names what it took away,
# or by a limit of the prover, which says little of the contract ('shows little'); it is still proved; or it can't be
# applied or tried. The status is 0 where none is of the last two kinds.
set -euo pipefail
cd "$(dirname "$0")/.."

if [ "$#" = 0 ]; then
    echo "usage: scripts/edits.sh CRATE.." >&2
    exit 2
fi

copy="$(mktemp -d)"
trap 'rm -rf "$copy"' EXIT
trap 'exit 130' INT TERM

# The copy has of the edits just those to try.
tar -c --exclude=./.git . | tar -x -C "$copy"
rm -f "$copy"/crates/*/must-fail/*.edit
for crate in "$@"; do
    if [ ! -d "crates/$crate" ]; then
        echo "edits: no crate is named $crate" >&2
        exit 2
    fi
    for text in "$copy/crates/$crate/must-fail/"*.md; do
        if [ -f "$text" ]; then mv "$text" "${text%.md}.edit"; fi
    done
done

cd "$copy"
git init --quiet .
rt must-fail "$@" 2>&1 | tee must-fail.log | grep -E '^(rt: )?must-fail ' | sed -E \
    -e 's/^rt: //' \
    -e 's/: refused, as it must be \(only.*/: shows little/' \
    -e 's/: refused, as it must be.*/: refused/' || true

count() { grep -cE "$1" must-fail.log || true; }
refused="$(count ': refused, as it must be($|:)')"
little="$(count ': refused, as it must be \(only')"
proved="$(count ': NOT REFUSED')"
untried="$(count ': (BAD EDIT|NOT TRIED)')"
tried="$(find crates -name '*.edit' | wc -l)"
echo "$tried wrong bodies: $refused refused, $little show little, $proved still proved, $untried not tried"
if [ "$((refused + little + proved + untried))" != "$tried" ]; then
    tail -n 20 must-fail.log >&2
    exit 1
fi
[ "$((proved + untried))" = 0 ]
