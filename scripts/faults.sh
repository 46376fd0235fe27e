#!/usr/bin/env bash
# Puts each fault of reference/faults/ into a copy of the second implementation by itself, runs the tests there, and prints which of
# them caught it. Ends with 1 where a fault is not caught, doesn't fit the source any more, or doesn't compile.
#   scripts/faults.sh [NAME ..]    all faults, or these
# A fault's file has the lines `fault:` (what it is) and `file:` (below reference/), the old text under `old:`, which stands there
# once, and the new text under `new:`.
set -euo pipefail
cd "$(dirname "$0")/.."

copy=$(mktemp -d)
trap 'rm -rf "$copy"' EXIT
for name in README.md examples include samples target docs; do ln -s "$PWD/$name" "$copy/$name"; done
mkdir "$copy/reference"
cp -r reference/Cargo.toml reference/Cargo.lock reference/build.rs reference/src reference/tests reference/bench "$copy/reference"

# Replaces the one place of old by new in the text of a file.
replace() { # file, old, new
    local text rest
    text=$(cat "$1"; echo x)
    text=${text%x}
    rest=${text#*"$2"}
    if [ "$rest" = "$text" ] || [ "${rest#*"$2"}" != "$rest" ]; then return 1; fi
    printf '%s' "${text%%"$2"*}$3$rest" >"$1"
}

# The tests that fail on the copy, one to a line; 'nothing compiles' where they don't run.
caught_by() {
    local log=$copy/log
    if CARGO_TARGET_DIR="$copy/cargo" cargo test --offline --no-fail-fast --manifest-path "$copy/reference/Cargo.toml" >"$log" 2>&1; then return; fi
    if ! grep -q '^test result:' "$log"; then
        echo "nothing compiles"
        return
    fi
    sed -n 's/^test \(.*\) \.\.\. FAILED$/\1/p' "$log" | sort -u
}

[ -z "$(caught_by)" ] || { echo "the tests fail without a fault"; exit 1; }
bad=0
if [ $# -eq 0 ]; then set -- $(cd reference/faults && ls | sed 's/\.fault$//'); fi
for name in "$@"; do
    fault=reference/faults/$name.fault
    file=$(sed -n 's/^file: //p' "$fault")
    old=$(sed '1,/^old:$/d; /^new:$/,$d' "$fault")
    new=$(sed '1,/^new:$/d' "$fault")
    if replace "$copy/reference/$file" "$old" "$new"; then
        by=$(caught_by | paste -sd' ')
        [ -n "$by" ] && [ "$by" != "nothing compiles" ] || bad=1
        echo "$(sed -n 's/^fault: //p' "$fault"): ${by:-NOT CAUGHT}"
    else
        bad=1
        echo "$name: the old text does not stand in $file once"
    fi
    cp "reference/$file" "$copy/reference/$file"
done
exit $bad
