#!/usr/bin/env bash
# The whole gate: every crate laid out and proved from nothing, every must-fail edit refused, the programs run, the static library
# and the command built, and the Rust and C tests. Its last line counts all of them: 'N passed, 0 failed'.
set -euo pipefail
cd "$(dirname "$0")/.."

out=$(mktemp -d)
trap 'rm -rf "$out"' EXIT

fail() {
    echo "$1"
    echo "${2:-0} passed, ${3:-1} failed"
    exit 1
}

# rt ci ends in a line of its own, which is counted into the last one here; both that line and its exit status must be good
{ rt ci 2>&1 && echo 0 >"$out/status" || echo $? >"$out/status"; } | tee "$out/ci" | grep -v '^[0-9]* passed, [0-9]* failed$' || true
status=$(cat "$out/status")
line=$(grep '^[0-9]* passed, [0-9]* failed$' "$out/ci" | tail -1 || true)
[ -n "$line" ] || fail "rt ci did not end in its line (exit status $status)"
proved=$(echo "$line" | cut -d' ' -f1)
unproved=$(echo "$line" | cut -d' ' -f3)
[ "$unproved" = 0 ] || fail "rt ci failed" "$proved" "$unproved"
[ "$status" = 0 ] || fail "rt ci ended with exit status $status beside '$line'" "$proved"
# an edit that the prover could not read or apply passes rt ci; it fails here
if grep -q '^rt: ok.*, [0-9]* bad' "$out/ci"; then fail "a must-fail edit is bad" "$proved"; fi
grep -q '^rt: ok' "$out/ci" || fail "rt ci did not say what it did" "$proved"

scripts/library.sh >"$out/library" 2>&1 || { cat "$out/library"; fail "the static library and the plan printer were not built" "$proved"; }

passed=$proved
# runs the Rust tests of a manifest, and counts what passed; a failure, or no test at all, ends the gate
run_tests() { # manifest
    local status=0 tested broken
    cargo test --offline --no-fail-fast --workspace --manifest-path "$1" 2>&1 | tee "$out/cargo" || status=$?
    tested=$(sed -n 's/^test result: .* \([0-9]*\) passed; .*/\1/p' "$out/cargo" | paste -sd+ | sed 's/^$/0/')
    broken=$(sed -n 's/^test result: .* \([0-9]*\) failed; .*/\1/p' "$out/cargo" | paste -sd+ | sed 's/^$/0/')
    tested=$((tested))
    broken=$((broken))
    passed=$((passed + tested))
    if [ $status -ne 0 ] || [ $broken -ne 0 ] || [ $tested -eq 0 ]; then
        fail "the Rust tests of $1 failed" $passed $((broken > 0 ? broken : 1))
    fi
}

scripts/command.sh >"$out/command" 2>&1 || { cat "$out/command"; fail "the command was not built" "$proved"; }
run_tests reference/Cargo.toml
run_tests command/Cargo.toml
echo "$passed passed, 0 failed"
