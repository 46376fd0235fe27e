#!/usr/bin/env bash
# Builds the proved static library for C and Rust, target/staticlib/libcanceller.a, and the plan printer, target/bin/plan_printer.
# What hasn't changed since it was proved is not proved again.
#   scripts/library.sh                 both
#   scripts/library.sh canceller       the library
#   scripts/library.sh plan_printer    the plan printer
set -euo pipefail
cd "$(dirname "$0")/.."

log=$(mktemp)
trap 'rm -f "$log"' EXIT
make_it() { # crate, command, what it makes, where it goes
    if ! (cd "crates/$1" && rt "$2" </dev/null >"$log" 2>&1); then
        cat "$log"
        echo "$1 was not built" >&2
        exit 1
    fi
    mkdir -p "$(dirname "$4")"
    cp "crates/$1/$3" "$4"
}

[ $# -gt 0 ] || set -- canceller plan_printer
for wanted in "$@"; do
    case $wanted in
    canceller) make_it canceller lib out/libcanceller.a target/staticlib/libcanceller.a ;;
    plan_printer) make_it plan_printer run out/plan_printer target/bin/plan_printer ;;
    *) echo "library.sh makes canceller and plan_printer, not $wanted" >&2; exit 1 ;;
    esac
done
