#!/usr/bin/env bash
# Builds what the benchmark links, and runs it. M4RI and PARI are used where their headers are installed
# (Debian: apt-get install libm4ri-dev libpari-dev); one that isn't is named and left out of the table. One that is there and
# doesn't compile is an error.
#   scripts/bench.sh               the tables, and the picture docs/growth.svg
#   scripts/bench.sh ties          the table of sets with named cells alone
#   scripts/bench.sh growth        the tables of growth and the picture alone
#   scripts/bench.sh instructions  instructions of each call by valgrind's callgrind: ours, the same algorithm and the best known in Rust
#   scripts/bench.sh against FOLDER  each call beside that of another folder of this repository, in one run; `make lib` has been
#                                  run there, and its benchmark is built as it stands there, with sets of its own layout
set -euo pipefail
cd "$(dirname "$0")/.."

mkdir -p target/bench
rm -f target/bench/*.so
build() { # library, header, define, what it links, package
    if ! echo "#include <$2>" | cc -E - >/dev/null 2>&1; then
        echo "$2 is not there (Debian: $5): the table goes without $1" >&2
        return 0
    fi
    # shellcheck disable=SC2086
    cc -O2 -shared -fPIC "-D$3" -o "target/bench/lib$1.so" reference/bench/src/libraries.c $4 || {
        echo "$2 is there, but reference/bench/src/libraries.c does not compile with it" >&2
        return 1
    }
}

cargo build --offline --release --manifest-path reference/Cargo.toml -p bench
bench=reference/target/release/bench

if [ "${1:-}" = instructions ]; then
    command -v valgrind >/dev/null || { echo "valgrind is not on the path" >&2; exit 1; }
    # what 200 calls take more than 100 do, so that making the inputs doesn't count
    count() { # call, side, times
        valgrind --tool=callgrind --callgrind-out-file=/dev/null "$bench" --count "$@" 2>&1 | sed -n 's/.*Collected : //p'
    }
    each() { # call, side
        echo $((($(count "$1" "$2" 200) - $(count "$1" "$2" 100)) / 100))
    }
    ratio() { awk "BEGIN { printf \"%.2f\", $1 / $2 }"; }
    printf '%-18s %12s %12s %8s %12s %8s\n' call ours 'in Rust' ratio 'best known' ratio
    for call in $("$bench" --count); do
        ours=$(each "$call" ours)
        rust=$(each "$call" rust)
        best=$(each "$call" best)
        printf '%-18s %12d %12d %8s %12d %8s\n' "$call" "$ours" "$rust" "$(ratio "$ours" "$rust")" "$best" "$(ratio "$ours" "$best")"
    done
elif [ "${1:-}" = ties ]; then
    "$bench" --ties
elif [ "${1:-}" = against ]; then
    before=${2:-}
    [ -r "$before/target/staticlib/libcanceller.a" ] || { echo "'$before' has no target/staticlib/libcanceller.a: name a folder of this repository in which make lib has been run" >&2; exit 1; }
    cargo build --offline --release --manifest-path "$before/reference/Cargo.toml" -p bench
    "$bench" --against "$before/reference/target/release/bench"
else
    picture=(docs/growth.svg)
    [ "${1:-}" != growth ] || picture=(--growth docs/growth.svg)
    build bench_m4ri m4ri/m4ri.h HAVE_M4RI "-lm4ri -lm" libm4ri-dev
    build bench_pari pari/pari.h HAVE_PARI "-lpari -lm" libpari-dev
    "$bench" "${picture[@]}"
fi
