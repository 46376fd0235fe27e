#!/usr/bin/env bash
# Proves a crate and what it depends on, one after the other, and says how far it is. What hasn't changed since it was proved is
# not proved again.
#   scripts/prove.sh NAME
set -euo pipefail
cd "$(dirname "$0")/.."

declare -A sees
while IFS=: read -r name rest; do
    sees[${name%% *}]=$rest
done < <(sed 's/#.*//; /^ *$/d' crates.txt)

wanted=" "
want() {
    local dep
    for dep in ${sees[$1]}; do
        [ -n "${sees[$dep]+there}" ] && case $wanted in *" $dep "*) ;; *) want "$dep" ;; esac
    done
    wanted="$wanted$1 "
}
want "$1"

log=$(mktemp)
trap 'rm -f "$log"' EXIT
read -r -a names <<<"$wanted"
left=${#names[@]}
for name in "${names[@]}"; do
    left=$((left - 1))
    printf 'proving %s, then %d more\n' "$name" "$left" >&2
    if ! (cd "crates/$name" && rt check >"$log" 2>&1); then
        cat "$log"
        echo "$name is not proved" >&2
        exit 1
    fi
done
