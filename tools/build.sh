#!/usr/bin/env bash
# Builds the program: proves and builds each crate that it stands on, as many side by side as there are processors, the
# lowest first, and then the program. It says which crates it is at. What stands already isn't built again.
set -u
cd "$(dirname "$0")/.." || exit 1
if ! command -v rt > /dev/null; then
    echo "The kit isn't on this machine: the command rt, which proves and builds the program, is missing." >&2
    exit 1
fi
program="${1:-space8080}"
logs="$(mktemp -d)"
trap 'rm -rf "$logs"' EXIT
jobs="$(nproc 2> /dev/null || echo 2)"

# The crates of this repository that a crate stands on.
below() {
    sed -e 's/#.*//' -n -e "s/^$1[ a-z]*: *//p" crates.txt | tr ' ' '\n' | while read -r dep; do
        [ -z "$dep" ] || [ ! -d "crates/$dep" ] || echo "$dep"
    done
}

# All crates below one, each once.
declare -A seen=()
wanted=()
collect() {
    local dep
    for dep in $(below "$1"); do
        [ -n "${seen[$dep]:-}" ] || { seen[$dep]=1; collect "$dep"; wanted+=("$dep"); }
    done
}
collect "$program"

declare -A state=() pid_of=()
done_count=0

is_ready() {
    local dep
    for dep in $(below "$1"); do
        [ "${state[$dep]:-}" = built ] || return 1
    done
}

start_ready() {
    local crate
    for crate in "${wanted[@]}"; do
        [ "${#pid_of[@]}" -lt "$jobs" ] || return
        [ -z "${state[$crate]:-}" ] && is_ready "$crate" || continue
        state[$crate]=running
        echo "proving $crate ($((done_count + ${#pid_of[@]} + 1)) of $((${#wanted[@]} + 1)))" >&2
        (cd "crates/$crate" && rt lib > "$logs/$crate" 2>&1) &
        pid_of[$crate]=$!
    done
}

start_ready
while [ "${#pid_of[@]}" -gt 0 ]; do
    wait -n -p ended "${pid_of[@]}"
    status=$?
    for crate in "${!pid_of[@]}"; do
        [ "${pid_of[$crate]}" = "$ended" ] || continue
        unset "pid_of[$crate]"
        if [ "$status" -ne 0 ]; then
            cat "$logs/$crate" >&2
            kill "${pid_of[@]}" 2> /dev/null
            exit 1
        fi
        state[$crate]=built
        done_count=$((done_count + 1))
    done
    start_ready
done

echo "proving $program ($((done_count + 1)) of $((${#wanted[@]} + 1)))" >&2
(cd "crates/$program" && rt run) > "$logs/program" 2>&1 < /dev/null
[ -x "crates/$program/out/$program" ] || { cat "$logs/program" >&2; exit 1; }
