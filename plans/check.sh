#!/usr/bin/env bash
# Runs a program on each sample plan and compares what it prints with what is expected.
#
#     bash plans/check.sh [PROGRAM]        PROGRAM is crates/certify/out/certify of this repository where none is given
#
# A line for each plan that differs, in which | stands for a line feed; then the numbers of plans and of differences.
# Exit status: 0 none differs, 1 some differ, 2 there is nothing to run.
set -u
export LC_ALL=C

folder=$(cd "$(dirname "${BASH_SOURCE[0]}")" && pwd) || exit 2
program=${1:-$folder/../crates/certify/out/certify}
if ! command -v "$program" >/dev/null; then
    echo "check.sh: cannot run $program" >&2
    exit 2
fi
output=$(mktemp) || exit 2
trap 'rm -f "$output"' EXIT

shown() { # a file in one line, at most 200 characters of it
    head -c 200 "$1" | tr '\n' '|' | tr -c '[:print:]' '?'
}

plans=0
differ=0
for plan in "$folder"/*.plan; do
    [ -e "$plan" ] || continue
    plans=$((plans + 1))
    name=$(basename "$plan" .plan)
    expected=${plan%.plan}.expected
    # in two pieces, so that one read does not bring it all
    { head -c 7 "$plan"; sleep 0.01; tail -c +8 "$plan"; } 2>/dev/null | "$program" >"$output"
    status=$?
    if [ ! -f "$expected" ]; then
        echo "$name: there is no $name.expected"
    elif [ "$status" -ne 0 ]; then
        echo "$name: the program ended with status $status"
    elif ! cmp -s "$output" "$expected"; then
        echo "$name: expected $(shown "$expected") and got $(shown "$output")"
    else
        continue
    fi
    differ=$((differ + 1))
done

echo "$plans plans, $differ differ"
if [ "$plans" -eq 0 ]; then
    exit 2
fi
[ "$differ" -eq 0 ]
