# shellcheck shell=bash
# For checks in bash, which source it under `set -euo pipefail`: counts results, prints a line 'NAME: yes' or 'NAME: no' for
# each, and closes with the line 'N passed, M failed', and ', K skipped' where some were (as scripts/lib/tally.py does in
# Python). A check that ends before it closes has failed, and says so. It takes no arguments. The folder $scratch is removed
# when the check ends.
[ $# -eq 0 ] || { echo "usage: $0${option:+ [$option]}" >&2; exit 2; }
scratch=$(mktemp -d)
passed=0
failed=0
skipped=0
is_closed=no
end() {
    rm -rf "$scratch"
    [ "$is_closed" = yes ] || echo "ended before it closed"$'\n'"$passed passed, $((failed + 1)) failed"
}
trap end EXIT

# says NAME COMMAND..: counts whether the command succeeds, and prints the end of its output where it doesn't
says() {
    if "${@:2}" > "$scratch/said" 2>&1; then
        passed=$((passed + 1))
        echo "$1: yes"
    else
        failed=$((failed + 1))
        tail -n 40 "$scratch/said"
        echo "$1: no"
    fi
}

# adds NAME LINE STATUS: adds the results of a part, by its last line; a part that passed nothing, or whose status isn't 0,
# failed
adds() {
    if [[ $2 =~ ^([0-9]+)\ passed,\ ([0-9]+)\ failed(,\ ([0-9]+)\ skipped)?$ ]]; then
        passed=$((passed + BASH_REMATCH[1]))
        failed=$((failed + BASH_REMATCH[2]))
        skipped=$((skipped + ${BASH_REMATCH[4]:-0}))
        if [ "${BASH_REMATCH[2]}" -eq 0 ] && { [ "$3" -ne 0 ] || [ "${BASH_REMATCH[1]}" -eq 0 ]; }; then
            echo "closed with '$2' and status $3: $1"
            failed=$((failed + 1))
        fi
    else
        echo "no closing line: $1"
        failed=$((failed + 1))
    fi
}

# Ends the check: it fails where a result is no, and where there is no result.
close() {
    is_closed=yes
    echo "$passed passed, $failed failed$([ "$skipped" -eq 0 ] || echo ", $skipped skipped")"
    [ "$failed" -eq 0 ] && [ "$passed" -gt 0 ]
    exit
}
