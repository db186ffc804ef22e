# shellcheck shell=bash
# The count of a run, for .ci/run and tests/counting.sh, which source this file: what its closing line is, how one is
# read and how one is written.

passed=0
failed=0

# Adds what the last line of a step's output counts, 'N passed, M failed'. No leading zero and nine digits at most: bash
# gives up a sum with 08, and lets a long number wrap to 0. A status that is not 0, no such line and none passed are a
# failure too. Succeeds where nothing failed.
tally() { # STATUS OUTPUT
    local p=0 f=0 number='(0|[1-9][0-9]{0,8})'
    if [[ $(tail -n 1 "$2") =~ ^$number\ passed,\ $number\ failed$ ]]; then
        p=${BASH_REMATCH[1]}
        f=${BASH_REMATCH[2]}
    fi
    if [[ $f -eq 0 && ($1 -ne 0 || $p -eq 0) ]]; then
        f=1
    fi
    passed=$((passed + p))
    failed=$((failed + f))
    [[ $f -eq 0 ]]
}

# The closing line of the run; succeeds where something passed and nothing failed.
close() {
    printf '%s passed, %s failed\n' "$passed" "$failed"
    [[ $failed -eq 0 && $passed -gt 0 ]]
}
