# shellcheck shell=bash
# Steps of the scripts in tests/, which source this file at the repository's root: every step adds to $passed or to
# $failed, what it writes is shown only where it fails, and `close` prints the one line that the gate reads.

source .ci/closing.sh || exit 2

log=$(mktemp)
work=$(mktemp -d)
trap 'rm -rf "$log" "$work"' EXIT

good() {
    passed=$((passed + 1))
}

# Names a step that failed, with the end of what it wrote.
show() {
    printf 'failed: %s\n' "$1"
    tail -n 40 "$log"
}

bad() {
    failed=$((failed + 1))
    show "$1"
}

# needs COMMAND PACKAGE..: installs the packages where there is no such command.
needs() {
    if ! command -v "$1" >/dev/null; then
        shift
        { apt-get update && apt-get install -y "$@"; } >"$log" 2>&1 </dev/null || bad "apt-get install $*"
    fi
}

# A command that has to succeed.
plain() {
    if "$@" >"$log" 2>&1 </dev/null; then good; else bad "$*"; fi
}

# A command that ends in 'N passed, M failed' itself.
counted() {
    local status=0
    "$@" >"$log" 2>&1 </dev/null || status=$?
    if tally "$status" "$log"; then
        printf '%s: %s\n' "$*" "$(tail -n 1 "$log")"
    else
        show "$* (status $status)"
    fi
}

# A command that has to fail: not with a usage error, which would prove nothing.
must_fail() {
    local status=0
    # In braces, so that the shell's own word on a killed command goes to the log too.
    { "$@"; } >"$log" 2>&1 </dev/null || status=$?
    if [[ $status -ne 0 && $status -ne 2 ]]; then good; else bad "has to fail: $* (status $status)"; fi
}
