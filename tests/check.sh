# Counts what passes and what fails. It is read by the scripts beside it and by .ci/run.
passed=0
failed=0

# check WHAT COMMAND..: runs the command, and counts and names a failure
check() {
    local what=$1
    shift
    if "$@"; then
        passed=$((passed + 1))
    else
        failed=$((failed + 1))
        printf 'FAILED: %s\n' "$what"
    fi
}
