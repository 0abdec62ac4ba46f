# Counted checks, for the scripts beside it: `check` makes one, `finish` ends with their count and leaves the script.
passed=0
failed=0

# check NAME COMMAND..: counts and prints whether the command succeeds.
check() {
    check_name=$1
    shift
    if "$@"; then
        passed=$((passed + 1))
        echo "ok      $check_name"
    else
        failed=$((failed + 1))
        echo "FAILED  $check_name"
    fi
}

# finish NAME: the last line, and 0 exactly where none failed.
finish() {
    echo "$1: $passed passed, $failed failed"
    [ "$failed" -eq 0 ]
    exit
}
