# What the tests of the program share: how many passed and failed.
passed=0
failed=0

# note NAME RESULT..: counts a test that passed where the result is ok.
note() {
    if [ "$2" = ok ]; then
        passed=$((passed + 1))
    else
        failed=$((failed + 1))
        echo "$*"
    fi
}
