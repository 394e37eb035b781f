# For the scripts of tests, which source it: they count in $passed and $failed.

# same NAME FILE FILE: counts whether the files are equal, and shows where they aren't.
same() {
    if cmp -s "$2" "$3"; then
        passed=$((passed + 1))
    else
        failed=$((failed + 1))
        echo "$1:"
        diff "$2" "$3" | head -n 10
    fi
}
