# shellcheck shell=sh
# Parts of the tests, for a script that reads this with `.`: each prints 'N passed, M failed' last, and `passed` and `failed`
# are their sums. A part that ends with another status than 0, or prints no such line, has failed.
passed=0
failed=0
log=$(mktemp)
trap 'rm -f "$log" "$log.status"' EXIT

part() {
    begun=$(date +%s)
    # the status is that of the part, and not of tee
    {
        "$@" 2>&1
        echo "$?" > "$log.status"
    } | tee "$log"
    line=$(grep -E '^[0-9]+ passed, [0-9]+ failed' "$log" | tail -n 1)
    : "${line:=0 passed, 1 failed}"
    of_part=${line#* passed, }
    of_part=${of_part%% failed*}
    if [ "$of_part" -eq 0 ] && [ "$(cat "$log.status")" -ne 0 ]; then
        of_part=1
    fi
    passed=$((passed + ${line%% *}))
    failed=$((failed + of_part))
    echo "$*: $(($(date +%s) - begun)) seconds"
}

# Prints the processor time of all parts (user, system) and the number of cores, and the last line; the status is 0 exactly
# where nothing failed.
end_parts() {
    times > "$log"
    echo "processor time $(tail -n 1 "$log") on $(getconf _NPROCESSORS_ONLN) cores"
    echo "$passed passed, $failed failed"
    [ "$failed" -eq 0 ]
}
