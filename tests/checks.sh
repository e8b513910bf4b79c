# shellcheck shell=sh
# What the tests of the built program share; they read this file in at the top of the repository. A
# test's name is what it was called by. The proved program is built first where it isn't there yet.
name=$(basename "$0")
failed=0
work=$(mktemp -d) || exit 1
trap 'chmod -R u+rwx "$work"; rm -rf "$work"' EXIT
trap 'exit 1' HUP INT TERM
./build || exit 1

# same WHAT WANTED GOT
same() {
    if [ "$2" != "$3" ]; then
        printf '%s: %s: wanted [%s], got [%s]\n' "$name" "$1" "$2" "$3" >&2
        failed=$((failed + 1))
    fi
}

# run SCRIPT WORD..: leaves what the program wrote in the files out and err, and sets status
run() {
    script=$1
    shift
    printf "$script" | ./sdbt "$@" >"$work/out" 2>"$work/err"
    status=$?
}

# answers WHAT STATUS OUTPUT [ERRORS]: how the last run ended, and what it wrote
answers() {
    same "$1: status" "$2" "$status"
    same "$1: output" "$3" "$(cat "$work/out")"
    same "$1: errors" "${4-}" "$(cat "$work/err")"
}

# refused WHAT REASON: the last run ended before anything was answered
refused() {
    answers "$1" 1 "" "$(printf 'folder not ready\nsdbt: %s' "$2")"
}

# file PATH: the size of a file and who may read and write it, or nothing
file() {
    stat -c '%s %a' "$work/$1" 2>/dev/null
}

# files FOLDER: the names in a folder
files() {
    ls "$work/$1" | tr '\n' ' ' | sed 's/ $//'
}

# spent: sets seconds to the processor time that the commands of this shell have taken
spent() {
    times >"$work/times"
    seconds=$(awk 'NR == 2 { gsub(/[ms]/, " "); print int($1 * 60 + $2 + $3 * 60 + $4) }' "$work/times")
}

# ends: says how the test ended, which is its status
ends() {
    if [ "$failed" != 0 ]; then
        echo "$name: $failed failed" >&2
        exit 1
    fi
    echo "$name: passed"
    exit 0
}
