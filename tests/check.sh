#!/bin/bash
# `rt ci`, the edits, which take minutes, and then each script that takes less than a minute and starts no program but the shell's own, Python,
# git, `cc`, `xxd`, and jq where it is installed. Shows what each says, and goes on after a failure. The last line is 'N passed, M failed': the
# sum of what they count, with one for each script that counts nothing. The status is 0 only if nothing failed. With --scripts `rt ci` and the
# edits are left out, and the program has to be built.
cd "$(dirname "$0")/.." || exit 2
passed=0
failed=0
wrong=
log=$(mktemp) || exit 2
trap 'rm -f "$log"' EXIT

# check COMMAND..: runs it, and counts. One that has no end in ten minutes fails, but for `rt ci` and the edits.
check() {
    local limit='timeout -k 10 600' status counts good bad
    case "$*" in rt* | *edits*) limit= ;; esac
    echo "== $*"
    $limit "$@" 2>&1 </dev/null | tee "$log"
    status=${PIPESTATUS[0]}
    counts=$(grep -E '^[0-9]+ passed, [0-9]+ failed' "$log" | tail -n 1)
    if [ -n "$counts" ]; then
        good=${counts%% passed*}
        bad=${counts#* passed, }
        bad=${bad%% failed*}
        [ "$status" = 0 ] || [ "$bad" != 0 ] || bad=1
    elif [ "$status" = 0 ]; then
        good=1 bad=0
    else
        good=0 bad=1
    fi
    passed=$((passed + good))
    failed=$((failed + bad))
    [ "$bad" = 0 ] || wrong="$wrong; $*: $bad, status $status"
}

# on_program COMMAND..: the same of what starts the program. Without the program it fails at once: some would wait for it.
on_program() {
    [ -x crates/illcanon/out/illcanon ] || set -- echo "0 passed, 1 failed: without the program nothing runs $*"
    check "$@"
}

case $# in
    0)
        check rt ci
        check python3 tests/edits/run.py
        ;;
    *) [ "$*" = --scripts ] || { echo "check.sh: unknown word: $*" && exit 2; } ;;
esac
for script in program descriptors faults; do
    on_program tests/program/$script.sh
done
for profile in 2 module; do
    on_program python3 tests/program/dump.py 1 100 $profile
    on_program python3 tests/program/dump_html.py 1 20 $profile
done
check python3 tests/docs/docs.py
for script in trusted calling proved; do
    check python3 tests/docs/$script.py --check
done
[ -z "$wrong" ] || echo "failed: ${wrong#; }"
echo "$passed passed, $failed failed"
[ $failed = 0 ]
