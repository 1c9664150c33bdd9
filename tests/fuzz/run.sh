#!/bin/sh
# Tries the calls for C on random inputs: run.sh [SECONDS [ARCHIVE]]. It takes SECONDS (60), and is said to have failed where something that
# fuzz.c requires is not so. README.md says more.
#
# ARCHIVE is crates/ill_c/out/libill_c.a where none is named. One that covered.py made is tried by libFuzzer, which needs clang and its
# runtime libraries, and any other one by driver.c. CORPUS is a folder where the inputs are kept that libFuzzer found.
here=$(cd "$(dirname "$0")" && pwd) || exit 2
seconds=${1:-60}
archive=${2:-$here/../../crates/ill_c/out/libill_c.a}
[ -e "$archive" ] || { echo "run.sh: $archive is absent: cd crates/ill_c && rt lib" && exit 2; }
folder=$(mktemp -d) || exit 2
trap 'rm -rf "$folder"' EXIT
names="-Dmalloc=fuzz_malloc -Drealloc=fuzz_realloc -Dfree=fuzz_free"

# build COMPILER FLAG..: the target with the archive.
build() {
    compiler=$1
    shift
    # shellcheck disable=SC2086 # the names are words
    "$compiler" -std=c11 -O1 -g -Wall -Wextra $names -include "$here/memory.h" -c -o "$folder/memory.o" "$here/../../bindings/c/memory.c" &&
        "$compiler" -std=c11 -O1 -g -Wall -Wextra -o "$folder/target" "$here/fuzz.c" "$folder/memory.o" "$archive" "$@"
}

by_libfuzzer() {
    corpus=${CORPUS:-$folder/corpus}
    mkdir -p "$corpus" && build clang -fsanitize=fuzzer,address || exit 2
    "$folder/target" -max_total_time="$seconds" -max_len=8192 -timeout=20 -print_final_stats=1 -artifact_prefix="$corpus/" "$corpus" "$folder/seeds" \
        2>"$folder/log"
    status=$?
    grep -E "cov: |^stat::|^Done|fuzz.c:|ERROR|SUMMARY|Test unit" "$folder/log" | tail -n 12
    return $status
}

by_driver() {
    build "${CC:-cc}" "$here/driver.c" || exit 2
    until=$(($(date +%s) + seconds))
    while [ "$(date +%s)" -lt "$until" ]; do
        seed=$(od -An -N4 -tu4 /dev/urandom | tr -d ' ')
        "$folder/target" "$seed" 20000 "$folder/seeds" || { echo "failed: seed $seed" && return 1; }
    done
}

"$here/seeds.py" "$folder/seeds" || exit 2
if nm "$archive" 2>/dev/null | grep -q __sanitizer_cov; then by_libfuzzer; else by_driver; fi
