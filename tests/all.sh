#!/bin/bash
# Builds the programs and runs what isn't part of `rt ci`: the scripts of check.sh, the test vectors, allocations of memory refused in turn, edits
# that the prover must refuse, and the calls for C. Where Python, GNU time or YAZ's headers are installed: the package for Python, the
# comparisons with the model in Python, the time and memory of the worst inputs, and the comparison with other codecs; where binaryen and
# wabt are, the page, in the browsers that are there. Takes minutes where the crates have to be proved first.
cd "$(dirname "$0")" || exit 2
status=0
log=$(mktemp) || exit 2
trap 'rm -f "$log"' EXIT

# build WHAT COMMAND..: runs a command that builds something, and stops with its output where that fails
build() {
    echo "== building $1"
    shift
    "$@" >"$log" 2>&1 && return
    tail -n 40 "$log"
    echo "all.sh: stopped: this failed: $*"
    exit 2
}

# run COMMAND..: runs a test, and goes on where it fails
run() {
    echo "== $*"
    "$@" || { status=1 && echo "failed: $*"; }
}

has() { command -v "$1" >/dev/null || { echo "== without $1, its tests are left out" && false; }; }

calls_for_c() { (cd ../crates/ill_c && rt lib) && make -C ../bindings/c all example; }

example_of_lines() { (cd ../crates/example_build && rt run </dev/null); }

build "the program" ./build_program.sh
build "the example of lines" example_of_lines
build "the libraries for C" calls_for_c
run ./check.sh --scripts
run memory/allocations.sh
run edits/run.py --all
run ../bindings/c/tests/run.sh
has python3 || exit $status
run python3 ../examples/make.py --check
run python3 ../vectors/make.py --check
run python3 -m model.comb
run ../bindings/python/tests/run.sh
for script in memory/files_allocations.py program/recipes.py program/progress.py program/packaging.py program/outputs.py; do run $script; done
if has wasm-opt && has wasm-validate; then
    build "the page" make -C ../bindings/web
    run ../bindings/web/tests/run.sh
fi
[ -e /usr/include/yaz/ill.h ] && run program/peer.py
for profile in 2 module; do
    run ../vectors/run.py --adapter illcanon --profile $profile
    for adapter in illcanon library; do run ../vectors/run.py --adapter $adapter --lines --profile $profile; done
    for test in "spellings 2000" "refusals 2000" "shown 2000" "json_lines 2000" "built 2000" "lines 500" "dump 400" "dump_html 300" "archive 200000" "results 20000"; do
        run program/${test% *}.py "$(od -An -N2 -tu2 /dev/urandom | tr -d ' ')" ${test#* } $profile
    done
    [ -x /usr/bin/time ] && run speed/worst.py $profile
done
exit $status
