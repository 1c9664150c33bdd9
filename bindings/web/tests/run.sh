#!/bin/bash
# Tests the page and the calls for JavaScript, built by `make`: what the build refuses, and that it makes the same module twice; the numbers
# of 128 bits; the sources and the policy of the page; the contrast of its colours; the types, by a caller that tsc compiles; the calls, the
# tree of elements, the fields, the names of files and the heap in Node; the module against the test vectors and the native library (built by `make` in
# bindings/c), in Node and in each browser that is there; changes of one octet of the module, which the comparison has to see; illcanon.js from
# a server; and the page in each browser. Where tsc, Node or a browser is absent, its tests are left out. Pictures are in build/pictures.
cd "$(dirname "$0")" || exit 2
status=0

run() {
    echo "== $*"
    "$@" || { status=1 && echo "failed: $*"; }
}

has() { command -v "$1" >/dev/null || { echo "== without $1, its tests are left out" && false; }; }

is_built_again() {
    before=$(sha256sum <../build/illcanon.wasm)
    ../build_module.py && [ "$before" = "$(sha256sum <../build/illcanon.wasm)" ]
}

# The Python that has Debian's packages.
python=python3
python3 -c "import selenium" 2>/dev/null || python=/usr/bin/python3

can_run() {
    case $1 in
    chromium) has chromium && has chromedriver && { $python -c "import selenium" || { echo "== without selenium, the tests in Chromium are left out" && false; }; } ;;
    firefox) has firefox-esr ;;
    esac
}

are_wide() {
    program=$(mktemp) && cc -O2 -Wall -Wextra -o "$program" wide.c && "$program"
    code=$?
    rm -f "$program"
    return $code
}

run ./test_build.py
run are_wide
run is_built_again
run ./sources.py
run sh -c 'cd ../build && sha256sum --check --quiet SHA256SUMS'
run ./contrast.py
has tsc && run tsc -p tsconfig.json
has node || exit $status
run node --test calls.test.mjs elements.test.mjs fields.test.mjs names.test.mjs memory.test.mjs
run ./compare.py
run ./mutants.py
mkdir -p ../build/pictures
for browser in chromium firefox; do
    can_run $browser || continue
    run $python compare.py --browser $browser
    run $python served.py $browser
    run $python page.py $browser ../build/pictures
done
exit $status
