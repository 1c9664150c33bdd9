#!/bin/sh
# Tests the library for C, built by `make`: each call on every file of examples/, in profile 2 with and without a number for it, and on the
# worked messages of the module profile, with the address sanitizer on the caller's side; a k-th malloc that fails; eight threads at once;
# the stack that each call takes; COUNT (100,000) inputs of each profile changed at random, against the program; the header as C89, C11 and
# C++; which names the libraries have, and how the shared object is linked. Needs `cc` and binutils, and the program built:
# (cd crates/illcanon && rt run -- --version). PROGRAM is another program to compare with.
top=$(cd "$(dirname "$0")/../../.." && pwd) || exit 2
build=$top/bindings/c/build
tests=$top/bindings/c/tests
program=${PROGRAM:-$top/crates/illcanon/out/illcanon}
examples=$top/examples
folder=$(mktemp -d) && cd "$folder" || exit 2
trap 'rm -rf "$folder"' EXIT
passed=0 failed=0

try() {
    name=$1
    shift
    if "$@"; then
        passed=$((passed + 1))
    else
        failed=$((failed + 1))
        echo "failed: $name"
    fi
}

# build NAME FLAG..
build() {
    name=$1
    shift
    cc -std=gnu11 -O1 -g -Wall -Wextra -o "$name" "$tests/$name.c" "$build/libillcanon.a" "$@"
}

names_are() {
    [ "$("$@" | grep -v " A ILLCANON_" | sed 's/.* //; s/@@.*//' | sort | tr '\n' ' ')" = "$(names)" ]
}

# The names of the calls, each with a space after it.
names() {
    for call in build build_cause_name build_with_defaults cause_clause cause_name check digest dump frame json next normalise normalise_next same show version; do
        printf 'illcanon_%s ' $call
        case $call in build_* | cause_* | frame | version) ;; *) printf 'illcanon_%s_as ' $call ;; esac
    done
}

# The addresses of the names that the shared object uses are found when it is loaded, and can't be written afterwards.
is_bound_at_once() {
    readelf -d "$build/libillcanon.so" | grep -q BIND_NOW && readelf -l "$build/libillcanon.so" | grep -q GNU_RELRO
}

printf '#include "illcanon.h"\nint main(void) { return sizeof(struct illcanon_refusal) != 72; }\n' >header.c
cp header.c header.cc
try header-c89 cc -std=c89 -pedantic -Wall -Wextra -Werror -I"$top/bindings/c" -o header header.c
try header-size ./header
try header-c11 cc -std=c11 -pedantic -Wall -Wextra -Werror -I"$top/bindings/c" -c -o header.o header.c
try header-c++ c++ -std=c++11 -pedantic -Wall -Wextra -Werror -I"$top/bindings/c" -c -o header.o header.cc
try names-of-the-archive names_are nm -g --defined-only "$build/illcanon.o"
try names-of-the-shared-object names_are nm -D --defined-only "$build/libillcanon.so"
try bound-at-once is_bound_at_once

printf 741f301d800102a10aa1031b0147a2031b0151a20ca00a80083230323430323239 | xxd -r -p >expired.der
awk -F'|' 'NF == 4' "$top/crates/test_messages/src/read/module_rows.rt" >rows
awk -F'|' '$2 == "module" && sub("^normal ", "", $4) { print $3 }' rows | xxd -r -p >module.ber
awk -F'|' '$2 == "module" && sub("^normal ", "", $4) { print $4 }' rows | xxd -r -p >module.der
xxd -r -p "$top/bindings/tests/externals.hex" >externals.der
try build-calls build calls -fsanitize=address,undefined -fno-sanitize-recover=all
set -- "$examples/every-part.ber" "$examples/expired-long-form.ber"
for profile in - 2; do
    for file; do
        forms=${file%.ber}.der
        [ -e "$forms" ] || forms=expired.der
        try "calls $profile $(basename "$file")" ./calls $profile "$file" "$forms"
        try "calls $profile $(basename "$forms")" ./calls $profile "$forms" "$forms"
        ./calls $profile show "$file" >shown
        "$program" show "$file" >wanted
        try "show $profile $(basename "$file")" cmp shown wanted
        ./calls $profile json "$file" >lines
        "$program" show --json "$file" >wanted
        try "json $profile $(basename "$file")" cmp lines wanted
        ./calls $profile dump "$file" >dumped
        "$program" dump "$file" >wanted
        try "dump $profile $(basename "$file")" cmp dumped wanted
    done
    try "rows $profile" ./calls $profile rows rows
done
try "calls module" ./calls module module.ber module.der
try "calls module examples" ./calls module "$examples/module.ber" "$examples/module.der"
./calls module show "$examples/module.ber" >shown
"$program" show --profile module "$examples/module.ber" >wanted
try "show module examples" cmp shown wanted
./calls module json "$examples/module.ber" >lines
"$program" show --json --profile module "$examples/module.ber" >wanted
try "json module examples" cmp lines wanted
./calls module dump "$examples/module.ber" >dumped
"$program" dump --profile module "$examples/module.ber" >wanted
try "dump module examples" cmp dumped wanted
try "calls module expired" ./calls module "$examples/expired-long-form.ber" expired.der
try "rows module" ./calls module rows rows
./calls module show externals.der >shown
try "show module" cmp shown "$top/bindings/tests/externals.txt"
for profile in - 2 module; do
    ./calls $profile digest "$examples/expired-long-form.ber" >digest
    sha256sum <expired.der | sed 's/ .*//' >wanted
    try "digest $profile" cmp digest wanted
done
./calls module digest externals.der >digest
sha256sum <externals.der | sed 's/ .*//' >wanted
try "digest of externals" cmp digest wanted
try build-no-memory build no_memory -Wl,--wrap=malloc,--wrap=realloc,--wrap=free
try no-memory ./no_memory - "$examples/every-part.ber"
try no-memory-small ./no_memory - "$examples/expired-long-form.ber"
try no-memory-module ./no_memory module externals.der
try build-threads build threads -pthread
try threads ./threads - "$examples/every-part.ber"
try threads-module ./threads module module.ber
try build-stack build stack -pthread
try stack ./stack - "$examples/every-part.ber"
try stack-2 ./stack 2 "$examples/every-part.ber"
try stack-module ./stack module module.ber
try build-mutants build mutants
try mutants ./mutants "$program" "${COUNT:-100000}" - "$@"
try mutants-module ./mutants "$program" "${COUNT:-100000}" module module.ber externals.der "$examples/module.ber"
try example sh -c '"$1" <"$2" >lines && [ "$(wc -l <lines)" -gt 0 ]' - "$build/example" "$examples/every-part.ber"
echo "$passed passed, $failed failed"
[ "$failed" = 0 ]
