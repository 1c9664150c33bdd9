#!/bin/sh
# Instructions a message of each call for C: bench.sh FOLDER, where FOLDER/one and FOLDER/two have the same files NAME.ber of N and 2N
# messages, each of one size. Counted by callgrind (Debian: valgrind), less what the start takes. Needs the library, built by `make`.
folder=$(cd "$1" && pwd) || exit 2
c=$(cd "$(dirname "$0")/.." && pwd) || exit 2
bench=$(mktemp) || exit 2
trap 'rm -f "$bench"' EXIT
cc -O2 -o "$bench" "$c/tests/bench.c" "$c/build/libillcanon.a" || exit 2
count() {
    valgrind --tool=callgrind --callgrind-out-file=/dev/null "$bench" "$1" "$2" 2>&1 | sed -n 's/.*refs: *//p' | tr -d ,
}
for file in "$folder"/one/*.ber; do
    name=$(basename "$file")
    messages=${MESSAGES:-2000}
    case $name in large*) messages=$((messages / 10)) ;; esac
    line=$name
    for call in normalise check next normalise_next show digest; do
        line="$line $call $((($(count $call "$folder/two/$name") - $(count $call "$file")) / messages))"
    done
    echo "$line"
done
