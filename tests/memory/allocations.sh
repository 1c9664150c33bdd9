#!/bin/sh
# Refuses allocation number 1, 2, .. of memory in each call that takes any, until a run meets no refusal. Each result before that must be
# out of memory, in the call's own words and with the state that is promised then, or the refusal of an input that is refused: a program
# makes the call and looks. The programs are those of tests/memory/allocations_calls and tests/memory/allocations_typed, which are no crates of this repository,
# since their proofs take minutes: they are made in a copy, and proved there. Needs `cc`, since the refusals are made by a wrapper round malloc and realloc.
cd "$(dirname "$0")/../../crates" || exit 2
../tests/build_program.sh >/dev/null 2>&1 || exit 2
folder=$(mktemp -d) || exit 2
trap 'rm -rf "$folder"' EXIT
cc -shared -fPIC -O1 -o "$folder/refuse.so" ../tests/memory/refuse.c -ldl || exit 2

# A repository of the programs and of the crates that they need. There `rt ci` takes what it proved on this machine before.
copy=$folder/copy
mkdir -p "$copy/crates" && cp ../HANDLES "$copy" && git init -q "$copy" || exit 2

# Adds a crate of this repository with all that it needs.
add_crate() {
    ! [ -e "$copy/crates/$1" ] && [ -e "$1" ] || return 0
    mkdir "$copy/crates/$1" && tar -c --exclude=out -C "$1" . | tar -x -C "$copy/crates/$1" || exit 2
    line=$(grep "^$1:" ../crates.txt) || exit 2
    echo "$line" >>"$copy/crates.txt"
    for needed in ${line#*:}; do
        add_crate "$needed"
    done
}

# Adds the program of tests/memory/NAME, a crate with these dependencies.
add_program() {
    echo "$1: $2" >>"$copy/crates.txt"
    mkdir -p "$copy/crates/$1/src" || exit 2
    for file in "../tests/memory/$1"/*.rt.in; do
        cp "$file" "$copy/crates/$1/src/$(basename "$file" .in)" || exit 2
    done
    # The proof of a function of reading.rt is NAME.antt.in.
    for file in "../tests/memory/$1"/*.antt.in; do
        [ -e "$file" ] || continue
        proof=$copy/crates/$1/proofs/reading/$(basename "$file" .antt.in)
        mkdir -p "$proof" && cp "$file" "$proof/Answers.antt" || exit 2
    done
    for needed in $2; do
        add_crate "$needed"
    done
}

add_program allocations_calls "ber_core ber_leaf ill_schema ill_read ill_write ill_normal ill_text ill_commands test_support"
# The calls in the module profile are those of a test in the gate.
cp test_commands/src/memory/module.rt "$copy/crates/allocations_calls/src" || exit 2
add_program allocations_typed "ber_leaf ill_schema ill_parts ill_apdu test_support"
# Without an argument each program lists its calls. What `rt ci` says of that output makes no difference here.
(cd "$copy" && rt ci >"$folder/log" 2>&1)
calls=$copy/crates/allocations_calls/out/allocations_calls
typed=$copy/crates/allocations_typed/out/allocations_typed
[ -x "$calls" ] && [ -x "$typed" ] || { tail -n 40 "$folder/log" && exit 2; }

# Prints how many allocations a program's call met; fails where a result is wrong.
allocations_of() {
    number=1
    met=0
    while :; do
        answer=$(REFUSE=$number LD_PRELOAD="$folder/refuse.so" "$1" "$2" 2>"$folder/refusals")
        if ! [ -s "$folder/refusals" ]; then
            [ "$answer" = right ] && break
            echo "$2: $answer, with no allocation refused"
            return 1
        fi
        case $answer in
            "out of memory") met=$((met + 1)) ;;
            "not begun") ;;
            *)
                echo "$2: ${answer:-no answer}, with allocation $number refused"
                return 1
                ;;
        esac
        number=$((number + 1))
    done
    echo "$2: $met allocations"
}

# The whole program, and with it `order`: status 3 and nothing written, or what is written without a refusal.
program_allocations() {
    text=741f301d800102a10aa1031b0147a2031b0151a20ca00a80083230323430323239
    number=1
    while :; do
        answer=$(printf $text | REFUSE=$number LD_PRELOAD="$folder/refuse.so" illcanon/out/illcanon canonicalise --hex - - 2>"$folder/refusals")
        status=$?
        if ! grep -qx refused "$folder/refusals"; then
            [ "$status $answer" = "0 $text" ] && break
            echo "program: status $status, with no allocation refused"
            return 1
        fi
        case "$status $answer" in
            "3 ") grep -q ': out of memory$' "$folder/refusals" || return 1 ;;
            "0 $text") ;;
            *)
                echo "program: status $status, with allocation $number refused"
                return 1
                ;;
        esac
        number=$((number + 1))
    done
    echo "program: $((number - 1)) allocations"
}

failed=0
for program in "$calls" "$typed"; do
    for call in $("$program" | cut -d : -f 1); do
        allocations_of "$program" "$call" || failed=1
    done
done
# The writer takes no memory but that for the sizes.
measured=$(allocations_of "$calls" sizes-measure-largest)
written=$(allocations_of "$calls" write-normal-largest)
[ "${measured#*: }" = "${written#*: }" ] || failed=1
program_allocations || failed=1
exit $failed
