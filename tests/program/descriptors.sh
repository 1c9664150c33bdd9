#!/bin/bash
# Runs each command of the built program with each of the seven sets of closed standard streams. A file that is written has what it
# has when all are open, no input changes, and what can still be seen is the same. Run by hand, from anywhere, with the program
# built: (cd crates/illcanon && rt run -- --version). The last line is 'N passed, M failed'.
# What is to be read of a closed standard input is a read fault, with status 3: OUT and the file of refused messages stay as they were.
program=$(cd "$(dirname "$0")/../.." && pwd)/crates/illcanon/out/illcanon
. "$(dirname "$0")/commands.sh"
examples=$(cd "$(dirname "$0")/../../examples" && pwd)
folder=$(mktemp -d) && cd "$folder" || exit 1
passed=0 failed=0

mkdir given
cp "$examples/every-part.ber" given/every.ber
cp "$examples/expired-long-form.ber" given/long.ber
# A message, one that is refused, and again one.
{ cat given/long.ber && printf 't\0' && cat given/long.ber; } >given/mixed.ber
od -An -v -tx1 given/long.ber | tr -d ' \n' >given/lines.txt
printf '\n7400\n' >>given/lines.txt
# A line that says a message, one that is refused, and again one.
expired='{"apdu":"Expired","value":{"protocol-version-num":2,"transaction-id":{"transaction-group-qualifier":{"general":"G"},"transaction-qualifier":{"general":"Q"}},"service-date-time":{"date-time-of-this-service":{"date":"20240229"}}}}'
printf '%s\n{}\n%s\n' "$expired" "$expired" >given/lines.json
printf 'mixed.ber\0long.ber' >given/list
echo precious >old
old=

# start CLOSED WORD..: runs the program in a folder of its own, with these of the streams 0, 1 and 2 closed. Standard input has a
# message; what is left is in the folder, and the status in ./status.
start() {
    local closed=$1 input='<../given/mixed.ber' output='>stdout' errors='2>stderr'
    shift
    rm -rf run && mkdir run && cp given/* run/
    [ -z "$old" ] || { cp old run/OUT && cp old run/R; }
    case $closed in *0*) input='<&-' ;; esac
    case $closed in *1*) output='>&-' ;; esac
    case $closed in *2*) errors='2>&-' ;; esac
    (cd run && eval '"$program" "$@"' "$input $output $errors")
    echo $? >status
}

# has_line CLOSED: of the last run, whether its last line is that of the input that can't be read, or of standard output before it
has_line() {
    tail -n 1 run/stderr | grep -qx 'illcanon: \(-: \)\?read fault' || { [ "$1" = 01 ] && tail -n 1 run/stderr | grep -qx 'illcanon: mixed.ber: \(flush fault\|write fault after 0 octets\)'; }
}

# unread CLOSED WORD..: a command that is to read standard input, which is closed: OUT and R are what they were, also where they are absent.
unread() {
    local closed=$1 why='' file
    shift
    # Here it is the name of standard output.
    [ "$*" != 'canonicalise long.ber -' ] || return 1
    for old in '' yes; do
        start "$closed" "$@"
        [ "$(cat status)" = 3 ] || why="$why status $(cat status), wanted 3"
        for file in $(cd given && ls); do
            cmp -s given/$file run/$file || why="$why $file"
        done
        for file in OUT R; do
            if [ "$old" ]; then cmp -s old run/$file; else [ ! -e run/$file ]; fi || why="$why $file, which was ${old:+there}${old:-absent}"
        done
        ls run | grep -q part && why="$why part"
        # Of several files the others have their results, and their lines.
        case $closed in *2*) ;; *) has_line "$closed" || why="$why stderr" ;; esac
        case $closed,$* in *1*) ;; *,*'mixed.ber -') ;; *) [ ! -s run/stdout ] || why="$why stdout" ;; esac
    done
    old=
    if [ -z "$why" ]; then
        passed=$((passed + 1))
    else
        failed=$((failed + 1))
        echo "failed: $closed closed, and read: $*:$why"
    fi
}

# row WORD..: a command that is run with all streams open, and then with each set closed
row() {
    start none "$@"
    rm -rf whole && mv run whole
    local wanted
    wanted=$(cat status)
    for closed in 0 1 2 01 02 12 012; do
        case $closed," $* " in *0*,*' - '*) unread "$closed" "$@" && continue ;; esac
        start "$closed" "$@"
        local why=
        for file in $(cd given && ls) OUT stdout stderr; do
            case $file,$closed in stdout,*1* | stderr,*2*) continue ;; esac
            # Where standard output is closed, a line says that it can't be written.
            case $file,$closed in stderr,*1*) [ -s whole/stdout ] && continue ;; esac
            cmp -s whole/$file run/$file || [ ! -e whole/$file -a ! -e run/$file ] || why="$why $file"
        done
        ls run | grep -q part && why="$why part"
        local status
        status=$(cat status)
        case $closed in
        *1*) [ -s whole/stdout ] && wanted_here=3 || wanted_here=$wanted ;;
        *) wanted_here=$wanted ;;
        esac
        [ "$status" = "$wanted_here" ] || why="$why status $status, wanted $wanted_here"
        if [ -z "$why" ]; then
            passed=$((passed + 1))
        else
            failed=$((failed + 1))
            echo "failed: $closed closed: $*:$why"
        fi
    done
}

for command in $(printing_with --with-filename) 'show --json'; do
    row $command every.ber
    row $command mixed.ber long.ber absent.ber
    row $command --files-from list
    row $command -
    row $command mixed.ber -
    row $command --hex -
    row $command --files-from -
done
for command in $(printing_with --json); do
    row $command --keep-going --summary mixed.ber long.ber
done
row same long.ber long.ber
row same long.ber every.ber
row same - long.ber
row same long.ber -
row check --lines lines.txt
row check --lines -
row digest --lines -
row check --json --keep-going --refused R -
row show --keep-going --refused R -
row canonicalise every.ber OUT
row canonicalise mixed.ber OUT
row canonicalise - OUT
row canonicalise --keep-going mixed.ber OUT
row canonicalise --keep-going - OUT
row canonicalise --whole mixed.ber OUT
row canonicalise --whole every.ber OUT
row canonicalise --keep-going --summary -o OUT mixed.ber absent.ber long.ber
row canonicalise --keep-going -o OUT --files-from list every.ber
row canonicalise -o OUT mixed.ber -
row canonicalise --lines lines.txt OUT
row canonicalise --hex lines.txt OUT
row canonicalise --hex - OUT
row canonicalise --lines - OUT
row canonicalise --whole - OUT
row canonicalise -o OUT -
row canonicalise -o OUT --files-from -
row build lines.json OUT
row build - OUT
row build --keep-going --refused R --summary -o OUT lines.json absent.ber
row build --lines lines.json OUT
row build --json --keep-going -o OUT -
row canonicalise --keep-going --refused R - OUT
row canonicalise --keep-going --refused R -o OUT mixed.ber -
row canonicalise - -
row canonicalise long.ber -
row nonsense
row --help

rm -rf "$folder"
echo "$passed passed, $failed failed"
[ $failed = 0 ]
