#!/bin/bash
# What the built program does where memory, room, a pipe or its input fails under it: status 3 and its line, or the message's refusal, and in
# the output exactly what the line says. Run by hand, from anywhere, with the program built. The last line is 'N passed, M failed'.
program=$(cd "$(dirname "$0")/../.." && pwd)/crates/illcanon/out/illcanon
. "$(dirname "$0")/commands.sh"
folder=$(mktemp -d) && cd "$folder" || exit 1
passed=0 failed=0

# expect NAME STATUS PATTERN: of the last run, whose line on standard error must match the pattern; none is wanted where that is empty
expect() {
    if [ -z "$3" ]; then [ ! -s err ]; else grep -qx -- "$3" err; fi
    if [ $? = 0 ] && [ "$status" = "$2" ]; then
        passed=$((passed + 1))
    else
        failed=$((failed + 1))
        echo "failed: $1: status $status, wanted $2"
        head -c 300 err
    fi
}

# front NAME FILE WHOLE: the first file must be a first part of the second
front() {
    if cmp -s -n "$(stat -c %s "$2")" "$2" "$3"; then
        passed=$((passed + 1))
    else
        failed=$((failed + 1))
        echo "failed: $1: what was written is no first part"
    fi
}

printf '\x74\x1f\x30\x1d\x80\x01\x02\xa1\x0a\xa1\x03\x1b\x01\x47\xa2\x03\x1b\x01\x51\xa2\x0c\xa0\x0a\x80\x0820240229' >ONE
cp ONE MANY
for _ in 1 2 3 4 5 6 7 8 9 10 11 12 13 14 15 16 17; do cat MANY MANY >MORE && mv MORE MANY; done
# A MESSAGE of 1,048,573 octets, whose note has 1,048,526.
{
    printf '\x71\x80\x30\x80\x80\x01\x02\xa1\x0a\xa1\x03\x1b\x01\x47\xa2\x03\x1b\x01\x51\xa2\x0c\xa0\x0a\x80\x0820240229\xbf\x2e\x80\x1b\x83\x0f\xff\xce'
    head -c 1048526 /dev/zero | tr '\0' A
    printf '\0\0\0\0\0\0'
} >LARGE

# A pipe that is closed by who reads it.
"$program" canonicalise MANY - 2>err | head -c 10 >PART
status=${PIPESTATUS[0]}
expect closed-pipe 3 ''

# Refused messages have lines of JSON on standard output. The work ends with the first that can't be written, and nothing is said where nobody
# reads them any more: of an input that comes for ever, the program takes no more than it has taken until then. EMPTY is refused at its end.
head -c 800000 /dev/zero | sed 's/\x00\x00/t\x00/g' >EMPTY
# pieces COUNT: the octets of EMPTY this many times, and then the number of those that were taken into the file TAKEN
pieces() {
    local count=0
    trap '' PIPE
    while [ $count -lt "$1" ] && cat EMPTY 2>/dev/null; do count=$((count + 1)); echo $count >TAKEN; done
}
for words in 'check --json' 'digest --json'; do
    "$program" $words --keep-going EMPTY 2>err | head -c 10 >PART
    status=${PIPESTATUS[0]}
    expect "closed-pipe: $words" 3 ''
    echo 0 >TAKEN
    pieces 500 | timeout 60 "$program" $words --keep-going - 2>err | true
    status=${PIPESTATUS[1]}
    expect "closed-pipe-of-a-long-input: $words" 3 ''
    [ "$(cat TAKEN)" = 0 ] || { failed=$((failed + 1)) && echo "failed: closed-pipe-of-a-long-input: $words: $(cat TAKEN) pieces of the input were taken"; }
    echo 0 >TAKEN
    pieces 500 | timeout 60 "$program" $words --keep-going - 2>err >/dev/full
    status=${PIPESTATUS[1]}
    expect "full-device-of-a-long-input: $words" 3 'illcanon: \(write fault after 0 octets\|flush fault\)'
    [ "$(cat TAKEN)" = 0 ] || { failed=$((failed + 1)) && echo "failed: full-device-of-a-long-input: $words: $(cat TAKEN) pieces of the input were taken"; }
    if command -v strace >/dev/null && strace -o CALLS true 2>/dev/null; then
        strace -o CALLS -e trace=write "$program" $words --keep-going EMPTY >/dev/full 2>err
        status=$?
        expect "full-device: $words" 3 'illcanon: \(write fault after 0 octets\|flush fault\)'
        # The octets that could not be written are tried again where the output is flushed and closed.
        [ "$(grep -c '^write(1' CALLS)" -le 3 ] || { failed=$((failed + 1)) && echo "failed: full-device: $words: $(grep -c '^write(1' CALLS) writes"; }
    fi
done

# A file of at most one block, as standard output; and as OUT, which isn't made then.
(trap '' XFSZ && ulimit -f 1 && exec "$program" canonicalise MANY - >PART 2>err)
status=$?
expect file-size 3 'illcanon: write fault after [0-9]* octets'
front file-size PART MANY
[ "$(stat -c %s PART)" = "$(tr -dc 0-9 <err)" ] || { failed=$((failed + 1)) && echo 'failed: file-size: another number of octets'; }
(trap '' XFSZ && ulimit -f 1 && exec "$program" canonicalise MANY OUT 2>err)
status=$?
expect file-size-of-out 3 'illcanon: write fault after [0-9]* octets'
ls OUT OUT.part 2>/dev/null && failed=$((failed + 1)) && echo 'failed: file-size-of-out: a file is left'

# Memory that suffices for small messages, and not for a large one after them. Standard output has what came before, and OUT stays as it was.
cat ONE ONE LARGE >THREE
(ulimit -v 4500 && exec "$program" canonicalise THREE - >PART 2>err)
status=$?
expect memory 3 'illcanon: out of memory'
cat ONE ONE | cmp -s - PART || { failed=$((failed + 1)) && echo 'failed: memory: not the two messages before'; }
cp ONE OUT
(ulimit -v 4500 && exec "$program" canonicalise THREE OUT 2>err)
status=$?
expect memory-of-out 3 'illcanon: out of memory'
cmp -s ONE OUT || { failed=$((failed + 1)) && echo 'failed: memory-of-out: OUT has changed'; }

# The file of refused messages stays as it was where memory runs out, OUT or standard output can't be written, or an input can't be read, and
# no new file is left. Where nothing fails, it has the messages.
printf 't\0' >BAD
cat ONE BAD ONE LARGE BAD >MIXED
cat MANY BAD >LONG
echo old >OLD
mkdir FOLDER
# stays NAME STATUS PATTERN: as expect, and R is as it was
stays() {
    expect "$@"
    cmp -s OLD R || { failed=$((failed + 1)) && echo "failed: $1: the file of refused messages has changed"; }
    [ ! -e R.part ] || { failed=$((failed + 1)) && rm R.part && echo "failed: $1: a new file is left"; }
}
{ echo canonicalise - && echo canonicalise OUT && printing_with --json && printing_with --json | sed 's/$/ --json/'; } >WORDS
while read -r words; do
    out=''
    set -- $words
    case $words in canonicalise*) out=$2 && set -- canonicalise ;; esac
    keep='--keep-going --refused R'
    cp OLD R && cp ONE OUT
    (ulimit -v 4500 && exec "$program" "$@" $keep MIXED $out >PART 2>err)
    status=$?
    sed -i '/refused at/d' err
    stays "memory-of-refused: $words" 3 'illcanon: out of memory'
    case $out in *OUT) cmp -s ONE OUT || { failed=$((failed + 1)) && echo 'failed: memory-of-refused: OUT has changed'; } ;; esac
    "$program" "$@" $keep FOLDER $out >PART 2>err
    status=$?
    stays "folder-with-refused: $words" 3 'illcanon: read fault'
    case $out in *OUT) cmp -s ONE OUT || { failed=$((failed + 1)) && echo 'failed: folder-with-refused: OUT has changed'; } ;; esac
    "$program" "$@" $keep LONG ${out/OUT//dev/full} >/dev/full 2>err
    status=$?
    sed -i '/refused at/d' err
    stays "full-device-with-refused: $words" 3 'illcanon: \(write fault after [0-9]* octets\|flush fault\)'
    if [ "$out" != OUT ]; then
        "$program" "$@" $keep LONG $out 2>err | head -c 10 >PART
        status=${PIPESTATUS[0]}
        sed -i '/refused at/d' err
        stays "closed-pipe-with-refused: $words" 3 ''
    fi
    "$program" "$@" $keep MIXED $out >PART 2>err
    status=$?
    [ $status = 1 ] && cat BAD BAD | cmp -s - R || { failed=$((failed + 1)) && echo "failed: refused messages: $words: status $status, or not the two"; }
done <WORDS
# Of several files one can't be read.
cp OLD R
"$program" check --keep-going --refused R MIXED FOLDER >PART 2>err
status=$?
sed -i '/refused at/d' err
stays folder-among-files 3 'illcanon: FOLDER: read fault\|illcanon: cannot open FOLDER: is a directory'

# A small stack.
(ulimit -s 256 && exec "$program" canonicalise LARGE OUT 2>err)
status=$?
expect stack 0 ''

# A slow pipe, and a program that is stopped and goes on.
{ cat ONE && sleep 0.3 && head -c 5 ONE && sleep 0.3 && tail -c +6 ONE; } | "$program" canonicalise - OUT 2>err
status=$?
expect slow-pipe 0 ''
cat ONE ONE | cmp -s - OUT || { failed=$((failed + 1)) && echo 'failed: slow-pipe: not the two messages'; }
mkfifo PIPE
"$program" canonicalise PIPE OUT 2>err &
(cat ONE && sleep 0.2 && kill -STOP $! && sleep 0.2 && kill -CONT $! && cat ONE) >PIPE
wait $!
status=$?
expect stopped 0 ''

# A read that a signal interrupts, the first or a later one: a wrapper around read returns this, and reports how many octets were given before.
# What is written is exactly the messages that are whole in these.
if command -v cc >/dev/null; then
    cc -shared -fPIC -O1 -o interrupt.so -x c - -ldl <<'C' || exit 1
#define _GNU_SOURCE
#include <dlfcn.h>
#include <errno.h>
#include <stdio.h>
#include <stdlib.h>
#include <unistd.h>
ssize_t read(int file, void *octets, size_t size) {
    static ssize_t (*inner)(int, void *, size_t);
    static long calls, given;
    if (!inner)
        inner = dlsym(RTLD_NEXT, "read");
    if (++calls == atol(getenv("INTERRUPT"))) {
        FILE *given_file = fopen("GIVEN", "w");
        fprintf(given_file, "%ld\n", given);
        fclose(given_file);
        errno = EINTR;
        return -1;
    }
    ssize_t count = inner(file, octets, size);
    given += count > 0 ? count : 0;
    return count;
}
C
    for call in 1 2 3 50; do
        INTERRUPT=$call LD_PRELOAD=$folder/interrupt.so "$program" canonicalise - - <MANY >PART 2>err
        status=$?
        expect "interrupted-$call" 3 'illcanon: read fault'
        head -c $(($(cat GIVEN) / 33 * 33)) MANY | cmp -s - PART || { failed=$((failed + 1)) && echo "failed: interrupted-$call: not the messages before"; }
    done
fi

# A file that shrinks, and one that grows, while it is read: what was read is refused or done, and what is written is a first part.
cp MANY SHRINKS
"$program" canonicalise SHRINKS OUT 2>err &
truncate -s 1000 SHRINKS
wait $!
status=$?
if [ $status = 0 ]; then expect shrinks 0 ''; else expect shrinks 1 'illcanon: refused at [0-9]* in message [0-9]*: Truncated'; fi
front shrinks OUT MANY
cp MANY GROWS
"$program" canonicalise GROWS OUT 2>err &
cat ONE >>GROWS
wait $!
status=$?
expect grows 0 ''
front grows OUT GROWS

# No permission, where a user without rights is there to try it.
if [ "$(id -u)" = 0 ] && command -v setpriv >/dev/null; then
    chmod 755 . && chmod 600 ONE
    cp "$program" illcanon && chmod 755 illcanon
    setpriv --reuid 65534 --clear-groups ./illcanon canonicalise ONE - >OUT 2>err
    status=$?
    expect no-permission 3 'illcanon: cannot open ONE'
fi

# A million messages through pipes, and one more.
{ cat MANY MANY MANY MANY MANY MANY MANY && head -c $((33 * 82496)) MANY; } | "$program" canonicalise - - 2>err | wc -c >OUT
status=${PIPESTATUS[1]}
expect million-through-pipes 0 ''
[ "$(cat OUT)" = 33000000 ] || { failed=$((failed + 1)) && echo 'failed: not a million messages'; }
{ cat MANY MANY MANY MANY MANY MANY MANY && head -c $((33 * 82497)) MANY; } | "$program" canonicalise - - 2>err | wc -c >OUT
status=${PIPESTATUS[1]}
expect more-than-a-million 1 'illcanon: more than 1000000 messages'
[ "$(cat OUT)" = 33000000 ] || { failed=$((failed + 1)) && echo 'failed: not the million before'; }

cd / && rm -rf "$folder"
echo "$passed passed, $failed failed"
[ $failed = 0 ]
