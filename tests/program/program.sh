#!/bin/bash
# Starts the built program on files, pipes and what can't be opened, read or written, and compares
# status, standard output and standard error. Run by hand, from anywhere, with the program built:
# (cd crates/illcanon && rt run -- --version). The last line is 'N passed, M failed'.
program=$(cd "$(dirname "$0")/../.." && pwd)/crates/illcanon/out/illcanon
. "$(dirname "$0")/commands.sh"
folder=$(mktemp -d) && cd "$folder" || exit 1
passed=0 failed=0

# octets FILE HEX: the octets that the digits stand for
octets() {
    printf "$(printf %s "$2" | sed 's/../\\x&/g')" >"$1"
}

# compare NAME STATUS [any]: of the last run, whose output is in out and err, wanted in want-out and want-err, or anything but nothing in err
compare() {
    if [ "$3" = any ]; then [ -s err ]; else cmp -s err want-err; fi
    if [ $? = 0 ] && [ "$status" = "$2" ] && cmp -s out want-out; then
        passed=$((passed + 1))
    else
        failed=$((failed + 1))
        echo "failed: $1: status $status, wanted $2"
        head -3 out err
    fi
}

# row NAME STATUS STDOUT STDERR WORD..: STDERR is any where clap's text is there
row() {
    name=$1 wanted=$2 lines=$3
    printf "$lines" >want-out
    printf "$4" >want-err
    any=no
    [ "$4" = any ] && any=any
    shift 4
    "$program" "$@" <in >out 2>err
    status=$?
    compare "$name" "$wanted" "$any"
}

EXPIRED=741f301d800102a10aa1031b0147a2031b0151a20ca00a80083230323430323239
INDEFINITE=74803080800102a180a1801b01470000a2801b015100000000a280a080800832303234303232390000000000000000
REQUEST=61343032800102a10aa1031b0147a2031b0151a20ca00a80083230323430323239a9030a0101ab0c800100810100820101830101b000
CUT=741f301d800102a2
INCOMPLETE=748030808001020000
: >in

octets F $CUT
row fault-line-refused 1 '' 'illcanon: refused at 7 in message 1: UnexpectedTag\n' show F
octets G $EXPIRED
row fault-line-first-file 1 '' 'illcanon: refused at 7 in the first file: UnexpectedTag\n' same F G
row fault-line-second-file 1 '' 'illcanon: refused at 7 in the second file: UnexpectedTag\n' same G F
octets F $INCOMPLETE
row fault-line-with-part 1 '' 'illcanon: refused at 7 in message 1: Missing Expired.transaction-id\n' check F
row fault-line-cannot-open 3 '' 'illcanon: cannot open NAME\n' check NAME
row fault-line-same-word 2 '' 'illcanon: the same word twice\n' same - -
octets F $EXPIRED
row fault-line-same-word-canonicalise 2 '' 'illcanon: the same word twice\n' canonicalise F F
row show 0 'message 1 Expired\nprotocol-version-num = 2\ntransaction-id.transaction-group-qualifier = general "G"\ntransaction-id.transaction-qualifier = general "Q"\nservice-date-time.date-time-of-this-service.date = 20240229\n' '' show F
row same-of-one-file 0 'same\n' '' same F F
octets G $REQUEST
row different-of-two-files 1 'different\n' '' same F G
row check-of-no-message 0 '' '' check -
examples=$(cd "$(dirname "$program")/../../../examples" && pwd)
# Octets and normal forms of another encoder.
row check-of-every-part 1 "$(cat "$examples/every-part.check")\n" '' check "$examples/every-part.ber"
row every-part-into-a-file 0 '' '' canonicalise "$examples/every-part.ber" OUT
cmp -s OUT "$examples/every-part.der" || { failed=$((failed + 1)) && echo 'failed: OUT is not the normal forms of every-part'; }
octets F $INDEFINITE
# The elements of a message, by hand.
row dump-of-indefinite 0 'message 1: Expired, 47 octets, not normal, normal form 33 octets
      0  74 80  Expired  (indefinite)
      2    30 80  SEQUENCE  (indefinite)
      4      80 01  protocol-version-num = 2
      7      a1 80  transaction-id  (indefinite)
      9        a1 80  transaction-group-qualifier  (indefinite)
     11          1b 01  GeneralString = "G"
     14        00 00  end mark
     16        a2 80  transaction-qualifier  (indefinite)
     18          1b 01  GeneralString = "Q"
     21        00 00  end mark
     23      00 00  end mark
     25      a2 80  service-date-time  (indefinite)
     27        a0 80  date-time-of-this-service  (indefinite)
     29          80 08  date = 20240229
     39        00 00  end mark
     41      00 00  end mark
     43    00 00  end mark
     45  00 00  end mark
' '' dump F
octets F $CUT
dumped='refused
      0  74 1f  Expired
      2    30 1d  SEQUENCE
      4      80 01  protocol-version-num = 2
refused at 7: UnexpectedTag
    this tag is not expected here
    clause X.690, 8.9.2, 8.10.2, 8.13 and 8.14, with the types of ISO 10161-1
    path Expired
    found [2] constructed: a2
    due [1] transaction-id
      7      a2  octets  (not judged)
'
row dump-of-a-refused-message 1 "message 1: $dumped" 'illcanon: refused at 7 in message 1: UnexpectedTag\n' dump F
{ printf '\005\001A' && cat F; } >G
row dump-of-one-message 1 "message 2: $dumped" 'illcanon: refused at 0 in message 1: UnexpectedTag\nillcanon: refused at 7 in message 2: UnexpectedTag; its end is unknown\n' dump --keep-going --message 2 G
row dump-of-one-message-after-a-refused-one 1 '' 'illcanon: refused at 0 in message 1: UnexpectedTag\n' dump --message 2 G
row dump-of-no-such-message 1 '' 'illcanon: refused at 0 in message 1: UnexpectedTag\nillcanon: refused at 7 in message 2: UnexpectedTag; its end is unknown\nillcanon: no message 3: the input has 2 messages\n' dump --keep-going --message 3 G
row dump-of-no-file 3 '' 'illcanon: cannot open NAME\n' dump NAME
octets F $INDEFINITE
row check-of-indefinite 1 'message 1: Expired, 47 octets, not normal, normal form 33 octets\n' '' check F
row canonicalise-into-a-file 0 '' '' canonicalise F OUT
octets G $EXPIRED
cmp -s G OUT || { failed=$((failed + 1)) && echo 'failed: OUT is not the normal form'; }
{ cat F && printf u; } >TWO
row refused-after-what-goes-into-a-file 1 '' 'illcanon: refused at 0 in message 2: UnexpectedTag\n' canonicalise TWO OUT
cmp -s G OUT || { failed=$((failed + 1)) && echo 'failed: OUT is not the normal form of the message before'; }
printf %s $EXPIRED | tr a-f A-F >TEXT
printf '%s\n' $INDEFINITE >OTHER
row same-of-texts 0 'same\n' '' same --hex TEXT OTHER
printf '7 G' >BAD
row same-of-no-text 1 '' 'illcanon: hex: bad digit at 1\n' same --hex TEXT BAD
rm OTHER OUT TEXT BAD TWO
row no-command 2 '' any
printf %s $INDEFINITE | tr a-f A-F >in
row stored-run 0 "$EXPIRED\n" '' canonicalise --hex - -
printf '7G' >in
row hex-bad-digit 1 '' 'illcanon: hex: bad digit at 1\n' check --hex -
printf '74 1' >in
row hex-odd-number-of-digits 1 '' 'illcanon: hex: odd number of digits\n' canonicalise --hex - -
head -c 4194305 /dev/zero | tr '\0' ' ' >in
row hex-text-too-long 1 '' 'illcanon: hex: too long\n' show --hex -
: >in

# Words that are no command line, help and version.
row no-such-command 2 '' any shwo F
row file-left-out 2 '' any same F
row word-too-many 2 '' any same F G H
required='error: the following required arguments were not provided:\n  '
usage='\n\nUsage: illcanon '
help="\n\nFor more information, try '--help'.\n"
two_forms="${usage}canonicalise [OPTIONS] <IN> <OUT>\n       illcanon canonicalise [OPTIONS] -o <OUT> <FILE>...$help"
for command in $(printing_with --json); do
    row "no-file: $command" 2 '' "$required<FILE>..., or --files-from <LIST>$usage$command [OPTIONS] [FILE]...$help" $command
done
row no-in 2 '' "$required<IN>\n  <OUT>$two_forms" canonicalise
row no-out 2 '' "$required<OUT>$two_forms" canonicalise F
row no-file-for-out 2 '' "$required<FILE>..., or --files-from <LIST>$two_forms" canonicalise -o F
row list-without-out 2 '' "$required-o <OUT>$two_forms" canonicalise --files-from F G H
row a-third-word 2 '' "error: unexpected argument 'H' found$two_forms" canonicalise F G H
two_forms="${usage}build [OPTIONS] <IN> <OUT>\n       illcanon build [OPTIONS] -o <OUT> <FILE>...$help"
row build-without-in 2 '' "$required<IN>\n  <OUT>$two_forms" build
row build-without-out 2 '' "$required<OUT>$two_forms" build F
row build-of-no-file 2 '' "$required<FILE>..., or --files-from <LIST>$two_forms" build -o F
row build-with-a-third-word 2 '' "error: unexpected argument 'H' found$two_forms" build F G H
row lines-and-keep-going 2 '' 'illcanon: --lines excludes --keep-going\n' check --lines --keep-going F
row same-keeps-not-going 2 '' any same --keep-going F F
row lines-and-summary 2 '' 'illcanon: --lines excludes --summary\n' check --lines --summary F
row check-as-json 1 '{"number":1,"offset":0,"octets":47,"apdu":"Expired","normal":false}\n' '' check --json F
row same-has-no-json 2 '' any same --json F F
row no-such-flag 2 '' any check --hexx F
row dump-of-message-0 2 '' "error: invalid value '0' for '--message <N>': 0 is not in 1..=1000000$help" dump --message 0 F
row dump-of-message-x 2 '' "error: invalid value 'x' for '--message <N>': invalid digit found in string$help" dump --message x F
row check-has-no-message 2 '' any check --message 1 F
values="\n  [possible values: 2, module]$help"
for command in $(commands); do
    row "no-such-profile: $command" 2 '' "error: invalid value '3' for '--profile <NAME>'$values" $(words_of $command) --profile 3 F
done
row profile-without-name 2 '' "error: a value is required for '--profile <NAME>' but none was supplied$values" check F --profile
row profile-without-name-before-a-flag 2 '' "error: a value is required for '--profile <NAME>' but none was supplied$values" check --profile --hex F
row profile-twice 2 '' "error: the argument '--profile <NAME>' cannot be used multiple times${usage}check [OPTIONS] [FILE]...$help" check --profile module --profile=2 F
row program-has-no-profile 2 '' any --profile 2 check F
row version 0 'illcanon 0.2.0\n' '' --version
while read -r words; do
    "$program" $words >out 2>err
    status=$?
    grep -q '^Example: ' out && grep -q '^Status: ' out && cp out want-out || echo no example or status >want-out
    : >want-err
    compare "help: $words" 0
done <<LINES
--help
help same
$(commands | sed 's/$/ --help/')
LINES

for words in 'help causes' 'help profile'; do
    "$program" $words >out 2>err
    status=$?
    cp out want-out
    : >want-err
    [ "$(wc -l <out)" -gt 20 ] || echo 'no such text' >want-out
    compare "$words" 0
done
# Each help begins with what it is about: a topic with its sentence, a command with its line of `--help`.
"$program" --help >ALL
while IFS='|' read -r words sentence; do
    "$program" $words >out 2>err
    status=$?
    [ -n "$sentence" ] || sentence=$(sed -n "s/^  ${words#help } *//p" ALL)
    case $(cat out) in "$sentence"*) cp out want-out ;; *) echo "$sentence" >want-out ;; esac
    : >want-err
    compare "first line: $words" 0
done <<LINES
help causes|Why a message is refused.
help profile|A profile is what is read of ISO 10161-1.
$(commands | sed 's/.*/help &|/')
LINES
rm ALL
# A topic of help is no command.
for words in causes profile 'causes --' 'causes F'; do
    row "topic: $words" 2 '' any $words
done
# Messages that are passed over. An EXPIRED with nothing in it is refused at its end; one without its second part, and without its
# end marks, is refused at 7, and its end is unknown.
EMPTY=7400
normal='Expired, 33 octets, normal\n'
not_normal='Expired, 47 octets, not normal, normal form 33 octets\n'
missing='Missing Expired.protocol-version-num\n'
unknown='refused at 7 in message 2: Missing Expired.transaction-id; its end is unknown\n'
digest=41b0dca84b6db1db587880995cae8f2ae640c5af026d4d9745a5bc56ba11a782
octets GOOD $EXPIRED
octets FIRST $EMPTY$EXPIRED$INDEFINITE
octets MIDDLE $EXPIRED$EMPTY$EXPIRED
octets LAST $EXPIRED$EXPIRED$EMPTY
octets ENDLESS $EXPIRED$INCOMPLETE$EXPIRED
: >NOTHING
row going-over-the-first 1 "message 2: ${normal}message 3: $not_normal" "illcanon: refused at 2 in message 1: $missing" check --keep-going FIRST
row going-over-the-middle 1 "message 1: ${normal}message 3: $normal" "illcanon: refused at 2 in message 2: $missing" check --keep-going MIDDLE
row going-over-the-last 1 "message 1: ${normal}message 2: $normal" "illcanon: refused at 2 in message 3: $missing" check --keep-going LAST
row not-going-over-the-middle 1 "message 1: $normal" "illcanon: refused at 2 in message 2: $missing" check MIDDLE
row going-to-an-unknown-end 1 "message 1: $normal" "illcanon: $unknown" check --keep-going ENDLESS
row going-over-no-message 0 '' '' check --keep-going NOTHING
row going-over-a-good-one 0 "message 1: $normal" '' check --keep-going GOOD
row going-over-files 1 "FIRST: message 2: ${normal}FIRST: message 3: ${not_normal}ENDLESS: message 1: ${normal}GOOD: message 1: $normal" \
    "illcanon: FIRST: refused at 2 in message 1: ${missing}illcanon: ENDLESS: $unknown" check --keep-going FIRST NOTHING ENDLESS GOOD
row going-over-an-absent-file 3 "GOOD: message 1: $normal" 'illcanon: cannot open ABSENT: no such file\n' check --keep-going ABSENT GOOD
row going-digest 1 "$digest  MIDDLE:1\n$digest  MIDDLE:3\n" "illcanon: refused at 2 in message 2: $missing" digest --keep-going MIDDLE
printf '%s\n%s %s\n' $EXPIRED $EMPTY $EXPIRED >in
row going-in-hexadecimal 1 "$EXPIRED\n$EXPIRED\n" "illcanon: refused at 2 in message 2: $missing" canonicalise --keep-going --hex - -
octets in $EMPTY$EXPIRED$EMPTY
row going-show 1 'message 2 Expired\nprotocol-version-num = 2\ntransaction-id.transaction-group-qualifier = general "G"\ntransaction-id.transaction-qualifier = general "Q"\nservice-date-time.date-time-of-this-service.date = 20240229\n' \
    "illcanon: refused at 2 in message 1: ${missing}illcanon: refused at 2 in message 3: $missing" show --keep-going -
: >in

# Numbers at the end. FIRST has 2, 33 and 47 octets; of ENDLESS those of the first message are known.
numbers='1 file, 3 messages, 1 normal, 1 not normal, 1 refused (0 not read, 1 invalid), 82 octets\n'
row summary-of-check 1 "message 2: ${normal}message 3: $not_normal" "illcanon: refused at 2 in message 1: ${missing}illcanon: $numbers" check --keep-going --summary FIRST
row summary-of-digest 1 "$digest  FIRST:2\n$digest  FIRST:3\n" "illcanon: refused at 2 in message 1: ${missing}illcanon: $numbers" digest --keep-going --summary FIRST
row summary-of-canonicalise 1 '' "illcanon: refused at 2 in message 1: ${missing}illcanon: $numbers" canonicalise --keep-going --summary FIRST OUT
row summary-up-to-a-refusal 1 "message 1: $normal" "illcanon: refused at 2 in message 2: ${missing}illcanon: stopped at message 2 (octet 33)\nillcanon: 1 file, 2 messages, 1 normal, 0 not normal, 1 refused, 33 octets, 1 left before the end\n" check --summary MIDDLE
row summary-of-files 3 "GOOD: message 1: ${normal}ENDLESS: message 1: $normal" \
    "illcanon: cannot open ABSENT: no such file\nillcanon: ENDLESS: ${unknown}illcanon: ENDLESS: stopped at message 2 (octet 33)\nillcanon: 2 files, 3 messages, 2 normal, 0 not normal, 1 refused (0 not read, 1 invalid), 66 octets, 1 not opened, 1 left before the end\n" check --keep-going --summary GOOD ABSENT ENDLESS
row summary-of-many-into-one 0 '' 'illcanon: 2 files, 2 messages, 2 normal, 0 not normal, 0 refused, 66 octets\n' canonicalise --summary -o OUT GOOD GOOD
row summary-of-nothing 0 '' 'illcanon: 1 file, 0 messages, 0 normal, 0 not normal, 0 refused, 0 octets\n' show --summary NOTHING

# Lines of JSON, by hand.
value='"value":{"protocol-version-num":2,"transaction-id":{"transaction-group-qualifier":{"general":"G"},"transaction-qualifier":{"general":"Q"}},"service-date-time":{"date-time-of-this-service":{"date":"20240229"}}}}\n'
row show-as-json 0 '{"number":1,"offset":0,"octets":33,"apdu":"Expired","normal":true,'"$value" '' show --json GOOD
row show-many-as-json 1 '{"file":"FIRST","number":2,"offset":2,"octets":33,"apdu":"Expired","normal":true,'"$value"'{"file":"FIRST","number":3,"offset":35,"octets":47,"apdu":"Expired","normal":false,'"$value" \
    "illcanon: FIRST: refused at 2 in message 1: ${missing}illcanon: 2 files, 3 messages, 1 normal, 1 not normal, 1 refused (0 not read, 1 invalid), 82 octets\n" show --json --keep-going --summary FIRST NOTHING

# -H names the one file, too.
row name-of-one 1 "FIRST: message 2: ${normal}FIRST: message 3: ${not_normal}" "illcanon: FIRST: refused at 2 in message 1: ${missing}" check -H --keep-going FIRST
row name-of-one-refused 1 "MIDDLE: message 1: $normal" "illcanon: MIDDLE: refused at 2 in message 2: ${missing}" check --with-filename MIDDLE
row name-of-one-in-json 0 '{"file":"GOOD","number":1,"offset":0,"octets":33,"apdu":"Expired","normal":true,'"$value" '' show -H --json GOOD
row name-of-a-digest 0 "$digest  GOOD:1\n" '' digest -H GOOD

# Many files into one. forms NAME COUNT: OUT holds the normal form this many times
forms() {
    i=0
    while [ $i -lt "$2" ]; do cat GOOD; i=$((i + 1)); done >WANTED
    cmp -s WANTED OUT || { failed=$((failed + 1)) && echo "failed: $1: OUT is not the normal forms"; }
}
row many-into-one 0 '' '' canonicalise -o OUT GOOD NOTHING GOOD
forms many-into-one 2
row many-of-which-two-are-bad 1 '' "illcanon: FIRST: refused at 2 in message 1: ${missing}illcanon: MIDDLE: refused at 2 in message 2: $missing" canonicalise -o OUT FIRST MIDDLE GOOD
forms many-of-which-two-are-bad 2
row many-going-over 1 '' "illcanon: FIRST: refused at 2 in message 1: ${missing}illcanon: ENDLESS: $unknown" canonicalise --keep-going -o OUT FIRST ENDLESS GOOD
forms many-going-over 4
row one-going-over 1 '' "illcanon: refused at 2 in message 1: $missing" canonicalise --keep-going FIRST OUT
forms one-going-over 2
row one-by-the-option 1 '' "illcanon: refused at 2 in message 1: $missing" canonicalise -o OUT FIRST
forms one-by-the-option 0
printf 'GOOD\0MIDDLE' >LIST
row many-of-a-list 1 '' "illcanon: LAST: refused at 2 in message 3: ${missing}illcanon: MIDDLE: refused at 2 in message 2: $missing" \
    canonicalise -o OUT --files-from LIST LAST --keep-going
forms many-of-a-list 5
row many-with-an-absent-one 3 '' 'illcanon: cannot open ABSENT: no such file\n' canonicalise --output OUT ABSENT GOOD
forms many-with-an-absent-one 1
row absent-ones-leave-out-as-it-was 3 '' 'illcanon: cannot open ABSENT: no such file\nillcanon: cannot open absent/too: no such file\n' canonicalise -o OUT ABSENT absent/too
forms absent-ones-leave-out-as-it-was 1
row out-is-one-of-many 2 '' 'illcanon: IN and OUT are the same file\n' canonicalise -o OUT GOOD ./OUT
row out-is-the-list 2 '' 'illcanon: IN and OUT are the same file\n' canonicalise -o ./OUT GOOD --files-from OUT
row out-is-one-of-the-words 2 '' 'illcanon: OUT is one of the files that are read\n' canonicalise -o OUT GOOD OUT
row full-device-for-many 3 '' 'illcanon: write fault after 0 octets\n' canonicalise -o /dev/full GOOD GOOD
forms what-many-leave 1
ls | grep part && failed=$((failed + 1)) && echo 'failed: a temporary file is left'
rm -f OUT WANTED LIST NOTHING

# What is made of the messages that came is written before more is waited for.
mkfifo ASKED TOLD
for words in 'canonicalise - -' 'canonicalise -o - - NOTHING' 'check -' 'digest --keep-going -' 'show -'; do
    : >NOTHING
    "$program" $words <ASKED >TOLD 2>err &
    exec 3>ASKED 4<TOLD
    cat GOOD >&3
    case $words in canonicalise*) timeout 10 head -c 33 <&4 >out ;; *) timeout 10 head -n 1 <&4 >out ;; esac
    first=$(wc -c <out)
    cat GOOD >&3
    exec 3>&-
    cat <&4 >>out
    exec 4<&-
    wait $!
    status=$?
    if [ $status = 0 ] && [ "$first" -gt 0 ] && [ "$(wc -c <out)" -gt "$first" ] && [ ! -s err ]; then
        passed=$((passed + 1))
    else
        failed=$((failed + 1)) && echo "failed: flushed before it waits: $words: status $status, $first octets first"
    fi
done
rm ASKED TOLD NOTHING FIRST MIDDLE LAST ENDLESS

# What can't be opened, read or written.
mkdir D
octets F $EXPIRED
row directory-as-input 3 '' 'illcanon: read fault\n' check D
row directory-as-output 3 '' 'illcanon: cannot open D\n' canonicalise F D
row no-such-folder 3 '' 'illcanon: cannot open no/such\n' canonicalise F no/such
row first-file-opened-first 3 '' 'illcanon: cannot open NAME\n' same NAME OTHER
row second-file-opened-before-reading 3 '' 'illcanon: cannot open OTHER\n' same D OTHER
rm -f OUT
row input-opened-before-output 3 '' 'illcanon: cannot open NAME\n' canonicalise NAME OUT
[ -e OUT ] && failed=$((failed + 1)) && echo 'failed: OUT was made though IN was not opened'
printf 'illcanon: flush fault\n' >want-err
: >want-out
"$program" check F >/dev/full 2>err
status=$?
: >out
compare full-device 3
"$program" canonicalise F - >&- 2>err
status=$?
compare closed-standard-output 3
i=0
while [ $i -lt 400 ]; do cat F; i=$((i + 1)); done >MANY
# More than is written at once.
cat MANY MANY MANY MANY MANY MANY >SIXFOLD
"$program" canonicalise SIXFOLD /dev/full >out 2>err
status=$?
printf 'illcanon: write fault after 0 octets\n' >want-err
compare full-device-in-the-middle 3

# Pipes and files give the same.
"$program" show MANY >want-out 2>want-err
cat MANY | "$program" show - >out 2>err
status=$?
compare pipe-as-file 0
cat MANY | "$program" canonicalise - - | cmp -s - MANY
status=$?
: >out && : >err && : >want-out && : >want-err
compare pipe-to-pipe 0
# A message is refused after others, which are written.
{ cat F; printf u; } >TWO
row refused-after-a-message 1 'message 1: Expired, 33 octets, normal\n' 'illcanon: refused at 0 in message 2: UnexpectedTag\n' check TWO
"$program" check MANY | grep -c 'normal' >out
status=$?
echo 400 >want-out
compare check-into-grep 0
# OUT is empty where hexadecimal text is invalid.
printf 7 >in
"$program" canonicalise --hex - OUT <in >out 2>err
status=$?
: >want-out
printf 'illcanon: hex: odd number of digits\n' >want-err
compare out-is-made-before-the-text-is-read 1
if [ ! -e OUT ] || [ -s OUT ]; then failed=$((failed + 1)) && echo 'failed: OUT is no empty file'; fi
: >in

# One file under two names is refused, and stays as it was.
octets F $INDEFINITE
cp F KEPT
ln F HARD
ln -s F SOFT
ln -s "$folder" LOOP
same_line='illcanon: IN and OUT are the same file\n'
# unlost NAME FILE: after a refusal the file is what it was
unlost() {
    cmp -s KEPT "$2" || { failed=$((failed + 1)) && echo "failed: $1: the file has changed"; }
}
for names in 'F ./F' "F $folder/F" 'F HARD' 'HARD F' 'F SOFT' 'SOFT F' 'F LOOP/F' '/dev/stdin F'; do
    "$program" canonicalise $names <F >out 2>err
    status=$?
    : >want-out
    printf "$same_line" >want-err
    compare "one-file: $names" 2
    unlost "one-file: $names" F
done
"$program" canonicalise - F <F >out 2>err
status=$?
compare one-file-as-standard-input 2
unlost one-file-as-standard-input F
"$program" canonicalise F - >>F 2>err
status=$?
: >out
compare one-file-as-standard-output 2
unlost one-file-as-standard-output F
"$program" canonicalise - - <F >>F 2>err
status=$?
compare one-file-as-both 2
unlost one-file-as-both F
row one-file-as-hexadecimal-text 2 '' "$same_line" canonicalise --hex F HARD
row one-device-is-no-file 0 '' '' canonicalise /dev/null //dev/null
rm HARD SOFT LOOP

# OUT is whole, or what it was before.
octets G $EXPIRED
echo before >OLD
cp OLD OUT && chmod 600 OUT
row replaced-with-its-mode 0 '' '' canonicalise F OUT
cmp -s G OUT || { failed=$((failed + 1)) && echo 'failed: OUT is not the normal form'; }
[ "$(stat -c %a OUT)" = 600 ] || { failed=$((failed + 1)) && echo 'failed: the mode of OUT has changed'; }
rm OUT
(umask 027 && "$program" canonicalise F OUT)
[ "$(stat -c %a OUT)" = 640 ] || { failed=$((failed + 1)) && echo 'failed: a new OUT has another mode than the shell makes'; }
mkfifo FIFO
cat FIFO >OTHER &
row fifo-as-output 0 '' '' canonicalise F FIFO
wait
cmp -s G OTHER || { failed=$((failed + 1)) && echo 'failed: the fifo got something else'; }
row full-device-as-output 3 '' 'illcanon: flush fault\n' canonicalise F /dev/full
ln -s TARGET LINK
row link-to-an-absent-file-as-whole-output 3 '' 'illcanon: cannot replace LINK: it is a link\n' canonicalise --whole F LINK
[ -e TARGET ] && failed=$((failed + 1)) && echo 'failed: a file was made by a link that can not be replaced'
row link-to-an-absent-file-as-output 0 '' 'illcanon: LINK is written directly: it is a link\n' canonicalise F LINK
{ [ -L LINK ] && cmp -s G TARGET; } || { failed=$((failed + 1)) && echo 'failed: the link is gone, or no file is made'; }
row link-to-a-file-as-output 0 '' 'illcanon: LINK is written directly: it is a link\n' canonicalise F LINK
row link-as-whole-output 3 '' 'illcanon: cannot replace LINK: it is a link\n' canonicalise --whole F LINK
{ [ -L LINK ] && cmp -s G TARGET; } || { failed=$((failed + 1)) && echo 'failed: the link is gone, or its file is not written'; }
cp OLD OUT && ln OUT SECOND
row second-name-as-output 0 '' 'illcanon: OUT is written directly: it has several names\n' canonicalise F OUT
row second-name-as-whole-output 3 '' 'illcanon: cannot replace OUT: it has several names\n' canonicalise --whole F OUT
cmp -s G SECOND || { failed=$((failed + 1)) && echo 'failed: the second name has something else'; }
rm OUT SECOND LINK TARGET OTHER
ls | grep part && failed=$((failed + 1)) && echo 'failed: a temporary file is left'

# A new file gets the group of OUT, though the owner is the same. The group has to be another than a file gets that is made there.
own=$(touch OWN && stat -c %g OWN && rm OWN)
if [ "$(id -u)" = 0 ]; then other=65534; else other=$(id -G | tr ' ' '\n' | grep -vx "$own" | head -n 1); fi
if [ -n "$other" ]; then
    cp OLD OUT && chgrp "$other" OUT && chmod 640 OUT
    was=$(stat -c %u:%g:%a OUT)
    row group-alone 0 '' '' canonicalise F OUT
    [ "$(stat -c %u:%g:%a OUT)" = "$was" ] || { failed=$((failed + 1)) && echo 'failed: owner, group or mode have changed'; }
    [ "${was#*:}" = "$other:640" ] || { failed=$((failed + 1)) && echo 'failed: OUT had no other group'; }
    rm OUT
else
    echo 'not tried: the user is in one group only, so no file has another'
fi

# A folder or a file that may not be written to, by a user who isn't root.
as_nobody=
if [ "$(id -u)" = 0 ]; then
    command -v setpriv >/dev/null && as_nobody='setpriv --reuid 65534 --regid 65534 --clear-groups' || as_nobody=skip
fi
if [ "$as_nobody" != skip ]; then
    chmod 711 "$folder" && mkdir READONLY && cp OLD READONLY/OUT && cp OLD READONLY/LOCKED
    chmod 666 READONLY/OUT && chmod 444 READONLY/LOCKED && chmod 555 READONLY
    cp "$program" illcanon && chmod 755 illcanon && chmod 644 F
    $as_nobody ./illcanon canonicalise F READONLY/OUT >out 2>err
    status=$?
    : >want-out
    echo 'illcanon: READONLY/OUT is written directly: no new file can be made beside it' >want-err
    compare read-only-folder 0
    cmp -s G READONLY/OUT || { failed=$((failed + 1)) && echo 'failed: OUT in a read-only folder is not the normal form'; }
    for name in READONLY/NEW READONLY/LOCKED; do
        $as_nobody ./illcanon canonicalise F $name >out 2>err
        status=$?
        printf "illcanon: cannot open $name\n" >want-err
        compare "may-not-be-written: $name" 3
    done
    cmp -s OLD READONLY/LOCKED || { failed=$((failed + 1)) && echo 'failed: a locked OUT has changed'; }
    # A file that may not be read.
    cp OLD SECRET && chmod 000 SECRET
    $as_nobody ./illcanon check -H SECRET >out 2>err
    status=$?
    echo 'illcanon: cannot open SECRET: permission denied' >want-err
    compare may-not-be-read 3
    rm -f SECRET
    # A folder that may be written to, with a read-only file.
    mkdir WRITABLE && cp OLD WRITABLE/LOCKED && chmod 444 WRITABLE/LOCKED && chmod 777 WRITABLE
    $as_nobody ./illcanon canonicalise F WRITABLE/LOCKED >out 2>err
    status=$?
    printf "illcanon: cannot open WRITABLE/LOCKED\n" >want-err
    compare read-only-file 3
    cmp -s OLD WRITABLE/LOCKED || { failed=$((failed + 1)) && echo 'failed: a locked OUT was replaced'; }
    # A read-only file of the user's own.
    if [ "$(id -u)" = 0 ]; then
        cp OLD WRITABLE/OWN && chown 65534:65534 WRITABLE/OWN && chmod 444 WRITABLE/OWN
        $as_nobody ./illcanon canonicalise F WRITABLE/OWN >out 2>err
        status=$?
        printf "illcanon: cannot open WRITABLE/OWN\n" >want-err
        compare own-read-only-file 3
        cmp -s OLD WRITABLE/OWN || { failed=$((failed + 1)) && echo 'failed: a read-only OUT was replaced'; }
        rm -f WRITABLE/OWN
    fi
    # A file of another owner, whom a new file can't have.
    if [ "$(id -u)" = 0 ]; then
        cp OLD WRITABLE/OUT && chmod 666 WRITABLE/OUT
        number=$(stat -c %i WRITABLE/OUT)
        $as_nobody ./illcanon canonicalise F WRITABLE/OUT >out 2>err
        status=$?
        echo "illcanon: WRITABLE/OUT is written directly: its owner and mode can't be given to a new file" >want-err
        compare owned-by-another 0
        { cmp -s G WRITABLE/OUT && [ "$(stat -c %i,%u WRITABLE/OUT)" = "$number,0" ]; } || { failed=$((failed + 1)) && echo 'failed: OUT has lost its owner'; }
        [ "$(ls WRITABLE)" = "$(printf 'LOCKED\nOUT')" ] || { failed=$((failed + 1)) && echo 'failed: a temporary file is left'; }
        # root can give the new file its owner, group and mode.
        chown 65534:65534 WRITABLE/OUT && chmod 4711 WRITABLE/OUT
        row owner-group-and-mode 0 '' '' canonicalise F WRITABLE/OUT
        [ "$(stat -c %u:%g:%a WRITABLE/OUT)" = 65534:65534:4711 ] || { failed=$((failed + 1)) && echo 'failed: owner, group or mode have changed'; }
    fi
    chmod 755 READONLY
fi

# A kill in the middle of 100 MB: OUT is what it was, and only the temporary file is left.
{
    printf '\x71\x80\x30\x80\x80\x01\x02\xa1\x0a\xa1\x03\x1b\x01\x47\xa2\x03\x1b\x01\x51\xa2\x0c\xa0\x0a\x80\x0820240229\xbf\x2e\x80\x1b\x83\x0f\xff\xce'
    head -c 1048526 /dev/zero | tr '\0' A
    printf '\0\0\0\0\0\0'
} >LARGE
cp OLD OUT
mkfifo ENDLESS
"$program" canonicalise - OUT <ENDLESS 2>err &
exec 3>ENDLESS
for _ in $(seq 100); do cat LARGE; done >&3
for _ in $(seq 200); do [ "$(stat -c %s OUT.part 2>/dev/null || echo 0)" -gt 100000000 ] && break; sleep 0.1; done
kill -9 $!
wait $! 2>/dev/null
exec 3>&-
if cmp -s OLD OUT && [ -s OUT.part ]; then passed=$((passed + 1)); else failed=$((failed + 1)) && echo 'failed: killed: OUT is not what it was'; fi
row after-a-kill 0 '' '' canonicalise F OUT
cmp -s G OUT || { failed=$((failed + 1)) && echo 'failed: OUT is not the normal form after a kill'; }
rm OUT.part

# All of OUT, or OUT as it was.
octets TWO $EXPIRED$EXPIRED
octets MIDDLE $EXPIRED$EMPTY$EXPIRED
cp OLD OUT
refused="illcanon: refused at 2 in message 2: $missing"
# kept NAME: OUT is as it was, and no file is left beside it
kept() {
    cmp -s OLD OUT || { failed=$((failed + 1)) && echo "failed: $1: OUT has changed"; }
    ls | grep part && failed=$((failed + 1)) && echo "failed: $1: a temporary file is left"
}
row whole-with-a-refusal 1 '' "$refused" canonicalise --whole MIDDLE OUT
kept whole-with-a-refusal
row whole-going-on 1 '' "$refused" canonicalise --whole --keep-going MIDDLE OUT
kept whole-going-on
row whole-of-many 1 '' "illcanon: MIDDLE: refused at 2 in message 2: $missing" canonicalise --whole -o OUT GOOD MIDDLE
kept whole-of-many
row whole-without-a-file 3 '' 'illcanon: cannot open ABSENT: no such file\n' canonicalise --whole -o OUT GOOD ABSENT
kept whole-without-a-file
row directory-as-input-of-out 3 '' 'illcanon: read fault\n' canonicalise D OUT
kept directory-as-input-of-out
row whole-to-standard-output 2 '' 'illcanon: --whole needs a file for OUT\n' canonicalise --whole GOOD -
row whole 0 '' '' canonicalise --whole TWO OUT
cmp -s TWO OUT || { failed=$((failed + 1)) && echo 'failed: whole: OUT is not the normal forms'; }
# All names for a new file are taken.
cp OLD OUT && touch OUT.part $(seq -f OUT.part%g 99)
row names-are-taken 3 '' 'illcanon: cannot write OUT: all names from OUT.part to OUT.part99 are taken\n' canonicalise GOOD OUT
rm OUT.part*
kept names-are-taken
rm OUT
# Help that can't be written, and help that nobody reads.
printf 'illcanon: flush fault\n' >want-err
for words in --help --version 'help causes'; do
    "$program" $words >/dev/full 2>err
    status=$?
    compare "full-device: $words" 3
done
# Nobody reads the output any more, which is more than a pipe holds: nothing is said of that.
for _ in 1 2 3 4 5 6 7 8 9 10; do cat MANY; done >BIG
: >want-err && : >out && : >want-out
for words in 'show BIG' 'canonicalise BIG -' 'check BIG'; do
    "$program" $words 2>err | true
    status=${PIPESTATUS[0]}
    compare "closed-pipe: $words" 3
done
rm BIG
# Words that are no text stop no other, and clap's texts have no control of theirs.
other=$(printf 'M\374ller.ber')
row word-that-is-no-text 3 "GOOD: message 1: $normal" "illcanon: cannot open \$'M\\\\374ller.ber': name is not UTF-8 text\n" check GOOD "$other"
"$program" check "$(printf -- '--\033]0;owned\007\nx')" >out 2>err
status=$?
word='--\\033]0;owned\\007\\nx'
printf "error: unexpected argument '$word' found\n\n  tip: to pass '$word' as a value, use '-- $word'\n\nUsage: illcanon check [OPTIONS] [FILE]...$help" >want-err
: >want-out
compare hidden-characters-in-a-word 2

# A list without names, and no FILE.
cp OLD OUT && cp OLD KEPT && : >LIST
empty='illcanon: the list names no file\n'
for words in show check digest dump 'check --json' 'show --keep-going --refused KEPT' 'check --json --keep-going --refused KEPT' 'canonicalise -o OUT' \
    'canonicalise --whole -o OUT' 'canonicalise --keep-going --refused KEPT -o OUT' 'canonicalise -o -'; do
    row "empty-list: $words" 2 '' "$empty" $words --files-from LIST
    row "empty-list-from-a-pipe: $words" 2 '' "$empty" $words --files-from -
    cmp -s OLD KEPT || { failed=$((failed + 1)) && echo "failed: empty-list: $words: the file of refused messages has changed"; }
    kept "empty-list: $words"
done
row empty-list-and-a-file 0 "GOOD: message 1: $normal" '' check -H --files-from LIST GOOD
# A link to an absent file leads to OUT; and OUT has the name of the new file of another.
rm OUT && ln -s OUT LINK && ln -s LINK TWICE && ln -s "$folder/OUT" FAR
own='illcanon: --refused needs a file of its own\n'
for link in LINK TWICE FAR ./LINK; do
    row "refused-by-a-link: $link" 2 '' "$own" canonicalise --keep-going --refused $link MIDDLE OUT
    row "out-by-a-link: $link" 2 '' "$own" canonicalise --keep-going --refused OUT MIDDLE $link
    [ -e OUT ] && failed=$((failed + 1)) && echo "failed: refused-by-a-link: $link: OUT was made" && rm OUT
done
rm LINK TWICE FAR
row out-is-the-new-file 2 '' "$own" canonicalise --keep-going --refused b MIDDLE b.part
row out-is-the-new-file-of-many 2 '' "$own" canonicalise --keep-going --refused ./b -o b.part GOOD MIDDLE
ls | grep '^b' && failed=$((failed + 1)) && echo 'failed: out-is-the-new-file: a file is left'
# A file with this name is there, so the new file has another one.
cp OLD b.part
row out-is-no-new-file 1 '' "$refused" canonicalise --keep-going --refused b MIDDLE b.part
{ cmp -s TWO b.part && [ "$(od -An -tx1 b | tr -d ' ')" = 7400 ]; } || { failed=$((failed + 1)) && echo 'failed: out-is-no-new-file: other octets'; }
rm b b.part KEPT LIST
# The file of refused messages is no other file of the command, under any name; a file with the name of OUT in another folder is one of its own.
cp OLD OUT && ln OUT HARD && printf GOOD >LIST && cp LIST SAVED
row refused-is-a-hard-link 2 '' "$own" canonicalise --keep-going --refused HARD MIDDLE OUT
kept refused-is-a-hard-link
row refused-is-the-list 2 '' "$own" check --keep-going --refused ./LIST --files-from LIST
cmp -s LIST SAVED || { failed=$((failed + 1)) && echo 'failed: refused-is-the-list: the list has changed'; }
rm HARD && mkdir APART
row refused-in-another-folder 1 '' "$refused" canonicalise --keep-going --refused APART/OUT MIDDLE OUT
{ cmp -s TWO OUT && [ "$(od -An -tx1 APART/OUT | tr -d ' ')" = 7400 ]; } || { failed=$((failed + 1)) && echo 'failed: refused-in-another-folder: other octets'; }
rm -r APART SAVED
# Of what can't be opened inputs are counted, and not OUT, without which no input is read; a word that is no text is an input that can't be opened.
row summary-of-no-out 3 '' 'illcanon: cannot open no/OUT\nillcanon: 0 files, 0 messages, 0 normal, 0 not normal, 0 refused, 0 octets\n' canonicalise --summary GOOD no/OUT
row summary-of-no-text 3 '' "illcanon: cannot open \$'caf\\\\351': name is not UTF-8 text\nillcanon: 0 files, 0 messages, 0 normal, 0 not normal, 0 refused, 0 octets, 1 not opened\n" \
    check -H --summary "$(printf 'caf\351')"
rm LIST
# Lines, all of them or OUT as it was.
printf '%s\n7400\n' $EXPIRED >LINES
cp OLD OUT
row lines-whole 1 '' 'illcanon: OUT stays as it was: not every line is a message\n' canonicalise --lines --whole LINES OUT
kept lines-whole
printf '%s\n' $INDEFINITE >LINES
row lines-whole-and-good 0 '' '' canonicalise --lines --whole LINES OUT
[ "$(cat OUT)" = $EXPIRED ] || { failed=$((failed + 1)) && echo 'failed: lines-whole-and-good: OUT is not the normal form'; }
row lines-without-whole 0 '' '' canonicalise --lines LINES OUT
rm OUT LINES
# Standard output by each of its names appends as `-` does, and is not replaced.
for name in - /dev/stdout /dev/fd/1 /proc/self/fd/1; do
    case $name in /*) [ -e $name ] || { echo "not tried: $name is not there" && continue; } ;; esac
    for words in "GOOD $name" "-o $name GOOD"; do
        cp OLD LOG
        "$program" canonicalise $words >>LOG 2>err
        status=$?
        cp LOG out && cat OLD GOOD >want-out && : >want-err
        compare "standard output by its name: $words" 0
    done
    cp OLD LOG
    "$program" canonicalise --whole GOOD $name >>LOG 2>err
    status=$?
    cp LOG out && cp OLD want-out
    case $name in -) any=2 ;; *) any=3 && echo "illcanon: cannot replace $name: it is no regular file" >want-err ;; esac
    [ $name = - ] && echo 'illcanon: --whole needs a file for OUT' >want-err
    compare "whole standard output by its name: $name" $any
done
rm LOG
# Output into its own input, which has a message in hexadecimal, so that what is written could be read again. Nothing is written.
echo 7400 >SELF && cp SELF KEPT && ln SELF HARD && ln -s SELF SOFT && printf 'GOOD\0SELF' >LIST
for words in 'show SELF' 'check SELF' 'digest SELF' 'dump SELF' 'show --json SELF' 'check --json SELF' 'digest --json SELF' 'dump --html SELF' 'canonicalise SELF -' 'canonicalise -o - SELF' \
    'show --keep-going SELF' 'check --json --keep-going SELF' 'digest --keep-going SELF' 'dump --keep-going SELF' 'canonicalise --keep-going SELF -' 'check --hex SELF' \
    'check --lines SELF' 'digest --lines SELF' 'canonicalise --lines SELF -' 'canonicalise -o - GOOD SELF' 'check GOOD SELF' 'show --json --keep-going SELF GOOD' 'dump --html GOOD SELF' \
    'digest --files-from LIST' 'check -H --files-from SELF GOOD' 'check ./SELF' 'check HARD' 'digest SOFT' 'check --profile module SELF' 'check --keep-going --max-refused 1 SELF' \
    'canonicalise SELF /dev/stdout' 'canonicalise -o /dev/fd/1 GOOD SELF' 'same SELF GOOD' 'same GOOD HARD'; do
    timeout 20 "$program" $words >>SELF 2>err
    status=$?
    : >out && : >want-out && printf "$same_line" >want-err
    compare "into its own input: $words" 2
    cmp -s KEPT SELF || { failed=$((failed + 1)) && echo "failed: into its own input: $words: it has changed" && cat KEPT >SELF; }
done
for words in 'show -' 'check --json --keep-going -' 'digest --lines -' 'dump -' 'check GOOD -' 'canonicalise - -' 'check /dev/stdin'; do
    timeout 20 "$program" $words <SELF >>SELF 2>err
    status=$?
    compare "into its own standard input: $words" 2
    cmp -s KEPT SELF || { failed=$((failed + 1)) && echo "failed: into its own standard input: $words: it has changed" && cat KEPT >SELF; }
done
rm SELF KEPT HARD SOFT LIST
# Another file may be appended to.
cp OLD LOG
"$program" check GOOD >>LOG 2>err
status=$?
cp LOG out && { cat OLD && printf "message 1: $normal"; } >want-out && : >want-err
compare another-file-is-appended-to 0
rm LOG

# The work ends with a number of refused messages, of all files. TWICE has two of them, at 33 and 68.
octets TWICE $EXPIRED$EMPTY$EXPIRED$EMPTY$EXPIRED
octets ENDED $EXPIRED$INCOMPLETE
second="illcanon: refused at 2 in message 2: $missing"
fourth="illcanon: refused at 2 in message 4: $missing"
one='illcanon: stopped after 1 refused message\n'
row max-refused 1 "message 1: $normal" "$second$one" check --keep-going --max-refused 1 TWICE
row max-refused-summary 1 "message 1: $normal" "$second${one}illcanon: stopped at message 2 (octet 33)\nillcanon: 1 file, 2 messages, 1 normal, 0 not normal, 1 refused (0 not read, 1 invalid), 35 octets, 1 left before the end\n" \
    check --keep-going --max-refused 1 --summary TWICE
row max-refused-is-the-last 1 "message 1: ${normal}message 3: $normal" "$second${fourth}illcanon: stopped after 2 refused messages\n" check --keep-going --max-refused=2 TWICE
row max-refused-is-more 1 "message 1: ${normal}message 3: ${normal}message 5: $normal" "$second$fourth" check --keep-going --max-refused 3 TWICE
row max-refused-is-the-most 1 "message 1: ${normal}message 3: ${normal}message 5: $normal" "$second$fourth" check --keep-going --max-refused 1000000 TWICE
row max-refused-with-an-unknown-end 1 "message 1: $normal" "illcanon: $unknown$one" check --keep-going --max-refused 1 ENDED
row max-refused-of-files 1 "MIDDLE: message 1: ${normal}MIDDLE: message 3: ${normal}TWICE: message 1: $normal" \
    "illcanon: MIDDLE: refused at 2 in message 2: ${missing}illcanon: TWICE: refused at 2 in message 2: ${missing}illcanon: TWICE: stopped after 2 refused messages\n" \
    check --keep-going --max-refused 2 MIDDLE TWICE ABSENT
row max-refused-of-one-with-its-name 1 "$digest  TWICE:1\n" "illcanon: TWICE: refused at 2 in message 2: ${missing}illcanon: TWICE: stopped after 1 refused message\n" digest -H --keep-going --max-refused 1 TWICE
row max-refused-show 1 "$(printf 'message 1 Expired\nprotocol-version-num = 2\ntransaction-id.transaction-group-qualifier = general "G"\ntransaction-id.transaction-qualifier = general "Q"\nservice-date-time.date-time-of-this-service.date = 20240229')\n" \
    "$second$one" show --keep-going --max-refused 1 TWICE
row max-refused-show-as-json 1 '{"number":1,"offset":0,"octets":33,"apdu":"Expired","normal":true,'"$value" "$second$one" show --json --keep-going --max-refused 1 TWICE
"$program" dump MIDDLE 2>err >want-out
printf "$second$one" >want-err
"$program" dump --keep-going --max-refused 1 TWICE >out 2>err
status=$?
compare max-refused-dump 1
refused_json='{"number":2,"offset":33,"octets":2,"apdu":"Expired","refused":{"cause":"Missing","offset":2,"kind":"invalid","clause":"X.690, 8.9.3 and 8.14, with the types of ISO 10161-1","part":"Expired.protocol-version-num","path":"Expired","found":"the end of the element","due":["[UNIVERSAL 16] SEQUENCE","[0] protocol-version-num"]}}\n'
row max-refused-json 1 '{"number":1,"offset":0,"octets":33,"apdu":"Expired","normal":true}\n'"$refused_json"'{"summary":{"files":1,"messages":2,"normal":1,"not_normal":0,"refused":1,"not_read":0,"invalid":1,"no_message":0,"octets":35,"not_opened":0,"left":1}}\n' \
    "${one}illcanon: stopped at message 2 (octet 33)\n" check --json --keep-going --max-refused 1 --summary TWICE
printf '%s\n' $EXPIRED $EMPTY $EXPIRED $EMPTY >in
row max-refused-in-hexadecimal 1 "$EXPIRED\n" "$second$one" canonicalise --hex --keep-going --max-refused 1 - -
: >in
cp OLD OUT && cp OLD KEPT
row max-refused-canonicalise 1 '' "$second${fourth}illcanon: stopped after 2 refused messages\n" canonicalise --keep-going --max-refused 2 --refused KEPT TWICE OUT
{ cmp -s TWO OUT && [ "$(od -An -tx1 KEPT | tr -d ' ')" = 74007400 ]; } || { failed=$((failed + 1)) && echo 'failed: max-refused-canonicalise: other octets'; }
row max-refused-of-many-into-one 1 '' "illcanon: MIDDLE: refused at 2 in message 2: ${missing}illcanon: TWICE: refused at 2 in message 2: ${missing}illcanon: TWICE: stopped after 2 refused messages\n" \
    canonicalise --keep-going --max-refused 2 --refused KEPT -o OUT MIDDLE TWICE ABSENT
{ cat TWO GOOD | cmp -s - OUT && [ "$(od -An -tx1 KEPT | tr -d ' ')" = 74007400 ]; } || { failed=$((failed + 1)) && echo 'failed: max-refused-of-many-into-one: other octets'; }
cp OLD OUT
# No message begins with a NULL or a text: it has no APDU, isn't kept, and is counted apart.
{ printf '\005\000' && cat GOOD && printf '\164\000From: a library\r\n'; } >MAIL
nothing="illcanon: refused at 0 in message 1: UnexpectedTag\nillcanon: refused at 2 in message 3: ${missing}illcanon: refused at 0 in message 4: WrongForm; its end is unknown\nillcanon: stopped at message 4 (octet 37)\nillcanon: 1 file, 2 messages, 1 normal, 0 not normal, 1 refused (0 not read, 1 invalid), 37 octets, 2 places without a message, 1 left before the end\n"
for command in check canonicalise; do
    cp OLD OUT && cp OLD KEPT
    case $command in check) row no-message-check 1 "message 2: $normal" "$nothing" check --keep-going --summary --refused KEPT MAIL ;;
    *) row no-message-canonicalise 1 '' "$nothing" canonicalise --keep-going --summary --refused KEPT MAIL OUT ;; esac
    [ "$(od -An -tx1 KEPT | tr -d ' ')" = 7400 ] || { failed=$((failed + 1)) && echo "failed: no-message-$command: other octets"; }
done
row no-message-json 1 '{"number":1,"offset":0,"octets":2,"refused":{"cause":"UnexpectedTag","offset":0,"kind":"no message","clause":"X.690, 8.9.2, 8.10.2, 8.13 and 8.14, with the types of ISO 10161-1","found":"[UNIVERSAL 5] NULL primitive: 05"}}\n' '' check --json MAIL
row no-message-dump 1 'message 4: refused\nrefused at 0: WrongForm\n    its form, primitive or constructed, is not the one expected here\n    no ILL message begins here\n    it looks like text\n    clause X.690, 8.2.1, 8.3.1, 8.8.1, 8.9.1, 8.10.1, 8.14 and 8.19.1\n    found [APPLICATION 6] primitive: 46\n      0  46 72  [APPLICATION 6] = 6f6d3a2061206c6962726172790d0a  (cut short, not judged)\n' \
    "illcanon: refused at 0 in message 1: UnexpectedTag\nillcanon: refused at 2 in message 3: ${missing}illcanon: refused at 0 in message 4: WrongForm; its end is unknown\n" dump --keep-going --message 4 MAIL
rm MAIL
cp OLD OUT && cp OLD KEPT
row max-refused-whole 1 '' "$second$one" canonicalise --whole --keep-going --max-refused 1 TWICE OUT
kept max-refused-whole
for command in $(commands_with --max-refused); do
    case $command in canonicalise | build) command="$command -o OUT" ;; esac
    row "max-refused-needs: $command" 2 '' 'illcanon: --max-refused needs --keep-going\n' $command --max-refused 1 GOOD
    for number in 0 1000001; do
        row "max-refused-$number: $command" 2 '' "error: invalid value '$number' for '--max-refused <N>': $number is not in 1..=1000000$help" $command --keep-going --max-refused $number GOOD
    done
done
row same-has-no-max-refused 2 '' any same --max-refused 1 GOOD GOOD
rm OUT KEPT TWICE ENDED

# More than 1,000,000 messages: the numbers at the end say where the file was left. Of each message the file FULL has 33 octets, EMPTIES 2.
cat MANY MANY MANY MANY MANY >SOME && for _ in $(seq 500); do cat SOME; done >FULL && cat GOOD >>FULL
head -c 2000002 /dev/zero | sed 's/\x00\x00/t\x00/g' >EMPTIES
more='illcanon: more than 1000000 messages\n'
for words in check digest show 'check --json' 'digest --json' 'canonicalise -o -' 'check --keep-going' 'check --json --keep-going' 'show --json --keep-going' 'canonicalise --keep-going -o -'; do
    "$program" $words --summary FULL 2>err | tail -n 1 >out
    status=${PIPESTATUS[0]}
    numbers='illcanon: 1 file, 1000000 messages, 1000000 normal, 0 not normal, 0 refused, 33000000 octets, 1 left before the end\n'
    case $words in
        check*--json* | digest*--json*)
            numbers=''
            echo '{"summary":{"files":1,"messages":1000000,"normal":1000000,"not_normal":0,"refused":0,"not_read":0,"invalid":0,"no_message":0,"octets":33000000,"not_opened":0,"left":1}}' >want-out
            ;;
        *) cp out want-out ;;
    esac
    printf "${more}illcanon: stopped at message 1000001 (octet 33000000)\n$numbers" >want-err
    compare "left after a million: $words" 1
done
for words in 'check --keep-going' 'canonicalise --keep-going -o -' 'check --json --keep-going'; do
    "$program" $words --summary EMPTIES 2>&1 | tail -n 4 | grep -v 'refused at\|"refused":{' >out
    status=${PIPESTATUS[0]}
    case $words in
        *--json*) numbers='{"summary":{"files":1,"messages":1000000,"normal":0,"not_normal":0,"refused":1000000,"not_read":0,"invalid":1000000,"no_message":0,"octets":2000000,"not_opened":0,"left":1}}\n' ;;
        *) numbers='illcanon: 1 file, 1000000 messages, 0 normal, 0 not normal, 1000000 refused (0 not read, 1000000 invalid), 2000000 octets, 1 left before the end\n' ;;
    esac
    printf "${more}illcanon: stopped at message 1000001 (octet 2000000)\n$numbers" >want-out
    : >err && : >want-err
    compare "left after a million refused ones: $words" 1
done

# How far the work is, on a terminal: the share of IN, where OUT takes nothing for more than two seconds.
if command -v script >/dev/null; then
    mkfifo SLOW
    (exec <SLOW; sleep 2.3; cat >/dev/null) &
    script -qec "'$program' canonicalise --summary FULL SLOW" SCREEN </dev/null >/dev/null
    wait
    tr '\r' '\n' <SCREEN | sed 's/\x1b\[K//' | grep -c '^illcanon: 1 file, [0-9]* octets, [0-9]* %, [0-9]* octets/s, [0-9]* s left$' >out
    if [ "$(cat out)" -gt 0 ] && tr '\r' '\n' <SCREEN | grep -q '1 file, 1000000 messages'; then
        passed=$((passed + 1))
    else
        failed=$((failed + 1)) && echo 'failed: progress of canonicalise IN OUT' && head -c 2000 SCREEN | cat -v
    fi
    rm SLOW SCREEN
else
    echo 'not tried: script is not installed, so no terminal shows how far canonicalise is'
fi
rm FULL EMPTIES SOME

# Files of two devices that have one number are two files. Two file systems in memory, which only this shell sees, number their files
# alike; else a file in /dev/shm gets the number of one of the system's.
mkdir ONE OTHER
cat >mounts <<'MOUNTS'
mount -t tmpfs one ONE && mount -t tmpfs other OTHER && cp F ONE/IN && cp OLD OTHER/OUT && [ "$(stat -c %i ONE/IN)" = "$(stat -c %i OTHER/OUT)" ] || exit 99
"$program" canonicalise ONE/IN OTHER/OUT || exit
cmp -s G OTHER/OUT || echo OUT is not the normal form
# A file that is a mount of its own stays as it was.
cp OLD MOUNTED && mount --bind F MOUNTED || exit 98
"$program" canonicalise TWO MOUNTED
[ $? = 3 ] && cmp -s KEPT MOUNTED || echo a mount was replaced
MOUNTS
cp F KEPT
export program
tried=no
for way in 'unshare -m' 'unshare -rm'; do
    $way true 2>/dev/null || continue
    $way bash mounts >out 2>err
    status=$?
    [ $status = 99 ] && continue
    tried=yes
    : >want-out && echo 'illcanon: cannot replace MOUNTED: resource busy' >want-err
    [ $status = 98 ] && status=0 && : >want-err && echo 'not tried: no file can be mounted'
    compare 'files of two devices with one number' 0
    break
done
if [ $tried = no ] && [ -w /dev/shm ] && [ -d /sys ]; then
    shared=$(mktemp /dev/shm/illcanon.XXXXXX)
    twin=$(find /sys -xdev -type f -readable -inum "$(stat -c %i "$shared")" 2>/dev/null | head -n 1)
    if [ -n "$twin" ]; then
        tried=yes
        "$program" canonicalise --keep-going "$twin" "$shared" >out 2>err
        status=$?
        if [ $status != 2 ] && ! grep -q 'same file' err; then passed=$((passed + 1)); else failed=$((failed + 1)) && echo 'failed: files of two devices are one' && cat err; fi
    fi
    rm "$shared"
fi
[ $tried = yes ] || { passed=$((passed + 1)) && echo 'not tried: no two devices have files with one number here'; }
rm -rf ONE OTHER KEPT MOUNTED mounts

# Where the system has no name for standard input, OUT that can't be replaced may be that, and is not written.
if [ "$(id -u)" = 0 ] && command -v chroot >/dev/null; then
    mkdir ROOT && cp "$program" ROOT/illcanon
    for library in $(ldd "$program" | grep -o '/[^ ]*'); do mkdir -p "ROOT${library%/*}" && cp -L "$library" "ROOT$library"; done
    if chroot ROOT /illcanon --version >out 2>err; then
        cp F ROOT/OUT && ln ROOT/OUT ROOT/SECOND
        for words in 'canonicalise - OUT' 'canonicalise -o OUT -' 'canonicalise --keep-going -o OUT -'; do
            chroot ROOT /illcanon $words <ROOT/OUT >out 2>err
            status=$?
            : >want-out && echo 'illcanon: cannot replace OUT: it has several names' >want-err
            compare "no name for standard input: $words" 3
            cmp -s F ROOT/OUT || { failed=$((failed + 1)) && echo "failed: no name for standard input: $words: OUT has changed" && cat F >ROOT/OUT; }
        done
        rm ROOT/SECOND
        chroot ROOT /illcanon canonicalise - OUT <ROOT/OUT >out 2>err
        status=$?
        : >want-err
        compare 'no name for standard input, and OUT can be replaced' 0
        cmp -s G ROOT/OUT || { failed=$((failed + 1)) && echo 'failed: no name for standard input: OUT is not the normal form'; }
        # Nor has it one for standard output, which may be the input: this is read as far as it was.
        for words in 'check --lines SELF' 'check --hex SELF' 'check --json --keep-going SELF' 'dump --keep-going SELF'; do
            case $words in *lines* | *hex*) echo 7400 >ROOT/SELF ;; *) octets ROOT/SELF $EMPTY$EXPIRED$EMPTY ;; esac
            cp ROOT/SELF KEPT
            chroot ROOT /illcanon $words <in >LATER 2>want-err
            cat KEPT LATER >want-out
            timeout 20 chroot ROOT /illcanon $words >>ROOT/SELF 2>err
            status=$?
            cp ROOT/SELF out
            compare "no name for standard output: $words" 1
        done
        rm KEPT LATER
    else
        echo 'not tried: the program does not run in a folder of its own'
    fi
    rm -rf ROOT
fi

# Names in lines: one line each, and the shell reads it back.
for name in 'a b' "it's" 'K\303\266ln' 'x\ny' '\033[2J' 'caf\351' '\302\205' "a\\tb'c" "\$'\\\\n'" 'gpj.\342\200\256reb' 'a\342\200\251b' 'a\315\217b'; do
    word=$(printf "$name.")
    word=${word%.}
    "$program" check "$word" >out 2>err
    status=$?
    line=$(cat err)
    shown=${line#illcanon: cannot open }
    case $shown in \$\'*) eval "read=$shown" ;; *) read=$shown ;; esac
    if [ $status = 3 ] && [ "$(wc -l <err)" = 1 ] && [ "$read" = "$word" ] && ! LC_ALL=C grep -q "[$(printf '\001')-$(printf '\037')]" err; then
        passed=$((passed + 1))
    else
        failed=$((failed + 1)) && echo "failed: name $name: status $status" && cat -v err
    fi
done

# Lines of JSON that are built.
LINE='{"apdu":"Expired","value":{"protocol-version-num":2,"transaction-id":{"transaction-group-qualifier":{"general":"G"},"transaction-qualifier":{"general":"Q"}},"service-date-time":{"date-time-of-this-service":{"date":"20240229"}}}}'
printf '%s\n' "$LINE" >LINES
octets GOOD $EXPIRED
row build 0 '' '' build LINES OUT
cmp -s OUT GOOD || { failed=$((failed + 1)) && echo 'failed: build: OUT is not the message'; }
row build-as-digits 0 "$EXPIRED\n" '' build --hex LINES -
# Each default: transaction-type, expiry-flag, place-on-hold, three flags of the cost and five parts of the third party, retry-flag, forward-flag;
# renewable, which is TRUE; and critical, of the module profile.
HEAD=${LINE%??} && OPTIONAL='"requester-optional-messages":{"can-send-received":false,"can-send-returned":false,"requester-shipped":1,"requester-checked-in":1}'
printf '%s,"ill-service-type":["loan"],%s,"search-type":{},"item-id":{},"cost-info-type":{},"third-party-info-type":{}}}\n' "${HEAD/Expired/ILL-Request}" "$OPTIONAL" >LINES
printf '%s,"date-due":{"date-due-field":"20240301"}}}\n' "${HEAD/Expired/Overdue}" >>LINES
START=800102a10aa1031b0147a2031b0151a20ca00a80083230323430323239
row build-with-defaults 0 "6161305f${START}850101a9030a0101ab0c800100810100820101830101ac038201038e0103b000b209820100830100840100b40f800100810100820100830100850102950100960100\n\
6c2f302d${START}bf290d800832303234303330318101ff\n" '' build --write-defaults --hex LINES -
printf '%s,"expired-extensions":[{"identifier":1,"item":{"foreign":"0500"}}]}}\n' "$HEAD" >LINES
row build-with-defaults-of-the-module 0 "742e302c${START}bf310c300a800101810100a2020500\n" '' build --write-defaults --profile module --hex LINES -
printf '%s\n{"apdu":"Expire"}\n[\n%s' "$LINE" "$LINE" >LINES
UNNAMED='refused at /apdu in line 2: UnknownName\n'
NO_JSON='refused at column 2 in line 3: NotJson\n'
row build-up-to-a-fault 1 '' "illcanon: $UNNAMED" build LINES OUT
cmp -s OUT GOOD || { failed=$((failed + 1)) && echo 'failed: build-up-to-a-fault: OUT is not the message'; }
row build-going-on 1 "$EXPIRED\n$EXPIRED\n" "illcanon: $UNNAMED""illcanon: $NO_JSON" build --keep-going --hex --refused KEPT LINES -
printf '{"apdu":"Expire"}\n[\n' | cmp -s - KEPT || { failed=$((failed + 1)) && echo 'failed: build-going-on: KEPT is not the refused lines'; }
# Of a line without a value the report says which command writes one; of others it doesn't.
NO_VALUE=' (`check` and `digest` write no value; `show --json` does)\n'
printf '%s\n' '{"apdu":"Expired"}' '{"number":1,"offset":0,"octets":33,"apdu":"Expired","normal":true,"digest":"00"}' \
    '{"number":1,"offset":0,"octets":2,"apdu":"Expired","refused":{"cause":"Missing"}}' '{"adpu":"Expired"}' '{"apdu":"Expired","value":1}' '{"value":{}}' >OTHERS
row build-of-other-lines 1 '' "illcanon: refused at /value in line 1: MissingMember${NO_VALUE}illcanon: refused at /digest in line 2: UnknownMember${NO_VALUE}\
illcanon: refused at /refused in line 3: UnknownMember${NO_VALUE}illcanon: refused at /adpu in line 4: UnknownMember\n\
illcanon: refused at /value in line 5: WrongType\nillcanon: refused at /apdu in line 6: MissingMember\n" build --keep-going OTHERS -
row build-up-to-refused-lines 1 "$EXPIRED\n" "illcanon: ${UNNAMED}illcanon: stopped after 1 refused line\n" build --keep-going --max-refused 1 --hex LINES -
row build-of-two 1 "$EXPIRED\n$EXPIRED\n" "illcanon: LINES: $UNNAMED""illcanon: ./LINES: ${UNNAMED}illcanon: 2 files, 4 lines, 2 built, 2 refused, 66 octets, 2 left before the end\n" build --hex --summary -o - LINES ./LINES
row build-by-lines 1 "$EXPIRED\nrefused at /apdu: UnknownName\nrefused at column 2: NotJson\n$EXPIRED\n" '' build --lines LINES -
row build-as-json 1 '{"line":1,"apdu":"Expired","octets":33,"message":"'$EXPIRED'"}\n{"line":2,"refused":{"cause":"UnknownName","pointer":"/apdu"}}\n' '' build --json LINES -
row build-over-the-input 2 '' 'illcanon: IN and OUT are the same file\n' build LINES ./LINES
cp GOOD OUT
row build-as-a-whole 1 '' "illcanon: $UNNAMED""illcanon: $NO_JSON" build --keep-going --whole LINES OUT
cmp -s OUT GOOD || { failed=$((failed + 1)) && echo 'failed: build-as-a-whole: OUT has changed'; }
row build-lines-and-json 2 '' 'illcanon: --lines excludes --json\n' build --lines --json LINES OUT
# What was built is written before more is waited for.
mkfifo ASKED TOLD
"$program" build - - <ASKED >TOLD 2>err &
exec 3>ASKED 4<TOLD
printf '%s\n' "$LINE" >&3
timeout 10 head -c 33 <&4 | cmp -s - GOOD && passed=$((passed + 1)) || { failed=$((failed + 1)) && echo 'failed: build waits before it writes'; }
exec 3>&- 4<&-
wait $!
rm -f LINES KEPT OUT ASKED TOLD

# Letters that aren't seen, or end a line, are shown by their octets: U+202E, U+2028, U+2029, U+034F, U+115F, U+180B, U+FE0F, U+E0100.
for octets in '\342\200\256' '\342\200\250' '\342\200\251' '\315\217' '\341\205\237' '\341\240\213' '\357\270\217' '\363\240\204\200'; do
    row "hidden letter $octets" 3 '' "illcanon: cannot open \$'a${octets//\\/\\\\}b'\n" check "$(printf "a${octets}b")"
done
# Why a file can't be opened, of several files.
long=$(printf 'n%.0s' $(seq 256))
ln -s ITSELF ITSELF
row reasons-of-names 3 "GOOD: message 1: $normal" "illcanon: cannot open $long: name too long\nillcanon: cannot open ITSELF: too many links\n" check "$long" ITSELF GOOD
row reason-of-one-name 3 '' "illcanon: cannot open $long: name too long\n" check -H "$long"
row link-to-itself-as-output 3 '' 'illcanon: cannot open ITSELF\n' canonicalise GOOD ITSELF
rm ITSELF

cd / && rm -rf "$folder"
echo "$passed passed, $failed failed"
[ $failed = 0 ]
