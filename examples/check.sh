#!/usr/bin/env bash
# Tries the program as it is built: the stored transcripts of this folder, and its edge to the system. Ends with status 0 where all is well.
#     examples/check.sh [PROGRAM]
# PROGRAM is crates/dtm/out/dtm where none is said: the one that rt ci or ./prove made.
set -uo pipefail
here=$(cd "$(dirname "${BASH_SOURCE[0]}")" && pwd)
dtm=$(realpath "${1:-$here/../crates/dtm/out/dtm}")
work=$(mktemp -d)
trap 'rm -rf "$work"' EXIT
cd "$work" || exit 1
tried=0
failed=0

# ends WHAT STATUS COMMAND..: the command ends with this status. What it writes is in the files out and err.
ends() {
    local what=$1 wanted=$2 status=0
    shift 2
    "$@" > out 2> err || status=$?
    check "$what: status $status" [ "$status" = "$wanted" ]
}

check() {
    local what=$1
    shift
    tried=$((tried + 1))
    if ! "$@"; then
        failed=$((failed + 1))
        echo "not so: $what"
    fi
}

run() { # SCRIPT WORD..: a RUN over the script's text
    local script=$1
    shift
    printf '%s' "$script" | "$dtm" RUN "$@"
}

# transcript SCRIPT NODE=IMAGE..: the stored transcript is what the script shows over these images.
transcript() {
    local script=$1
    shift
    ends "$script.dtm" 0 "$dtm" RUN "$@" < "$here/$script.dtm"
    check "the transcript of $script.dtm" cmp -s out "$here/$script.txt"
}

transcript first A=ledger.img
cp ledger.img second.img
transcript again A=ledger.img
transcript more A=second.img
transcript orders A=orders.img
transcript stopped A=stopped.img
transcript undone A=undone.img
transcript recovered A=recovered.img
transcript damaged A=damaged.img
transcript doubt A=here.img B=there.img
transcript manager A=manager.img

# The standard streams are no image.
no_output() { run 'A: DUMP F
' A=ledger.img >&-; }
no_input() { "$dtm" RUN A=ledger.img <&-; }
no_stream() { "$dtm" RUN A=ledger.img <&- >&- 2>&-; }
no_error() { "$dtm" RUN A=no/such/image 2>&- < /dev/null; }
into_image() { run 'A: DUMP F
' A=ledger.img >> ledger.img; }
cp ledger.img before
ends "a closed standard output" 4 no_output
ends "a closed standard input" 3 no_input
ends "no stream at all" 3 no_stream
ends "a closed standard error" 7 no_error
ends "an image that is the standard output" 7 into_image
check "the image under closed streams" cmp -s ledger.img before

# An image has one run at a time.
mkfifo script
"$dtm" RUN A=ledger.img < script > first.out 2> first.err &
first=$!
exec 3> script
printf 'A: DUMP F\n' >&3
while ! [ -s first.out ]; do sleep 0.1; done
ends "an image of another run" 7 "$dtm" RUN A=ledger.img < /dev/null
check "what is said of it" grep -q '^dtm: cannot open ledger.img$' err
exec 3>&-
wait "$first"
check "the first run" [ $? = 0 ]
ln ledger.img other.img
ends "an image twice among the words" 7 "$dtm" RUN A=ledger.img B=other.img < /dev/null

# An image that could not be made whole is not there.
too_large() { trap '' XFSZ; ulimit -f 100; "$dtm" RUN A=new.img < /dev/null; }
killed() { ulimit -f 100; ulimit -c 0; "$dtm" RUN A=new.img < /dev/null; }
ends "an image that cannot be made" 7 eval '(too_large)'
check "what is left of it" [ -z "$(ls | grep '^new.img')" ]
ends "a run that is killed as it makes an image" 153 eval '(killed)'
check "that image" [ ! -e new.img ]
ends "the next run" 0 "$dtm" RUN A=new.img < /dev/null
check "its image" [ "$(stat -c %s new.img)" = 4194304 ]
: > empty.img
ends "an empty image" 7 "$dtm" RUN A=empty.img < /dev/null
check "what is said of an empty image" grep -q 'it is empty' err

# Words, lines and limits are explained on the standard error alone.
usage='usage: dtm RUN NODE=IMAGE ... or dtm MAKE n start'
for words in '' '--help' 'RUN' 'MAKE 0 1' 'RUN A' 'RUN A=new.img B' 'RUN A=new.img -v'; do
    ends "the words '$words'" 2 "$dtm" $words < /dev/null
    check "the line for '$words'" [ "$(cat out)" = "$usage" ]
    check "the forms for '$words'" grep -q 'dtm RUN NODE=IMAGE \.\.\.   reads' err
done
ends "a word that is no text" 2 "$dtm" RUN $'A=new\xff.img' < /dev/null
check "the line for it" [ "$(cat out)" = "$usage" ]
ends "a faulty line" 1 run 'A: PUT T F 1 %xAA
' A=new.img
check "its line of the transcript" [ "$(cat out)" = '1 BADLINE 14' ]
check "its caret" grep -q '^    A: PUT T F 1 %xAA$' err
ends "a day" 0 "$dtm" MAKE 1 0 < /dev/null
check "its summary" [ "$(tr '\n' ' ' < out)" = 'TRANSACTIONS 1 COMMITTED 1 ABORTED 0 A S 1 A R 1 A I 0 B S 0 B R 0 B I 1 ' ]
long() { head -c 20001 /dev/zero | "$dtm" RUN A=new.img; }
ends "a long line" 6 long
check "its limit" grep -q '20000 bytes' err

echo "$tried tried, $failed not so"
[ "$failed" = 0 ]
