#!/usr/bin/env bash
# Runs the real program and looks at it from outside. A case is a status, what goes to standard output, what goes to standard
# error, and the words of a command line. It prints a line for each failure, and then a count; its status is 0 where none failed.
#
#   tests/program.sh PROGRAM
set -u
program=$(realpath "$1") || exit 2
cd "$(dirname "$0")/../examples" || exit 2
room=$(mktemp -d) || exit 2
trap 'rm -rf "$room"' EXIT
# (usage lines name the file that is run)
cp "$program" "$room/disruptor" || exit 2
program=$room/disruptor
cases=0 failed=0

fail() {
    failed=$((failed + 1))
    printf 'FAILED: %s: %s\n' "$1" "$2"
}

# Compares what a case left in $room with what it is to leave. A text that ends in * is only the beginning.
judge() { # NAME STATUS-THAT-IS STATUS OUT ERR
    cases=$((cases + 1))
    [ "$2" = "$3" ] || { fail "$1" "status $2, not $3"; return; }
    matches "$room/out" "$4" || { fail "$1" "standard output: $(head -c 300 "$room/out")"; return; }
    matches "$room/err" "$5" || { fail "$1" "standard error: $(head -c 300 "$room/err")"; return; }
}

matches() { # FILE TEXT
    case $2 in
        *'*') [[ $(cat "$1") == "${2%'*'}"* ]] ;;
        *) printf '%s' "$2" | cmp -s - "$1" ;;
    esac
}

# Whether a command succeeds.
holds() { # NAME WHY COMMAND..
    local name=$1 why=$2
    shift 2
    cases=$((cases + 1))
    "$@" || fail "$name" "$why"
}

run() { # STATUS OUT ERR WORD..
    local status=$1 out=$2 err=$3
    shift 3
    "$program" "$@" > "$room/out" 2> "$room/err" < /dev/null
    judge "$*" $? "$status" "$out" "$err"
}

# A case whose standard output goes elsewhere: to a full disk, or nowhere.
run_full() { # STATUS ERR WORD..
    local status=$1 err=$2
    shift 2
    "$program" "$@" > /dev/full 2> "$room/err" < /dev/null
    local is=$?
    : > "$room/out"
    judge "$* > /dev/full" $is "$status" '' "$err"
}

run_closed() { # STATUS ERR WORD..
    local status=$1 err=$2
    shift 2
    "$program" "$@" >&- 2> "$room/err" < /dev/null
    local is=$?
    : > "$room/out"
    judge "$* >&-" $is "$status" '' "$err"
}

# A case whose file has this text.
run_text() { # WORDS TEXT STATUS OUT ERR
    printf '%s' "$2" > "$room/text.csv"
    # shellcheck disable=SC2086 # the words are apart
    "$program" $1 "$room/text.csv" > "$room/out" 2> "$room/err" < /dev/null
    judge "$1 of ${2@Q}" $? "$3" "$4" "$5"
}

# The shipped operations, at several sizes and by each way (tests/examples.py runs every example once).
accounts="$(printf '%s\n' 'journal 6' 0,0,deposit,1,1000 1,1,deposit,2,500 2,0,transfer,1,2,250 3,1,withdraw,2,700 4,1,withdraw,2,100 \
    5,0,transfer,3,1,5 'replica 6' 00010001000003e8 01010002000001f4 000300010000000000020000000000fa 01020002000002bc \
    0102000200000064 00030003000000000001000000000005 'business 6' 1,750,0 2,50,1 3,0,1)"$'\n'
run 0 "$accounts" '' replay accounts.csv
run 0 "$accounts" '' replay --size 1 accounts.csv
run 0 "$accounts" '' replay --size 0016 accounts.csv
run 0 "$accounts" '' replay --size=65536 --by plain accounts.csv
for size in 1 2 4 1024; do
    run 0 "$accounts" '' replay --by ring --size $size accounts.csv
done
for way in ring lock; do
    run 0 "$(printf '%s\n' 'journal 3' 0,0,deposit,1,100 1,0,withdraw,1,40 2,0,withdraw,1,500 \
        'replica 3' 0001000100000064 0002000100000028 00020001000001f4 'business 3' 1,60,1)"$'\n' '' replay --by $way three_events.csv
    run_text "replay --by $way" $'0,deposit,1,100\n0,deposit,1\n' 2 '' $'record 2: bad record\n'
    run 4 '' $'cannot read\n' replay --by $way no-such-file.csv
    run_full 4 $'cannot write\n' replay --by $way accounts.csv
done
run 0 "$(printf '%s\n' 'journal 3' 0,0,deposit,1,100 1,0,withdraw,1,40 2,0,withdraw,1,500 \
    'replica 3' 0001000100000064 0002000100000028 00020001000001f4 'business 3' 1,60,1)"$'\n' '' replay three_events.csv

# A check of a file; tests/checks.py has the others.
run 0 $'6 records\n' '' check replay accounts.csv
run_text 'check replay' $'0,deposit,1,1\n' 0 $'1 record\n' ''
run_text 'check drive' $'ring,4,single\n\nwith,a b\n' 2 '' "record 2: bad-name
line 3, field 2: found \"a b\", expected a handler's name: 1 to 32 letters, digits, _ or -
"
run 1 '' $'error: invalid value \'post\' for \'<TOOL>\'*' check post accounts.csv
run 1 '' $'error: the following required arguments were not provided:\n  <FILE>\n*' check drive

# The version names the kit that proved the program, and so do the pages. A kit of the same logic checks the same proofs.
kit=$("$program" --version | sed -n 's/^disruptor 0\.1\.0, proved with \(rattle-kit-[0-9a-z]* logic [0-9a-f]*\)$/\1/p')
here=$(rt version)
run 0 "disruptor 0.1.0, proved with $kit"$'\n' '' --version
holds --version "proved with '$kit', and the kit here is '$here'" [ "${kit##* }" = "${here##* }" ]
for page in README.md docs/PROVED.md; do
    holds $page "does not name '$kit'" grep -qxF "    $kit" "../$page"
done

# Help.
run 0 $'A verified LMAX Disruptor: producers and handlers over one ring of slots\n\nUsage: disruptor <COMMAND>\n*' '' --help
run 0 $'Run a file of commands, and print one line a command\n\nUsage: disruptor drive [OPTIONS] <FILE>\n*' '' drive --help
run 0 $'Replay a file of account movements, and print a report of them\n\nUsage: disruptor replay [OPTIONS] <FILE>\n*' '' replay --help
run 0 $'Replay a file of account movements, and print a report of them\n*' '' help replay
run 0 $'Check a file for drive or replay, and say where it is at fault\n*' '' check --help

# The examples of the help can be copied as they stand.
copied() { # TOOL FIRST-WORD-OF-THE-OUTPUT
    "$program" "$1" --help > "$room/help"
    sed -n '/^\(ring\|0\),/,/^$/p' "$room/help" | sed '/^$/,$d' > "$room/help.csv"
    run 0 "$(sed -n "/^$2/,/^\$/p" "$room/help")"$'\n' '' "$1" "$room/help.csv"
}
copied drive claimed
copied replay journal

# What is taken where no option says otherwise, and a file whose name is two words.
for default in 1024 plain; do
    holds 'replay --help' "does not name the default $default" grep -qF "[default: $default]" <("$program" replay --help)
done
printf 'ring,4,single\nwith,a\nstart\nclaim,0,1\n' > "$room/a file.csv"
run 0 $'claimed 0 0\n' '' drive "$room/a file.csv"

# The file `-` is standard input, also where a file has that name.
printf 'jump\n' > "$room/-"
run_input() { # STATUS OUT ERR INPUT WORD..
    local status=$1 out=$2 err=$3 input=$4
    shift 4
    (cd "$room" && { sleep 0.1; printf '%s' "$input"; } | "$program" "$@" > out 2> err)
    judge "$* of a pipe" $? "$status" "$out" "$err"
}
run_input 2 '' $'record 2: no start\n' $'ring,4,single\n' drive -
run_input 2 '' $'record 1: no ring\n' '' drive ./-
run_input 0 'journal 1*' '' $'0,deposit,1,1\n' replay --by ring -
run_input 0 $'1 record\n' '' $'0,deposit,1,1\n' check replay -

# Faults of the command line.
run 1 '' $'error: \'disruptor\' requires a subcommand but one was not provided\n*'
run 1 '' $'error: unrecognized subcommand \'sail\'\n*' sail
run 1 '' "error: the following required arguments were not provided:
  <FILE>

Usage: disruptor drive <FILE>

For more information, try '--help'.
" drive
run 1 '' $'error: the following required arguments were not provided:\n  <FILE>\n*' replay
run 1 '' $'error: unexpected argument \'y\' found\n*' drive x y
run 1 '' $'error: invalid value \'post\' for \'--by <WAY>\'\n*' replay --by post accounts.csv
run 1 '' $'error: invalid value \'x\' for \'--size <N>\'*' replay --size x accounts.csv
run 1 '' $'error: unexpected argument \'-1\' found\n*' replay --size -1 accounts.csv
for size in 3 1000 131072 +4; do
    run 1 '' $'bad-size\n' replay --size $size accounts.csv
done
run 1 '' $'bad-size\n' replay --size 0 no-such-file.csv
run 1 '' $'error: a word of the command line is not UTF-8\n' drive $'a\xff.csv'
run 1 '' $'error: a word of the command line is not UTF-8\n' $'\xff'

# Faults of the input, each cause once, after the lines of the commands before it.
run_text drive '' 2 '' $'record 1: no ring\n'
run_text drive $'ring,4,single\nwith,a\nstart\nclaim,0,1\njump\n' 2 $'claimed 0 0\n' $'record 5: bad record\n'
run_text 'drive --state' $'ring,4,single\nwith,a\nstart\nclaim,0,1\njump\n' 2 $'claimed 0 0\nstate next 1 front 0 room 3 a 0 0\n' $'record 5: bad record\n'
run_text drive $'ring,3,single\n' 2 '' $'record 1: bad-size\n'
run_text drive $'ring,4,multi,17\n' 2 '' $'record 1: bad-producers\n'
run_text drive $'ring,4,single\nlimit,0\n' 2 '' $'record 2: bad-limit\n'
run_text drive $'ring,4,single\nthen,a\n' 2 '' $'record 2: no group\n'
run_text drive $'ring,4,single\nwith,a b\n' 2 '' $'record 2: bad-name\n'
run_text drive $'ring,4,single\nwith,a,a\n' 2 '' $'record 2: duplicate\n'
run_text drive $'ring,4,single\nwith,a\nafter,b\n' 2 '' $'record 3: stranger\n'
run_text drive $'ring,4,single\nstart\n' 2 '' $'record 2: no-handlers\n'
run_text drive $'ring,4,single\nwith,a\nedge,a,a\nstart\n' 2 '' $'record 4: cycle\n'
run_text drive $'ring,4,single\nwith,a\n' 2 '' $'record 3: no start\n'
run_text replay $'0,deposit,1,100\n0,deposit,1\n' 2 '' $'record 2: bad record\n'
run_text replay '' 0 $'journal 0\nreplica 0\nbusiness 0\n' ''

# A million names take no long time, whatever is wrong with them.
with_names() { # WHAT-STANDS-LAST CAUSE
    { printf 'ring,4,single\nwith,'; seq -f 'h%.0f' -s , 1000000; printf 'start\n'; } | sed "2s/h1000000\$/$1/" > "$room/names.csv"
    timeout 60 "$program" drive "$room/names.csv" > "$room/out" 2> "$room/err" < /dev/null
    judge "a million names, and $1 last" $? 2 '' "record 2: $2"$'\n'
}
with_names last too-many
with_names h1 duplicate
with_names 'a b' bad-name

# Files that cannot be read, and more than there is memory for.
run 4 '' $'cannot read\n' drive no-such-file.csv
run 4 '' $'cannot read\n' replay no-such-file.csv
run 4 '' $'cannot read\n' drive .
run 4 '' $'cannot read\n' replay .
run 4 '' $'cannot read\n' check drive no-such-file.csv
run 4 '' $'cannot read\n' check replay .
head -c 67108864 /dev/zero | tr '\0' '\n' > "$room/long.csv"
for tool in drive replay 'check drive' 'check replay'; do
    # shellcheck disable=SC2086 # the words are apart
    (ulimit -v 32768 && exec "$program" $tool "$room/long.csv") > "$room/out" 2> "$room/err" < /dev/null
    judge "$tool of more than there is memory for" $? 3 '' $'no-memory\n'
done

# Output that cannot be written: at the last flush, in the midst of a run, and where it is help.
{ printf 'ring,4,single\nwith,a\nstart\n'; yes claim,0,9 | head -n 10000; } > "$room/many.csv"
{ yes 0,deposit,1,100 | head -n 10000; } > "$room/deposits.csv"
for words in 'drive first_event.csv' "drive $room/many.csv" 'show first_event.csv' "show $room/many.csv" 'replay accounts.csv' "replay $room/deposits.csv" 'check replay accounts.csv' --help 'drive --help'; do
    # shellcheck disable=SC2086 # the words are apart
    run_full 4 $'cannot write\n' $words
    # shellcheck disable=SC2086
    run_closed 4 $'cannot write\n' $words
done
# So also where the reader of its output has gone.
for words in "drive $room/many.csv" "replay $room/deposits.csv" 'check replay accounts.csv' --help; do
    # shellcheck disable=SC2086 # the words are apart
    { sleep 0.3; "$program" $words 2> "$room/err" < /dev/null; echo $? > "$room/status"; } | true
    : > "$room/out"
    judge "$words | true" "$(cat "$room/status")" 4 '' $'cannot write\n'
done

# Output to a file, which is written whole or not at all, and leaves nothing beside it.
run_into() { # STATUS ERR TEXT-THAT-IS-LEFT WORD..
    local status=$1 err=$2 left=$3
    shift 3
    mkdir "$room/into"
    printf 'old' > "$room/into/text"
    "$program" "$@" --output "$room/into/text" > "$room/out" 2> "$room/err" < /dev/null
    judge "$* --output" $? "$status" '' "$err"
    holds "$* --output" "left $(head -c 300 "$room/into/text")" matches "$room/into/text" "$left"
    holds "$* --output" "left $(ls "$room/into")" [ "$(ls "$room/into")" = text ]
    rm -r "$room/into"
}
run_into 0 '' $'claimed 0 0\nwritten\npublished\nbatch 0 end 42\ncompleted\n' drive first_event.csv
for way in plain ring lock; do
    run_into 0 '' 'journal 6*' replay --by $way accounts.csv
    run_into 4 $'cannot read\n' old replay --by $way no-such-file.csv
done
printf 'ring,4,single\nwith,a\nstart\nclaim,0,1\njump\n' > "$room/jump.csv"
run_into 2 $'record 5: bad record\n' old drive "$room/jump.csv"
run 4 '' $'cannot write\n' drive --output no-such-folder/text first_event.csv
run 4 '' $'cannot write\n' drive --output "$room" first_event.csv
run_into_limited() { # WORD..
    mkdir "$room/into"
    printf 'old' > "$room/into/text"
    (trap '' XFSZ && ulimit -f 1 && exec "$program" "$@" --output "$room/into/text") > "$room/out" 2> "$room/err" < /dev/null
    judge "$* --output, where a file may not grow" $? 4 '' $'cannot write\n'
    holds "$* --output, where a file may not grow" "left $(ls "$room/into")" [ "$(cat "$room/into/text") $(ls "$room/into")" = 'old text' ]
    rm -r "$room/into"
}
run_into_limited drive "$room/many.csv"
run_into_limited replay "$room/deposits.csv"

# A fault of the input is told, although its lines cannot be written.
run_full 2 $'record 5: bad record\n' drive "$room/jump.csv"
# Where standard error is closed, the status tells the fault.
"$program" drive no-such-file.csv > "$room/out" 2>&- < /dev/null
is=$?
: > "$room/err"
judge 'drive no-such-file.csv 2>&-' $is 4 '' ''

echo "$1: $cases cases, $failed failed"
[ "$failed" = 0 ]
