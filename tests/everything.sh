#!/usr/bin/env bash
# All that `make test` tries: every proof and every test's proof from nothing, but for what an earlier run on this machine kept, and each
# program's run (`rt ci`), then the programs, as both compilers built them, from outside (`scripts.py`); and, on what processors that
# leaves, the wrong bodies, over the libraries that `rt ci` proves. Scripts that go by time come last. The last line, `N passed, M
# failed`, counts what `rt ci` counts, each wrong body, and one failure more for each script that fails. Above it stands how much was
# done in this run. All that it starts ends with it, also where it is killed or interrupted.
set -u
cd "$(dirname "$0")/.." || exit 2
[ -n "${TEST_IS_HELD-}" ] || TEST_IS_HELD=yes exec tools/together.py tests/everything.sh "$@"
last=$(mktemp) || exit 2
bodies=$(mktemp) || exit 2
words=$(mktemp) || exit 2
trap 'rm -f "$last" "$bodies" "$words"' EXIT
passed=0 failed=0

# Runs a command, shows its lines but the last, and adds the two numbers of the last one to what passed and what failed. Its
# lines go to the file $heard too, as they come.
counted() { # COMMAND..
    : > "$last"
    "$@" | tee "$heard" | sed -u -n -e "\$w $last" -e '$!p'
    local status=${PIPESTATUS[0]} numbers
    read -r -a numbers <<< "$(sed -n -E 's/^([0-9]+) (passed|refused), ([0-9]+) (failed|not)(, of which .*)?$/\1 \3/p' "$last")"
    [ "${#numbers[@]}" = 2 ] || { cat "$last"; numbers=(0 1); }
    [ "$status" = 0 ] || [ "${numbers[1]}" -gt 0 ] || numbers[1]=1
    passed=$((passed + numbers[0])) failed=$((failed + numbers[1]))
}

nice -n 10 tests/wrong_bodies.py "$@" --over "$words" > "$bodies" 2>&1 &
trying=$!
# Its first line comes once it has a sum of all files: what changes from then on counts for no record.
until [ -s "$bodies" ] || ! kill -0 "$trying" 2> /dev/null; do sleep 0.1; done
# One job for each proof takes the least of the processors' time, and there are always other proofs.
heard=$words
RT_JOBS=$(nproc) counted rt ci "$@"
[ $((passed + failed)) -gt 0 ] || failed=1
proofs=$(sed -n -E 's/^rt: ok;.*; (done in this run: .*|every proof .*)$/\1/p' "$words")
# (a kit that keeps no proof between runs does not say how many it made)
[ "$failed" -gt 0 ] || proofs=${proofs:-all passed}
# Who waits for that line would wait for ever where the disk is full.
echo '0 passed, 0 failed: rt ci ended' >> "$words" || kill "$trying"
heard=/dev/null
counted tests/scripts.py --busy "$@"
wait "$trying"
tried=$?
counted sh -c 'cat "$1"; exit "$2"' - "$bodies" "$tried"
refused=$(cat "$last")
# What goes by time comes last, with nothing beside it.
counted tests/scripts.py --quiet
echo "proofs: ${proofs:-not all passed}"
echo "wrong bodies: $refused"
echo "$passed passed, $failed failed"
[ "$failed" = 0 ]
