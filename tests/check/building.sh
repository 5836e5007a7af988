# How ./check has its program proved and built, over a stand-in for rt and three crates.
house=$work/a\ house tool=$work/tool
mkdir -p "$house/tools" "$house/crates/report/src" "$house/crates/command" "$tool"
cp "$root/check" "$house/" && cp "$root/tools/build" "$house/tools/"
cp "$root/crates/report/src/sentences.rt" "$house/crates/report/src/"
printf 'rules:\nground: rules\nbeside: rules\ncommand: ground rules io\n' >"$house/crates.txt"
# It proves what it has not made; $work/slow and $work/wrong name a crate that takes long, and one that is not proved.
cat >"$tool/rt" <<END
#!/bin/sh
mkdir -p ../../made out
for crate in rules ground command; do
    [ ! -f ../../made/\$crate ] || continue
    if grep -q \$crate '$work/slow' 2>/dev/null; then
        (sleep 300) &
        echo \$! >'$work/sleeper'
        wait
    fi
    echo "crate \$crate: modules loaded=1 checked=1"
    if grep -q \$crate '$work/wrong' 2>/dev/null; then
        echo "logic=not-proved"
        exit 1
    fi
    cp '$root/crates/command/out/command' out/
    touch ../../made/\$crate
    echo "logic=proved functions=1"
done
END
chmod +x "$tool/rt"
in_house() { # WORD..
    PATH=$tool:$PATH "$@"
}
anew() { # as where it was never used
    rm -rf "$house/target" "$house/made" "$house/crates/command/out"
}
begins='check: proving and building it first, which takes up to minutes: 3 crates, the longest about 40 seconds'
all="$begins
check: 1 of 3 crates: rules
check: 2 of 3 crates: ground
check: 3 of 3 crates: command"

in_house "$house/check" --help >out 2>said
expect 'help before anything is built' "$? $(cmp out help && cat said)" '0 '
in_house "$house/check" base >out 2>said
expect 'first use' "$? $(cat out said)" "0 base: ok, 10 definitions$nl$all"
in_house "$house/check" base >out 2>said
expect 'second use' "$? $(cat out said)" '0 base: ok, 10 definitions'
sleep 0.1 && touch "$house/crates/report/src/sentences.rt"
in_house "$house/check" base >out 2>said
expect 'after an edit that leaves all proved' "$? $(cat out said)" "0 base: ok, 10 definitions$nl$begins"
in_house "$house/check" base >out 2>said
expect 'and then' "$? $(cat out said)" '0 base: ok, 10 definitions'

anew && echo ground >"$work/wrong"
in_house "$house/check" base >out 2>said
expect 'what is not proved' "$? $(cat out said)" "2 $begins
check: 1 of 3 crates: rules
check: the program could not be proved or built: see $house/target/check.log"
expect 'its log' "$(tail -n 1 "$house/target/check.log")" 'logic=not-proved'
rm "$work/wrong"

anew
expect 'first use at a terminal' "$(in_house "$root/tests/check/terminal.py" "$house/check" base)" "$begins
<>check: 1 of 3 crates: rules<>check: 2 of 3 crates: ground<>check: 3 of 3 crates: command<>base: ok, 10 definitions
status 0"

anew && echo ground >"$work/slow"
STOP_AT=$work/sleeper in_house "$root/tests/check/terminal.py" "$house/check" base >out
expect 'stopped' "$(sed 's/\^C//' out)" "$begins
<>check: 1 of 3 crates: rules<>check: stopped; what is proved stays so, and the next check goes on from there
status -2"
# all that was begun holds the lock
expect 'nothing runs on' "$(flock -w 20 "$house/target/check.lock" echo free)" free
expect 'nothing is half made' "$(ls "$house/made")" rules
rm "$work/slow" "$work/sleeper"
in_house "$house/check" base >out 2>said
expect 'it goes on' "$? $(cat out said)" "0 base: ok, 10 definitions
$begins
check: 2 of 3 crates: ground
check: 3 of 3 crates: command"

anew && echo ground >"$work/slow"
in_house "$house/tools/build" --quiet base 2>first &
first=$!
while ! [ -s "$work/sleeper" ]; do sleep 0.1; done
rm said
in_house "$house/check" base >out 2>said &
second=$!
while ! [ -s said ]; do sleep 0.1; done
kill "$(cat "$work/sleeper")"
wait "$first"
expect 'the first of two' "$? $(cat first)" "0 $all"
wait "$second"
expect 'the second waits' "$? $(cat out said)" "0 base: ok, 10 definitions
check: another check is proving and building; this one waits for it
$begins"

# ended by a signal that reaches this command alone
for number in 15 1; do
    anew && rm -f "$work/sleeper"
    (export PATH="$tool:$PATH" && exec "$house/check" base) >out 2>said &
    alone=$!
    while ! [ -s "$work/sleeper" ]; do sleep 0.1; done
    kill -$number "$alone"
    wait "$alone" 2>/dev/null
    expect "signal $number: status" "$?" "$((128 + number))"
    expect "signal $number: said" "$(tail -n 1 said)" \
        'check: stopped; what is proved stays so, and the next check goes on from there'
    expect "signal $number: nothing runs on" "$(flock -w 20 "$house/target/check.lock" echo free)" free
done
rm "$work/slow"

# where nothing may be written
anew
for state in none closed; do
    [ $reader = yes ] || break
    [ $state = none ] || mkdir "$house/target"
    chmod a-w "$house" "$house/target" 2>/dev/null
    # shellcheck disable=SC2086
    in_house $as_reader "$house/check" base >out 2>said
    expect "a house that is closed, target: $state" "$? $(cat out said)" "2 check: cannot write to $house/target"
    chmod u+w "$house" "$house/target" 2>/dev/null
done
anew

# in a folder whose name ends in a line end, on a terminal that stops what writes from behind
odd="$work/odd
"
mv "$house" "$odd"
in_house "$root/tests/check/terminal.py" sh -c 'stty tostop && "$0/check" base' "$odd" >out
expect 'a terminal that stops' "$(cat out)" "$begins
<>check: 1 of 3 crates: rules<>check: 2 of 3 crates: ground<>check: 3 of 3 crates: command<>base: ok, 10 definitions
status 0"
in_house "$odd/check" --help >out 2>said
expect 'the help there' "$? $(cmp out help && cat said)" '0 '
