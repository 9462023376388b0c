#!/bin/bash
# Tries on a real system what no proof of the program can show: many runs at once over one flash, closed
# standard streams, files that may only be read, full disks and closed pipes. In use: tests/edge.sh [PROGRAM]
# Its last line is 'N passed, N failed', and it ends with 1 where one failed. All that it makes lies in a
# folder of its own.
[ -n "${EDGE_IS_TIMED-}" ] || EDGE_IS_TIMED=1 exec timeout 200 "$0" "$@"
set -u
given=$(realpath "${1:-$(dirname "$0")/../crates/fwload/out/fwload}")
room=$(mktemp -d)
trap 'chmod -R u+rwx "$room"; rm -rf "$room"' EXIT
chmod 711 "$room"
cd "$room" || exit 1
cp "$given" program && chmod 755 program || exit 1
program=$room/program
passed=0 failed=0

# is WHAT WANTED GOT
is() {
    if [ "$2" = "$3" ]; then
        passed=$((passed + 1))
    else
        failed=$((failed + 1))
        echo "FAILED: $1: wanted '$2', came '$3'"
    fi
}

# same WHAT FILE FILE
same() {
    is "$1" same "$(cmp -s "$2" "$3" && echo same || echo other)"
}

# A run of the program, its output in `out`: answers its status.
run() {
    timeout 5 "$program" "$@" >out
    echo $?
}

# The last 2,352 octets of what a key of H5 and W4 signs are its signature, whose second number is the leaf's.
leaf() {
    tail -c 2348 "$1" | head -c 4 | od -An -tx1 | tr -d ' \n'
}

spent() {
    tail -c +69633 "$1" | head -c 32 | tr -d '\377' | wc -c
}

# What the commands are tried on: a key board, a module, a package and the recipes.
octets() {
    printf "$1%.0s" {1..32}
}
key() {
    echo "key H5 W4 $(octets "$1") $(octets "$1" | head -c 32)"
}
key 04 >key-new.recipe
"$program" keys key-new <key-new.recipe >key.line || exit 1
read -r _ public name <key.line
cat >issue.recipe <<RECIPE
serial 01
issuer root
subject signer
from 20200101000000
to 20491231235959
public $public
subjectkey $name
authoritykey $name
usage sign
RECIPE
cat >pack.recipe <<RECIPE
package 1.2.3.1 7
target 1.2.3
signer $name
wrap
image 68656c6c6f
RECIPE
cat >make.recipe <<RECIPE
hwtype 1.2.3
serial 0001
capacity 16
$(key 05)
anchor root a1 $public -
RECIPE
cp keys packed
"$program" packed pack <pack.recipe >package || exit 1
sed 's/^signer .*/signer a1/' pack.recipe | "$program" packed pack >accepted || exit 1
"$program" module make <make.recipe >made || exit 1
"$program" module list >listed || exit 1
printf '\x30\x05\x04\x03\x41\x42\x43' >name
printf '\x31\x00' >sets

# Each command with a flash that it works on and its input.
commands='ident name none
sigcheck name none
rehearse:20250101000000 sets none
key-new key-new.recipe none
make make.recipe none
list name module
explain:20300101000000 package module
load:20300101000000 accepted module
issue issue.recipe keys
pack pack.recipe keys'

# fresh FLASH: makes `flash` a copy, or absent
fresh() {
    rm -f flash
    [ "$1" = none ] || cp "$1" flash
}

# --- many runs at once

# at_once COMMAND: 16 runs of it over `flash`, their outputs in out.N and their statuses in status.N
at_once() {
    local n
    for n in {1..16}; do
        ( "$program" flash "$1" <"recipe.$n" >"out.$n"; echo $? >"status.$n" ) &
    done
}
done_with() {
    local n
    for n in {1..16}; do
        if [ "$(cat "status.$n")" = "$1" ]; then echo "$n"; fi
    done
}

# each pack beside 15 others, and beside as many runs of list
through=0
for round in {1..12}; do
    fresh keys
    for n in {1..16}; do sed "s/1.2.3.1 7/1.2.3.1 $n/" pack.recipe >"recipe.$n"; done
    at_once pack
    if [ $((round % 3)) = 0 ]; then
        for n in {1..16}; do ( "$program" flash list >"listed.$n"; echo $? >>list.status ) & done
    fi
    wait
    good=$(done_with 0)
    count=$(wc -w <<<"$good")
    through=$((through + (count > 0)))
    is "pack, round $round: no leaf signs two packages" "$count" "$(for n in $good; do leaf "out.$n"; echo; done | sort -u | grep -c .)"
    is "pack, round $round: as many leaves are spent as packages came" "$count" "$(spent flash)"
    is "pack, round $round: any other run ends with 4" $((16 - count)) "$(done_with 4 | wc -w)"
    is "pack, round $round: and sends nothing" 0 "$(for n in $(done_with 4); do cat "out.$n"; done | wc -c)"
done
is 'pack: in some rounds a run gets through' yes "$([ "$through" -ge 3 ] && echo yes || echo "in $through of 12")"
is 'list beside pack answers 3 or 4' '' "$(grep -v '^[34]$' list.status)"

for round in {1..6}; do
    fresh none
    for n in {1..16}; do key "$(printf '%02x' "$n")" >"recipe.$n"; done
    at_once key-new
    wait
    good=$(done_with 0)
    is "key-new, round $round: at most one makes a key" yes "$([ "$(wc -w <<<"$good")" -le 1 ] && echo yes || echo "$good")"
    is "key-new, round $round: any other run ends with 4, or finds the board held" '' "$(cat status.* | grep -v '^[048]$')"
    for n in $good; do
        "$program" alone key-new <"recipe.$n" >alone.line
        same "key-new, round $round: the flash holds the key that was answered" alone flash
        rm -f alone
    done
done

cp module flash
for n in {1..16}; do ( "$program" flash list >"out.$n"; echo $? >"status.$n" ) & done
wait
is 'list beside list: each answers' 16 "$(done_with 0 | wc -w)"

if command -v flock >flock; then
    is 'list beside a reader answers' 0 "$(flock -s module "$program" module list >out; echo $?)"
    is 'list beside a writer ends with 4' 4 "$(flock -x module "$program" module list >out; echo $?)"
    fresh keys
    is 'pack beside a reader ends with 4' 4 "$(flock -s flash "$program" flash pack <pack.recipe >out; echo $?)"
    is 'and sends nothing' 0 "$(wc -c <out)"
    same 'and leaves the flash' keys flash
    fresh module
    is 'load beside a reader ends with 4' 4 "$(flock -s flash "$program" flash load 20300101000000 <accepted >out; echo $?)"
    is 'load beside a reader sends nothing' 0 "$(wc -c <out)"
    same 'load beside a reader leaves the flash' module flash
    is 'load beside a writer ends with 4' 4 "$(flock -x flash "$program" flash load 20300101000000 <accepted >out; echo $?)"
    is 'load of nothing beside a reader answers' 0 "$(flock -s flash "$program" flash load 20300101000000 </dev/null >out; echo $?)"
else
    echo 'skipped: flock is not there'
fi

# each load of one package beside 15 others: what is installed is what was answered
for round in {1..6}; do
    fresh module
    for n in {1..16}; do
        ( "$program" flash load 20300101000000 <accepted >"out.$n"; echo $? >"status.$n" ) &
    done
    wait
    good=$(done_with 0)
    count=$(wc -w <<<"$good")
    is "load, round $round: as many are installed as answers came" "sequence $count" "$("$program" flash list | sed -n 2p)"
    is "load, round $round: no leaf signs two answers" "$count" "$(for n in $good; do leaf "out.$n"; echo; done | sort -u | grep -c .)"
    is "load, round $round: as many leaves are spent" "$count" "$(spent flash)"
    is "load, round $round: any other run ends with 4" $((16 - count)) "$(done_with 4 | wc -w)"
    is "load, round $round: and sends nothing" 0 "$(for n in $(done_with 4); do cat "out.$n"; done | wc -c)"
done

# --- a pipe that is closed while load answers, before it could take all answers: what was answered whole is installed, and
# one more at most

fresh module
status=$(for n in {1..40}; do cat accepted; done | { "$program" flash load 20300101000000; echo $? >status.load; } |
    head -c 10000 | wc -c; cat status.load)
is 'load to a pipe that is closed behind 10,000 octets ends with 4' '10000 4' "$(echo $status)"
installed=$("$program" flash list | sed -n 's/^sequence //p')
is 'load to it installs what it answers, or one more' yes "$([ "$installed" -ge 3 ] && [ "$installed" -eq "$(spent flash)" ] && echo yes || echo "$installed")"
is 'load goes on behind it' 0 "$(run flash load 20300101000000 <accepted)"
is 'and installs' "sequence $((installed + 1))" "$("$program" flash list | sed -n 2p)"

# --- closed standard streams

while read -r words input flash; do
    command=${words/:/ }
    before=$flash
    [ "$flash" != none ] || before=/dev/null
    fresh "$flash"
    "$program" flash $command <$input >wanted
    usual=$?
    touch flash
    mv flash after

    fresh "$flash"
    "$program" flash $command <$input >out 2>&-
    is "$command without standard error" $usual $?
    same "$command without standard error sends the same" wanted out
    touch flash
    same "$command without standard error leaves the same flash" after flash

    fresh "$flash"
    "$program" flash $command <$input >&-
    is "$command without standard output" 4 $?
    touch flash
    same "$command without standard output writes nothing more" after flash

    fresh "$flash"
    "$program" flash $command <$input >&- 2>&-
    is "$command without output and error" 4 $?
    touch flash
    same "$command without output and error writes nothing more" after flash

    # list reads no input
    if [ "$command" = list ]; then wanted=0 both=4; else wanted=5 both=5; fi
    fresh "$flash"
    "$program" flash $command <&- >out
    is "$command without standard input" $wanted $?
    touch flash
    same "$command without standard input leaves the flash" $before flash

    fresh "$flash"
    "$program" flash $command <&- >&- 2>&-
    is "$command without any stream" $both $?
    touch flash
    same "$command without any stream leaves the flash" $before flash

    # --- full disks, closed pipes, folders

    fresh "$flash"
    "$program" flash $command <$input >/dev/full
    is "$command to a full disk" 4 $?
    fresh "$flash"
    ( sleep 0.1; exec "$program" flash $command <$input ) | true
    is "$command to a closed pipe" 4 "${PIPESTATUS[0]}"
    if [ "$command" != list ]; then
        fresh "$flash"
        "$program" flash $command <. >out
        is "$command of a folder as its input" 5 $?
        touch flash
        same "$command of a folder as its input leaves the flash" $before flash
    fi
    case $command in ident | sigcheck | rehearse*) continue ;; esac

    # --- what is no flash

    is "$command over a folder" 4 "$(run . $command <$input)"
    is "$command over a folder sends nothing" 0 "$(wc -c <out)"
    is "$command in a folder that isn't there" 4 "$(run missing/flash $command <$input)"
    is "$command over a full device" 4 "$(run /dev/full $command <$input)"
    rm -f pipe
    mkfifo pipe
    is "$command over a pipe" 4 "$(run pipe $command <$input)"
    case $command in key-new | make) continue ;; esac
    rm -f absent
    is "$command over a file that isn't there" 3 "$(run absent $command <$input)"
    is "$command makes no file" no "$([ -e absent ] && echo yes || echo no)"
done <<<"$commands"

# --- a disk without room for the flash: the next run with room makes it
for command in key-new make; do
    fresh none
    ( trap '' XFSZ; ulimit -f 40; exec "$program" flash $command <$command.recipe >out )
    is "$command without room" 4 $?
    is "$command without room sends nothing" 0 "$(wc -c <out)"
    is "$command with room" 0 "$(run flash $command <$command.recipe)"
done

# --- the mode of a flash that is made, and of one that is there
for command in key-new make; do
    for mask in 000 022 077 777; do
        fresh none
        is "$command under umask $mask" 0 "$(umask $mask; "$program" flash $command <$command.recipe >>out; echo $?)"
        is "$command under umask $mask makes the file its owner's" 600 "$(stat -c %a flash)"
    done
done
fresh none
: >flash
chmod 640 flash
is 'key-new over an empty file' 0 "$(run flash key-new <key-new.recipe)"
is 'key-new keeps its mode' 640 "$(stat -c %a flash)"

# --- files and folders that may only be read, tried as one who is not root
as=()
if [ "$(id -u)" = 0 ]; then as=(setpriv --reuid=65534 --regid=65534 --clear-groups); fi
if "${as[@]}" true 2>setpriv; then
    mkdir shut && cp module keys shut && : >shut/empty
    [ "$(id -u)" != 0 ] || chown -R 65534:65534 shut
    chmod 444 shut/* && chmod 555 shut
    others() { "${as[@]}" "$program" "$@" >out; echo $?; }
    is 'list of a file that may only be read' 0 "$(others shut/module list)"
    same 'list of a file that may only be read answers' listed out
    is 'explain over a file that may only be read' 1 "$(others shut/module explain 20300101000000 <package)"
    is 'load over a file that may only be read' 4 "$(others shut/module load 20300101000000 <accepted)"
    is 'load over it sends nothing' 0 "$(wc -c <out)"
    is 'load of what is no package over it answers' 1 "$(others shut/module load 20300101000000 <name)"
    same 'load leaves it' module shut/module
    is 'pack over a file that may only be read' 4 "$(others shut/keys pack <pack.recipe)"
    is 'and sends nothing' 0 "$(wc -c <out)"
    same 'and leaves it' keys shut/keys
    is 'key-new over an empty file that may only be read' 4 "$(others shut/empty key-new <key-new.recipe)"
    is 'key-new in a folder that may only be read' 4 "$(others shut/new key-new <key-new.recipe)"
    is 'and sends nothing' 0 "$(wc -c <out)"
    is 'list of an absent file there' 3 "$(others shut/new list)"
    is 'and nothing is made' 'empty keys module' "$(echo $(ls shut))"
    chmod 000 shut/module
    is 'list of a file that may not be read' 4 "$(others shut/module list)"
    is 'list of it sends nothing' 0 "$(wc -c <out)"
    chmod 000 shut
    is 'list in a folder that may not be searched' 4 "$(others shut/keys list)"
    chmod 755 shut
else
    echo 'skipped: files that may only be read, since setpriv lets root be nobody else here'
fi

echo "$passed passed, $failed failed"
[ "$failed" = 0 ]
