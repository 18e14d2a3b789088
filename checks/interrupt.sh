#!/usr/bin/env bash
# Interrupts the built program as Ctrl-C does: the signal goes to the program and to all that it started. Looks each time
# whether nothing of it is left running, and whether the next run prints, leaves and stores what it should.
#
#     checks/interrupt.sh PROGRAM [TIMES] [SEED]
#
# TIMES is 100 where nothing is said. Prints a line for each kind, and ends with 1 at the first fault.
set -u

program=$(realpath "$1")
times=${2:-100}
RANDOM=${3:-$(date +%s)}
echo "seed: ${3:-given by the clock}"
work=$(mktemp -d)
trap 'rm -rf "$work"' EXIT
cd "$work" || exit 1

# The status that a shell tells of a program that SIGINT ended.
readonly INTERRUPTED=130

echo '{"name":"root","version":"1.0.0","workspaces":["packages/*"]}' >package.json
echo '{"tasks":{"build":{"outputs":["dist/**"]}}}' >turbo.json
printf '.turbo\ndist\n' >.gitignore
for name in a b c d; do
    mkdir -p packages/$name/src
    printf '{"name":"%s","version":"1.0.0","scripts":{"build":"%s"}}\n' $name \
        'mkdir -p dist; sleep $(cat ../../pace); cat src/in.txt >dist/out.txt; echo built' >packages/$name/package.json
done

fault() {
    echo "FAILED  $1: $(head -c 500 out err 2>/dev/null)"
    exit 1
}

# Starts a run in a process group of its own, which a terminal would interrupt as one, and interrupts it after a while.
interrupt_one() { # the most milliseconds, whom, words
    local most=$1 whom=$2
    shift 2
    # A shell starts what goes on beside it with the signal ignored, so it is set back first.
    echo "$pace" >pace
    setsid env --default-signal=INT "$program" "$@" >out 2>err &
    local child=$!
    sleep "0.$(printf '%03d' $((RANDOM % most)))"
    if [ "$whom" = all ]; then kill -INT -- "-$child" 2>/dev/null; else kill -INT "$child" 2>/dev/null; fi
    wait "$child"
    status=$?
    session=$child
}

# Whether something of it still runs after a second, which the commands would take two of.
left_running() {
    local tries
    for tries in $(seq 50); do
        # What has ended may wait for the system to take it away.
        ps -s "$session" -o stat= | grep -q '^[^Z]' || return 1
        sleep 0.02
    done
}

next_run() {
    echo 0.02 >pace
    timeout 30 "$program" build >out 2>err || fault 'the next run'
    for name in a b c d; do
        cmp -s packages/$name/src/in.txt packages/$name/dist/out.txt || fault "the output of $name"
    done
    "$program" build >out 2>err && grep -q '4 cached, 4 total' out || fault 'the run after it'
}

# How many seconds a command takes where it is interrupted.
pace=2
interrupted=0
for number in $(seq "$times"); do
    for name in a b c d; do echo "$name $((RANDOM % 100))" >packages/$name/src/in.txt; done
    interrupt_one 200 all build
    if [ "$status" = $INTERRUPTED ]; then interrupted=$((interrupted + 1)); elif [ "$status" != 0 ]; then fault "status $status"; fi
    left_running && fault 'something still runs'
    next_run
done
echo "ok      $times runs, $interrupted of them interrupted: nothing is left running, and the next run is right"

for number in $(seq 20); do
    interrupt_one 20 all compact
    left_running && fault 'something still runs'
    next_run
done
echo 'ok      20 compactions'

# The program alone: what it started goes on to its end, as with make.
echo new >packages/a/src/in.txt
pace=0.5
interrupt_one 50 program build
left_running && fault 'a command does not end'
next_run
echo 'ok      the program alone is interrupted: its commands end by themselves, and the next run is right'
