#!/usr/bin/env bash
# Tries one store that several processes use at once, by the built program of crates/shared_adds.
#
#     checks/shared.sh PROGRAM
#
# Two processes add at once, then ten, and then ten of which some are killed in the middle. Whoever ends has found all that
# it added, and later processes find all that those added that ended, and of each killed one a first part. Prints a line for
# each, and ends with 1 where one failed.
set -u

program=$(realpath "$1")
work=$(mktemp -d)
trap 'rm -rf "$work"' EXIT
cd "$work" || exit 1
failed=0

check() {
    local name=$1
    shift
    if "$@"; then
        echo "ok      $name"
    else
        echo "FAILED  $name"
        failed=1
    fi
}

# Whether a process that adds so many results with this name, or only finds them, tells that it found all.
all() { # add or find, store, name, count
    [ "$("$program" "$1" "$2" "$3" "$4")" = "$3: $4 of $4 found" ]
}

# So many processes at once, each with a name of its own.
at_once() { # processes, results of each, store
    local pids=() number well=0
    for number in $(seq "$1"); do
        all add "$3" "run$number" "$2" &
        pids+=($!)
    done
    for number in "${pids[@]}"; do
        wait "$number" || well=1
    done
    return $well
}

found_later() { # processes, results of each, store
    local number
    for number in $(seq "$1"); do
        all find "$3" "run$number" "$2" || return 1
    done
}

# Ten processes, of which those with an even number are killed after a while.
some_killed() { # results of each, store
    local pids=() number well=0
    for number in $(seq 10); do
        "$program" add "$2" "run$number" "$1" > "page$number" &
        pids+=($!)
    done
    for number in 2 4 6 8 10; do
        sleep "0.0$number"
        kill -9 "${pids[number - 1]}" 2> /dev/null
    done
    wait "${pids[@]}" 2> /dev/null
    for number in 1 3 5 7 9; do
        [ "$(cat "page$number")" = "run$number: $1 of $1 found" ] || well=1
        all find "$2" "run$number" "$1" || well=1
    done
    return $well
}

# Of a killed process there is a first part: a later one goes on behind it.
goes_on() { # results of each, store
    local number
    for number in 2 4 6 8 10; do
        "$program" find "$2" "run$number" "$1" > page || return 1
        all add "$2" "run$number" "$1" || return 1
    done
}

check "two processes at once" at_once 2 200 two/store.turb
check "what the two added is found later" found_later 2 200 two/store.turb
check "ten processes at once" at_once 10 40 ten/store.turb
check "what the ten added is found later" found_later 10 40 ten/store.turb
check "ten of which five are killed" some_killed 100 killed/store.turb
check "the store goes on behind them" goes_on 100 killed/store.turb
exit $failed
