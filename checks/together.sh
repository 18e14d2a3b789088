#!/usr/bin/env bash
# Runs the built program several times at once over one shared store, each run in a checkout of its own, and kills some.
#
#     checks/together.sh PROGRAM [ROUNDS]
#
# Two runs at once, then ten, and then ten of which five are killed by signal 9 at random moments, ROUNDS times each, 20
# where nothing is said. Whoever is not killed ends with status 0 and the right files; a run behind them finds all results
# of those that ended. Prints a line for each, and ends with 1 at the first fault.
set -u

program=$(realpath "$1")
rounds=${2:-20}
work=$(mktemp -d)
trap 'rm -rf "$work"' EXIT
export TURBO_SHARED_STORE=$work/shared.turb

fault() {
    echo "FAILED  $1: $(head -c 500 "$work"/*.out "$work"/*.err 2>/dev/null)"
    exit 1
}

# Checkouts of one repository, whose packages have the same sources but for one of each checkout.
checkout() {
    mkdir -p "$work/$1"
    cd "$work/$1" || exit 1
    echo '{"name":"root","version":"1.0.0","workspaces":["packages/*"]}' >package.json
    echo '{"tasks":{"build":{"outputs":["dist/**"]}}}' >turbo.json
    printf '.turbo\ndist\n' >.gitignore
    local name
    for name in common other own; do
        mkdir -p packages/$name/src
        printf '{"name":"%s","version":"1.0.0","scripts":{"build":"%s"}}\n' $name \
            'mkdir -p dist; sleep 0.0$(($$ % 5)); cat src/in.txt >dist/out.txt; cat src/in.txt' >packages/$name/package.json
    done
}

sources() { # checkout, round
    local name
    for name in common other; do echo "$name $2" >"$work/$1/packages/$name/src/in.txt"; done
    echo "own $1 $2" >"$work/$1/packages/own/src/in.txt"
    rm -rf "$work/$1"/packages/*/dist
}

right() {
    local name
    for name in common other own; do
        cmp -s "$work/$1/packages/$name/src/in.txt" "$work/$1/packages/$name/dist/out.txt" || return 1
    done
}

at_once() { # how many, how many of them are killed, round
    local number pids=() killed=$2
    for number in $(seq "$1"); do sources "$number" "$3"; done
    for number in $(seq "$1"); do
        (cd "$work/$number" && exec "$program" build --shared >"$work/$number.out" 2>"$work/$number.err") &
        pids+=($!)
    done
    for number in $(seq "$killed"); do
        sleep "0.0$((RANDOM % 60 + 10))"
        kill -9 "${pids[number - 1]}" 2>/dev/null
    done
    for number in $(seq "$1"); do
        if wait "${pids[number - 1]}" 2>/dev/null; then
            right "$number" || fault "the files of checkout $number"
            ended+=("$number")
        elif [ "$number" -gt "$killed" ]; then
            fault "checkout $number"
        fi
    done
}

# A run behind them has nothing left to do in a checkout whose run ended.
found_later() {
    local number
    for number in "${ended[@]}"; do
        rm -rf "$work/$number"/packages/*/dist
        (cd "$work/$number" && "$program" build --shared) >"$work/later.out" 2>"$work/later.err" || fault 'a later run'
        grep -q '3 cached, 3 total' "$work/later.out" || fault "what checkout $number stored"
        right "$number" || fault "the files that checkout $number gets back"
    done
}

for number in $(seq 10); do checkout "$number"; done
for kind in '2 0 two at once' '10 0 ten at once' '10 5 ten at once, five of them killed'; do
    read -r many killed name <<<"$kind"
    finished=0
    for round in $(seq "$rounds"); do
        ended=()
        # The shell tells of each that was killed on its standard error.
        at_once "$many" "$killed" "$many.$killed.$round" 2>/dev/null
        # What a killed run leaves running ends first.
        sleep 0.1
        found_later
        finished=$((finished + ${#ended[@]}))
    done
    echo "ok      $name, $rounds times: $finished runs ended, and each of their results is found"
done
