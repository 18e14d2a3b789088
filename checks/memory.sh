#!/usr/bin/env bash
# Measures the greatest memory of the built program over large inputs, a large store and large logs, as the system tells it
# (VmHWM), beside the bytes that it works on.
#
#     checks/memory.sh PROGRAM [FOLDER]
#
# FOLDER is where some gigabytes may be written; a new one below the folder for temporary files where nothing is said.
set -u

program=$(realpath "$1")
work=$(mktemp -d -p "${2:-${TMPDIR:-/tmp}}")
trap 'rm -rf "$work"' EXIT
cd "$work" || exit 1

readonly MEBIBYTE=$((1024 * 1024))

# Runs the program with these words and prints its greatest memory in bytes. What it prints is counted, not kept.
peak() {
    "$program" "$@" 2>"$work/err" > >(tail -c 200 >"$work/out") &
    local child=$! most=0 now
    while now=$(awk '/^VmHWM/ { print $2 }' "/proc/$child/status" 2>/dev/null) && [ -n "$now" ]; do
        [ "$now" -gt "$most" ] && most=$now
        sleep 0.01
    done
    wait $child || { cat "$work/err" "$work/out" >&2; exit 1; }
    echo $((most * 1024))
}

tell() { # what, bytes of memory, bytes of what it works on
    awk -v what="$1" -v memory="$2" -v bytes="$3" -v mebibyte=$MEBIBYTE 'BEGIN {
        printf "%-66s %6.0f MiB of memory, %6.0f MiB, %.2f times\n", what, memory / mebibyte, bytes / mebibyte, memory / bytes
    }'
}

repository() { # script, packages
    rm -rf one
    mkdir one
    cd one || exit 1
    echo '{"name":"root","version":"1.0.0","workspaces":["packages/*"]}' >package.json
    echo '{"tasks":{"build":{"outputs":["dist/**"]}}}' >turbo.json
    printf '.turbo\ndist\n' >.gitignore
    local number
    for number in $(seq "$2"); do
        mkdir -p "packages/p$number/src"
        printf '{"name":"p%s","version":"1.0.0","scripts":{"build":"%s"}}\n' "$number" "$1" >"packages/p$number/package.json"
    done
}

# Sixteen files of 60 MiB, of different bytes.
inputs() {
    local number
    for number in $(seq 16); do
        head -c $((60 * MEBIBYTE)) /dev/urandom >"packages/p$((number % 4 + 1))/src/large$number"
    done
}

repository 'echo built' 4
inputs
total=$((16 * 60 * MEBIBYTE))
tell 'a first run over inputs of 960 MiB' "$(peak build)" $total
tell 'a run over them in which nothing changed' "$(peak build)" $total
inputs
peak build >/dev/null
tell "a run over a store of $(($(stat -c %s .turbo/store.turb) / MEBIBYTE)) MiB, inputs of 960 MiB" "$(peak build)" $total
rm packages/*/src/large*
peak build >/dev/null
tell 'a run over that store, small inputs' "$(peak build)" "$(stat -c %s .turbo/store.turb)"
tell 'a compaction of that store' "$(peak compact)" "$(stat -c %s .turbo/store.turb)"
cd ..

repository 'head -c 67108864 /dev/zero' 10
tell 'logs of 64 MiB from ten commands at once' "$(peak build --concurrency=10)" $((640 * MEBIBYTE))
tell 'the same logs replayed' "$(peak build)" $((640 * MEBIBYTE))
cd ..

repository 'mkdir -p dist; head -c 209715200 /dev/urandom >dist/large' 4
tell 'outputs of 200 MiB from four commands' "$(peak build)" $((800 * MEBIBYTE))
rm -rf packages/*/dist
tell 'the same outputs put back' "$(peak build)" $((800 * MEBIBYTE))
