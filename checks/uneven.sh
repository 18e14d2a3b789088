#!/usr/bin/env bash
# Times real commands under the program and under `make -j10`, which also runs ten at once: commands of lengths that
# vary, commands of which one in ten is long, and one that prints much beside silent ones.
#
#     checks/uneven.sh PROGRAM [REPETITIONS]
#
# Prints the least time of each and their ratio, and ends with 1 where a ratio is above 1.1.
set -euo pipefail

program=$(realpath "$1")
repetitions=${2:-3}
work=$(mktemp -d)
trap 'rm -rf "$work"' EXIT

# Reads one script a line, and writes a package for each into the folder, with a Makefile of the same scripts.
repository() {
    mkdir -p "$1"
    cd "$1"
    echo '{"name":"root","version":"1.0.0","workspaces":["packages/*"]}' >package.json
    echo '{"tasks":{"build":{}}}' >turbo.json
    echo '.turbo' >.gitignore
    local number=0 name names='' script
    : >rules
    while IFS= read -r script; do
        number=$((number + 1))
        # In the order of names, which both begin with.
        name=$(printf 'p%03d' "$number")
        mkdir -p "packages/$name"
        printf '{"name":"%s","version":"1.0.0","scripts":{"build":"%s"}}\n' "$name" "$script" \
            >"packages/$name/package.json"
        printf '%s:\n\t@cd packages/%s && %s >/dev/null\n' "$name" "$name" "$script" >>rules
        names="$names $name"
    done
    { echo ".PHONY: all$names"; echo "all:$names"; cat rules; } >Makefile
}

# The seconds that a command takes in the current folder.
seconds() {
    local begun=$EPOCHREALTIME
    "$@" >/dev/null
    local ended=$EPOCHREALTIME
    awk -v from="$begun" -v to="$ended" 'BEGIN { printf "%.3f\n", to - from }'
}

# The least of several runs, each with nothing stored.
least() {
    for _ in $(seq "$repetitions"); do
        rm -rf .turbo packages/*/.turbo
        seconds "$@"
    done | sort -n | head -n 1
}

failed=0

compare() {
    local made turbo
    made=$(least make -s -j10 all)
    turbo=$(least "$program" run build --concurrency=10)
    awk -v name="$1" -v made="$made" -v turbo="$turbo" 'BEGIN {
        ratio = turbo / made
        printf "%-10s make %.2f s  turbo %.2f s  ratio %.2f\n", name, made, turbo, ratio
        exit ratio > 1.1
    }' || failed=1
}

repository "$work/varied" < <(awk 'BEGIN { srand(7); for (i = 0; i < 100; i++) printf "sleep %.3f\n", 0.05 + 0.95 * rand() }')
compare varied

repository "$work/uneven" < <(for i in $(seq 100); do [ $((i % 10)) = 1 ] && echo 'sleep 2' || echo 'sleep 0.05'; done)
compare uneven

# What one prints is more than a pipe holds, and the silent ones are older.
repository "$work/chatty" < <(
    for _ in $(seq 9); do echo 'sleep 1'; done
    echo 'head -c 1000000 /dev/zero && sleep 1'
    for _ in $(seq 10); do echo 'sleep 0.2'; done
)
compare chatty

exit $failed
