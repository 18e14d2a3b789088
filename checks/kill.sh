#!/usr/bin/env bash
# Kills the built program at random moments, in runs over one store, over two and over a shared file, and in compactions,
# and looks each time whether the next run prints, leaves and stores what a run without a cache would.
#
#     checks/kill.sh PROGRAM [TIMES] [SEED]
#
# TIMES is 1000 where nothing is said. The seed is printed, and the same seed kills at the same moments as far as the
# machine allows. Prints how often which was killed, and ends with 1 at the first fault, whose repository is kept.
set -u

program=$(realpath "$1")
times=${2:-1000}
RANDOM=${3:-$(date +%s)}
seed=${3:-given by the clock}
work=$(mktemp -d)
repository=$work/repository
wanted=$work/wanted

# Each package takes what the packages before it in this list have built, where it names them.
packages=(base colours icons forms tables site)
declare -A needs=([base]="" [colours]="base" [icons]="base" [forms]="colours icons" [tables]="colours" [site]="forms tables")

# What a build does: it copies its source and what its dependencies built, slowly, into two files.
script='sleep 0.0$(($$ % 4)); mkdir -p dist/parts; cat src/*.txt >dist/parts/own.txt; sleep 0.01; cat dist/parts/own.txt deps.txt >dist/all.txt; for d in $(cat deps.txt); do cat ../$d/dist/all.txt >>dist/all.txt; done; cksum <dist/all.txt'

make_repository() {
    mkdir -p "$repository"
    cd "$repository" || exit 1
    echo '{"name":"root","version":"1.0.0","workspaces":["packages/*"]}' >package.json
    echo '{"tasks":{"build":{"dependsOn":["^build"],"outputs":["dist/**"]}}}' >turbo.json
    printf '.turbo\ndist\n' >.gitignore
    local name need list
    for name in "${packages[@]}"; do
        mkdir -p "packages/$name/src"
        list=""
        for need in ${needs[$name]}; do
            list="$list${list:+,}\"$need\":\"*\""
        done
        printf '{"name":"%s","version":"1.0.0","scripts":{"build":"%s"},"dependencies":{%s}}\n' \
            "$name" "${script//\"/\\\"}" "$list" >"packages/$name/package.json"
        echo "${needs[$name]}" >"packages/$name/deps.txt"
        echo "$name 0" >"packages/$name/src/a.txt"
    done
}

# What a run without a cache leaves, made without the program.
make_wanted() {
    rm -rf "$wanted"
    mkdir -p "$wanted"
    cp -r "$repository/packages" "$wanted/packages"
    local name
    for name in "${packages[@]}"; do
        rm -rf "$wanted/packages/$name/dist" "$wanted/packages/$name/.turbo"
        (cd "$wanted/packages/$name" && sh -c "${script//sleep 0.0\$((\$\$ % 4))/:}" >/dev/null)
    done
}

# One source gets one of three texts, so that results come back; now and then outputs are lost or spoilt.
change() {
    local name=${packages[RANDOM % ${#packages[@]}]}
    echo "$name $((RANDOM % 3))" >"$repository/packages/$name/src/a.txt"
    case $((RANDOM % 4)) in
        0) rm -rf "$repository/packages/$name/dist" ;;
        1) [ -d "$repository/packages/$name/dist" ] && echo spoilt >"$repository/packages/$name/dist/all.txt" ;;
    esac
}

# What a killed program leaves running must end first: it writes into the outputs.
settle() {
    local session=$1 tries=0
    while pgrep -s "$session" >/dev/null; do
        sleep 0.01
        tries=$((tries + 1))
        [ "$tries" -lt 1000 ] || fault "processes are left"
    done
}

fault() {
    echo "FAILED  kill $number: $1"
    echo "the repository is in $repository, what was wanted in $wanted"
    exit 1
}

export TURBO_REMOTE_STORE=$work/remote.turb TURBO_SHARED_STORE=$work/shared.turb

# Which stores a run uses.
stores=("--cache=local:rw" "--cache=local:rw,remote:rw" "--cache=remote:rw" "--shared")

run_killed=0
run_ended=0
compact_killed=0
compact_ended=0

# Starts the program, and kills it after up to that many milliseconds.
kill_one() {
    local kind=$1 most=$2
    shift 2
    setsid "$program" "$@" >"$work/out" 2>"$work/err" &
    local child=$!
    disown "$child"
    sleep "$(printf '0.%03d' $((RANDOM % most)))"
    if kill -9 "$child" 2>/dev/null; then
        eval "${kind}_killed=\$((${kind}_killed + 1))"
    else
        eval "${kind}_ended=\$((${kind}_ended + 1))"
    fi
    settle "$child"
}

# The next run over the same stores ends well, and all is as without a cache.
next_run() {
    local uses=$1
    timeout 60 "$program" build "$uses" --concurrency=4 >"$work/out" 2>"$work/err" || fault "the next run ended with $?: $(cat "$work/err" "$work/out")"
    grep -q 'no store\|damaged' "$work/out" "$work/err" && fault "$(cat "$work/err")"
    make_wanted
    local name
    for name in "${packages[@]}"; do
        diff -r "$repository/packages/$name/dist" "$wanted/packages/$name/dist" >"$work/diff" || fault "$(cat "$work/diff")"
        grep -q "^$name:build: $(cksum <"$wanted/packages/$name/dist/all.txt")\$" "$work/out" || fault "the log of $name"
    done
    "$program" build "$uses" >"$work/out" 2>"$work/err" || fault "the run after it ended with $?"
    grep -q "${#packages[@]} cached, ${#packages[@]} total" "$work/out" || fault "the run after it: $(tail -2 "$work/out")"
}

make_repository
echo "seed: $seed"
for ((number = 1; number <= times; number++)); do
    if [ $((RANDOM % 5)) = 0 ]; then
        # All results are in the local store, and whatever becomes of the compaction they are still.
        "$program" build >"$work/out" 2>"$work/err" || fault "the run before a compaction ended with $?"
        kill_one compact 25 compact
        "$program" build >"$work/out" 2>"$work/err" || fault "the run after a compaction ended with $?"
        grep -q "${#packages[@]} cached, ${#packages[@]} total" "$work/out" || fault "a compaction lost results: $(tail -2 "$work/out")"
        next_run --cache=local:rw
    else
        change
        uses=${stores[RANDOM % ${#stores[@]}]}
        kill_one run 200 build "$uses" --concurrency=4
        next_run "$uses"
    fi
done
echo "killed in a run $run_killed, ended before it was killed $run_ended"
echo "killed in a compaction $compact_killed, ended before it was killed $compact_ended"
echo "ok      $times runs after a kill"
rm -rf "$work"
