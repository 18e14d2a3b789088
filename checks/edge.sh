#!/usr/bin/env bash
# Tries the built program where no test of a crate can: with closed descriptors, in two runs at once on one store,
# with faults of files and of the store, with processes that are left behind, and with files of the greatest size.
#
#     checks/edge.sh PROGRAM
#
# Prints a line for each, and ends with 1 where one failed.
set -u

program=$(realpath "$1")
work=$(mktemp -d)
trap 'chmod -R u+rwx "$work"; rm -rf "$work"' EXIT
failed=0

check() {
    local name=$1
    shift
    if "$@"; then
        echo "ok      $name"
    else
        echo "FAILED  $name"
        failed=1
    fi
}

# A repository of one package `ui` with this script, which owns `dist`, as the current folder.
one() {
    rm -rf "$work/one"
    mkdir -p "$work/one/packages/ui/src"
    cd "$work/one"
    echo '{"name":"root","version":"1.0.0","workspaces":["packages/*"]}' >package.json
    echo '{"tasks":{"build":{"outputs":["dist/**"]},"lint":{}}}' >turbo.json
    printf '.turbo\ndist\n' >.gitignore
    printf '{"name":"ui","version":"1.0.0","scripts":{"build":"%s","lint":"sleep 1; echo linted"}}\n' "$1" \
        >packages/ui/package.json
    echo one >packages/ui/src/a.txt
}

says() {
    grep -q -- "$1" "$work/err"
}

build='mkdir -p dist; head -c 300000 /dev/zero >dist/app.js; echo built'

closed() {
    one "$build"
    "$program" build >/dev/null && cp .turbo/store.turb "$work/before"
    "$program" build >&- 2>&-
    "$program" build <&- >&- 2>&-
    cmp -s .turbo/store.turb "$work/before" && "$program" build | grep -q '1 cached, 1 total'
}
check 'closed descriptors leave the store as it is' closed

closed_first() {
    one "$build"
    "$program" build <&- >&- 2>&-
    "$program" build | grep -q '1 cached, 1 total'
}
check 'a first run with closed descriptors stores its result' closed_first

two_runs() {
    one "$build"
    "$program" lint >"$work/lint" 2>"$work/lint.err" &
    local other=$!
    sleep 0.3
    "$program" build >"$work/out" 2>"$work/err" || return 1
    wait $other || return 1
    says 'another run holds' && ! grep -q 'another run' "$work/lint.err" || return 1
    "$program" lint | grep -q '1 cached, 1 total' && "$program" build | grep -q '0 cached, 1 total' || return 1
    rm -rf packages/ui/dist
    "$program" build | grep -q '1 cached, 1 total' && [ "$(tr -d '\0' <packages/ui/dist/app.js | wc -c)" = 0 ]
}
check 'a run beside another one keeps no results, and harms none' two_runs

compaction() {
    one "$build"
    "$program" build >/dev/null && "$program" build --force >/dev/null || return 1
    [ "$("$program" compact)" = 'kept 1 of 2' ] || return 1
    rm -rf packages/ui/dist .turbo/store.turb
    "$program" build | grep -q '1 cached, 1 total' && [ "$("$program" compact)" = 'kept 1 of 1' ]
}
check 'what compaction keeps is found without the old file, and compacted back' compaction

compaction_beside() {
    one "$build"
    "$program" build >/dev/null || return 1
    "$program" lint >"$work/lint" 2>"$work/lint.err" &
    local other=$!
    sleep 0.3
    ! "$program" compact >"$work/out" 2>"$work/err" || return 1
    wait $other || return 1
    says 'another run holds' && grep -qx 'turbo: the store failed' "$work/out" || return 1
    "$program" build | grep -q '1 cached, 1 total' && [ "$("$program" compact)" = 'kept 2 of 2' ]
}
check 'a compaction beside a run changes nothing' compaction_beside

second_store() (
    one "$build"
    export TURBO_REMOTE_STORE=$work/cache/second.turb
    "$program" build --cache=local:rw,remote:rw >/dev/null || return 1
    cp "$work/cache/second.turb" "$work/before"
    one "$build"
    "$program" build --cache=local:rw,remote:r | grep -q '1 cached, 1 total' || return 1
    cmp -s "$work/cache/second.turb" "$work/before" || return 1
    printf xxxxxxxxxx >"$work/cache/second.turb"
    ! "$program" build --cache=remote:rw >"$work/out" 2>"$work/err" || return 1
    grep -qx 'turbo: the remote file is no store' "$work/out" && says "delete $work/cache/second.turb"
)
check 'another checkout finds the results of a second store, which is named where it is none' second_store

# Two checkouts of one repository, whose runs begin at the same moment.
shared_runs() (
    one 'sleep 0.2; mkdir -p dist; echo built'
    rm -rf "$work/other" && cp -R "$work/one" "$work/other"
    export TURBO_SHARED_STORE=$work/cache/shared.turb
    (cd "$work/other" && "$program" build --shared >"$work/other.out" 2>"$work/other.err") &
    other=$!
    "$program" build --shared >"$work/out" 2>"$work/err" || return 1
    wait $other || return 1
    rm -rf packages/ui/dist
    "$program" build --shared | grep -q '1 cached, 1 total' || return 1
    ! grep -q 'another run' "$work/err" "$work/other.err" || return 1
    printf xxxxxxxxxx >"$work/cache/shared.turb"
    ! "$program" build --shared >"$work/out" 2>"$work/err" || return 1
    grep -qx 'turbo: the shared file is no store' "$work/out" && says "delete $work/cache/shared.turb"
)
check 'two runs at once over one shared file keep their results' shared_runs

default_paths() {
    one "$build"
    "$program" build --cache=remote:rw >/dev/null && "$program" build --shared >/dev/null || return 1
    [ -s .turbo/remote.turb ] && [ -s .turbo/shared.turb ] && [ ! -e .turbo/store.turb ]
}
check 'the second store and the shared file stand beside the store where nothing else is said' default_paths

second_held() {
    one "$build"
    "$program" lint --cache=remote:rw >"$work/lint" 2>"$work/lint.err" &
    local other=$!
    sleep 0.3
    "$program" build --cache=remote:rw >"$work/out" 2>"$work/err" || return 1
    wait $other || return 1
    says 'another run holds' && "$program" build --cache=remote:rw | grep -q '0 cached, 1 total'
}
check 'a run beside another one on a second store keeps no results there' second_held

nested() {
    one 'cd ../..; '"$program"' lint'
    timeout 20 "$program" build >"$work/out" 2>"$work/err"
}
check 'a script may run the program' nested

unwritable() {
    one "$build"
    : >packages/ui/.turbo
    ! "$program" build >"$work/out" 2>"$work/err" && says 'packages/ui/.turbo/turbo-build.log could not be'
}
check 'a file that cannot be written is named' unwritable

store_in_the_way() {
    one "$build"
    mkdir -p .turbo/store.turb
    ! "$program" build >"$work/out" 2>"$work/err" && says '.turbo/store.turb could not be opened: '
}
check 'a store that cannot be opened is named' store_in_the_way

long_log() {
    one 'head -c 67108865 /dev/zero'
    ! "$program" build >"$work/out" 2>"$work/err" && says 'ui#build wrote more than 67108864 bytes'
}
check 'a log over the limit is told with its task' long_log

left_behind() {
    one 'sleep 30 & echo hi'
    timeout 10 "$program" build >"$work/out" 2>"$work/err" && grep -q hi "$work/out"
}
check 'a process that is left behind holds nobody' left_behind

unread_config() {
    one "$build"
    mv turbo.json turbo.jsonc
    "$program" build >"$work/out" 2>"$work/err"
    says 'turbo.jsonc' && [ "$(wc -l <"$work/err")" = 1 ]
}
check 'turbo.jsonc beside no turbo.json is worth a line' unread_config

quiet() {
    one 'sleep 1; echo hi'
    "$program" build >"$work/out" 2>"$work/err" && [ ! -s "$work/err" ]
}
check 'nothing is written into a pipe or file while commands run' quiet

alive() {
    one 'sleep 1; echo hi'
    command -v script >/dev/null || return 0
    script -qec "'$program' build >'$work/out'" "$work/screen" >/dev/null
    grep -q 'running: ui#build' "$work/screen" || return 1
    # The last thing is to clear the row.
    [ "$(sed '/^Script done/d' "$work/screen" | tail -c 5)" = "$(printf '\r\033[K')" ]
}
check 'a terminal shows what runs, and nothing is left of that' alive

# ---- files of the greatest size, which are sparse here

largest=$((256 * 1024 * 1024))

largest_input() {
    one "$build"
    truncate -s $largest packages/ui/src/large
    "$program" build | grep -q '1 successful, 1 total' || return 1
    truncate -s $((largest + 1)) packages/ui/src/large
    "$program" build | grep -qx 'turbo: too large: packages/ui/src/large'
}
check 'an input of 256 MiB is taken, and none of a byte more' largest_input

large_elsewhere() {
    one "$build"
    truncate -s $((largest + 1)) large
    "$program" build | grep -q '1 successful, 1 total' || return 1
    truncate -s $((largest + 1)) .gitignore
    "$program" build | grep -qx 'turbo: too large: .gitignore'
}
check 'a file that is no input may be larger, and no ignore file may' large_elsewhere

large_together() {
    one "$build"
    local n
    for n in 1 2 3 4; do truncate -s $largest packages/ui/src/large$n; done
    "$program" build | grep -qx "turbo: inputs too large: $((4 * largest + $(cat packages/ui/src/a.txt packages/ui/package.json | wc -c)))"
}
check 'inputs of more than 1 GiB together are too many' large_together

large_output() {
    one "mkdir -p dist; truncate -s $((largest + 1)) dist/large"
    "$program" build | grep -qx 'ui:build: not stored, large packages/ui/dist/large'
}
check 'an output of more than 256 MiB is not kept' large_output

# ---- tasks of the root

root_task() {
    one "$build"
    echo '{"name":"root","scripts":{"fmt":"pwd >where; echo formatted"},"workspaces":["packages/*"]}' >package.json
    echo '{"tasks":{"//#fmt":{"outputs":["**"]},"build":{"outputs":["dist/**"]}}}' >turbo.json
    "$program" fmt | grep -qx '//:fmt: formatted' || return 1
    [ "$(cat where)" = "$(pwd -P)" ] && [ -e packages/ui/src/a.txt ] && [ -e .turbo/turbo-fmt.log ] || return 1
    rm where
    "$program" fmt | grep -q '1 cached, 1 total' && [ -e where ]
}
check 'a task of the root runs in the root folder, and owns no file of a package' root_task

exit $failed
