#!/usr/bin/env bash
# Runs the built program where its files, its stores and its commands are hostile: on a full disk, over stores that are
# something else, over files that change under it, with names of any bytes, with commands that misbehave, and over
# manifests, configurations, lockfiles and stores of which some bytes were changed at random.
#
#     checks/hostile.sh PROGRAM [TIMES] [SEED]
#
# TIMES is how many random changes each kind of file gets, 300 where nothing is said. Each run has half a minute and 4 GB.
# Prints a line for each, and ends with 1 where a run crashed, did not end, or gave neither the right page nor a line
# that says what is wrong. Two of them need the right to mount a small file system, and are passed over without it.
set -u

program=$(realpath "$1")
times=${2:-300}
RANDOM=${3:-$(date +%s)}
echo "seed: ${3:-given by the clock}"
work=$(mktemp -d)
mounted=()
unmount() {
    cd /
    local at
    for at in "${mounted[@]}"; do umount -l "$at"; done
    mounted=()
}
clean() {
    unmount
    chmod -R u+rwx "$work"
    rm -rf "$work"
}
trap clean EXIT
failed=0

readonly MOST_SECONDS=30
readonly MOST_KILOBYTES=4000000
# A shell tells a command that a signal ended by a status above this one.
readonly SIGNALLED=128

check() {
    local name=$1
    shift
    if "$@"; then
        echo "ok      $name${detail:+: $detail}"
    else
        echo "FAILED  $name: $(head -c 300 "$work/out") $(head -c 300 "$work/err")"
        failed=1
    fi
    detail=
}
detail=

# Runs the program with these words; its status is in `status`.
run() {
    (ulimit -v $MOST_KILOBYTES; exec timeout -k 1 $MOST_SECONDS "$program" "$@") >"$work/out" 2>"$work/err"
    status=$?
}

# Whether it ended by itself with the right page and files, or said in one line what is wrong.
sane() {
    [ "$status" -lt $SIGNALLED ] && [ "$status" != 124 ] || return 1
    if grep -q '^Cached: ' "$work/out"; then
        right
    else
        grep -q '^turbo: ' "$work/out" "$work/err"
    fi
}

# Whether the outputs are those that the sources make, where the task is one of the run.
right() {
    [ "$status" = 0 ] && grep -q '^ui:build: ' "$work/out" || return 0
    cmp -s packages/ui/dist/all.txt <(cat packages/ui/src/*.txt)
}

# A repository of two packages as the current folder, of which `web` needs `ui`.
two() {
    rm -rf "$work/two"
    mkdir -p "$work/two/packages/ui/src" "$work/two/packages/web/src"
    cd "$work/two" || exit 1
    cat >package.json <<'END'
{"name": "root", "version": "1.0.0", "workspaces": ["packages/*"], "devDependencies": {"lib": "^1.0.0"}}
END
    cat >turbo.json <<'END'
{"globalEnv": ["CI"], "tasks": {"build": {"dependsOn": ["^build"], "inputs": ["src/**", "$TURBO_DEFAULT$"],
  "outputs": ["dist/**", "!dist/tmp/**"], "env": ["API_*", "!API_KEY"]}, "//#lint": {"cache": false}}}
END
    cat >package-lock.json <<'END'
{"name": "root", "lockfileVersion": 3, "requires": true, "packages": {
  "": {"name": "root", "version": "1.0.0", "workspaces": ["packages/*"], "devDependencies": {"lib": "^1.0.0"}},
  "node_modules/lib": {"version": "1.2.0", "resolved": "https://example.org/lib-1.2.0.tgz", "integrity": "sha512-x"},
  "node_modules/ui": {"resolved": "packages/ui", "link": true},
  "node_modules/web": {"resolved": "packages/web", "link": true},
  "packages/ui": {"version": "1.0.0", "dependencies": {"lib": "^1.0.0"}},
  "packages/web": {"version": "1.0.0", "dependencies": {"ui": "^1.0.0"}}}}
END
    printf '.turbo\ndist\n' >.gitignore
    cat >packages/ui/package.json <<'END'
{"name": "ui", "version": "1.0.0", "scripts": {"build": "mkdir -p dist && cat src/*.txt >dist/all.txt && echo built"}, "dependencies": {"lib": "^1.0.0"}}
END
    cat >packages/web/package.json <<'END'
{"name": "web", "version": "1.0.0", "scripts": {"build": "cat ../ui/dist/all.txt"}, "dependencies": {"ui": "^1.0.0"}}
END
    echo one >packages/ui/src/a.txt
    echo two >packages/ui/src/b.txt
    echo three >packages/web/src/a.txt
}

# ---- stores and disks

small_disk() {
    two
    mkdir -p "$work/small"
    mount -t tmpfs -o "size=$1" tmpfs "$work/small" 2>"$work/err" || { detail='passed over'; return 0; }
    mounted+=("$work/small")
    cp -R . "$work/small/two" && cd "$work/small/two" || return 1
    sed -i 's/&& echo built/\&\& head -c 300000 \/dev\/urandom >dist\/large \&\& echo built/' packages/ui/package.json
    run build
    sane || return 1
    grep -q 'No space left\|not stored\|turbo: ' "$work/out" "$work/err" || return 1
    # With room again all is well.
    mount -o remount,size=8m "$work/small" || return 1
    run build
    sane && [ "$status" = 0 ] && run build && [ "$status" = 0 ] && grep -q '2 cached, 2 total' "$work/out"
}

for size in 64k 200k 400k 500k; do
    check "a disk of $size that is full in the middle of a run" small_disk $size
    unmount
done

read_only() {
    two
    run build
    mkdir -p "$work/fixed"
    mount --bind .turbo "$work/two/.turbo" 2>"$work/err" || { detail='passed over'; return 0; }
    mounted+=("$work/two/.turbo")
    mount -o remount,bind,ro "$work/two/.turbo" 2>"$work/err" || { detail='passed over'; return 0; }
    run build
    sane && [ "$status" = 1 ] && grep -q 'store.turb could not be' "$work/err"
}
check 'a store that may only be read is named' read_only
unmount

store_is() {
    two
    mkdir -p .turbo
    "$@"
    run build
    sane
}
check 'a folder in the place of the store' store_is mkdir .turbo/store.turb
check 'a pipe in the place of the store' store_is mkfifo .turbo/store.turb
check 'a link to nothing in the place of the store' store_is ln -s nowhere .turbo/store.turb
check 'a link to itself in the place of the store' store_is ln -s store.turb .turbo/store.turb
check 'a device in the place of the store' store_is ln -s /dev/null .turbo/store.turb
check 'an endless device in the place of the store' store_is ln -s /dev/zero .turbo/store.turb
check 'a file in the place of the folder of the store' store_is sh -c 'rm -rf .turbo && echo x >.turbo'

linked_store() {
    two
    mkdir -p .turbo "$work/elsewhere"
    ln -s "$work/elsewhere/store.turb" .turbo/store.turb
    run build && [ "$status" = 0 ] && run build && grep -q '2 cached, 2 total' "$work/out"
}
check 'a store behind a link is used' linked_store

# ---- files that change under a run

# Makes, removes, renames and replaces files and folders till it is killed.
disturb() {
    local at=packages/ui/src/moving
    while :; do
        echo x >"$at" 2>/dev/null; rm -rf "$at"; mkdir -p "$at/deep/er" 2>/dev/null; echo y >"$at/deep/file" 2>/dev/null
        mv "$at" packages/web/src/moved 2>/dev/null; rm -rf packages/web/src/moved; ln -s . "$at" 2>/dev/null; rm -rf "$at"
        mkfifo "$at" 2>/dev/null; rm -rf "$at"; rm -rf packages/none; mkdir -p packages/none; echo '{"name":"none"}' >packages/none/package.json
    done
}

moving() {
    two
    disturb &
    local other=$! number pages=0 lines=0
    disown $other
    for number in $(seq 60); do
        run build --force
        if ! sane; then kill -9 $other; return 1; fi
        if grep -q '^Cached: ' "$work/out"; then pages=$((pages + 1)); else lines=$((lines + 1)); fi
    done
    kill -9 $other
    detail="$pages pages, $lines lines that say what failed"
}
check 'files and folders that come, go and change their kind under 60 runs' moving

# ---- commands that misbehave

# A repository whose only command is this one.
command_is() {
    two
    printf '%s' "$1" >packages/ui/do.sh
    sed -i 's/"build": "[^"]*"/"build": "sh .\/do.sh"/' packages/ui/package.json
    sed -i 's/"build": "[^"]*"/"none": ""/' packages/web/package.json
}

ends_as() { # status, a line of the page, script
    command_is "$3"
    run build
    [ "$status" = "$1" ] && grep -q -- "$2" "$work/out"
}
check 'a command that closes its output and goes on' ends_as 0 '1 successful, 1 total' 'exec >&- 2>&-; sleep 1'
check 'a command that leaves a process behind with its output' ends_as 0 'ui:build: hi' 'sleep 60 & echo hi'
check 'a command that forks a process into a session of its own' ends_as 0 'ui:build: hi' 'setsid sh -c "sleep 20" & echo hi'
check 'a command that is stopped, and continued later' ends_as 0 'ui:build: on' '(sleep 1; kill -CONT $$) & kill -STOP $$; echo on'
check 'a command that kills itself' ends_as 137 'ui:build: failed with status 137' 'kill -9 $$'
check 'a command that kills the shell around it' ends_as 137 'ui:build: failed with status 137' 'kill -9 $PPID'
check 'a command that removes its own folder' ends_as 0 'ui:build: gone' 'cd ..; rm -rf ui/src; echo gone'
check 'a command that reads its input' ends_as 0 'ui:build: 0' 'wc -c'
check 'a command that prints bytes that are no text' ends_as 0 'ui:build: end' 'printf "\377\376\000\001\n"; echo end'
check 'a command that prints one line of 10 MB' ends_as 0 'ui:build: ' 'head -c 10000000 /dev/zero | tr "\0" a; echo'
check 'a command that makes 2,000 processes' ends_as 0 'ui:build: all' 'for i in $(seq 2000); do : & done; wait; echo all'
check 'a command whose log is changed by itself' ends_as 0 'ui:build: mine' 'mkdir -p .turbo; echo other >.turbo/turbo-build.log; echo mine'

# A signal to its whole group ends the program too, as one from a terminal does; the next run is right.
kills_its_group() {
    two
    sed -i 's/&& echo built/\&\& if [ ! -e again ]; then : >again; kill -TERM 0; fi/' packages/ui/package.json
    setsid timeout --foreground -k 1 $MOST_SECONDS "$program" build >"$work/out" 2>"$work/err"
    [ $? != 0 ] && run build && sane && [ "$status" = 0 ] && run build && grep -q '2 cached, 2 total' "$work/out"
}
check 'a command that kills its whole group' kills_its_group

# ---- names

named() { # name of a file, name of a package's folder
    two
    mkdir -p "packages/$2/src" 2>/dev/null
    echo '{"name":"odd","version":"1.0.0","scripts":{"build":"mkdir -p dist; cat src/* >dist/all; echo odd"}}' >"packages/$2/package.json"
    echo text >"packages/$2/src/$1"
    run build
    sane || return 1
    grep -q '^Cached: ' "$work/out" || { detail=$(cat "$work/err" "$work/out" | grep -m 1 '^turbo: '); return 0; }
    [ "$status" = 0 ] || return 1
    run build
    grep -q '3 cached, 3 total' "$work/out" || return 1
    echo other >"packages/$2/src/$1"
    run build
    grep -q '2 cached, 3 total' "$work/out" && [ "$(cat "packages/$2/dist/all")" = other ]
}
check 'blanks in names' named 'a  b c' 'with blank'
check 'quotes in names' named $'it\'s "quoted" `x` $(y)' "it's"
check 'newlines in names' named $'a\nb' $'c\nd'
check 'backslashes, brackets and stars in names' named 'a\b[c]{d}*?' '[x]'
check 'a leading dash and dots in names' named '-rf' '...'
check 'a name that is no UTF-8' named $'\377\376' 'plain'
check 'a folder whose name is no UTF-8' named 'plain' $'x\377'
check 'a name of 255 bytes' named "$(printf 'n%.0s' $(seq 255))" 'long'

# ---- bytes that were changed at random

# Changes a file: a byte, a span left out, twice there or replaced, a cut at the end, or a word of JSON for another one.
mutate() {
    perl -e '
        srand($ARGV[1]);
        open(my $in, "<:raw", $ARGV[0]) or die; local $/; my $text = <$in>; close $in;
        my @words = ("{", "}", "[", "]", ":", ",", "\"", "true", "null", "0", "-1", "1e999", "\\u0000", "\"\"", "..", "/", "*", "\x{ff}", "\n");
        for (1 .. 1 + int(rand(3))) {
            my $at = int(rand(length($text) + 1));
            my $span = int(rand(rand(2) < 1 ? 3 : 40));
            my $kind = int(rand(6));
            if ($kind == 0 && $at < length($text)) { substr($text, $at, 1) = chr(int(rand(256))); }
            elsif ($kind == 1) { substr($text, $at, $span) = ""; }
            elsif ($kind == 2) { my $piece = substr($text, $at, $span); substr($text, $at, 0) = $piece; }
            elsif ($kind == 3) { substr($text, $at, $span) = $words[int(rand(@words))]; }
            elsif ($kind == 4) { substr($text, $at, 0) = $words[int(rand(@words))]; }
            elsif (rand(4) < 1) { $text = substr($text, 0, $at); }
        }
        open(my $out, ">:raw", $ARGV[0]) or die; print $out $text; close $out;
    ' "$1" "$((RANDOM * 32768 + RANDOM))"
}

# Keeps a file that led to a fault, and says where.
keep() {
    local kept
    kept=$(mktemp) && cp "$1" "$kept" && echo "the changed file is kept as $kept"
}

changed() {
    local file=$1 number pages=0 lines=0
    two
    cp "$file" "$work/kept"
    for number in $(seq "$times"); do
        cp "$work/kept" "$file"
        mutate "$file"
        run build --dry
        [ "$status" -lt $SIGNALLED ] && [ "$status" != 124 ] || { keep "$file"; return 1; }
        run build
        sane || { keep "$file"; return 1; }
        if grep -q '^Cached: ' "$work/out"; then pages=$((pages + 1)); else lines=$((lines + 1)); fi
        run prune web
        [ "$status" -lt $SIGNALLED ] && [ "$status" != 124 ] || { keep "$file"; return 1; }
        rm -rf out .turbo
    done
    detail="$pages pages, $lines lines that say what is wrong"
}
check "$times changes of the root manifest" changed package.json
check "$times changes of turbo.json" changed turbo.json
check "$times changes of the lockfile" changed package-lock.json
check "$times changes of .gitignore" changed .gitignore

# A store may be changed into another store, whose results are other ones: what stands in it is believed where whole keys
# are equal. Such pages are counted apart.
changed_store() {
    local number right=0 lines=0 other=0
    two
    run build
    cp .turbo/store.turb "$work/kept"
    for number in $(seq "$times"); do
        cp "$work/kept" .turbo/store.turb
        mutate .turbo/store.turb
        rm -rf packages/ui/dist
        run build
        [ "$status" -lt $SIGNALLED ] && [ "$status" != 124 ] || { keep .turbo/store.turb; return 1; }
        if ! grep -q '^Cached: ' "$work/out"; then
            grep -q '^turbo: ' "$work/out" || return 1
            lines=$((lines + 1))
        elif right; then
            right=$((right + 1))
        else
            other=$((other + 1))
        fi
        run compact
        [ "$status" -lt $SIGNALLED ] && [ "$status" != 124 ] || return 1
        rm -f .turbo/spare.turb
    done
    detail="$right right pages, $lines lines, $other with what was written into the store"
}
check "$times changes of the store" changed_store

# Here the script itself may be another one, and so may what it writes.
right() { :; }
check "$times changes of a manifest with a script" changed packages/ui/package.json

exit $failed
