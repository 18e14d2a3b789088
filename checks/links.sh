#!/usr/bin/env bash
# Checks that each relative link of the README and of docs/ leads to a file, and each anchor to a heading of it; that the
# README leads to each page of docs/, and that docs/ARCHITECTURE.md has each crate.
set -u
cd "$(dirname "${BASH_SOURCE[0]}")/.." || exit 1
failed=0

# The anchors of a page's headings, as they are made of them: small letters, blanks to hyphens, no other signs.
anchors() {
    grep -E '^#+ ' "$1" | sed -E 's/^#+ //' | tr 'A-Z' 'a-z' | sed -E 's/[^a-z0-9 _-]//g; s/ /-/g'
}

check() { # page, link
    local page=$1 link=$2 file anchor
    file=${link%%#*}
    anchor=""
    case $link in *'#'*) anchor=${link#*#} ;; esac
    if [ -z "$file" ]; then file=$page; else file=$(dirname "$page")/$file; fi
    if [ ! -e "$file" ]; then
        echo "links: $page: $link: no such file" >&2
        failed=1
    elif [ -n "$anchor" ] && ! anchors "$file" | grep -qxF "$anchor"; then
        echo "links: $page: $link: no such heading" >&2
        failed=1
    fi
}

for page in README.md docs/*.md; do
    while read -r link; do
        case $link in
            http://* | https://*) ;;
            *) check "$page" "$link" ;;
        esac
    done < <(grep -oE '\]\([^) ]+\)' "$page" | sed -E 's/^\]\(//; s/\)$//')
done
for page in docs/*.md; do
    if ! grep -qF "($page)" README.md; then
        echo "links: README.md: no link to $page" >&2
        failed=1
    fi
done
while read -r crate; do
    if ! grep -qF "\`$crate\`" docs/ARCHITECTURE.md; then
        echo "links: docs/ARCHITECTURE.md: nothing of $crate" >&2
        failed=1
    fi
done < <(sed -E 's/#.*//; s/[ :].*//; /^$/d' crates.txt)
[ "$failed" = 0 ] && echo "links: all lead somewhere"
exit "$failed"
