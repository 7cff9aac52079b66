#!/bin/sh
# Tries the programs that the build must turn down, each described by a page crates/NAME/must-fail/*.md:
# makes its edit in a copy of the repository, and looks for what the compiler has to say.
set -eu
top=$(cd "$(dirname "$0")/.." && pwd)
copy=$(mktemp -d)
trap 'rm -rf "$copy"' EXIT

for page in "$top"/crates/*/must-fail/*.md; do
    crate=${page#"$top"/crates/}
    crate=${crate%%/*}
    part() { sed -n "s/^    $1: //p" "$page"; }
    rm -rf "$copy/work"
    mkdir "$copy/work"
    # without what was made, which a check finds by itself in the other copies on this machine
    tar -C "$top" --exclude=out -cf - crates crates.txt | tar -C "$copy/work" -xf -
    OLD=$(part old) NEW=$(part new) awk '{
        at = index($0, ENVIRON["OLD"])
        if (at) { $0 = substr($0, 1, at - 1) ENVIRON["NEW"] substr($0, at + length(ENVIRON["OLD"])); n++ }
        print
    } END { exit n != 1 }' "$top/crates/$crate/$(part file)" >"$copy/work/crates/$crate/$(part file)"
    if (cd "$copy/work/crates/$crate" && rt check) >"$copy/log" 2>&1; then
        echo "NOT TURNED DOWN: $page"
        exit 1
    fi
    grep -qF "$(part says)" "$copy/log" || { echo "turned down for another reason: $page"; cat "$copy/log"; exit 1; }
    echo "turned down: $crate: $(part says)"
done
