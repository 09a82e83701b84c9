#!/bin/sh
# Tries the misuses that must not build, in a copy of the repository. Each misuse/*.edit says what to change there:
#     crate: the crate to check        refused: the error that the compiler must give
#     file: the file to edit           old: a text that stands once in it      new: what takes its place
# Ends with status 0 if each is refused with its error.
cd "$(dirname "$0")" || exit 2
work=$(mktemp -d) || exit 2
trap 'rm -rf "$work"' EXIT
tar -c --exclude=out crates crates.txt | tar -x -C "$work" || exit 2
bad=0
for edit in misuse/*.edit; do
    name=$(basename "$edit" .edit)
    field() { sed -n "s/^$1: //p" "$edit"; }
    crate=$(field crate); want=$(field refused); file=$(field file)
    OLD=$(field old); NEW=$(field new); export OLD NEW
    cp "$work/$file" "$work/kept" || exit 2
    awk '{ t = t $0 "\n" }
         END { o = ENVIRON["OLD"]; a = index(t, o); r = substr(t, a + length(o))
               if (!a || index(r, o)) exit 3
               printf "%s%s%s", substr(t, 1, a - 1), ENVIRON["NEW"], r }' "$work/kept" >"$work/$file" ||
        { echo "$name: the old text does not stand once in $file"; bad=1; mv "$work/kept" "$work/$file"; continue; }
    if (cd "$work/crates/$crate" && rt check) >"$work/log" 2>&1; then
        echo "$name: NOT refused"; bad=1
    elif grep -q "error\[$want\]" "$work/log"; then
        echo "$name: refused, $(grep -o "error\[$want\].*" "$work/log" | head -n 1 | cut -c 1-120)"
    else
        echo "$name: refused, but not with $want"; grep -m 3 'error' "$work/log"; bad=1
    fi
    mv "$work/kept" "$work/$file"
done
exit $bad
