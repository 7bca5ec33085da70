#!/bin/sh
# The pictures of the files for `run` of the folder examples, examples/NAME.svg, and of stories in examples/watch.
#
#     scripts/pictures.sh            compares each with what `svsim draw` or `svsim explain --svg` prints of its file
#     scripts/pictures.sh --write    writes each anew
#
# Before `./svsim prove` each picture takes one to two minutes. The last line is `N passed, M failed`.
set -u
unset CDPATH
top=$(cd "$(dirname "$0")/.." && pwd)
write=no
case $# in
    0) ;;
    1) [ "$1" = --write ] || { echo "usage: pictures.sh [--write]" >&2; exit 2; }
       write=yes ;;
    *) echo "usage: pictures.sh [--write]" >&2; exit 2 ;;
esac
own=$(mktemp -d)
trap 'rm -rf "$own"' EXIT
trap 'exit 130' HUP INT TERM
passed=0
failed=0
# Compares a picture with what these words print, or writes it: PICTURE WORD ..
picture() {
    picture=$1 && shift
    if ! "$top/svsim" "$@" >"$own/picture"; then
        echo "FAILED ${picture##*/}: no picture"
        failed=$((failed + 1))
    elif [ $write = yes ]; then
        cp "$own/picture" "$picture"
        passed=$((passed + 1))
    elif cmp "$own/picture" "$picture"; then
        passed=$((passed + 1))
    else
        echo "FAILED ${picture##*/}: another picture"
        failed=$((failed + 1))
    fi
}

for file in "$top"/examples/*.toml; do
    case ${file##*/} in first.toml | live-*) continue ;; esac
    picture "${file%.toml}.svg" draw "$file"
done
# The lines are those of crates/svsim_examples/src/stories.rt.
picture "$top/examples/watch/left-out-hart.svg" explain --svg "$top/examples/watch/left-out-hart.trace" 15
echo "$passed passed, $failed failed"
[ $failed -eq 0 ]
