#!/bin/sh
# A crate of your own in this clone, which stands on the library and has README's first program.
#
#     scripts/new_crate.sh NAME
#
# Adds the line `NAME: melissaledge` to crates.txt, makes crates/NAME with the program and its test, and runs the test unproved, with
# `rt`, in a minute or two. NAME is lowercase letters, digits and _. Nothing is made if there is such a crate, here or in the toolchain,
# and nothing stays if the test fails.
set -eu
unset CDPATH
LC_ALL=C
export LC_ALL
trouble() {
    echo "new_crate.sh: $1" >&2
    exit 2
}
[ $# -eq 1 ] || trouble 'wants one name'
name=$1
case $name in
[!a-z]* | *[!a-z0-9_]* | '') trouble "$name: a name is lowercase letters, digits and _, a letter first" ;;
esac
cd "$(dirname "$0")/.."
if [ -e "crates/$name" ] || grep -q "^$name[: ]" crates.txt; then
    trouble "$name: there is such a crate"
fi
if ! page=$(rt doc); then trouble 'no toolchain: rt is not found'; fi
if [ -e "${page%/*}/rlibs/$name.rlib" ] || [ "$name" = core ] || [ "$name" = std ]; then trouble "$name: the toolchain has such a crate"; fi
first=crates/thread_tests/src/first_shootdown.rt
cp crates.txt crates.txt.before
trap 'rm -rf "crates/$name" && mv crates.txt.before crates.txt' EXIT
trap 'exit 130' HUP INT TERM
mkdir -p "crates/$name/src"
cat >"crates/$name/src/lib.rt" <<'LIB'
//! What the crate is for.
#![tactic(auto)]

#[cfg(test)]
mod first_shootdown;
LIB
sed -E '/^use std::/!s/^use [a-z_]+::/use melissaledge::/' "$first" >"crates/$name/src/first_shootdown.rt"
grep -q '^# your own$' crates.txt || printf '\n# your own\n' >>crates.txt
echo "$name: melissaledge" >>crates.txt
(cd "crates/$name" && rt fmt && rt try --test)
trap - EXIT
rm crates.txt.before
echo "crates/$name runs, unproved. To prove it: cd crates/$name && rt test"
