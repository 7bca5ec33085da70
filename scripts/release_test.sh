#!/bin/sh
# A release (scripts/release.sh) as those have it who have no toolchain: what it refuses, the same bytes twice, the archive in an empty
# place and with an empty environment, the C library by pkg-config, the Debian package installed and removed.
#
#     scripts/release_test.sh [PROGRAM [LIBRARY]]
#
# PROGRAM is the built svsim, LIBRARY what `rt lib` builds of crates/melissaledge_c; those of this tree where none are given. The
# release is that of HEAD, made in folders whose names have spaces. As root the package is installed by dpkg, if nothing of its name is
# there, and removed again.
#
# Needs what release.sh needs; for what it skips else cc, pkg-config, man, bash, fish, zsh. The last line is `N passed, M failed`.
set -u
unset CDPATH PKG_CONFIG_PATH
top=$(cd "$(dirname "$0")/.." && pwd)
program=$(readlink -f "${1:-$top/crates/svsim/out/svsim}")
library=$(readlink -f "${2:-$top/crates/melissaledge_c/out/libmelissaledge_c.a}")
for file in "$program" "$library"; do
    [ -f "$file" ] || { echo "release_test: $file is not there" >&2; exit 2; }
done
own=$(mktemp -d) || exit 2
installed=no
# Removes what this script has made, the package too.
leave() {
    if [ $installed = yes ]; then dpkg -P melissaledge >/dev/null; fi
    rm -rf "$own"
}
trap leave EXIT
trap 'exit 130' HUP INT TERM
passed=0
failed=0

judge() {
    if [ "$2" = "$3" ]; then
        passed=$((passed + 1))
    else
        failed=$((failed + 1))
        echo "FAILED $1: $3, not $2"
    fi
}

skip() { echo "skipped: $1"; }
has() { command -v "$1" >/dev/null; }

# A clone with the build, in a folder of this name.
clone() {
    git clone -q "$top" "$own/$1"
    mkdir "$own/$1/crates/svsim/out" "$own/$1/crates/melissaledge_c/out"
    cp "$program" "$own/$1/crates/svsim/out/svsim"
    cp "$library" "$own/$1/crates/melissaledge_c/out/libmelissaledge_c.a"
}

commit() { git -C "$own/$1" -c user.name=test -c user.email=test@test.example commit -qam test; }

# Whether no release is made, with a line that has this in it: the name of the test, that text, the folder of the clone, the words.
refused() {
    name=$1 text=$2 script=$own/$3/scripts/release.sh
    shift 3
    told=$("$script" "$@" 2>&1 </dev/null)
    case "$? $told" in "2 release: "*"$text"*) told='' ;; esac
    judge "$name" '' "$told"
}

# A program that needs no toolchain to run: no variable of this shell, and no folder of rt in the path.
bare() { env -i PATH=/usr/bin:/bin "$@"; }
if bare sh -c 'command -v rt' >/dev/null; then skip 'no rt in the path, since it lies in /usr/bin'; fi

# What is refused
tree='a tree'
clone "$tree"
built=$own/$tree/crates/svsim/out/svsim
touch "$own/$tree/more"
refused 'an unclean tree' "$own/$tree is not clean: ?? more" "$tree"
rm "$own/$tree/more"
refused 'an option' 'usage: release.sh' "$tree" --fast
refused 'two folders' 'usage: release.sh' "$tree" one two
refused 'no log' '--gate needs a file' "$tree" --gate "$own/none"
printf '8 passed, 0 failed\n7 passed, 1 failed\n' >"$own/log of the gate"
refused 'a gate that failed' 'does not end with N passed, 0 failed' "$tree" --gate "$own/log of the gate"
{ echo '8 passed, 0 failed' && seq 20; } >"$own/log of the gate"
refused 'a gate that has not ended' 'does not end with N passed, 0 failed' "$tree" --gate "$own/log of the gate"
mv "$built" "$own/program"
refused 'no program' "$built is not there: rt ci" "$tree"
echo 'echo no program' >"$built"
chmod +x "$built"
refused 'a program of another kind' 'is no program for x86-64' "$tree"
cp "$own/program" "$built"
touch -d 2000-01-01 "$built"
refused 'a source that is newer' "is newer than $built" "$tree"
touch "$built"
rm "$own/$tree/crates/melissaledge_c/out/libmelissaledge_c.a"
refused 'no library' 'libmelissaledge_c.a is not there: rt lib' "$tree"
cp "$library" "$own/$tree/crates/melissaledge_c/out/libmelissaledge_c.a"
for file in CITATION.cff crates/melissaledge_c/include/melissaledge.h CHANGELOG.md crates.txt; do
    clone other
    sed -i 's/^version: .*/version: 9.9/; s/^#define MLE_VERSION ".*"/#define MLE_VERSION "9.9"/; s/^## [0-9].*/## 9.9/' "$own/other/$file"
    echo '# more' >>"$own/other/$file"
    commit other
    touch "$own/other/crates/svsim/out/svsim" "$own/other/crates/melissaledge_c/out/libmelissaledge_c.a"
    case $file in
    crates.txt) refused 'a build of other sources' 'has other sources than' "$tree" --built "$own/other" ;;
    *) refused "another version in $file" ' has version ' other ;;
    esac
    rm -rf "$own/other"
done

# The same commit and the same build give the same bytes
printf 'rt: all proved\n/a/path of the machine\n8 passed, 0 failed\nSat Nov 28\n' >"$own/log of the gate"
made=$own/what\ is\ made
judge 'a release' 0 "$("$own/$tree/scripts/release.sh" --gate "$own/log of the gate" "$made" >"$own/sums" 2>"$own/err"; echo $?)"
judge 'nothing on standard error' '' "$(cat "$own/err")"
archive=$(cd "$made" && echo melissaledge-*-x86_64.tar.gz)
package=$(cd "$made" && echo melissaledge_*_amd64.deb)
judge 'the sums that it prints' 0 "$(cd "$made" && sha256sum --quiet -c "$own/sums" >&2; echo $?)"
sleep 1
clone other
chmod 700 "$own/other/crates/svsim/out/svsim"
(umask 077; TZ=Asia/Tokyo LC_ALL=C.UTF-8 "$own/$tree/scripts/release.sh" --built "$own/other" --gate "$own/log of the gate" "$own/again" >/dev/null)
judge 'the same archive again' 0 "$(cmp "$made/$archive" "$own/again/$archive" >&2; echo $?)"
judge 'the same package again' 0 "$(cmp "$made/$package" "$own/again/$package" >&2; echo $?)"

# The archive
mkdir "$own/an empty place"
tar -xzf "$made/$archive" -C "$own/an empty place"
judge 'one folder' "${archive%.tar.gz}" "$(ls -A "$own/an empty place")"
root=$own/an\ empty\ place/${archive%.tar.gz}
judge 'its sums' 0 "$(cd "$root" && sha256sum --quiet -c SHA256SUMS >&2; echo $?)"
judge 'a sum of each file' "$(find "$root" -type f | wc -l)" "$(($(wc -l <"$root/SHA256SUMS") + 1))"
judge 'the only link' "$root/bin/svsim" "$(find "$root" -type l)"
judge 'the program' 0 "$(cmp "$program" "$root/libexec/svsim" >&2; echo $?)"
judge 'folders of this machine in texts' '' "$(grep -r -I -l -F -e "$own" -e "$top" "$root")"
judge 'BUILD has the commit' 1 "$(grep -c "^commit $(git -C "$top" rev-parse HEAD) " "$root/BUILD")"
judge 'BUILD has the toolchain' 1 "$(grep -c -x "$(rt version)" "$root/BUILD")"
judge 'BUILD has what the gate printed last' '    rt: all proved|    8 passed, 0 failed|' "$(grep '^    ' "$root/BUILD" | tr '\n' '|')"
judge 'the version' "$(cat "$root/BUILD")" "$(bare "$root/bin/svsim" --version)"
judge 'the tour' 3 "$(cd / && bare "$root/bin/svsim" tour | grep -c '^\$ svsim [a-z]* /')"
options=$(bare "$root/bin/svsim" help watch | sed -n 's/^  \(--[a-z]*\) .*/\1/p' | tr '\n' ' ')
judge 'the options of watch' '--all --quiet --json --max --known --hart --page --kind ' "$options"
tests=$(bare "$root/bin/svsim" help explain | sed -n 's/^  \(--[a-z]*\) .*/\1/p' | tr '\n' ' ')
judge 'the options of explain' '--svg --hart --page --kind ' "$tests"
commands=$(bare "$root/bin/svsim" help | sed -n 's/^  \([a-z]*\) .*/\1/p' | tr '\n' ' ')
judge 'the commands' 'run live walk stale show draw check watch explain tour help version ' "$commands"

# README's first two commands and the links of all pages, in the folder of these: prints what is wrong.
python=$(python3 -c 'import sys; print(sys.executable)')
read_pages() {
    bare "$python" -B - "$top/scripts" "$1" <<'PYTHON'
import glob, os, sys
sys.path.insert(0, sys.argv[1])
import documents
documents.TOP = top = sys.argv[2]
lines = next(lines for word, _, lines in documents.blocks(documents.text_of("README.md")) if word == "console")
for call, shown in documents.calls(lines)[:2]:
    printed = documents.run(call if os.path.exists(f"{top}/svsim") else call.removeprefix("./"), top)
    if not documents.has_lines(shown, printed):
        print(f"`{call}` prints", *printed, sep="\n")
for page in glob.glob("**/*.md", root_dir=top, recursive=True):
    for is_right, told in documents.check_links(page):
        if not is_right:
            print(told)
PYTHON
}
judge 'commands and links' '' "$(read_pages "$root")"

# Builds the C example of docs/C.md by pkg-config, below the folder of the pages, and compares what it prints.
judge_c() {
    if ! has cc || ! has pkg-config; then skip "$1, since cc or pkg-config is not there" && return; fi
    flags=$(pkg-config --cflags --libs melissaledge)
    eval "cc -O2 \"\$2/examples/c/access_path.c\" $flags -o \"\$own/access_path\""
    judge "$1" "$(cat "$2/examples/c/access_path.out")" "$(bare "$own/access_path")"
    judge "$1: its version" "$(sed -n 's/^svsim //p' "$root/BUILD")" "$(pkg-config --modversion melissaledge)"
}
export PKG_CONFIG_PATH="$root/lib/pkgconfig"
judge_c 'the C library of the archive' "$root"
unset PKG_CONFIG_PATH

# The manual page and the completions
if has man; then
    judge 'the manual page' '' "$(man --warnings -l "$root/share/man/man1/svsim.1" 2>&1 >/dev/null)"
    for command in $commands; do
        judge "$command in the manual page" 1 "$(man -l "$root/share/man/man1/svsim.1" 2>/dev/null | grep -c -E "^   $command( [A-Z]+)*\$")"
    done
    for option in $options; do
        judge "$option in the manual page" "$(case $tests in *"$option "*) echo 2 ;; *) echo 1 ;; esac)" "$(man -l "$root/share/man/man1/svsim.1" 2>/dev/null |
            grep -c -E -- "(^       |\[|\|)$option")"
    done
else
    skip 'the manual page, since man is not there'
fi
if has bash; then
    judge 'completion by bash' "$commands" "$(bare bash -c '. "$1/share/bash-completion/completions/svsim"
        COMP_WORDS=("$1/bin/svsim" "") COMP_CWORD=1; _svsim; printf "%s " "${COMPREPLY[@]}"' bash "$root")"
    judge 'options by bash' "$options" "$(bare bash -c '. "$1/share/bash-completion/completions/svsim"
        COMP_WORDS=("$1/bin/svsim" watch -) COMP_CWORD=2; _svsim; printf "%s " "${COMPREPLY[@]}"' bash "$root")"
    judge 'kinds by bash' 'kernel-claim kernel-free kernel-reuse kernel-use ' "$(bare bash -c '. "$1/share/bash-completion/completions/svsim"
        COMP_WORDS=("$1/bin/svsim" watch --kind = k) COMP_CWORD=4; _svsim; printf "%s " "${COMPREPLY[@]}"' bash "$root")"
    judge 'a list by bash' "$root/BUILD" "$(bare bash -c '. "$1/share/bash-completion/completions/svsim"
        compopt() { :; }
        COMP_WORDS=("$1/bin/svsim" watch --known "$1/BU") COMP_CWORD=3; _svsim; printf "%s" "${COMPREPLY[@]}"' bash "$root")"
    judge 'the command behind an option by bash' 'watch ' "$(bare bash -c '. "$1/share/bash-completion/completions/svsim"
        COMP_WORDS=("$1/bin/svsim" --all wat) COMP_CWORD=2; _svsim; printf "%s " "${COMPREPLY[@]}"' bash "$root")"
    judge 'files by bash' "$root/BUILD" "$(bare bash -c '. "$1/share/bash-completion/completions/svsim"
        compopt() { :; }
        COMP_WORDS=("$1/bin/svsim" run "$1/BU") COMP_CWORD=2; _svsim; printf "%s" "${COMPREPLY[@]}"' bash "$root")"
else
    skip 'completion by bash'
fi
if has fish; then
    judge 'completion by fish' 'walk watch ' "$(HOME=$own PATH=$root/bin:$PATH fish --no-config -c '
        source $argv[1]/share/fish/vendor_completions.d/svsim.fish; complete -C "svsim wa"' "$root" | cut -f 1 | tr '\n' ' ')"
    judge 'options by fish' "$options" "$(HOME=$own PATH=$root/bin:$PATH fish --no-config -c '
        source $argv[1]/share/fish/vendor_completions.d/svsim.fish; complete -C "svsim watch --"' "$root" | cut -f 1 | tr '\n' ' ')"
    judge 'kinds by fish' 'kernel-claim kernel-free kernel-reuse kernel-use ' "$(HOME=$own PATH=$root/bin:$PATH fish --no-config -c '
        source $argv[1]/share/fish/vendor_completions.d/svsim.fish; complete -C "svsim watch --kind k"' "$root" | cut -f 1 | tr '\n' ' ')"
else
    skip 'completion by fish'
fi
if has zsh; then
    judge 'completion by zsh' 0 "$(zsh -n "$root/share/zsh/site-functions/_svsim"; echo $?)"
else
    skip 'completion by zsh'
fi

# The package, unpacked
dpkg-deb -x "$made/$package" "$own/unpacked"
dpkg-deb -e "$made/$package" "$own/unpacked/DEBIAN"
judge 'the sums of the package' 0 "$(cd "$own/unpacked" && md5sum --quiet -c DEBIAN/md5sums >&2; echo $?)"
judge 'links that lead nowhere' '' "$(find "$own/unpacked" -xtype l)"
judge 'it says that there is no licence' 1 "$(grep -c -i 'no licence has been chosen' "$own/unpacked/usr/share/doc/melissaledge/copyright")"
judge 'its version' "$(sed -n 's/^svsim //p' "$root/BUILD")" "$(dpkg-deb -f "$made/$package" Version)"

# The package, installed
if [ "$(id -u)" != 0 ] || ! has dpkg || dpkg -s melissaledge >/dev/null 2>&1 || [ -e /usr/bin/svsim ]; then
    skip 'the package installed, since this is not root, or something of its name is there'
else
    find "$own/unpacked" -path "$own/unpacked/DEBIAN" -prune -o -printf '/%P\n' | sort >"$own/places"
    there() { while read -r place; do if [ -e "$place" ] || [ -L "$place" ]; then echo "$place"; fi; done <"$own/places"; }
    there >"$own/before"
    installed=yes
    judge 'the package installed' 0 "$(dpkg -i "$made/$package" >"$own/dpkg" 2>&1; echo $?)"
    judge 'the installed program' "$(cat "$root/BUILD")" "$(bare svsim --version)"
    if [ -d /usr/share/doc/melissaledge/examples ]; then
        judge 'commands and links of the package' '' "$(read_pages /usr/share/doc/melissaledge)"
        judge_c 'the C library of the package' /usr/share/doc/melissaledge
    else
        skip 'the pages of the package, since dpkg leaves out /usr/share/doc here'
    fi
    if has man; then judge 'the installed manual page' /usr/share/man/man1/svsim.1.gz "$(man -w svsim 2>/dev/null)"; fi
    judge 'the package removed' 0 "$(dpkg -P melissaledge >"$own/dpkg" 2>&1; echo $?)"
    installed=no
    judge 'what is left of it' '' "$(there | diff "$own/before" - | grep '^[<>]')"
    judge 'dpkg knows it still' '' "$(dpkg-query -W -f '${Status}' melissaledge 2>/dev/null)"
fi
echo "$passed passed, $failed failed"
[ "$failed" = 0 ]
