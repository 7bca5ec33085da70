#!/bin/sh
# Packs a proved build: an archive that needs no toolchain, and a Debian package.
#
#     scripts/release.sh [--built TREE] [--gate LOG] [FOLDER]
#
# Writes melissaledge-VERSION-x86_64.tar.gz and melissaledge_VERSION_amd64.deb into FOLDER, or into out/release, and prints their
# sums. `rt ci` or `rt run` has left crates/svsim/out/svsim, and `rt lib` or make crates/melissaledge_c/out/libmelissaledge_c.a: here,
# or in TREE, a checkout with the same sources. LOG is what `rt ci` printed; the text BUILD shows its last lines. The same commit and
# the same build give the same bytes.
#
# Needs rt, git, python3, GNU tar, gzip, binutils and dpkg-deb.
set -eu
unset CDPATH
export LC_ALL=C TZ=UTC
umask 022

refuse() {
    echo "release: $1" >&2
    exit 2
}

top=$(cd "$(dirname "$0")/.." && pwd)
built=$top
gate=''
while [ $# -gt 0 ]; do
    case $1 in
    --built) [ -d "${2-}" ] || refuse "--built needs a folder" && built=$(cd "$2" && pwd) && shift 2 ;;
    --gate) [ -r "${2-}" ] || refuse "--gate needs a file that can be read" && gate=$(readlink -f "$2") && shift 2 ;;
    -*) refuse 'usage: release.sh [--built TREE] [--gate LOG] [FOLDER]' ;;
    *) break ;;
    esac
done
[ $# -le 1 ] || refuse 'usage: release.sh [--built TREE] [--gate LOG] [FOLDER]'
folder=${1:-$top/out/release}
program=$built/crates/svsim/out/svsim
library=$built/crates/melissaledge_c/out/libmelissaledge_c.a

# What has to be so: the tools, a clean commit, of whose sources the build is, a gate that passed, and one version.
for tool in rt git python3 objdump ar dpkg-deb; do command -v $tool >/dev/null || refuse "$tool is not in the path"; done
[ -x "$program" ] || refuse "$program is not there: rt ci proves and builds it"
[ -f "$library" ] || refuse "$library is not there: rt lib in crates/melissaledge_c proves and builds it"
for tree in "$top" "$built"; do
    git -C "$tree" rev-parse -q --verify HEAD >/dev/null 2>&1 || refuse "$tree is no checkout of git"
    changed=$(git -C "$tree" status --porcelain | head -n 1)
    [ -z "$changed" ] || refuse "$tree is not clean: $changed"
done
sources_of() { git -C "$1" ls-tree -r HEAD crates crates.txt | grep -E '(\.rt|\.antt|	crates\.txt)$'; }
[ "$(sources_of "$top")" = "$(sources_of "$built")" ] || refuse "$built has other sources than $top"
for file in "$program" "$library"; do
    newer=$(find "$built/crates.txt" "$built/crates" -name out -prune -o -type f \( -name '*.rt' -o -name '*.antt' -o -name crates.txt \) \
        -newer "$file" -print | head -n 1)
    [ -z "$newer" ] || refuse "$newer is newer than $file: remove that, and prove once more"
done
objdump -f "$program" 2>/dev/null | grep -q 'file format elf64-x86-64' || refuse "$program is no program for x86-64"
ended=''
if [ -n "$gate" ]; then
    ended=$(tail -n 10 "$gate" | tac | sed -n '/^[0-9]* passed, [0-9]* failed/,$p' | grep -v -E '(^| )/' | head -n 3 | tac)
    case $(printf '%s\n' "$ended" | tail -n 1) in *' passed, 0 failed'*) ;; *) refuse "$gate does not end with N passed, 0 failed" ;; esac
fi
version=$(sed -n 's/^## \([0-9][0-9.]*\).*/\1/p' "$top/CHANGELOG.md" | head -n 1)
has_version() {
    [ "$2" = "$version" ] || refuse "$1 has version ${2:-none}, and CHANGELOG.md ${version:-none}"
}
has_version melissaledge.h "$(sed -n 's/^#define MLE_VERSION "\(.*\)"$/\1/p' "$top/crates/melissaledge_c/include/melissaledge.h")"
has_version CITATION.cff "$(sed -n 's/^version: //p' "$top/CITATION.cff")"

own=$(mktemp -d)
trap 'rm -rf "$own"' EXIT
trap 'exit 130' HUP INT TERM
commit=$(git -C "$top" rev-parse HEAD)
date=$(git -C "$top" log -1 --format=%ct)
day=$(date -d "@$date" +%Y-%m-%d)

# The files of the commit, with the program: what svsim prints here, it prints of a release.
from=$own/from
mkdir "$from"
git -C "$top" archive HEAD | tar -x -C "$from"
mkdir "$from/libexec"
cp "$program" "$from/libexec/svsim"

# The C archive with the toolchain's functions over malloc, as the Makefile joins them.
(
    cp "$library" "$own/proved.a"
    cp "$(cd "$top" && dirname "$(rt doc)")/c/liblibc_c.a" "$own/heap.a"
    cd "$own" && printf 'CREATE libmelissaledge.a\nADDLIB proved.a\nADDLIB heap.a\nSAVE\nEND\n' | ar -M
)

# What of the system the program needs: the packages, and the C library's version.
needs='' gcc_s=''
for each in $(objdump -p "$program" | sed -n 's/^ *NEEDED *//p'); do
    case $each in
    libc.so.6 | libm.so.6 | libpthread.so.0 | libdl.so.2 | ld-linux-x86-64.so.2) needs=libc6 ;;
    libgcc_s.so.1) gcc_s=', libgcc-s1' ;;
    *) refuse "$program needs $each, and nobody knows which package has it" ;;
    esac
done
if [ -n "$needs" ]; then
    needs="libc6 (>= $(objdump -T "$program" | sed -n 's/.*GLIBC_\([0-9.]*\).*/\1/p' | sort -V | tail -n 1))$gcc_s"
fi

{
    echo "svsim $version"
    if sed -n '/^## Unreleased/,/^## [0-9]/p' "$top/CHANGELOG.md" | grep -q '^- '; then echo 'with what CHANGELOG.md calls unreleased'; fi
    echo "commit $commit of $day"
    (cd "$top" && rt version)
    if [ -z "$gate" ]; then
        echo "built by rt, which proves what it builds; the gate's result was not given"
    else
        echo 'proved: the gate ended with'
        printf '%s\n' "$ended" | sed 's/^/    /'
    fi
    echo "needs ${needs:-no library} on Linux, x86-64"
} >"$own/BUILD"

# Lays a release out: PREFIX, the folder of svsim, the folder of its pages, that of functions of zsh, where the headers are from the
# pages, and what melissaledge.pc calls its prefix.
lay_out() {
    prefix=$1 home=$2 pages=$3 zsh=$4
    mkdir -p "$prefix/bin" "$prefix/lib/pkgconfig" "$prefix/include" "$prefix/share/man/man1" "$home/libexec" "$pages" "$zsh" \
        "$prefix/share/bash-completion/completions" "$prefix/share/fish/vendor_completions.d"
    cp "$from/svsim" "$home/svsim"
    cp "$program" "$home/libexec/svsim"
    cp "$own/BUILD" "$home/BUILD"
    ln -rs "$home/svsim" "$prefix/bin/svsim"
    cp "$own/libmelissaledge.a" "$prefix/lib"
    cp "$from"/crates/melissaledge_c/include/*.h "$prefix/include"
    sed -e "s|@PREFIX@|$6|" -e 's|@LIBDIR@|${prefix}/lib|' -e 's|@INCLUDEDIR@|${prefix}/include|' -e "s|@VERSION@|$version|" \
        "$from/crates/melissaledge_c/melissaledge.pc.in" >"$prefix/lib/pkgconfig/melissaledge.pc"
    cp "$from/scripts/completions/svsim.bash" "$prefix/share/bash-completion/completions/svsim"
    cp "$from/scripts/completions/svsim.fish" "$prefix/share/fish/vendor_completions.d/svsim.fish"
    cp "$from/scripts/completions/_svsim" "$zsh/_svsim"
    (cd "$from" && python3 scripts/release_texts.py manual "$version" "$day") >"$prefix/share/man/man1/svsim.1"
    cp -R "$from/README.md" "$from/CHANGELOG.md" "$from/CITATION.cff" "$from/docs" "$pages"
    cp -R "$from/crates/svsim_examples/data" "$pages/examples"
    cp -R "$from/crates/melissaledge_c/examples" "$pages/examples/c"
    (cd "$from" && python3 scripts/release_texts.py pages "$pages" "$5")
}

# Gives all files below a folder the commit's time, and rights that no umask changes.
even() {
    chmod -R u=rwX,go=rX "$1"
    find "$1" -exec touch -h -d "@$date" {} +
}

sums() { find . -type f ! -name SHA256SUMS -print0 | sort -z | xargs -0 "$1" | sed 's|  \./|  |'; }

name=melissaledge-$version-x86_64
tree=$own/$name
mkdir "$tree"
lay_out "$tree" "$tree" "$tree" "$tree/share/zsh/site-functions" include '${pcfiledir}/../..'
(cd "$tree" && sums sha256sum >SHA256SUMS)
even "$tree"
tar --sort=name --mtime="@$date" --owner=0 --group=0 --numeric-owner --format=gnu -C "$own" -cf "$own/tar" "$name"
gzip -9n <"$own/tar" >"$own/$name.tar.gz"

package=melissaledge_${version}_amd64.deb
tree=$own/deb
pages=$tree/usr/share/doc/melissaledge
home=$tree/usr/lib/melissaledge
mkdir -p "$tree/DEBIAN" "$pages" "$home"
lay_out "$tree/usr" "$home" "$pages" "$tree/usr/share/zsh/vendor-completions" ../../../include /usr
ln -rs "$home/BUILD" "$pages/BUILD"
ln -rs "$pages/docs" "$home/docs"
ln -rs "$pages/examples" "$home/examples"
(cd "$from" && python3 scripts/release_texts.py terms) >"$pages/copyright"
gzip -9n "$tree/usr/share/man/man1/svsim.1"
gzip -9n <"$from/CHANGELOG.md" >"$pages/changelog.gz"
(cd "$from" && python3 scripts/release_texts.py about) >"$own/about"
{
    echo 'Package: melissaledge'
    echo "Version: $version"
    echo 'Architecture: amd64'
    echo "Maintainer: $(git -C "$top" log -1 --format='%an <%ae>')"
    echo "Installed-Size: $(find "$tree/usr" -type f -printf '%s\n' | awk '{ size += int(($1 + 1023) / 1024) } END { print size }')"
    [ -z "$needs" ] || echo "Depends: $needs"
    echo 'Section: devel'
    echo 'Priority: optional'
    echo "Description: $(sed -n '1s/^a //; 1p' "$own/about")"
    sed 1d "$own/about" | fold -s -w 78 | sed 's/ *$//; s/^/ /'
} >"$tree/DEBIAN/control"
(cd "$tree" && find usr -type f -print0 | sort -z | xargs -0 md5sum) >"$tree/DEBIAN/md5sums"
even "$tree"
SOURCE_DATE_EPOCH=$date dpkg-deb --root-owner-group -Zgzip -z9 --build "$tree" "$own/$package" >/dev/null
mkdir -p "$folder"
cp "$own/$name.tar.gz" "$own/$package" "$folder"
cd "$folder" && sha256sum "$name.tar.gz" "$package"
