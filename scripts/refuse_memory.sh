#!/bin/bash
# Refuses memory to the programs, a request at a time, and sees that each answers as usual or says that there is none.
#
#     scripts/refuse_memory.sh
#
# Needs Python, a C compiler under the name of $CC or cc, a C library that has __libc_malloc (glibc), and two programs that are proved
# and built: `rt run` in crates/memory_tests, and `rt run -- walk data/walk.toml` in crates/svsim. Each of their requests for
# memory is refused in turn, once alone and once with all that come after it. memory_tests is to print its usual lines, or
# `no memory` in their place with status 5; svsim its usual lines, or none (of watch the
# first ones) with status 5 and one line on standard error. The last line is `N passed, M failed`.
set -u
unset CDPATH
top=$(cd "$(dirname "$0")/.." && pwd)
own=$(mktemp -d)
trap 'rm -rf "$own"' EXIT
trap 'exit 130' HUP INT TERM
passed=0
failed=0

# An allocator that refuses the request of number REFUSED, and with REFUSED_ON set all later ones; it counts them in the
# first 8 bytes of the file REQUESTS, since the programs may end without a last word.
cat >"$own/refuse.c" <<'C'
#include <errno.h>
#include <fcntl.h>
#include <stdatomic.h>
#include <stddef.h>
#include <stdlib.h>
#include <sys/mman.h>
#include <unistd.h>

extern void *__libc_malloc(size_t);
extern void *__libc_calloc(size_t, size_t);
extern void *__libc_realloc(void *, size_t);
extern void *__libc_memalign(size_t, size_t);

static atomic_ulong unshared;
static atomic_ulong *requests = &unshared;
static unsigned long refused;
static int later;

__attribute__((constructor)) static void begin(void) {
    const char *number = getenv("REFUSED");
    const char *name = getenv("REQUESTS");
    int file = name ? open(name, O_RDWR | O_CREAT | O_TRUNC, 0600) : -1;
    refused = number ? strtoul(number, NULL, 10) : 0;
    later = getenv("REFUSED_ON") != NULL;
    if (file < 0 || ftruncate(file, sizeof *requests) != 0) _exit(99);
    requests = mmap(NULL, sizeof *requests, PROT_READ | PROT_WRITE, MAP_SHARED, file, 0);
    if (requests == MAP_FAILED) _exit(99);
    close(file);
}

static int refuses(void) {
    unsigned long number = atomic_fetch_add(requests, 1) + 1;
    return refused != 0 && (number == refused || (later && number > refused));
}

static void *none(void) {
    errno = ENOMEM;
    return NULL;
}

void *malloc(size_t size) { return refuses() ? none() : __libc_malloc(size); }

void *calloc(size_t count, size_t size) { return refuses() ? none() : __libc_calloc(count, size); }

void *realloc(void *old, size_t size) { return refuses() ? none() : __libc_realloc(old, size); }

void *memalign(size_t align, size_t size) { return refuses() ? none() : __libc_memalign(align, size); }

void *aligned_alloc(size_t align, size_t size) { return memalign(align, size); }

int posix_memalign(void **place, size_t align, size_t size) {
    void *found = memalign(align, size);
    if (found == NULL) return ENOMEM;
    *place = found;
    return 0;
}
C
"${CC:-cc}" -O1 -shared -fPIC -o "$own/refuse.so" "$own/refuse.c" || exit 2

for program in memory_tests svsim; do
    if [ ! -x "$top/crates/$program/out/$program" ]; then
        echo "refuse_memory: crates/$program/out/$program is not there: rt run builds it" >&2
        exit 2
    fi
done

# Runs a program with the n-th request refused. The output and standard error are kept, and the status answered.
refused_run() {
    local number=$1 on=$2
    shift 2
    timeout 100 env LD_PRELOAD="$own/refuse.so" REQUESTS="$own/requests" REFUSED="$number" ${on:+REFUSED_ON=1} \
        "$@" >"$own/out" 2>"$own/err" </dev/null
}

# Whether a run of memory_tests ended as it is to: by status, and by the same names on its lines.
memory_tests_answers() {
    case $1 in
    0) cmp -s "$own/out" "$own/usual" && [ ! -s "$own/err" ] ;;
    5) [ ! -s "$own/err" ] && grep -q ': no memory$' "$own/out" && ! grep -qv -e ': usual$' -e ': no memory$' "$own/out" &&
        [ "$(sed 's/: .*//' "$own/out")" = "$(sed 's/: .*//' "$own/usual")" ] ;;
    *) false ;;
    esac
}

svsim_answers() {
    case $1 in
    0) cmp -s "$own/out" "$own/usual" && [ ! -s "$own/err" ] ;;
    5) [ ! -s "$own/out" ] && grep -qx 'svsim: no \(memory\|thread\)' "$own/err" && [ "$(wc -l <"$own/err")" = 1 ] ;;
    *) false ;;
    esac
}

# watch prints as it reads: where memory ends, the lines before stand.
watch_answers() {
    case $1 in
    0 | 1) cmp -s "$own/out" "$own/usual" && [ ! -s "$own/err" ] ;;
    5) head -c "$(wc -c <"$own/out")" "$own/usual" | cmp -s - "$own/out" && grep -qx 'svsim: no memory' "$own/err" && [ "$(wc -l <"$own/err")" = 1 ] ;;
    *) false ;;
    esac
}

# Refuses each request of a program in turn, which usually ends with this status.
refuse_each() {
    local judge=$1 usual=$2 status count number on
    shift 2
    refused_run 0 "" "$@"
    status=$?
    cp "$own/out" "$own/usual"
    count=$(od -An -tu8 "$own/requests" | tr -d " ")
    if [ "$status" != "$usual" ] || [ "$count" = 0 ]; then
        echo "FAILED without refusals, status $status: ${*##*/}"
        failed=$((failed + 1))
        return
    fi
    for ((number = 1; number <= count; number++)); do
        for on in "" 1; do
            refused_run "$number" "$on" "$@"
            status=$?
            if "$judge" "$status"; then
                passed=$((passed + 1))
            else
                failed=$((failed + 1))
                echo "FAILED at request $number of $count${on:+ and later}, status $status: ${*##*/}"
                head -n 3 "$own/out" "$own/err"
            fi
        done
    done
    echo "$count requests refused in turn: ${*##*/}"
}

refuse_each memory_tests_answers 0 "$top/crates/memory_tests/out/memory_tests"
svsim=$top/crates/svsim/out/svsim
refuse_each svsim_answers 0 "$svsim" walk "$top/examples/first.toml"
refuse_each svsim_answers 0 "$svsim" live "$top/examples/live-unmap-at-once.toml"
for file in "$top"/examples/*.toml; do
    case ${file##*/} in first.toml | live-*) continue ;; esac
    refuse_each svsim_answers 0 "$svsim" run "$file"
done
refuse_each watch_answers 1 "$svsim" watch "$top/examples/watch/left-out-hart.trace"
# Small traces of kinds that are hard on memory, each with the status that it usually has.
while read -r kind size status; do
    python3 "$top/scripts/dear.py" --print "$kind" "$size" >"$own/$kind.trace"
    refuse_each watch_answers "$status" "$svsim" watch "$own/$kind.trace"
done <<'KINDS'
dropped_in_front 40 0
held_only 40 0
empty_places 8 0
fences_by_asid 20 0
flap_many 1 0
claims_of_a_root 4 1
notes_in_one_row 40 0
KINDS
echo "$passed passed, $failed failed"
[ "$failed" = 0 ]
