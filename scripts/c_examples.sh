#!/bin/bash
# The C interface, and the kernel's side of a trace: builds the static library, builds the C programs of crates/melissaledge_c/examples over it with all warnings as errors, runs
# them, and compares what they print with what they must print: NAME.out there. examples/watch/trace_test.c has to print left-out-hart.trace, over
# a ring and over a character output, and scripts/notes.py to name the calls that made a trace. The emulator rv64 has to run the kernel of examples/watch, with its traces, and rv64_guest.
#
#     scripts/c_examples.sh
#
# Needs rt, a C compiler ($CC, else cc) with a linker that knows --wrap, bash, python3 and coreutils; for what it skips else addr2line, make, pkg-config, a compiler of C++ and one for
# RISC-V ($RISCV_CC, else of the packages gcc-riscv64-unknown-elf or gcc-riscv64-linux-gnu); the toolchain's liblibc_c.a (rattle_alloc and the like, over malloc)
# is found by `rt doc`. The last line is `N passed, M failed`. The gate runs no C, so this is no part of it.
set -u
unset CDPATH
top=$(cd "$(dirname "$0")/.." && pwd)
kit=$(cd "$top" && dirname "$(rt doc)")
heap=$kit/c/liblibc_c.a
crate=$top/crates/melissaledge_c
[ -f "$heap" ] || { echo "c_examples: $heap is not there" >&2; exit 2; }
(cd "$crate" && rt lib) || { echo 'c_examples: the library is not built' >&2; exit 2; }
own=$(mktemp -d)
trap 'rm -rf "$own"' EXIT
trap 'exit 130' HUP INT TERM
passed=0
failed=0

# Whether a program builds, with these flags too, ends with status 0 and prints what it must.
judge() {
    local name=$1 wanted=$crate/examples/$1.out
    shift
    if ! ${CC:-cc} -Wall -Wextra -Werror -std=c11 -O2 -I "$crate/include" "$crate/examples/$name.c" \
        "$crate/out/libmelissaledge_c.a" "$heap" "$@" -o "$own/$name"; then
        echo "FAILED $name: it does not build"
        failed=$((failed + 1))
    elif ! timeout 60 "$own/$name" >"$own/$name.out"; then
        echo "FAILED $name: $(tail -n 5 "$own/$name.out")"
        failed=$((failed + 1))
    elif ! cmp "$own/$name.out" "$wanted"; then
        echo "FAILED $name: other output"
        failed=$((failed + 1))
    else
        passed=$((passed + 1))
    fi
}

# Whether the test of trace.h builds, with these flags too, and prints its trace.
judge_trace() {
    local name=trace_test$1 source=$top/examples/watch
    shift
    if ! ${CC:-cc} -Wall -Wextra -Werror -std=gnu11 -O2 "$@" "$source/trace_test.c" -o "$own/$name"; then
        echo "FAILED $name: it does not build"
        failed=$((failed + 1))
    elif ! timeout 60 "$own/$name" >"$own/$name.out" || ! cmp "$own/$name.out" "$source/left-out-hart.trace"; then
        echo "FAILED $name: other output"
        failed=$((failed + 1))
    else
        passed=$((passed + 1))
    fi
}

# Whether scripts/notes.py names the calls of a program that are in its trace, those of headers by who calls them, with this addr2line.
judge_notes() {
    local folder="$own/built (here)/include"
    mkdir -p "$folder/include"
    cp "$top/examples/watch/trace.h" "$folder/include"
    cat >"$folder/include/clear.h" <<'END'
static inline __attribute__((always_inline)) void clear(uint64_t address)
{
    trace_store(0, address, 0);
}
END
    cat >"$folder/notes.c" <<'END'
#include <stdio.h>
#define TRACE_PUTCHAR(c) putchar(c)
#include "include/trace.h"
#include "include/clear.h"
static __attribute__((noinline)) void unmap(uint64_t address)
{
    clear(address);
    trace_fence(0, TRACE_ALL, TRACE_ALL);
}
int main(void)
{
    trace_open("1", "sv39");
    unmap(0x80002008);
    printf("f 0 - - @1\n# no record @%lx\n", (unsigned long)main);
    return 0;
}
END
    cat >"$own/notes.wanted" <<'END'
watch 1 1 sv39
w 0 80002008 0 @unmap notes.c:7
f 0 - - @unmap notes.c:8
f 0 - - @1
END
    if ${CC:-cc} -g -O2 -no-pie -std=gnu11 "$folder/notes.c" -o "$own/notes" && "$own/notes" >"$own/notes.trace" &&
        ADDR2LINE=$1 "$top/scripts/notes.py" "$own/notes" "$own/notes.trace" | grep -v '^# no record @[0-9a-f]*$' | cmp - "$own/notes.wanted" &&
        ! ADDR2LINE=$1 "$top/scripts/notes.py" "$folder/notes.c" "$own/notes.trace" 2>/dev/null; then
        passed=$((passed + 1))
    else
        echo "FAILED notes.py: other names by $1"
        failed=$((failed + 1))
    fi
}

# Whether the header files compile in a standard, with this compiler and all warnings as errors.
judge_headers() {
    local compiler=$1 standard=$2 source=$own/headers.$3
    printf '#include "melissaledge.h"\n#include "melissaledge_names.h"\nint headers_only(void);\nint headers_only(void) { return (int)mle_strerror(MLE_OK)[0]; }\n' >"$source"
    if $compiler -std="$standard" -Wall -Wextra -Wpedantic -Werror -I "$crate/include" -c "$source" -o "$own/headers.o"; then
        passed=$((passed + 1))
    else
        echo "FAILED headers in $standard"
        failed=$((failed + 1))
    fi
}

# Whether a program builds over what `make install` installs, by pkg-config alone, and prints what it must.
judge_install() {
    local prefix=$own/installed
    if ! command -v pkg-config >/dev/null || ! command -v make >/dev/null; then
        echo 'skipped: the installed library, since pkg-config or make is not there'
    elif make -s -C "$crate" install PREFIX="$prefix" >"$own/install.log" 2>&1 &&
        ${CC:-cc} "$crate/examples/superpage_shootdown.c" \
            $(PKG_CONFIG_PATH=$prefix/lib/pkgconfig pkg-config --cflags --libs melissaledge) -o "$own/with_installed" &&
        "$own/with_installed" | cmp - "$crate/examples/superpage_shootdown.out"; then
        passed=$((passed + 1))
    else
        echo "FAILED the installed library: $(tail -n 5 "$own/install.log")"
        failed=$((failed + 1))
    fi
}

# A file for the emulator of a RISC-V program without a system below it, of these sources and flags, at 2 MiB above the start of memory.
build_guest() {
    "$guest_compiler" -std=gnu11 -O1 -Wall -Wextra -Werror -march=$guest_arch -mabi=lp64 -mcmodel=medany -ffreestanding -fno-pic -no-pie \
        -fno-stack-protector -fno-tree-loop-distribute-patterns -nostdlib -static -Wl,--build-id=none \
        -T "$top/examples/watch/kernel/kernel.ld" "$@" -o "$own/guest.elf" &&
        "$("$guest_compiler" -print-prog-name=objcopy)" -O binary "$own/guest.elf" "$own/guest"
}

# What the kernel of examples/watch says of itself with a mistake: its trace has to be that of the case with each TLB. Then a line of how
# many accesses went wrong: with 1, 16 and 1,024 entries, and with 16 and walks after each fence.
kernel_line() {
    local how line=$1:
    build_guest -DTRACE_NO_NOTES -DMISTAKE="$1" "$top/examples/watch/kernel/start.S" "$top/examples/watch/kernel"/*.c || return 1
    for how in 1 16 1024 '16 eager'; do
        timeout 60 "$own/rv64" "$own/guest" $how >"$own/console" || return 1
        sed '$d' "$own/console" | cmp - "$top/examples/cases/watch/kernel-$1.trace" >&2 || return 1
        line="$line $(sed -n '$s/^end //p' "$own/console")"
    done
    echo "$line"
}

# Whether the emulator rv64 builds, and the kernel runs in it, right and with each of its mistakes, as rv64.out says.
judge_emulator() {
    local examples=$crate/examples name wanted
    guest_compiler=
    guest_arch=rv64ima_zicsr
    for name in ${RISCV_CC:-riscv64-unknown-elf-gcc riscv64-linux-gnu-gcc}; do
        if [ -z "$guest_compiler" ] && command -v "$name" >/dev/null; then guest_compiler=$name; fi
    done
    if ! ${CC:-cc} -Wall -Wextra -Werror -std=c11 -O2 -I "$crate/include" "$examples/rv64.c" "$examples/rv64_instructions.c" \
        "$crate/out/libmelissaledge_c.a" "$heap" -o "$own/rv64"; then
        echo 'FAILED rv64: it does not build'
        failed=$((failed + 1))
        return
    fi
    if [ -z "$guest_compiler" ]; then
        echo 'skipped: the kernel in the emulator rv64, since there is no compiler for RISC-V (gcc-riscv64-unknown-elf or gcc-riscv64-linux-gnu)'
        return
    fi
    "$guest_compiler" -march=$guest_arch -mabi=lp64 -E -x c /dev/null >/dev/null 2>&1 || guest_arch=rv64ima # before GCC 12
    if build_guest "$examples/rv64_guest.c" && timeout 60 "$own/rv64" "$own/guest" 16 | cmp - "$examples/rv64_guest.out"; then
        passed=$((passed + 1))
    else
        echo 'FAILED rv64: the guest'
        failed=$((failed + 1))
    fi
    while read -r wanted; do
        if [ "$(kernel_line "${wanted%%:*}")" = "$wanted" ]; then
            passed=$((passed + 1))
        else
            echo "FAILED rv64: the kernel ${wanted%%:*}"
            failed=$((failed + 1))
        fi
    done <"$examples/rv64.out"
}

judge_trace _output
judge_trace _ring -DTRACE_RING=100
for name in addr2line llvm-addr2line; do
    if command -v "$name" >/dev/null; then judge_notes "$name"; else echo "skipped: scripts/notes.py with $name, which is not there"; fi
done
judge access_path
judge superpage_shootdown
judge tlb_of_1024
judge bad_arguments
judge machine_state
judge emulator_walk -pthread
judge no_memory -Wl,--wrap=malloc,--wrap=calloc,--wrap=free
for standard in c99 c11 c17; do judge_headers "${CC:-cc}" "$standard" c; done
if command -v "${CXX:-c++}" >/dev/null; then judge_headers "${CXX:-c++}" c++17 cc; else echo 'skipped: the headers in C++, since there is no compiler'; fi
judge_install
judge_emulator
echo "$passed passed, $failed failed"
[ "$failed" = 0 ]
