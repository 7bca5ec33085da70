#!/bin/bash
# The example kernel (examples/watch/kernel): builds it right and with each of its mistakes, runs it under QEMU, takes its trace out
# and has it judged. The trace and the verdicts have to be those of examples/cases/watch/kernel-N.*.
#
#     scripts/watch_kernel.sh [FOLDER]
#
# The traces are left in FOLDER, N.trace each; without it they are removed. They are judged by $SVSIM, or by ./svsim once it is
# proved, else by scripts/watch_definitions.py. The last line is `N passed, M failed`.
#
# Needs bash, coreutils, grep, sed, python3, and of Debian's packages qemu-system-misc (or qemu-system-riscv), opensbi, and
# gcc-riscv64-unknown-elf or gcc-riscv64-linux-gnu; $RISCV_CC is another compiler. Without these the last line is `skipped: WHY`, and
# the status 0. The gate runs no C, so this is no part of it.
set -u
unset CDPATH
export LC_ALL=C
top=$(cd "$(dirname "$0")/.." && pwd)
kernel=$top/examples/watch/kernel
cases=$top/examples/cases/watch/kernel
seconds=60

skip() {
    echo "skipped: $1"
    exit 0
}

compiler=
for name in ${RISCV_CC:-riscv64-unknown-elf-gcc riscv64-linux-gnu-gcc}; do
    if [ -z "$compiler" ] && command -v "$name" >/dev/null; then compiler=$name; fi
done
[ -n "$compiler" ] || skip 'no compiler for RISC-V: the package gcc-riscv64-unknown-elf or gcc-riscv64-linux-gnu'
command -v qemu-system-riscv64 >/dev/null || skip 'no qemu-system-riscv64: the packages qemu-system-misc and opensbi'
command -v python3 >/dev/null || skip 'no python3'
# Since GCC 12 the instructions on control registers have a name of their own.
arch=rv64imac_zicsr
"$compiler" -march=$arch -mabi=lp64 -E -x c /dev/null >/dev/null 2>&1 || arch=rv64imac

own=$(mktemp -d)
trap 'rm -rf "$own"' EXIT
trap 'exit 130' HUP INT TERM
traces=${1:-$own}
mkdir -p "$traces" || exit 2
svsim=${SVSIM:-}
if [ -z "$svsim" ] && [ -x "$top/.svsim/svsim" ]; then svsim=$top/svsim; fi
echo "judged by ${svsim:-scripts/watch_definitions.py}"
passed=0
failed=0

# Counts what went well (status 0), or names what went wrong.
count() {
    if [ "$1" = 0 ]; then
        passed=$((passed + 1))
    else
        echo "FAILED $2"
        failed=$((failed + 1))
    fi
}

build() {
    "$compiler" -std=gnu11 -O1 -Wall -Wextra -Werror -march=$arch -mabi=lp64 -mcmodel=medany -ffreestanding -fno-pic -no-pie \
        -fno-stack-protector -fno-tree-loop-distribute-patterns -nostdlib -static -Wl,--build-id=none -DTRACE_NO_NOTES -DMISTAKE="$1" \
        -T "$kernel/kernel.ld" "$kernel/start.S" "$kernel"/*.c -o "$own/kernel"
}

# The machine's output; it ends by itself.
run() {
    timeout $seconds qemu-system-riscv64 -M virt -smp 4 -m 128M -display none -monitor none -serial stdio -no-reboot \
        -kernel "$own/kernel" </dev/null 2>&1 | tr -d '\r' >"$own/output"
    return "${PIPESTATUS[0]}"
}

# The lines that are wanted of a number, in the order of sort, without the name of the trace.
wanted() {
    if [ -f "$cases-$1.counts" ]; then sed 's/^1 //' "$cases-$1.counts"
    elif [ -f "$cases-$1.all" ]; then cat "$cases-$1.all"
    else cat "$cases-$1.out"; fi | nameless | sort
}

nameless() {
    sed -E 's/^.*\.trace:([0-9]+: [a-z-]+ hart )/\1/'
}

# The verdicts on a trace have to be those of its case, and the status.
judge() {
    local status=0 program=(python3 -B "$top/scripts/watch_definitions.py")
    if [ -n "$svsim" ]; then program=("$svsim" watch --all); fi
    "${program[@]}" "$2" >"$own/verdicts" || status=$?
    wanted "$1" | cmp - <(nameless <"$own/verdicts" | sort) && [ $status = "$(cat "$cases-$1.status" 2>/dev/null || echo 0)" ]
}

numbers=$(echo 0; sed -nE 's/^    [A-Z_]+ = ([0-9]+),? +\/\*.*/\1/p' "$kernel/kernel.h")
[ "$numbers" = "$(cd "${cases%/*}" && ls kernel-*.trace | sed 's/^kernel-//; s/\.trace$//' | sort -n)" ]
count $? 'the mistakes of kernel.h are not those of the cases'

for number in $numbers; do
    trace=$traces/$number.trace
    if ! build "$number"; then
        count 1 "$number: it does not build"
    elif ! run && grep -q 'RISC-V \(firmware\|BIOS\)' "$own/output"; then
        skip 'QEMU finds no OpenSBI: the package opensbi'
    elif ! grep -q '^end ' "$own/output"; then
        tail -n 5 "$own/output"
        count 1 "$number: it did not run to its end"
    else
        sed -n '/^watch /,/^end /p' "$own/output" | sed '$d' >"$trace"
        cmp "$cases-$number.trace" "$trace"
        count $? "$number: another trace than that of its case"
        judge "$number" "$trace"
        count $? "$number: other verdicts than those of its case"
        echo "$number: $(tail -n +2 "$trace" | wc -l) records, $(grep -c ' hart ' "$own/verdicts") verdicts; in this run $(sed -n 's/^end 0*\(.\)/\1/p' "$own/output") accesses went wrong"
    fi
done
echo "$passed passed, $failed failed"
[ "$failed" = 0 ]
