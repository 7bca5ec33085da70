/* A program in S-mode for the emulator rv64, which tries what the kernel of examples/watch does not: U-mode, A and D, SUM and MXR, Sv48,
 * ASIDs, an interrupt, the numbers at which M is special, LR and SC, and errors of the firmware. scripts/c_examples.sh builds and runs it.
 * An attempt answers the cause of the trap that ends it: 3 is that of the EBREAK behind an access that goes through. */
#include <stdint.h>

uint64_t attempt(uint64_t va, const char *from, uint64_t spp);
extern const char code[], load[], store[], go[], csr[], fence[], call[];

/* attempt: to a place in U-mode or, with SPP, in S-mode. code: what is done there; it is on a page of its own. */
asm(".section .text.start\n.globl _start\n"
    "_start: la sp, stack + 8192\n call main\n"
    ".text\n"
    "attempt: csrw sepc, a1\n li t0, 0x100\n csrc sstatus, t0\n csrs sstatus, a2\n"
    " la t0, 1f\n csrw stvec, t0\n csrw sscratch, ra\n sret\n"
    ".balign 4\n1: csrr a0, scause\n csrr ra, sscratch\n ret\n"
    ".balign 4096\ncode:\n"
    "load: ld a1, 0(a0)\n ebreak\n"
    "store: sd a1, 0(a0)\n ebreak\n"
    "go: jr a0\n"
    "csr: csrr a1, sstatus\n"
    "fence: sfence.vma\n"
    "call: ecall\n"
    ".balign 4096\n"
    ".bss\n.balign 16\nstack: .space 8192\n.text\n");

enum { PUTCHAR = 1, HSM = 0x48534d, RESET = 0x53525354 };
enum { SPP = 0x100, SUM = 0x40000, MXR = 0x80000 };
enum { CODE = 0x1000, DATA = 0x2000, READ = 0x3000, EXECUTE = 0x4000, OUTSIDE = 0x5000, KERNEL = 0x6000 };
typedef uint64_t table[512] __attribute__((aligned(4096)));
static table root48, root, middle, low, data;

static uint64_t sbi(uint64_t extension, uint64_t function, uint64_t a, uint64_t *value) {
    register uint64_t a0 asm("a0") = a, a1 asm("a1") = 0, a6 asm("a6") = function, a7 asm("a7") = extension;
    asm volatile("ecall" : "+r"(a0), "+r"(a1) : "r"(a6), "r"(a7) : "memory");
    *value = a1;
    return a0;
}

static void show(const char *name, uint64_t number) {
    uint64_t unused;
    int shift = 60;
    while (*name) sbi(PUTCHAR, 0, *name++, &unused);
    sbi(PUTCHAR, 0, ':', &unused);
    sbi(PUTCHAR, 0, ' ', &unused);
    while (shift > 0 && number >> shift == 0) shift -= 4;
    for (; shift >= 0; shift -= 4) sbi(PUTCHAR, 0, "0123456789abcdef"[number >> shift & 15], &unused);
    sbi(PUTCHAR, 0, '\n', &unused);
}

static uint64_t word(const void *frame, uint64_t flags) { return (uintptr_t)frame >> 12 << 10 | flags; }

static void set_satp(uint64_t mode, uint64_t asid, const uint64_t *table) {
    asm volatile("csrw satp, %0" ::"r"(mode << 60 | asid << 44 | (uintptr_t)table >> 12) : "memory");
}

/* The place in the page of code that U-mode has. */
static const char *user(const char *place) { return (const char *)(CODE + (uintptr_t)(place - code)); }

static uint64_t user_load(uint64_t va) { return attempt(va, user(load), 0); }
static uint64_t user_store(uint64_t va) { return attempt(va, user(store), 0); }

static void try_pages(void) {
    show("load, A clear", user_load(DATA));
    show("flags", low[2] & 0xff);
    show("store, D clear", user_store(DATA));
    show("flags", low[2] & 0xff);
    show("store without W", user_store(READ));
    show("load without U", user_load(KERNEL));
    show("fetch without X", attempt(DATA, user(go), 0));
    show("load without R", user_load(EXECUTE));
    asm volatile("csrs sstatus, %0" ::"r"((uint64_t)MXR));
    show("load without R, MXR", user_load(EXECUTE));
    asm volatile("csrc sstatus, %0" ::"r"((uint64_t)MXR));
    show("misaligned load", user_load(DATA + 4));
    show("misaligned store", user_store(DATA + 4));
    show("load outside", user_load(OUTSIDE));
    show("store outside", user_store(OUTSIDE));
    show("fetch outside", attempt(OUTSIDE, user(go), 0));
}

static void try_modes(void) {
    const uint64_t ssip = 2;
    show("S-mode load, U", attempt(DATA, load, SPP));
    asm volatile("csrs sstatus, %0" ::"r"((uint64_t)SUM));
    show("S-mode load, U, SUM", attempt(DATA, load, SPP));
    show("S-mode fetch, U, SUM", attempt(CODE, go, SPP));
    show("S-mode load without U", attempt(KERNEL, load, SPP));
    show("CSR in U-mode", attempt(0, user(csr), 0));
    show("SFENCE.VMA in U-mode", attempt(0, user(fence), 0));
    show("ECALL in U-mode", attempt(0, user(call), 0));
    asm volatile("csrw sie, %0\n\tcsrs sip, %0" ::"r"(ssip));
    show("interrupt", user_load(DATA));
    asm volatile("csrc sip, %0" ::"r"(ssip));
    show("none", user_load(DATA));
}

/* A page that goes, under two ASIDs, and an address that Sv48 alone has. */
static void try_spaces(void) {
    low[2] = 0;
    show("unmapped, no fence", user_load(DATA));
    set_satp(8, 2, root);
    show("under another ASID", user_load(DATA));
    asm volatile("sfence.vma x0, %0" ::"r"((uint64_t)2) : "memory");
    asm volatile("sfence.vma %0, x0" ::"r"((uint64_t)READ) : "memory");
    set_satp(8, 1, root);
    show("other fences", user_load(DATA));
    asm volatile("sfence.vma %0, %1" ::"r"((uint64_t)DATA), "r"((uint64_t)1) : "memory");
    show("its fence", user_load(DATA));
    show("2^38 in Sv39", user_load(1ul << 38));
    root48[0] = word(root, 1);
    root[256] = word(middle, 1);
    set_satp(9, 3, root48);
    show("2^38 in Sv48", user_load((1ul << 38) + READ));
    show("2^47 in Sv48", user_load(1ul << 47));
    set_satp(5, 4, 0);
    show("no such MODE", user_load((1ul << 38) + READ));
    set_satp(8, 3, root);
    show("2^38 in Sv39 again", user_load((1ul << 38) + READ));
}

#define DO(name, a, b)                                                                     \
    do {                                                                                   \
        uint64_t result;                                                                   \
        asm volatile(name " %0, %1, %2" : "=r"(result) : "r"((uint64_t)(a)), "r"((uint64_t)(b))); \
        show(name, result);                                                                \
    } while (0)

static void try_numbers(void) {
    const uint64_t least = 1ul << 63;
    DO("div", least, -1);
    DO("rem", least, -1);
    DO("div", 7, 0);
    DO("rem", -7, 0);
    DO("divu", 7, 0);
    DO("rem", -7, 2);
    DO("divw", 0x80000000, -1);
    DO("remuw", 0x80000000, 0);
    DO("mulh", -1, -1);
    DO("mulhu", -1, -1);
    DO("mulhsu", -1, -1);
    DO("mulh", least, least);
    DO("mulw", 0x10001, 0x8000);
    DO("sraw", 0x80000000, 31);
    DO("srlw", 0x80000000, 32);
}

static void try_lr_and_sc(void) {
    uint64_t failed;
    asm volatile("lr.d t0, (%1)\n\tsc.d %0, %1, (%1)" : "=&r"(failed) : "r"(data) : "t0", "memory");
    show("SC after LR", failed);
    asm volatile("sc.d %0, %1, (%1)" : "=&r"(failed) : "r"(data) : "memory");
    show("SC alone", failed);
}

static void try_firmware(void) {
    uint64_t value, unused;
    show("start of hart 0", sbi(HSM, 0, 0, &unused));
    show("start of hart 9", sbi(HSM, 0, 9, &unused));
    show("no such call", sbi(HSM, 9, 0, &unused));
    show("state of hart 1", sbi(HSM, 2, 1, &value));
    show("it", value);
}

void main(void) {
    uint64_t unused;
    root[2] = word((void *)0x80000000, 0xef); /* 1 GiB, mapped to itself: V R W X G A D */
    root[0] = word(middle, 1);
    middle[0] = word(low, 1);
    low[1] = word(code, 0x5b);             /* V R X U A */
    low[2] = word(data, 0x17);             /* V R W U */
    low[3] = word(data, 0x53);             /* V R U A */
    low[4] = word(data, 0x59);             /* V X U A */
    low[5] = word((void *)0x4000000, 0xdf); /* V R W X U A D, below RAM */
    low[6] = word(data, 0xc7);             /* V R W A D */
    set_satp(8, 1, root);
    asm volatile("sfence.vma" ::: "memory");
    try_pages();
    try_modes();
    try_spaces();
    try_numbers();
    try_lr_and_sc();
    try_firmware();
    sbi(RESET, 0, 0, &unused);
}
