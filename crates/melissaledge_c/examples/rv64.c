/* A small emulator of four RISC-V harts for a kernel in S-mode, whose memory path is the library's: each fetch, load and store goes
 * by the hart's TLB, of a size chosen at the start, and at a miss by a walk. The firmware (SBI) is here too.
 *
 *     rv64 KERNEL ENTRIES [eager]
 *
 * KERNEL is a flat file that begins at 0x80200000, ENTRIES a power of two up to 4096. The harts run by turns, so that each run is
 * the same. With eager a fence is followed by new walks for the pages that it dropped, as the manual lets a hart do (4.2.1). */
#include "melissaledge_names.h"
#include "rv64.h"

#include <stdio.h>
#include <stdlib.h>
#include <string.h>

#define RAM_BASE UINT64_C(0x80000000)
#define RAM_BYTES UINT64_C(0x4000000)
#define START UINT64_C(0x80200000)
#define TURN 50 /* instructions */

static uint64_t ram[RAM_BYTES / 8];
static struct hart harts[HARTS];
static int is_eager;

/* RAM, by physical addresses that are multiples of the size. */

static int is_ram(uint64_t pa) { return pa >= RAM_BASE && pa - RAM_BASE < RAM_BYTES; }

static uint64_t mask(unsigned size) { return UINT64_MAX >> (64 - 8 * size); }

uint64_t ram_load(uint64_t pa, unsigned size) { return ram[(pa - RAM_BASE) / 8] >> 8 * (pa % 8) & mask(size); }

/* A store takes away what any hart reserved there. */
void ram_store(uint64_t pa, unsigned size, uint64_t value) {
    uint64_t *word = &ram[(pa - RAM_BASE) / 8];
    const unsigned shift = 8 * (unsigned)(pa % 8);
    unsigned i;
    *word = (*word & ~(mask(size) << shift)) | (value & mask(size)) << shift;
    for (i = 0; i < HARTS; i++) {
        if (harts[i].reserved / 8 == pa / 8) harts[i].reserved = NOTHING;
    }
}

/* Translation. */

static uint32_t scheme_of(const struct hart *hart) { return (uint32_t)(hart->satp >> 60); }

static uint16_t asid_of(const struct hart *hart) { return (uint16_t)(hart->satp >> 44); }

/* What a call of the library answers. It refuses none that is made here but an opening, of a size that is none. */
static int32_t expect(int32_t status) {
    if (status < 0) {
        fprintf(stderr, "rv64: %s\n", mle_strerror(status));
        exit(2);
    }
    return status;
}

/* A walk over the tables in RAM, which sets A and D. In MODE Bare it has no words. */
static int32_t walk(const struct hart *hart, const struct mle_access *access, struct mle_leaf *leaf) {
    const uint64_t root = hart->satp & UINT64_C(0xfffffffffff);
    struct mle_walk walk;
    int32_t status = mle_walk_begin(scheme_of(hart), root, access, MLE_AD_SET, &walk, leaf);
    while (status == MLE_MORE) {
        status = is_ram(walk.pte_pa) ? mle_walk_word(&walk, ram_load(walk.pte_pa, 8), leaf) : mle_walk_no_word(&walk, leaf);
    }
    if (expect(status) == MLE_OK && leaf->set != 0) ram_store(leaf->pte_pa, 8, leaf->pte | leaf->set);
    return status;
}

/* A TLB does not test that an address is canonical in Sv39; a walk does, and fails then. */
static int is_canonical(uint32_t scheme, uint64_t va) {
    const uint64_t high = va >> (scheme == MLE_SV39 ? 38 : 47);
    return high == 0 || high == UINT64_MAX >> (scheme == MLE_SV39 ? 38 : 47);
}

/* Where an access leads: by the TLB, else by a walk, which fills it. An entry whose A or D is clear is replaced by a walk's. */
static int32_t translate(struct hart *hart, const struct mle_access *access, struct mle_answer *answer) {
    const uint32_t scheme = scheme_of(hart);
    const int has_tlb = scheme != MLE_BARE && is_canonical(scheme, access->va);
    struct mle_entry entry;
    struct mle_leaf leaf;
    int is_clear;
    int32_t status = has_tlb ? expect(mle_tlb_translate(hart->tlb, asid_of(hart), access, answer, &entry)) : MLE_MISS;
    is_clear = status == MLE_TRAP && (answer->why == MLE_WHY_NOT_ACCESSED || answer->why == MLE_WHY_NOT_DIRTY);
    if (status != MLE_MISS && !is_clear) return status;
    status = walk(hart, access, &leaf);
    *answer = leaf.answer;
    if (status == MLE_OK && has_tlb) {
        entry = mle_entry_found(asid_of(hart), answer);
        expect(is_clear ? mle_tlb_replace(hart->tlb, &entry) : mle_tlb_fill(hart->tlb, &entry));
    }
    return status;
}

int reach(struct hart *hart, enum mle_access_kind kind, uint64_t va, unsigned size, uint64_t *pa) {
    static const uint8_t misaligned[] = {MISALIGNED_FETCH, 4, 6}, access_fault[] = {1, 5, 7};
    const struct mle_access access = {va, (uint8_t)kind, hart->mode, (hart->sstatus & SSTATUS_SUM) != 0,
                                      (hart->sstatus & SSTATUS_MXR) != 0};
    struct mle_answer answer;
    if (va % size != 0) {
        trap(hart, misaligned[kind], va);
    } else if (translate(hart, &access, &answer) == MLE_TRAP) {
        trap(hart, answer.cause, va);
    } else if (!is_ram(answer.pa)) {
        trap(hart, access_fault[kind], va);
    } else {
        *pa = answer.pa;
        return 1;
    }
    return 0;
}

int load(struct hart *hart, enum mle_access_kind kind, uint64_t va, unsigned size, uint64_t *value) {
    uint64_t pa;
    if (!reach(hart, kind, va, size, &pa)) return 0;
    *value = ram_load(pa, size);
    return 1;
}

int store(struct hart *hart, uint64_t va, unsigned size, uint64_t value) {
    uint64_t pa;
    if (!reach(hart, MLE_STORE, va, size, &pa)) return 0;
    ram_store(pa, size, value);
    return 1;
}

/* Fences. In MODE Bare all that the address may mean is dropped. */

static uint32_t fence_scheme(const struct hart *hart) { return scheme_of(hart) == MLE_BARE ? MLE_SV48 : scheme_of(hart); }

/* Walks again, as if the hart guessed a load, for those of the entries that its TLB has no longer. */
static void walk_again(struct hart *hart, const struct mle_tlb *before) {
    struct mle_entry old, entry;
    struct mle_leaf leaf;
    uint32_t age;
    for (age = 0; mle_tlb_entry(before, age, &old) == MLE_OK; age++) {
        const struct mle_access access = {old.page_base, MLE_LOAD, MLE_SUPERVISOR, 1, 1};
        if (scheme_of(hart) == MLE_BARE || (!old.global && old.asid != asid_of(hart))) continue;
        if (mle_tlb_lookup(hart->tlb, old.asid, old.page_base, &entry) != MLE_MISS) continue;
        if (walk(hart, &access, &leaf) != MLE_OK) continue;
        entry = mle_entry_found(asid_of(hart), &leaf.answer);
        expect(mle_tlb_fill(hart->tlb, &entry));
    }
}

void fence(struct hart *hart, const struct mle_fence *fence) {
    const size_t bytes = MLE_TLB_BYTES(hart->tlb->capacity);
    struct mle_tlb *before = is_eager ? (struct mle_tlb *)malloc(bytes) : NULL;
    if (before != NULL) memcpy(before, hart->tlb, bytes);
    expect(mle_tlb_fence(hart->tlb, fence_scheme(hart), fence));
    if (before != NULL) walk_again(hart, before);
    free(before);
}

void trap(struct hart *hart, uint64_t cause, uint64_t value) {
    const uint64_t sie = hart->sstatus & SSTATUS_SIE;
    hart->sepc = hart->pc;
    hart->scause = cause;
    hart->stval = value;
    hart->sstatus &= ~(uint64_t)(SSTATUS_SIE | SSTATUS_SPIE | SSTATUS_SPP);
    if (sie != 0) hart->sstatus |= SSTATUS_SPIE;
    if (hart->mode == MLE_SUPERVISOR) hart->sstatus |= SSTATUS_SPP;
    hart->mode = MLE_SUPERVISOR;
    hart->next = hart->stvec;
}

/* The firmware (SBI): extension in a7, function in a6, arguments from a0 on; an error in a0 and a value in a1. */

enum { A0 = 10, A1, A2, A3, A4, A6 = 16, A7 };
enum { PUTCHAR = 1, IPI = 0x735049, RFENCE = 0x52464e43, HSM = 0x48534d, RESET = 0x53525354 };
enum { DONE = 0, NOT_SUPPORTED = -2, INVALID = -3, ALREADY = -6 };

/* A hart begins at an address with its number in a0 and an argument in a1, in MODE Bare. */
static void start(unsigned number, uint64_t pc, uint64_t argument) {
    struct hart *hart = &harts[number];
    hart->pc = hart->next = pc;
    hart->x[A0] = number;
    hart->x[A1] = argument;
    hart->satp = 0;
    hart->sstatus = 0;
    hart->mode = MLE_SUPERVISOR;
    hart->reserved = NOTHING;
    hart->is_started = 1;
}

/* Function 0 starts a hart, 1 stops the caller, 2 tells whether a hart is stopped. */
static int start_or_stop(struct hart *hart) {
    const uint64_t number = hart->x[A0];
    if (hart->x[A6] > 2) return NOT_SUPPORTED;
    if (hart->x[A6] != 1 && number >= HARTS) return INVALID;
    if (hart->x[A6] == 0) {
        if (harts[number].is_started) return ALREADY;
        start((unsigned)number, hart->x[A1], hart->x[A2]);
    } else if (hart->x[A6] == 1) {
        hart->is_started = 0;
    } else {
        hart->x[A1] = !harts[number].is_started;
    }
    return DONE;
}

/* What a hart is asked for by another: a fence of a range, page by page, or of all; under an ASID in function 2. */
static void fence_range(struct hart *hart, const struct hart *by) {
    const uint64_t first = by->x[A2] & ~UINT64_C(4095), size = by->x[A3];
    struct mle_fence range = {first, by->x[A4], 1, by->x[A6] == 2};
    uint64_t pages = (by->x[A2] - first + size + 4095) / 4096;
    if ((first == 0 && size == 0) || size > UINT64_C(0x100000)) {
        range.has_rs1 = 0;
        pages = 1;
    }
    for (; pages > 0; pages--, range.rs1 += 4096) fence(hart, &range);
}

/* An interrupt or a fence for each hart of a mask: bit i is hart base + i, and a base of all ones names all. */
static int for_harts(struct hart *hart) {
    const uint64_t named = hart->x[A0], base = hart->x[A1];
    unsigned i;
    if (hart->x[A6] > (hart->x[A7] == IPI ? 0u : 2u)) return NOT_SUPPORTED;
    if (base != UINT64_MAX && (base >= HARTS || named >> (HARTS - base) != 0)) return INVALID;
    for (i = 0; i < HARTS; i++) {
        if (base != UINT64_MAX && (i < base || (named >> (i - base) & 1) == 0)) continue;
        if (hart->x[A7] == IPI) {
            harts[i].sip |= SSIP;
        } else if (hart->x[A6] != 0) {
            fence_range(&harts[i], hart);
        }
    }
    return DONE;
}

void firmware(struct hart *hart) {
    int error = NOT_SUPPORTED;
    switch (hart->x[A7]) {
    case PUTCHAR:
        putchar((int)(hart->x[A0] & 0xff));
        hart->x[A0] = DONE;
        return; /* it has no value: a1 stays */
    case RESET: exit(fflush(stdout) == 0 ? 0 : 2);
    case HSM: error = start_or_stop(hart); break;
    case IPI:
    case RFENCE: error = for_harts(hart); break;
    }
    hart->x[A0] = (uint64_t)error;
}

/* A flat file into RAM. */
static int read_kernel(const char *name) {
    FILE *file = fopen(name, "rb");
    uint64_t at = START - RAM_BASE;
    int byte = 0;
    if (file == NULL) return 0;
    for (; at < RAM_BYTES && (byte = getc(file)) != EOF; at++) ram[at / 8] |= (uint64_t)byte << 8 * (at % 8);
    return fclose(file) == 0 && byte == EOF && at > START - RAM_BASE;
}

/* Turns of all harts, until one resets the machine, or all have stopped. */
static void run(void) {
    unsigned number, count, done;
    do {
        for (number = done = 0; number < HARTS; number++) {
            struct hart *hart = &harts[number];
            done += !hart->is_started;
            for (count = 0; count < TURN && hart->is_started; count++) {
                if (!step(hart)) break;
            }
        }
    } while (done < HARTS);
}

int main(int argc, char **argv) {
    unsigned i;
    is_eager = argc == 4 && strcmp(argv[3], "eager") == 0;
    if (argc != 3 + is_eager || !read_kernel(argv[1])) {
        fprintf(stderr, "rv64 KERNEL ENTRIES [eager]\n");
        return 2;
    }
    for (i = 0; i < HARTS; i++) expect(mle_tlb_open((uint32_t)strtoul(argv[2], NULL, 10), &harts[i].tlb));
    start(0, START, 0);
    run();
    return 1;
}
