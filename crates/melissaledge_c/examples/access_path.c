/* The memory access path of an instruction-set simulator: fetch, load and store over a byte array of RAM in which the page tables
 * lie too. A TLB answers, else a walk, and what cannot be done is raised as a cause of scause. */
#include "melissaledge.h"

#include <inttypes.h>
#include <stdio.h>
#include <string.h>

#define RAM_BASE UINT64_C(0x80000000) /* a physical address, and its PPN */
#define RAM_PPN UINT64_C(0x80000)
#define FRAMES 8

static union {
    uint8_t bytes[FRAMES * 4096];
    uint64_t words[FRAMES * 512]; /* the library reads whole words: the array is aligned for them */
} ram;

struct hart {
    struct mle_tlb *tlb;
    uint64_t root_ppn;
    uint16_t asid;
    uint8_t mode;
};

/* Where the bytes of an access lie in RAM, or NULL with the cause of the exception. */
static uint8_t *at(struct hart *hart, uint64_t va, unsigned size, enum mle_access_kind kind, int *cause) {
    static const int misaligned[] = {0, 4, 6}, access_fault[] = {1, 5, 7};
    const struct mle_access access = {va, (uint8_t)kind, hart->mode, 0, 0};
    struct mle_answer answer;
    struct mle_entry entry;
    int status;
    if (va % size != 0) {
        *cause = misaligned[kind];
        return NULL;
    }
    status = mle_tlb_translate(hart->tlb, hart->asid, &access, &answer, &entry);
    if (status == MLE_MISS) {
        const struct mle_tables tables = {RAM_PPN, FRAMES, hart->root_ppn, MLE_SV39};
        status = mle_translate(&tables, ram.words, FRAMES * 512, &access, &answer);
        if (status == MLE_OK) {
            entry = mle_entry_found(hart->asid, &answer);
            mle_tlb_fill(hart->tlb, &entry);
        }
    }
    *cause = status == MLE_TRAP ? answer.cause : access_fault[kind];
    if (status != MLE_OK || answer.pa < RAM_BASE || answer.pa - RAM_BASE >= sizeof ram.bytes) return NULL;
    return ram.bytes + (answer.pa - RAM_BASE);
}

static void fetch(struct hart *hart, uint64_t va) {
    uint32_t word;
    int cause;
    const uint8_t *bytes = at(hart, va, sizeof word, MLE_FETCH, &cause);
    if (bytes == NULL) {
        printf("fetch 0x%" PRIx64 ": cause %d\n", va, cause);
        return;
    }
    memcpy(&word, bytes, sizeof word);
    printf("fetch 0x%" PRIx64 ": 0x%" PRIx32 "\n", va, word);
}

static void load(struct hart *hart, uint64_t va) {
    uint64_t word;
    int cause;
    const uint8_t *bytes = at(hart, va, sizeof word, MLE_LOAD, &cause);
    if (bytes == NULL) {
        printf("load 0x%" PRIx64 ": cause %d\n", va, cause);
        return;
    }
    memcpy(&word, bytes, sizeof word);
    printf("load 0x%" PRIx64 ": 0x%" PRIx64 "\n", va, word);
}

static void store(struct hart *hart, uint64_t va, uint64_t word) {
    int cause;
    uint8_t *bytes = at(hart, va, sizeof word, MLE_STORE, &cause);
    if (bytes == NULL) {
        printf("store 0x%" PRIx64 ": cause %d\n", va, cause);
        return;
    }
    memcpy(bytes, &word, sizeof word);
    printf("store 0x%" PRIx64 ": ok\n", va);
}

/* Writes an entry: the word at an index of the frame that has this number in RAM. */
static void set(unsigned frame, unsigned index, uint64_t ppn, unsigned flags) {
    ram.words[frame * 512 + index] = ppn << 10 | flags;
}

int main(void) {
    struct hart hart = {MLE_TLB_CLOSED, RAM_PPN, 1, MLE_USER};
    const struct mle_fence everything = {0, 0, 0, 0};
    if (mle_tlb_open(16, &hart.tlb) != MLE_OK) return 1;
    set(0, 0, RAM_PPN + 1, 0x01); /* the root's pointer to the middle table */
    set(1, 0, RAM_PPN + 2, 0x01); /* its pointer to the low table */
    set(1, 1, RAM_PPN, 0xc7);     /* 2 MiB at 0x200000, all of RAM: V R W A D, for S-mode */
    set(2, 1, RAM_PPN + 4, 0x5b); /* 0x1000: V R X U A */
    set(2, 2, RAM_PPN + 5, 0xd7); /* 0x2000: V R W U A D */
    set(2, 3, RAM_PPN + 6, 0x53); /* 0x3000: V R U A */
    set(2, 4, 0x100, 0xd7);       /* 0x4000: V R W U A D, outside RAM */
    ram.bytes[4 * 4096] = 0x13;   /* an instruction that does nothing */
    fetch(&hart, 0x1000);
    store(&hart, 0x2008, UINT64_C(0x1122334455667788));
    load(&hart, 0x2008);
    store(&hart, 0x2001, 0);                  /* not aligned */
    fetch(&hart, 0x2000);                     /* no X */
    store(&hart, 0x3000, 0);                  /* no W */
    load(&hart, 0x4000);                      /* no memory there */
    load(&hart, 0x5000);                      /* not mapped */
    load(&hart, UINT64_C(0x4000000000));      /* not canonical */
    load(&hart, 0x200000);                    /* S-mode's */
    hart.mode = MLE_SUPERVISOR;
    load(&hart, 0x200000);                    /* the root's first word */
    hart.mode = MLE_USER;
    set(2, 2, 0, 0);
    load(&hart, 0x2008);                      /* unmapped, and still in the TLB */
    mle_tlb_fence(hart.tlb, MLE_SV39, &everything);
    load(&hart, 0x2008);
    return mle_tlb_close(&hart.tlb) == MLE_OK ? 0 : 1;
}
