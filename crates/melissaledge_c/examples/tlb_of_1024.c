/* A mistake of a kernel that a TLB of 16 entries hides, and one of 1,024 shows: it unmaps a page, gives its frame away, and makes no
 * SFENCE.VMA. Where as many other pages are loaded from as the TLB holds, the page is walked for again, and traps. Else it is still
 * answered, with what another process wrote. Then the TLB is copied as bytes, and one of them is spoilt. */
#include "melissaledge.h"

#include <inttypes.h>
#include <stdio.h>

#define RAM_PPN UINT64_C(0x80000)
#define FRAMES 5

static uint64_t words[FRAMES * 512];

static const struct mle_tables tables = {RAM_PPN, FRAMES, RAM_PPN, MLE_SV39};

/* Loads a word as address space 1 in U-mode, by the TLB, else by a walk: 0, or the cause of the exception. */
static int load(struct mle_tlb *tlb, uint64_t va, uint64_t *word) {
    const struct mle_access access = {va, MLE_LOAD, MLE_USER, 0, 0};
    struct mle_answer answer;
    struct mle_entry entry;
    int32_t status = mle_tlb_translate(tlb, 1, &access, &answer, &entry);
    if (status == MLE_MISS) {
        status = mle_translate(&tables, words, FRAMES * 512, &access, &answer);
        if (status == MLE_OK) {
            entry = mle_entry_found(1, &answer);
            mle_tlb_fill(tlb, &entry);
        }
    }
    if (status != MLE_OK) return answer.cause;
    *word = words[(answer.pa - (RAM_PPN << 12)) / 8];
    return 0;
}

/* The run with a TLB of so many entries, with so many other pages. */
static int run(uint32_t entries, unsigned others, struct mle_tlb **tlb) {
    const struct mle_fence page = {0x1000, 0, 1, 0};
    uint64_t before = 0, after = 0, word;
    unsigned index;
    int cause;
    if (mle_tlb_open(entries, tlb) != MLE_OK) return 1;
    words[0] = (RAM_PPN + 1) << 10 | 0x01;       /* the root's pointer to the middle table */
    words[512] = (RAM_PPN + 2) << 10 | 0x01;     /* its pointer to the low table */
    words[1024 + 1] = (RAM_PPN + 3) << 10 | 0xd3; /* 0x1000: V R U A D */
    for (index = 2; index < 100; index++) words[1024 + index] = (RAM_PPN + 4) << 10 | 0xd3;
    words[3 * 512] = 0x1111;
    if (load(*tlb, 0x1000, &before) != 0) return 1;
    words[1024 + 1] = 0;     /* the page is unmapped */
    words[3 * 512] = 0x2222; /* the frame is another process's, which writes to it */
    for (index = 2; index < 2 + others; index++) {
        if (load(*tlb, (uint64_t)index << 12, &word) != 0) return 1;
    }
    cause = load(*tlb, 0x1000, &after);
    printf("%" PRIu32 " entries, %u other pages: 0x%" PRIx64 ", then ", entries, others, before);
    if (cause != 0) printf("cause %d", cause);
    else printf("0x%" PRIx64, after);
    printf("; the fence drops %d", (int)mle_tlb_fence(*tlb, MLE_SV39, &page));
    printf(", and leaves %d\n", (int)mle_tlb_count(*tlb));
    return load(*tlb, 0x1000, &after) == 13 ? 0 : 1;
}

/* A copy of a TLB, as it could be saved to a file and loaded again. */
static int copied(const struct mle_tlb *tlb) {
    const size_t bytes = MLE_TLB_BYTES(tlb->capacity);
    struct mle_tlb *copy = (struct mle_tlb *)malloc(bytes);
    struct mle_entry oldest;
    int32_t whole, spoilt;
    if (copy == NULL) return 1;
    memcpy(copy, tlb, bytes);
    whole = mle_tlb_check(copy, bytes);
    if (mle_tlb_entry(copy, 0, &oldest) != MLE_OK) return 1;
    copy->count = 5000;
    spoilt = mle_tlb_check(copy, bytes);
    free(copy);
    printf("copy: %d, oldest 0x%" PRIx64 "; spoilt: %d\n", (int)whole, oldest.page_base, (int)spoilt);
    return 0;
}

int main(void) {
    struct mle_tlb *small = MLE_TLB_CLOSED, *full = MLE_TLB_CLOSED, *large = MLE_TLB_CLOSED;
    if (run(16, 15, &small) || run(16, 16, &full) || run(1024, 16, &large) || copied(large)) return 1;
    if (mle_tlb_close(&small) != MLE_OK || mle_tlb_close(&full) != MLE_OK) return 1;
    return mle_tlb_close(&large) == MLE_OK ? 0 : 1;
}
