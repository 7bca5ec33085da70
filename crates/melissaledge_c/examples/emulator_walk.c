/* The memory path of an emulator that loads the words of the tables itself: two blocks of RAM, a device without words, a thread for
 * each hart, A and D by compare and swap, and for each hart a table of its own of the pages that it met, with what they permit. */
#include "melissaledge.h"
#include "melissaledge_names.h"

#include <inttypes.h>
#include <pthread.h>
#include <stdio.h>

#define ROOT_PPN UINT64_C(0x80000)
#define HARTS 4
#define ROUNDS 1000
#define LINES 8

static uint64_t tables[4 * 512], data[4 * 512];
static const struct block {
    uint64_t base, bytes;
    uint64_t *words; /* NULL for a device */
} blocks[] = {
    {UINT64_C(0x10000000), 4096, NULL},
    {UINT64_C(0x80000000), sizeof tables, tables},
    {UINT64_C(0x100000000), sizeof data, data},
};

/* A page that a hart met: which accesses go through, and what is to be added to the address. */
struct line {
    uint64_t page, to_pa;
    unsigned permits;
};

struct hart {
    struct line lines[LINES];
    unsigned walks;
};

static uint64_t *disturbed; /* the word that another hart changes before the next swap */

/* The word of RAM at a physical address. */
static uint64_t *word_at(uint64_t pa) {
    size_t i;
    for (i = 0; i < sizeof blocks / sizeof blocks[0]; i++) {
        const struct block *block = &blocks[i];
        if (block->words != NULL && pa >= block->base && pa - block->base < block->bytes) {
            return block->words + (pa - block->base) / sizeof(uint64_t);
        }
    }
    return NULL;
}

/* One walk, each word by one atomic load. */
static int32_t walk_once(struct hart *hart, const struct mle_access *access, struct mle_leaf *leaf) {
    struct mle_walk walk;
    int32_t status = mle_walk_begin(MLE_SV39, ROOT_PPN, access, MLE_AD_SET, &walk, leaf);
    hart->walks++;
    while (status == MLE_MORE) {
        const uint64_t *word = word_at(walk.pte_pa);
        status = word == NULL ? mle_walk_no_word(&walk, leaf)
                              : mle_walk_word(&walk, __atomic_load_n(word, __ATOMIC_SEQ_CST), leaf);
    }
    return status;
}

/* Where an access leads: a walk sets A and D, and is made again if the word is another by then. */
static int32_t translate(struct hart *hart, const struct mle_access *access, struct mle_leaf *leaf) {
    for (;;) {
        int32_t status = walk_once(hart, access, leaf);
        uint64_t seen = leaf->pte;
        if (status != MLE_OK || leaf->set == 0) return status;
        if (disturbed != NULL) *disturbed |= 0x100, disturbed = NULL;
        if (__atomic_compare_exchange_n(word_at(leaf->pte_pa), &seen, seen | leaf->set, 0, __ATOMIC_SEQ_CST, __ATOMIC_SEQ_CST)) {
            return MLE_OK;
        }
    }
}

/* The physical address of an access by the hart's own table, which a walk fills; 0 if there is none. */
static uint64_t find(struct hart *hart, const struct mle_access *access) {
    const uint64_t page = access->va / 4096;
    struct line *line = &hart->lines[page % LINES];
    if (line->page != page || (line->permits >> access->access & 1) == 0) {
        struct mle_leaf leaf;
        if (translate(hart, access, &leaf) != MLE_OK) return 0;
        line->page = page;
        line->to_pa = leaf.answer.pa - access->va;
        line->permits = leaf.permits;
    }
    return access->va + line->to_pa;
}

/* What a hart does: it adds 1 to a word of each of two pages, over and over. */
static void *run(void *argument) {
    struct hart *hart = (struct hart *)argument;
    int i;
    for (i = 0; i < 2 * ROUNDS; i++) {
        const struct mle_access amo = {(uint64_t)(i % 2 == 0 ? 0x3008 : 0x4010), MLE_STORE, MLE_USER, 0, 0};
        uint64_t pa = find(hart, &amo);
        if (pa != 0) __atomic_fetch_add(word_at(pa), 1, __ATOMIC_SEQ_CST);
    }
    return NULL;
}

static void show(const char *name, enum mle_access_kind kind, uint64_t va) {
    const struct mle_access access = {va, (uint8_t)kind, MLE_USER, 0, 0};
    struct hart hart = {{{0, 0, 0}}, 0};
    struct mle_leaf leaf;
    printf("%s 0x%" PRIx64 ": ", name, va);
    if (translate(&hart, &access, &leaf) == MLE_OK) {
        printf("0x%" PRIx64 ", set 0x%x, permits %u, walks %u, word 0x%" PRIx64 " at 0x%" PRIx64 "\n", leaf.answer.pa,
               (unsigned)leaf.set, (unsigned)leaf.permits, hart.walks, *word_at(leaf.pte_pa), leaf.pte_pa);
    } else {
        printf("cause %u, %s, word 0x%" PRIx64 " at 0x%" PRIx64 "\n", (unsigned)leaf.answer.cause, mle_why_name(leaf.answer.why),
               leaf.pte, leaf.pte_pa);
    }
}

/* Writes a word of a table by its index among all: a PPN and flags. */
static void set(unsigned index, uint64_t ppn, unsigned flags) { tables[index] = ppn << 10 | flags; }

int main(void) {
    static struct hart harts[HARTS];
    pthread_t threads[HARTS];
    unsigned i;
    set(0, 0x80001, 0x01);         /* the root's pointer to the middle table, */
    set(1, 0x10000, 0x01);         /* one into the device, */
    set(2, 0x90000, 0x01);         /* and one to where there is nothing */
    set(512, 0x80002, 0x01);       /* the middle table's pointer to the low table */
    set(513, 0x100000, 0x1b);      /* 0x200000: 2 MiB with V R X U */
    for (i = 1; i <= 4; i++) set(1024 + i, 0xfffff + i, 0x17); /* 0x1000 to 0x4000: V R W U */
    set(1029, 0x10000, 0x17);      /* 0x5000: the device */
    set(1030, 0x100000, 0x13);     /* 0x6000: V R U */
    show("load", MLE_LOAD, 0x1008);
    show("store", MLE_STORE, 0x1008);
    show("load", MLE_LOAD, 0x1010);
    show("fetch", MLE_FETCH, 0x200004);
    show("load", MLE_LOAD, 0x5000);
    show("store", MLE_STORE, 0x6000);
    show("load", MLE_LOAD, 0x40000000);
    show("fetch", MLE_FETCH, UINT64_C(0x80000000));
    show("load", MLE_LOAD, UINT64_C(0x4000000000));
    disturbed = &tables[1026];
    show("store", MLE_STORE, 0x2000);
    for (i = 0; i < HARTS; i++) {
        if (pthread_create(&threads[i], NULL, run, &harts[i]) != 0) return 1;
    }
    for (i = 0; i < HARTS; i++) pthread_join(threads[i], NULL);
    printf("%" PRIu64 " and %" PRIu64 ", words 0x%" PRIx64 " and 0x%" PRIx64 "\n", data[1024 + 1], data[1536 + 2], tables[1027],
           tables[1028]);
    return 0;
}
