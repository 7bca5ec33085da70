/*
 * melissaledge_tlb.h: the TLB of a hart, for C. melissaledge.h includes it, and says what holds of all calls.
 */
#ifndef MELISSALEDGE_TLB_H
#define MELISSALEDGE_TLB_H

#include "melissaledge.h"

#ifdef __cplusplus
extern "C" {
#endif

/* The registers of an SFENCE.VMA (4.2.1). */
struct mle_fence {
    uint64_t rs1;    /* an address; if it is not canonical in the scheme, nothing is dropped */
    uint64_t rs2;    /* an ASID, of which the low 16 bits count */
    uint8_t has_rs1; /* flag: clear if rs1 is the register x0 */
    uint8_t has_rs2; /* flag: clear if rs2 is the register x0 */
};

/*
 * The TLB of one hart: these numbers, and behind them in the same memory its slots, twice as many as it holds entries, each a
 * struct mle_entry. The entries stand in count slots in a row, the oldest in the slot first. There is no pointer in it, so that it
 * can be copied by memcpy, kept, saved, and loaded byte by byte on a machine with the same order of bytes.
 *
 * Its entries are the last capacity of those that were added and not dropped since: of one too many the oldest goes. Nothing else
 * takes one out, whatever becomes of the page tables. A page may have several entries, of one size or more; the oldest answers.
 *
 * One TLB serves Sv39 and Sv48: only the address of a fence depends on the scheme (4.2.1), and mle_tlb_fence takes it.
 */
struct mle_tlb {
    uint64_t first;    /* the slot of the oldest entry, from 0 */
    uint32_t capacity; /* how many entries it holds at most: a power of two from 1 to 4096 */
    uint32_t count;    /* how many there are */
};

/* How many bytes a TLB of this many entries has. */
#define MLE_TLB_BYTES(entries) (sizeof(struct mle_tlb) + 2 * (size_t)(entries) * sizeof(struct mle_entry))

#define MLE_TLB_CLOSED NULL

/* The functions of the library. They take no null. Call the functions mle_X below, which test for it. */
int32_t melissaledge_tlb_init(uint32_t, struct mle_tlb *, struct mle_entry *, size_t);
int32_t melissaledge_tlb_check(const struct mle_tlb *, const struct mle_entry *, size_t);
int32_t melissaledge_tlb_count(const struct mle_tlb *, const struct mle_entry *, size_t);
int32_t melissaledge_tlb_entry(const struct mle_tlb *, const struct mle_entry *, size_t, uint32_t, struct mle_entry *);
int32_t melissaledge_tlb_lookup(const struct mle_tlb *, const struct mle_entry *, size_t, uint16_t, uint64_t, struct mle_entry *);
int32_t melissaledge_tlb_translate(const struct mle_tlb *, const struct mle_entry *, size_t, uint16_t, const struct mle_access *,
                                   struct mle_answer *, struct mle_entry *);
int32_t melissaledge_tlb_fill(struct mle_tlb *, struct mle_entry *, size_t, const struct mle_entry *);
int32_t melissaledge_tlb_replace(struct mle_tlb *, struct mle_entry *, size_t, const struct mle_entry *);
int32_t melissaledge_tlb_fence(struct mle_tlb *, struct mle_entry *, size_t, uint32_t, const struct mle_fence *);
int32_t melissaledge_tlb_serve(struct mle_tlb *, struct mle_entry *, size_t, const struct mle_what *);
int32_t melissaledge_entry_translate(const struct mle_entry *, const struct mle_access *, struct mle_answer *);

/* The slots of a TLB, behind its numbers, and how many they are. */
#define MLE_TLB_SLOTS(tlb) ((struct mle_entry *)(void *)((tlb) + 1))
#define MLE_TLB_SLOTS_READ(tlb) ((const struct mle_entry *)(const void *)((tlb) + 1))
#define MLE_TLB_SLOT_COUNT(tlb) (2 * (size_t)(tlb)->capacity)
#define MLE_TLB_CAN_HOLD(entries) ((entries) != 0 && (entries) <= 4096 && ((entries) & ((entries) - 1)) == 0)

/*
 * Makes an empty TLB that holds this many entries, in memory of the caller's, aligned as for uint64_t. What was there is lost.
 * The TLB is the memory, as a struct mle_tlb *.
 *   MLE_ERR_TLB     entries is no power of two from 1 to 4096
 *   MLE_ERR_LENGTH  bytes is less than MLE_TLB_BYTES(entries)
 */
static inline int32_t mle_tlb_init(void *memory, size_t bytes, uint32_t entries) {
    struct mle_tlb *tlb = (struct mle_tlb *)memory;
    MLE_REFUSE_NULL(tlb);
    MLE_REFUSE_MISALIGNED(MLE_ADDRESS(tlb), sizeof(uint64_t));
    if (!MLE_TLB_CAN_HOLD(entries)) return MLE_ERR_TLB;
    if (bytes < MLE_TLB_BYTES(entries)) return MLE_ERR_LENGTH;
    memset(memory, 0, MLE_TLB_BYTES(entries));
    return melissaledge_tlb_init(entries, tlb, MLE_TLB_SLOTS(tlb), 2 * (size_t)entries);
}

/* The same in memory from calloc: *tlb is the TLB. MLE_ERR_ALREADY_OPEN if *tlb is not null; MLE_ERR_TLB; MLE_ERR_NO_MEMORY. */
static inline int32_t mle_tlb_open(uint32_t entries, struct mle_tlb **tlb) {
    struct mle_tlb *memory;
    MLE_REFUSE_NULL(tlb);
    MLE_REFUSE_MISALIGNED(MLE_ADDRESS(tlb), sizeof(void *));
    if (*tlb != NULL) return MLE_ERR_ALREADY_OPEN;
    if (!MLE_TLB_CAN_HOLD(entries)) return MLE_ERR_TLB;
    memory = (struct mle_tlb *)calloc(1, MLE_TLB_BYTES(entries));
    if (memory == NULL) return MLE_ERR_NO_MEMORY;
    *tlb = memory;
    return melissaledge_tlb_init(entries, memory, MLE_TLB_SLOTS(memory), 2 * (size_t)entries);
}

/* Gives the memory of a TLB that mle_tlb_open made back, and sets *tlb to null. MLE_ERR_NOT_OPEN if *tlb is null. */
static inline int32_t mle_tlb_close(struct mle_tlb **tlb) {
    MLE_REFUSE_NULL(tlb);
    MLE_REFUSE_MISALIGNED(MLE_ADDRESS(tlb), sizeof(void *));
    if (*tlb == NULL) return MLE_ERR_NOT_OPEN;
    free(*tlb);
    *tlb = NULL;
    return MLE_OK;
}

/*
 * Whether bytes that come from elsewhere, as from a file, are a TLB each of whose entries is of a page: then the memory may be used
 * as one. It changes nothing.
 *   MLE_ERR_LENGTH  there are fewer than sizeof(struct mle_tlb) bytes, or than MLE_TLB_BYTES of its capacity
 *   MLE_ERR_TLB
 */
static inline int32_t mle_tlb_check(const void *memory, size_t bytes) {
    const struct mle_tlb *tlb = (const struct mle_tlb *)memory;
    MLE_REFUSE_NULL(tlb);
    MLE_REFUSE_MISALIGNED(MLE_ADDRESS(tlb), sizeof(uint64_t));
    if (bytes < sizeof *tlb || bytes < MLE_TLB_BYTES(tlb->capacity)) return MLE_ERR_LENGTH;
    return melissaledge_tlb_check(tlb, MLE_TLB_SLOTS_READ(tlb), MLE_TLB_SLOT_COUNT(tlb));
}

/* For the functions below: MLE_ERR_TLB, behind other errors, if the numbers of a TLB are none: capacity no power of two from 1 to
 * 4096, or more entries than that, or slots that are not there. Entries of no page are tested by mle_tlb_check alone; below they
 * match no address, and stay until they are the oldest of one entry too many. */

/* How many entries there are. MLE_ERR_TLB. */
static inline int32_t mle_tlb_count(const struct mle_tlb *tlb) {
    MLE_REFUSE_NULL(tlb);
    MLE_REFUSE_MISALIGNED(MLE_ADDRESS(tlb), sizeof(uint64_t));
    return melissaledge_tlb_count(tlb, MLE_TLB_SLOTS_READ(tlb), MLE_TLB_SLOT_COUNT(tlb));
}

/*
 * The entry of an age: 0 is the oldest, and the youngest is mle_tlb_count - 1.
 *   MLE_OK        entry has it
 *   MLE_MISS      there are fewer; entry is unchanged
 *   MLE_ERR_TLB
 */
static inline int32_t mle_tlb_entry(const struct mle_tlb *tlb, uint32_t age, struct mle_entry *entry) {
    MLE_REFUSE_NULL(tlb);
    MLE_REFUSE_NULL(entry);
    MLE_REFUSE_MISALIGNED(MLE_ADDRESS(tlb) | MLE_ADDRESS(entry), sizeof(uint64_t));
    return melissaledge_tlb_entry(tlb, MLE_TLB_SLOTS_READ(tlb), MLE_TLB_SLOT_COUNT(tlb), age, entry);
}

/*
 * The oldest entry whose page has the address and that is global or of the ASID.
 *   MLE_OK        entry has it
 *   MLE_MISS      there is none, as of an address that is not canonical in Sv48; entry is unchanged
 *   MLE_ERR_TLB
 */
static inline int32_t mle_tlb_lookup(const struct mle_tlb *tlb, uint16_t asid, uint64_t va, struct mle_entry *entry) {
    MLE_REFUSE_NULL(tlb);
    MLE_REFUSE_NULL(entry);
    MLE_REFUSE_MISALIGNED(MLE_ADDRESS(tlb) | MLE_ADDRESS(entry), sizeof(uint64_t));
    return melissaledge_tlb_lookup(tlb, MLE_TLB_SLOTS_READ(tlb), MLE_TLB_SLOT_COUNT(tlb), asid, va, entry);
}

/*
 * What that entry answers to an access, with no look at the tables.
 *   MLE_OK        answer has the translation, and entry the entry
 *   MLE_TRAP      a page fault: MLE_WHY_DENIED, MLE_WHY_NOT_ACCESSED or MLE_WHY_NOT_DIRTY; entry has the entry
 *   MLE_MISS      there is none; answer and entry are unchanged
 *   MLE_ERR_ACCESS, MLE_ERR_MODE, MLE_ERR_TLB, in this order
 * That the address is canonical in Sv39 is not tested: a hart tests it before it looks into its TLB.
 */
static inline int32_t mle_tlb_translate(const struct mle_tlb *tlb, uint16_t asid, const struct mle_access *access,
                                        struct mle_answer *answer, struct mle_entry *entry) {
    MLE_REFUSE_NULL(tlb);
    MLE_REFUSE_NULL(access);
    MLE_REFUSE_NULL(answer);
    MLE_REFUSE_NULL(entry);
    MLE_REFUSE_MISALIGNED(MLE_ADDRESS(tlb) | MLE_ADDRESS(access) | MLE_ADDRESS(answer) | MLE_ADDRESS(entry), sizeof(uint64_t));
    return melissaledge_tlb_translate(tlb, MLE_TLB_SLOTS_READ(tlb), MLE_TLB_SLOT_COUNT(tlb), asid, access, answer, entry);
}

/* Adds an entry as the youngest; of one too many the oldest goes. MLE_ERR_PAGE, MLE_ERR_TLB. */
static inline int32_t mle_tlb_fill(struct mle_tlb *tlb, const struct mle_entry *entry) {
    MLE_REFUSE_NULL(tlb);
    MLE_REFUSE_NULL(entry);
    MLE_REFUSE_MISALIGNED(MLE_ADDRESS(tlb) | MLE_ADDRESS(entry), sizeof(uint64_t));
    return melissaledge_tlb_fill(tlb, MLE_TLB_SLOTS(tlb), MLE_TLB_SLOT_COUNT(tlb), entry);
}

/* Drops each entry that overlaps the new one's page and is global or of its ASID (of any, if the new one is global), and adds it as
 * the youngest; of one too many the oldest goes. How many it dropped for the new one, 0 or more. MLE_ERR_PAGE, MLE_ERR_TLB. */
static inline int32_t mle_tlb_replace(struct mle_tlb *tlb, const struct mle_entry *entry) {
    MLE_REFUSE_NULL(tlb);
    MLE_REFUSE_NULL(entry);
    MLE_REFUSE_MISALIGNED(MLE_ADDRESS(tlb) | MLE_ADDRESS(entry), sizeof(uint64_t));
    return melissaledge_tlb_replace(tlb, MLE_TLB_SLOTS(tlb), MLE_TLB_SLOT_COUNT(tlb), entry);
}

/*
 * SFENCE.VMA (4.2.1) of a hart whose satp has this MODE: how many entries it dropped, 0 or more. An address in rs1 that is not
 * canonical in the scheme is none, and then nothing is dropped. Without rs1 the scheme makes no difference. In MODE Bare, where the
 * manual does not say which addresses are valid, MLE_SV48 drops the most. MLE_ERR_SCHEME, MLE_ERR_TLB.
 */
static inline int32_t mle_tlb_fence(struct mle_tlb *tlb, uint32_t scheme, const struct mle_fence *fence) {
    MLE_REFUSE_NULL(tlb);
    MLE_REFUSE_NULL(fence);
    MLE_REFUSE_MISALIGNED(MLE_ADDRESS(tlb) | MLE_ADDRESS(fence), sizeof(uint64_t));
    return melissaledge_tlb_fence(tlb, MLE_TLB_SLOTS(tlb), MLE_TLB_SLOT_COUNT(tlb), scheme, fence);
}

/* For a page drops each entry whose page overlaps that one, with an ASID only those of it that are not global; for a space those
 * of its ASID that are not global; else all: how many it dropped, 0 or more. MLE_ERR_PAGE or MLE_ERR_KIND, MLE_ERR_TLB. */
static inline int32_t mle_tlb_serve(struct mle_tlb *tlb, const struct mle_what *what) {
    MLE_REFUSE_NULL(tlb);
    MLE_REFUSE_NULL(what);
    MLE_REFUSE_MISALIGNED(MLE_ADDRESS(tlb) | MLE_ADDRESS(what), sizeof(uint64_t));
    return melissaledge_tlb_serve(tlb, MLE_TLB_SLOTS(tlb), MLE_TLB_SLOT_COUNT(tlb), what);
}

/*
 * What an entry answers to an access of an address of its page, with no look at the tables.
 *   MLE_OK        answer has the translation
 *   MLE_TRAP      a page fault: MLE_WHY_DENIED, MLE_WHY_NOT_ACCESSED or MLE_WHY_NOT_DIRTY
 *   MLE_ERR_PAGE, MLE_ERR_ACCESS, MLE_ERR_MODE, MLE_ERR_ADDRESS, in this order
 * That the address is one of the page is not tested: mle_tlb_lookup gives an entry of which it is.
 */
static inline int32_t mle_entry_translate(const struct mle_entry *entry, const struct mle_access *access,
                                          struct mle_answer *answer) {
    MLE_REFUSE_NULL(entry);
    MLE_REFUSE_NULL(access);
    MLE_REFUSE_NULL(answer);
    MLE_REFUSE_MISALIGNED(MLE_ADDRESS(entry) | MLE_ADDRESS(access) | MLE_ADDRESS(answer), sizeof(uint64_t));
    return melissaledge_entry_translate(entry, access, answer);
}

/* The entry of a translation that was found in the address space of an ASID. It tests nothing: answer is that of an MLE_OK. */
static inline struct mle_entry mle_entry_found(uint16_t asid, const struct mle_answer *answer) {
    struct mle_entry entry;
    entry.page_base = answer->page_base;
    entry.page_bytes = answer->page_bytes;
    entry.ppn = answer->ppn;
    entry.asid = asid;
    entry.flags = answer->flags;
    entry.global = answer->global;
    return entry;
}

#ifdef __cplusplus
}
#endif

#endif
