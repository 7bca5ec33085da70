/*
 * melissaledge.h: Sv39 and Sv48 translation, a TLB, and a machine of several RISC-V harts, for C.
 *
 * Each function mle_X but mle_entry_found tests its pointers, and then calls the function melissaledge_X of the static library,
 * which is proved to meet its contract (crates/melissaledge_c). The library has no global state, prints nothing, ends no process,
 * and takes memory by malloc alone (mle_tlb_open, here, by calloc). Section numbers are those of the RISC-V privileged manual.
 *
 * WHAT A CALL ANSWERS
 *   0 or more: the call was made. 0 is success; MLE_TRAP, MLE_MISS, MLE_MORE and the yes of mle_machine_translates are positive, and
 *   a number of entries is what it is.
 *   Negative (enum mle_error): the call was refused. Nothing has changed then, neither a handle nor what an out pointer
 *   points to. Of several errors the first in the order that the function tells is answered.
 *
 * WHAT C HAS TO KEEP
 * The proofs end at the border. They hold if C keeps these, which nothing in the library can test:
 *   - Each pointer that is not null points to as many values of its type as the function says, initialized, aligned, and
 *     living until the call returns. (Null and misaligned pointers are refused by the functions of the headers but
 *     mle_entry_found, which the proofs do not cover; the functions melissaledge_X take no null.)
 *   - What an out pointer, or the pointer to a handle, points to overlaps nothing else that is passed, and no other thread
 *     touches it during the call. What another pointer points to does not change during the call.
 *   - A handle (struct mle_machine, and a pointer that mle_tlb_open sets) is set to MLE_MACHINE_CLOSED or MLE_TLB_CLOSED before its
 *     first use, and from then on changed by the functions of this header alone. It may be moved, but a copy of an open handle must
 *     not be closed or, of a machine, used.
 *   - A pointer to a TLB (struct mle_tlb) is that of MLE_TLB_BYTES(capacity) bytes, where capacity is the field of that name.
 *     mle_tlb_check tells of bytes that come from elsewhere whether they are a TLB.
 *   - malloc, calloc, realloc and free are of one allocator, and malloc aligns as the C standard says. No function is called from a
 *     signal handler, or in the forked child of a process with threads.
 *
 * WHO OWNS WHAT
 * The library keeps no pointer that it was passed. An open handle owns one block of memory; its close gives that back. A handle
 * that is never closed leaks it. A TLB in memory of the caller's needs no close.
 *
 * THREADS
 * Any thread may call any function, and calls on different handles or TLBs may run at once. On one machine there is one call at a
 * time, and it is opened, used and closed by one thread. Calls that take a const TLB only read it: they may run at once, but not
 * beside one that changes it.
 *
 * NUMBERS
 * Addresses are in bytes. A PPN is a physical address divided by 4096, and has 44 bits. A flag field is set if it is not 0.
 * The flags of a leaf stand where they stand in its word: R 0x02, W 0x04, X 0x08, U 0x10, G 0x20, A 0x40, D 0x80 (4.3.1).
 */
#ifndef MELISSALEDGE_H
#define MELISSALEDGE_H

#include <stddef.h>
#include <stdint.h>
#include <stdlib.h>
#include <string.h>

#ifdef __cplusplus
extern "C" {
#endif

/* The version of this header; mle_version tells that of the library. */
#define MLE_VERSION_MAJOR 0
#define MLE_VERSION_MINOR 2
#define MLE_VERSION_PATCH 0
#define MLE_VERSION "0.2.0"

struct mle_version {
    uint32_t major;
    uint32_t minor;
    uint32_t patch;
};

/* What a call answers that is made. */
enum mle_status {
    MLE_OK = 0,
    MLE_TRAP = 1, /* the access raises an exception */
    MLE_MISS = 2, /* no entry of the TLB matches */
    MLE_MORE = 3  /* the walk waits for its next word */
};

/* Why a call is refused. */
enum mle_error {
    MLE_ERR_NULL = -1,         /* a pointer is null */
    MLE_ERR_ALIGNMENT = -2,    /* a pointer is not aligned for its type */
    MLE_ERR_SCHEME = -3,       /* the scheme is neither MLE_SV39 nor MLE_SV48, nor MLE_BARE where that is let */
    MLE_ERR_ACCESS = -4,       /* the access is none of enum mle_access_kind */
    MLE_ERR_MODE = -5,         /* the privilege mode is none of enum mle_mode */
    MLE_ERR_MEMORY = -6,       /* there is no frame, or a frame has a PPN of 2^44 or more */
    MLE_ERR_LENGTH = -7,       /* there are not 512 words for each frame, or too few bytes for a TLB */
    MLE_ERR_ROOT = -8,         /* the PPN of the root table is 2^44 or more */
    MLE_ERR_NO_MEMORY = -9,    /* malloc has no memory */
    MLE_ERR_ALREADY_OPEN = -10,/* the handle is open */
    MLE_ERR_NOT_OPEN = -11,    /* the handle is closed */
    MLE_ERR_PAGE = -12,        /* the bytes are no page's size, or the base is no multiple of it or not canonical in Sv48 */
    MLE_ERR_KIND = -13,        /* the kind of an event or of a request is none */
    MLE_ERR_LAYOUT = -14,      /* the configuration breaks a limit */
    MLE_ERR_HART = -15,        /* the hart is not there */
    MLE_ERR_ADDRESS = -16,     /* the virtual address is not canonical in Sv48 */
    MLE_ERR_SPACE = -17,       /* the space is not there */
    MLE_ERR_TICKET = -18,      /* the ticket is not open */
    MLE_ERR_PLACE = -19,       /* no entry has this age, no request waits in this place, or no table has this word */
    MLE_ERR_AD = -20,          /* the policy for A and D is none of enum mle_ad */
    MLE_ERR_WALK = -21,        /* the numbers are no walk's */
    MLE_ERR_TLB = -22          /* memory has no TLB, or no TLB holds that many entries */
};

/*
 * Schemes, by MODE of satp (4.1.11). mle_translate and mle_walk_begin take MLE_BARE too: the physical address is the virtual one,
 * with no page fault. An address of 2^56 or more is an access fault with MLE_WHY_OUTSIDE: a physical address has 56 bits. What
 * else is answered is the page of 4 KiB of the address, with no flags, since there is no leaf: make no entry of a TLB of it.
 */
enum mle_scheme { MLE_BARE = 0, MLE_SV39 = 8, MLE_SV48 = 9 };

/* LR is a load. SC and each AMO are a store: they fault as stores do, and a page without W, or without D, permits none of them. */
enum mle_access_kind { MLE_FETCH = 0, MLE_LOAD = 1, MLE_STORE = 2 };

/* What a clear A, or a clear D at a store, does to an access that the page permits otherwise (4.3.2, step 7). */
enum mle_ad {
    MLE_AD_TRAP = 0, /* a page fault: MLE_WHY_NOT_ACCESSED, MLE_WHY_NOT_DIRTY (Svade) */
    MLE_AD_SET = 1   /* MLE_OK, and struct mle_leaf tells which bits the client has to set (Svadu) */
};

/* Privilege modes, by their encoding (1.2). */
enum mle_mode { MLE_USER = 0, MLE_SUPERVISOR = 1 };

/* Why an access raises an exception: the first that applies in this order. MLE_WHY_OUTSIDE alone is an access fault. */
enum mle_why {
    MLE_WHY_NONE = 0,
    MLE_WHY_NOT_CANONICAL = 1, /* the address is not canonical in the scheme: no word was read */
    MLE_WHY_OUTSIDE = 2,       /* a word of a table lies outside memory; in Bare the address is 2^56 or more */
    MLE_WHY_INVALID = 3,       /* V is clear */
    MLE_WHY_RESERVED = 4,      /* the word is one that the manual reserves */
    MLE_WHY_TOO_DEEP = 5,      /* there is a pointer at level 0 */
    MLE_WHY_DENIED = 6,        /* the leaf's flags do not permit the access */
    MLE_WHY_MISALIGNED = 7,    /* a superpage whose PPN is no multiple of its size */
    MLE_WHY_NOT_ACCESSED = 8,  /* A is clear: no call of this library sets it */
    MLE_WHY_NOT_DIRTY = 9      /* D is clear and the access is a store: no call of this library sets it */
};

/* Tables in a flat memory: frames of 4096 bytes, one behind the other. */
struct mle_tables {
    uint64_t base_ppn; /* the PPN of the first frame */
    uint64_t frames;   /* how many there are, at least 1; base_ppn + frames is at most 2^44 */
    uint64_t root_ppn; /* the PPN of the root table, below 2^44; outside the frames it leads to MLE_WHY_OUTSIDE */
    uint32_t scheme;   /* enum mle_scheme; with MLE_BARE nothing else here is read */
};

/* An access. */
struct mle_access {
    uint64_t va;    /* the virtual address, canonical or not */
    uint8_t access; /* enum mle_access_kind */
    uint8_t mode;   /* enum mle_mode */
    uint8_t sum;    /* flag: SUM of sstatus, S-mode may load from and store to pages with U */
    uint8_t mxr;    /* flag: MXR of sstatus, pages with X may be loaded from */
};

/* What a translation answers. With MLE_OK cause and why are 0; with MLE_TRAP all but these two is 0. */
struct mle_answer {
    uint64_t pa;         /* the physical address, below 2^56 */
    uint64_t page_base;  /* the first virtual address of the page */
    uint64_t page_bytes; /* its size: 4 KiB, 2 MiB, 1 GiB or, in Sv48, 512 GiB */
    uint64_t ppn;        /* the leaf's PPN */
    uint8_t flags;       /* the leaf's flags */
    uint8_t global;      /* 1 if the leaf or a pointer above it has G, else 0 */
    uint8_t cause;       /* as scause (4.1.8): 12, 13, 15 page fault, 1, 5, 7 access fault, of a fetch, load, store */
    uint8_t why;         /* enum mle_why */
};

/*
 * A walk between two loads: plain numbers, with no handle and no memory. It may be copied, kept, saved, and taken to another
 * thread. Its numbers are tested at each call.
 */
struct mle_walk {
    uint64_t pte_pa;    /* the physical address of the word that comes next, a multiple of 8; an answer, never read */
    uint64_t table_ppn; /* of the table that is read next, below 2^44 */
    struct mle_access access;
    uint8_t level;      /* of that table, at most 3; 0 is that of pages of 4 KiB */
    uint8_t global;     /* flag: a pointer so far has G */
    uint8_t ad;         /* enum mle_ad */
};

/* What a walk ends with. */
struct mle_leaf {
    struct mle_answer answer; /* as mle_translate has it; its flags are those with the bits of set */
    uint64_t pte_pa;          /* the physical address of the word that decided, also of a trap; 0 if no word did */
    uint64_t pte;             /* that word, as the walk was given it; 0 if no word decided */
    uint8_t level;            /* of its table; 0 if no word decided */
    uint8_t permits;          /* with MLE_OK: a set of accesses, bit 1 << MLE_LOAD and so on, as mle_entry_permits has it; else 0 */
    uint8_t set;              /* with MLE_AD_SET: what has to be set in the word before the page is used, A 0x40, D 0x80; else 0 */
};

/* An entry of a TLB. */
struct mle_entry {
    uint64_t page_base;
    uint64_t page_bytes;
    uint64_t ppn; /* the low 44 bits count */
    uint16_t asid;
    uint8_t flags;
    uint8_t global; /* flag: of all address spaces */
};

enum mle_what_kind { MLE_WHAT_PAGE = 0, MLE_WHAT_SPACE = 1, MLE_WHAT_ALL = 2 };

/* What a TLB is asked to drop. A field that the kind does not name is not read. */
struct mle_what {
    uint64_t page_base;  /* MLE_WHAT_PAGE */
    uint64_t page_bytes; /* MLE_WHAT_PAGE */
    uint16_t asid;       /* MLE_WHAT_SPACE, and MLE_WHAT_PAGE with has_asid: what is not global and of this address space */
    uint8_t has_asid;    /* MLE_WHAT_PAGE: flag; clear for all address spaces, global or not */
    uint8_t kind;        /* enum mle_what_kind */
};

/* The functions of the library. They take no null. Call the functions mle_X below, which test for it. */
int32_t melissaledge_version(struct mle_version *);
int32_t melissaledge_translate(const struct mle_tables *, const uint64_t *, size_t, const struct mle_access *,
                               struct mle_answer *);
int32_t melissaledge_walk_begin(uint32_t, uint64_t, const struct mle_access *, uint8_t, struct mle_walk *, struct mle_leaf *);
int32_t melissaledge_walk_word(struct mle_walk *, uint64_t, struct mle_leaf *);
int32_t melissaledge_walk_no_word(const struct mle_walk *, struct mle_leaf *);
int32_t melissaledge_entry_permits(const struct mle_entry *, uint8_t, uint8_t, uint8_t, uint8_t *);

/* For the functions below: they return where a pointer is null, and then where one is not aligned. */
#define MLE_REFUSE_NULL(pointer)                       \
    do {                                               \
        if ((pointer) == NULL) return MLE_ERR_NULL;    \
    } while (0)
#define MLE_REFUSE_MISALIGNED(addresses, alignment)                                \
    do {                                                                           \
        if ((addresses) % (uintptr_t)(alignment) != 0) return MLE_ERR_ALIGNMENT;   \
    } while (0)
#define MLE_ADDRESS(pointer) ((uintptr_t)(const void *)(pointer))

/*
 * Where an access leads over tables in a flat memory, walked word by word (4.3.2). words are those of the frames, 512 each.
 *   MLE_OK        answer has the translation
 *   MLE_TRAP      answer has the cause and the reason
 *   MLE_ERR_SCHEME, MLE_ERR_ACCESS, MLE_ERR_MODE, and but for MLE_BARE MLE_ERR_MEMORY, MLE_ERR_LENGTH, MLE_ERR_ROOT, in this order
 */
static inline int32_t mle_translate(const struct mle_tables *tables, const uint64_t *words, size_t word_count,
                                    const struct mle_access *access, struct mle_answer *answer) {
    MLE_REFUSE_NULL(tables);
    MLE_REFUSE_NULL(words);
    MLE_REFUSE_NULL(access);
    MLE_REFUSE_NULL(answer);
    MLE_REFUSE_MISALIGNED(MLE_ADDRESS(tables) | MLE_ADDRESS(words) | MLE_ADDRESS(access) | MLE_ADDRESS(answer), sizeof(uint64_t));
    return melissaledge_translate(tables, words, word_count, access, answer);
}

/*
 * A walk word by word (4.3.2), for a client that loads the words itself: from several blocks of memory, past PMP, through a second
 * stage, while other threads store. From the root table at a PPN below 2^44, with ad of enum mle_ad:
 *   MLE_MORE      walk waits for the word at walk->pte_pa; leaf is unchanged
 *   MLE_TRAP      leaf has the exception: the address is not canonical; walk is unchanged
 *   with MLE_BARE MLE_OK or MLE_TRAP, as at enum mle_scheme, and no walk; permits has all three accesses with MLE_OK
 *   MLE_ERR_SCHEME, MLE_ERR_ACCESS, MLE_ERR_MODE, MLE_ERR_AD, MLE_ERR_ROOT, in this order
 */
static inline int32_t mle_walk_begin(uint32_t scheme, uint64_t root_ppn, const struct mle_access *access, uint8_t ad,
                                     struct mle_walk *walk, struct mle_leaf *leaf) {
    MLE_REFUSE_NULL(access);
    MLE_REFUSE_NULL(walk);
    MLE_REFUSE_NULL(leaf);
    MLE_REFUSE_MISALIGNED(MLE_ADDRESS(access) | MLE_ADDRESS(walk) | MLE_ADDRESS(leaf), sizeof(uint64_t));
    return melissaledge_walk_begin(scheme, root_ppn, access, ad, walk, leaf);
}

/*
 * Goes on with the word at walk->pte_pa, which the client loaded at once, in one atomic load where others may store. There are at
 * most as many words as the scheme has levels.
 *   MLE_MORE      walk waits for the next word; leaf is unchanged
 *   MLE_OK        leaf has the translation; walk is unchanged. If leaf->set is not 0, the client has to set these bits in the word
 *                 by an atomic compare and swap, from leaf->pte to leaf->pte | leaf->set, before it uses the translation; if the
 *                 word is another by then, it begins the walk again, and if PMP or PMA refuses the store, mle_walk_no_word has
 *                 the access fault
 *   MLE_TRAP      leaf has the exception, and the word that decided; walk is unchanged
 *   MLE_ERR_ACCESS, MLE_ERR_MODE, MLE_ERR_AD, MLE_ERR_WALK, in this order
 */
static inline int32_t mle_walk_word(struct mle_walk *walk, uint64_t word, struct mle_leaf *leaf) {
    MLE_REFUSE_NULL(walk);
    MLE_REFUSE_NULL(leaf);
    MLE_REFUSE_MISALIGNED(MLE_ADDRESS(walk) | MLE_ADDRESS(leaf), sizeof(uint64_t));
    return melissaledge_walk_word(walk, word, leaf);
}

/*
 * Ends a walk whose word cannot be loaded: there is no memory there, or PMP, PMA or the bus refuses. MLE_TRAP, and leaf has the
 * access fault of the access, with MLE_WHY_OUTSIDE and no word; walk->pte_pa tells where the word was to be. Errors as above.
 */
static inline int32_t mle_walk_no_word(const struct mle_walk *walk, struct mle_leaf *leaf) {
    MLE_REFUSE_NULL(walk);
    MLE_REFUSE_NULL(leaf);
    MLE_REFUSE_MISALIGNED(MLE_ADDRESS(walk) | MLE_ADDRESS(leaf), sizeof(uint64_t));
    return melissaledge_walk_no_word(walk, leaf);
}

/*
 * Which accesses an entry permits in a privilege mode (enum mle_mode) with these flags of sstatus: a set, bit 1 << MLE_FETCH, bit
 * 1 << MLE_LOAD, bit 1 << MLE_STORE. Those are in it that go through with no trap and no bit to set: A must be set, and D for a
 * store, under either policy. Of the entry only the flags are read. MLE_ERR_MODE.
 */
static inline int32_t mle_entry_permits(const struct mle_entry *entry, uint8_t mode, uint8_t sum, uint8_t mxr, uint8_t *permits) {
    MLE_REFUSE_NULL(entry);
    MLE_REFUSE_NULL(permits);
    MLE_REFUSE_MISALIGNED(MLE_ADDRESS(entry), sizeof(uint64_t));
    return melissaledge_entry_permits(entry, mode, sum, mxr, permits);
}

/* The version of the library. */
static inline int32_t mle_version(struct mle_version *version) {
    MLE_REFUSE_NULL(version);
    MLE_REFUSE_MISALIGNED(MLE_ADDRESS(version), sizeof(uint32_t));
    return melissaledge_version(version);
}

#ifdef __cplusplus
}
#endif

#include "melissaledge_machine.h"
#include "melissaledge_tlb.h"

#endif
