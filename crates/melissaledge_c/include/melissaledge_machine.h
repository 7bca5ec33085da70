/*
 * melissaledge_machine.h: a machine of several RISC-V harts, for C. melissaledge.h includes it, and says what holds of all calls.
 */
#ifndef MELISSALEDGE_MACHINE_H
#define MELISSALEDGE_MACHINE_H

#include "melissaledge.h"

#ifdef __cplusplus
extern "C" {
#endif

/* A machine. Opaque. */
struct mle_machine {
    void *opaque;
};

#define MLE_MACHINE_CLOSED { NULL }

/* An address space that a machine is opened with. */
struct mle_space {
    uint16_t asid; /* different from those of the other spaces */
    uint8_t home;  /* the hart that alone stores to its tables, below the number of harts */
};

/*
 * What a machine is opened with, beside from 1 to 32 spaces and one number of spares for each hart. Window, spaces and spares
 * together are at most 512 table frames.
 */
struct mle_config {
    uint64_t base;     /* the PPN of the first table frame; those of all are below 2^44 */
    uint32_t scheme;   /* enum mle_scheme */
    uint16_t harts;    /* from 1 to 8 */
    uint16_t window;   /* how many of the last slots of each root are the kernel's, from 1 to 4 */
    uint16_t capacity; /* of each mailbox, from 1 to 64 */
};

/* What a hart does in one step: docs/PROTOCOL.md has the rules. */
enum mle_event_kind {
    MLE_EVENT_BEGIN = 0,       /* access: the TLB answers it, or a walk begins */
    MLE_EVENT_LOAD = 1,        /* the walk loads its next word */
    MLE_EVENT_MAP = 2,         /* page, space or all, ppn, flags: makes the store that is due next to map the page */
    MLE_EVENT_UNMAP = 3,       /* page, space or all, named: clears the leaf and opens a ticket */
    MLE_EVENT_PROTECT = 4,     /* page, space or all, flags, named: changes the leaf's flags and opens a ticket */
    MLE_EVENT_FLUSH = 5,       /* space or all, named: opens a ticket with no store */
    MLE_EVENT_SWITCH = 6,      /* space: the hart goes there; the TLB stays */
    MLE_EVENT_FENCE = 7,       /* rs1, rs2: SFENCE.VMA on the hart's own TLB */
    MLE_EVENT_POST = 8,        /* ticket, other: puts the ticket's request into the mailbox to that hart */
    MLE_EVENT_TAKE = 9,        /* other: takes the oldest request from that hart, and serves it */
    MLE_EVENT_SERVE_FENCE = 10,/* drops what the request names that the hart serves */
    MLE_EVENT_ACK = 11,        /* acknowledges it */
    MLE_EVENT_ACK_SELF = 12,   /* ticket: serves an own ticket's request on the own TLB */
    MLE_EVENT_COLLECT = 13,    /* ticket, other: collects that hart's acknowledgement if it is there */
    MLE_EVENT_FINISH = 14,     /* ticket: frees its number, once all named harts are collected */
    MLE_EVENT_CLOSE = 15,      /* other: closes the mailbox to that hart */
    MLE_EVENT_RETIRE = 16,     /* space: retires it, and opens a ticket that names every hart */
    MLE_EVENT_RECLAIM = 17,    /* space: gives a retired one's tables back */
    MLE_EVENT_CREATE = 18      /* space, asid: makes a free one live */
};

/* One step of one hart. A field that the kind does not name is not read. */
struct mle_event {
    struct mle_access access;
    uint64_t page_base;
    uint64_t page_bytes;
    uint64_t ppn;
    uint64_t rs1;
    uint64_t rs2;
    uint32_t ticket;
    uint16_t asid;
    uint8_t kind;    /* enum mle_event_kind */
    uint8_t hart;    /* who makes the step, from 0 */
    uint8_t other;
    uint8_t space;
    uint8_t all;     /* flag: for pages, the kernel's window in place of the space; for a flush, everything */
    uint8_t flags;
    uint8_t named;   /* a set of harts, bit h for hart h */
    uint8_t has_rs1; /* flag: clear if rs1 is the register x0 */
    uint8_t has_rs2; /* flag: clear if rs2 is the register x0 */
};

enum mle_reply_kind {
    MLE_REPLY_HIT = 0,     /* value: the physical address, from the TLB */
    MLE_REPLY_TRAP = 1,    /* cause, why */
    MLE_REPLY_MORE = 2,    /* the walk goes on with the next load */
    MLE_REPLY_FILLED = 3,  /* value: the physical address; the TLB holds the leaf now */
    MLE_REPLY_TABLE = 4,   /* value: the PPN of a new table, whose pointer was stored */
    MLE_REPLY_LEAF = 5,    /* the leaf was stored */
    MLE_REPLY_OPENED = 6,  /* value: the ticket */
    MLE_REPLY_OK = 7,      /* done, with nothing to tell */
    MLE_REPLY_TAKEN = 8,   /* value: the sender's ticket; what: what to drop */
    MLE_REPLY_DONE = 9,    /* every named hart of the ticket is collected */
    MLE_REPLY_WAITING = 10,/* value: the named harts that are not collected, bit h for hart h */
    MLE_REPLY_REFUSED = 11 /* refusal: nothing changed */
};

/* Why the machine refuses a step: of several the first in the order of docs/PROTOCOL.md. */
enum mle_refusal {
    MLE_REFUSAL_NO_HART = 1,              /* no such hart, or a pair of the same hart twice */
    MLE_REFUSAL_NO_SPACE = 2,             /* no such space, or a free one */
    MLE_REFUSAL_NOT_HOME = 3,             /* another hart stores to these tables */
    MLE_REFUSAL_WRONG_HALF = 4,           /* the page is none of this half of the address space, or none of the scheme */
    MLE_REFUSAL_BAD_FLAGS = 5,            /* no leaf has these flags, or G is set for a space or clear for the kernel */
    MLE_REFUSAL_PPN_TOO_LARGE = 6,        /* the PPN has more than 44 bits */
    MLE_REFUSAL_MISALIGNED = 7,           /* the PPN is no multiple of the page's size */
    MLE_REFUSAL_ALREADY_MAPPED = 8,       /* there is a leaf of this size already */
    MLE_REFUSAL_LEAF_IN_WAY = 9,          /* a larger page covers it */
    MLE_REFUSAL_TABLE_IN_WAY = 10,        /* a table of smaller pages stands there */
    MLE_REFUSAL_NO_FRAME = 11,            /* no spare frame of the home is left */
    MLE_REFUSAL_NOT_MAPPED = 12,          /* nothing is mapped there */
    MLE_REFUSAL_WRONG_SIZE = 13,          /* a page of another size is mapped there */
    MLE_REFUSAL_HOME_NOT_NAMED = 14,      /* an order has to name the hart that opens it */
    MLE_REFUSAL_NO_TICKET = 15,           /* all 64 tickets of the hart are open */
    MLE_REFUSAL_NOT_OPEN = 16,            /* the ticket is not open */
    MLE_REFUSAL_NOT_NAMED = 17,           /* the order does not name that hart */
    MLE_REFUSAL_ALREADY_POSTED = 18,      /* the order was posted to that hart before */
    MLE_REFUSAL_CLOSED = 19,              /* the mailbox is closed */
    MLE_REFUSAL_FULL = 20,                /* the mailbox has as many requests as it may hold */
    MLE_REFUSAL_EMPTY = 21,               /* no request waits */
    MLE_REFUSAL_WALKING = 22,             /* the hart is in the middle of a walk */
    MLE_REFUSAL_NOT_WALKING = 23,         /* the hart is in no walk */
    MLE_REFUSAL_SERVING = 24,             /* the hart took a request and has not acknowledged it */
    MLE_REFUSAL_NOT_SERVING = 25,         /* the hart serves no request */
    MLE_REFUSAL_NOT_FENCED = 26,          /* the hart has not fenced since it took the request */
    MLE_REFUSAL_NOT_DONE = 27,            /* a named hart is not collected */
    MLE_REFUSAL_RETIRING = 28,            /* the space is retiring */
    MLE_REFUSAL_IN_USE = 29,              /* a hart is in the space */
    MLE_REFUSAL_NOT_ACKED = 30,           /* a hart is not collected for the order that retired the space */
    MLE_REFUSAL_NOT_RETIRING = 31,        /* the space is live */
    MLE_REFUSAL_NOT_FREE = 32,            /* the space is live or retiring */
    MLE_REFUSAL_ASID_IN_USE = 33          /* another space has this ASID */
};

/* What a step is answered. Each field that the kind does not name is 0. */
struct mle_reply {
    uint64_t value;
    struct mle_what what;
    uint8_t kind;    /* enum mle_reply_kind */
    uint8_t cause;   /* as in struct mle_answer */
    uint8_t why;     /* enum mle_why */
    uint8_t refusal; /* enum mle_refusal */
};

/* What a hart does. Of a hart that does not walk, or does not serve, the fields that tell of it are 0. */
struct mle_hart {
    uint64_t va;          /* the address that it walks to */
    uint64_t table_ppn;   /* the table that the walk reads next */
    uint64_t entries;     /* how many entries its TLB has */
    struct mle_what what; /* what the request that it serves asks to drop */
    uint32_t ticket;      /* the sender's ticket of that request */
    uint16_t asid;        /* of its space */
    uint8_t space;        /* the space that it runs in */
    uint8_t is_walking;   /* 1 if it walks */
    uint8_t access;       /* enum mle_access_kind, of the access that it walks for */
    uint8_t level;        /* of the table that the walk reads next */
    uint8_t is_serving;   /* 1 if it serves a request */
    uint8_t sender;       /* the hart that sent the request */
    uint8_t has_fenced;   /* 1 if it has fenced for the request */
};

enum mle_phase { MLE_PHASE_LIVE = 0, MLE_PHASE_RETIRING = 1, MLE_PHASE_FREE = 2 };

/* An address space of a machine. */
struct mle_space_state {
    uint64_t root_ppn; /* its root table */
    uint16_t asid;     /* means nothing if it is free */
    uint8_t home;      /* the hart that alone stores to its tables */
    uint8_t phase;     /* enum mle_phase */
};

/* An open ticket. Sets of harts have bit h for hart h. */
struct mle_ticket {
    struct mle_what what; /* what the named harts are to drop */
    uint8_t named;
    uint8_t posted;       /* the harts to which it was posted */
    uint8_t acknowledged; /* those that have acknowledged it */
    uint8_t collected;    /* those whose acknowledgement is collected */
};

/* A mailbox. */
struct mle_mailbox {
    uint64_t capacity;    /* how many requests may be outstanding */
    uint64_t outstanding; /* how many are: accepted, and their acknowledgement not collected */
    uint8_t is_closed;    /* 1 if it is closed */
};

/* A request that waits in a mailbox. */
struct mle_request {
    struct mle_what what;
    uint32_t ticket; /* the sender's */
};

/* The functions of the library. They take no null. Call the functions mle_X below, which test for it. */
int32_t melissaledge_machine_open(const struct mle_config *, const struct mle_space *, size_t, const uint16_t *, size_t,
                                  struct mle_machine *);
int32_t melissaledge_machine_close(struct mle_machine *);
int32_t melissaledge_machine_step(struct mle_machine *, const struct mle_event *, struct mle_reply *);
int32_t melissaledge_machine_translates(struct mle_machine *, uint8_t, uint16_t, uint64_t);
int32_t melissaledge_machine_hart(struct mle_machine *, uint8_t, struct mle_hart *);
int32_t melissaledge_machine_entry(struct mle_machine *, uint8_t, uint32_t, struct mle_entry *);
int32_t melissaledge_machine_space(struct mle_machine *, uint8_t, struct mle_space_state *);
int32_t melissaledge_machine_ticket(struct mle_machine *, uint8_t, uint32_t, struct mle_ticket *);
int32_t melissaledge_machine_mailbox(struct mle_machine *, uint8_t, uint8_t, struct mle_mailbox *);
int32_t melissaledge_machine_request(struct mle_machine *, uint8_t, uint8_t, uint32_t, struct mle_request *);
int32_t melissaledge_machine_word(struct mle_machine *, uint64_t, uint16_t, uint64_t *);

/*
 * Opens a machine: all harts in space 0, empty TLBs, nothing mapped. spares has for each hart how many frames it has for new
 * tables. MLE_ERR_SCHEME; MLE_ERR_LAYOUT if there are more than 32 spaces or more than 8 spares; MLE_ERR_ALREADY_OPEN;
 * MLE_ERR_LAYOUT if another limit of struct mle_config or of struct mle_space is broken; MLE_ERR_NO_MEMORY.
 */
static inline int32_t mle_machine_open(const struct mle_config *config, const struct mle_space *spaces, size_t space_count,
                                       const uint16_t *spares, size_t spare_count, struct mle_machine *machine) {
    MLE_REFUSE_NULL(config);
    MLE_REFUSE_NULL(spaces);
    MLE_REFUSE_NULL(spares);
    MLE_REFUSE_NULL(machine);
    MLE_REFUSE_MISALIGNED(MLE_ADDRESS(config), sizeof(uint64_t));
    MLE_REFUSE_MISALIGNED(MLE_ADDRESS(spaces) | MLE_ADDRESS(spares), sizeof(uint16_t));
    MLE_REFUSE_MISALIGNED(MLE_ADDRESS(machine), sizeof(void *));
    return melissaledge_machine_open(config, spaces, space_count, spares, spare_count, machine);
}

/* Closes a machine and gives its memory back. MLE_ERR_NOT_OPEN, also at a second close. */
static inline int32_t mle_machine_close(struct mle_machine *machine) {
    MLE_REFUSE_NULL(machine);
    MLE_REFUSE_MISALIGNED(MLE_ADDRESS(machine), sizeof(void *));
    return melissaledge_machine_close(machine);
}

/*
 * Makes one step of one hart; reply tells what came of it, a refusal by the protocol too (MLE_REPLY_REFUSED). It takes no memory.
 *   MLE_OK        the step was made or refused, as reply says
 *   MLE_ERR_KIND, or of what the kind names MLE_ERR_ACCESS, MLE_ERR_MODE, MLE_ERR_PAGE; MLE_ERR_NOT_OPEN
 */
static inline int32_t mle_machine_step(struct mle_machine *machine, const struct mle_event *event, struct mle_reply *reply) {
    MLE_REFUSE_NULL(machine);
    MLE_REFUSE_NULL(event);
    MLE_REFUSE_NULL(reply);
    MLE_REFUSE_MISALIGNED(MLE_ADDRESS(machine), sizeof(void *));
    MLE_REFUSE_MISALIGNED(MLE_ADDRESS(event) | MLE_ADDRESS(reply), sizeof(uint64_t));
    return melissaledge_machine_step(machine, event, reply);
}

/* Whether the TLB of a hart translates an address for an ASID: 1, or 0, also if the address is not canonical in Sv48.
 * MLE_ERR_NOT_OPEN, MLE_ERR_HART. */
static inline int32_t mle_machine_translates(struct mle_machine *machine, uint8_t hart, uint16_t asid, uint64_t va) {
    MLE_REFUSE_NULL(machine);
    MLE_REFUSE_MISALIGNED(MLE_ADDRESS(machine), sizeof(void *));
    return melissaledge_machine_translates(machine, hart, asid, va);
}

/* The state of a machine: these calls change nothing but what the last pointer points to. */

/* What a hart does. MLE_ERR_NOT_OPEN, MLE_ERR_HART. */
static inline int32_t mle_machine_hart(struct mle_machine *machine, uint8_t hart, struct mle_hart *state) {
    MLE_REFUSE_NULL(machine);
    MLE_REFUSE_NULL(state);
    MLE_REFUSE_MISALIGNED(MLE_ADDRESS(machine), sizeof(void *));
    MLE_REFUSE_MISALIGNED(MLE_ADDRESS(state), sizeof(uint64_t));
    return melissaledge_machine_hart(machine, hart, state);
}

/* The entry of an age of a hart's TLB, the oldest at age 0. MLE_ERR_NOT_OPEN, MLE_ERR_HART, MLE_ERR_PLACE. */
static inline int32_t mle_machine_entry(struct mle_machine *machine, uint8_t hart, uint32_t age, struct mle_entry *entry) {
    MLE_REFUSE_NULL(machine);
    MLE_REFUSE_NULL(entry);
    MLE_REFUSE_MISALIGNED(MLE_ADDRESS(machine), sizeof(void *));
    MLE_REFUSE_MISALIGNED(MLE_ADDRESS(entry), sizeof(uint64_t));
    return melissaledge_machine_entry(machine, hart, age, entry);
}

/* An address space. MLE_ERR_NOT_OPEN, MLE_ERR_SPACE. */
static inline int32_t mle_machine_space(struct mle_machine *machine, uint8_t space, struct mle_space_state *state) {
    MLE_REFUSE_NULL(machine);
    MLE_REFUSE_NULL(state);
    MLE_REFUSE_MISALIGNED(MLE_ADDRESS(machine), sizeof(void *));
    MLE_REFUSE_MISALIGNED(MLE_ADDRESS(state), sizeof(uint64_t));
    return melissaledge_machine_space(machine, space, state);
}

/* An open ticket of a hart. MLE_ERR_NOT_OPEN, MLE_ERR_HART, MLE_ERR_TICKET. */
static inline int32_t mle_machine_ticket(struct mle_machine *machine, uint8_t hart, uint32_t ticket, struct mle_ticket *state) {
    MLE_REFUSE_NULL(machine);
    MLE_REFUSE_NULL(state);
    MLE_REFUSE_MISALIGNED(MLE_ADDRESS(machine), sizeof(void *));
    MLE_REFUSE_MISALIGNED(MLE_ADDRESS(state), sizeof(uint64_t));
    return melissaledge_machine_ticket(machine, hart, ticket, state);
}

/* The mailbox from one hart to another. MLE_ERR_NOT_OPEN, MLE_ERR_HART. */
static inline int32_t mle_machine_mailbox(struct mle_machine *machine, uint8_t sender, uint8_t receiver, struct mle_mailbox *state) {
    MLE_REFUSE_NULL(machine);
    MLE_REFUSE_NULL(state);
    MLE_REFUSE_MISALIGNED(MLE_ADDRESS(machine), sizeof(void *));
    MLE_REFUSE_MISALIGNED(MLE_ADDRESS(state), sizeof(uint64_t));
    return melissaledge_machine_mailbox(machine, sender, receiver, state);
}

/* The request that waits in a place of that mailbox, the oldest in place 0. MLE_ERR_NOT_OPEN, MLE_ERR_HART, MLE_ERR_PLACE. */
static inline int32_t mle_machine_request(struct mle_machine *machine, uint8_t sender, uint8_t receiver, uint32_t place, struct mle_request *request) {
    MLE_REFUSE_NULL(machine);
    MLE_REFUSE_NULL(request);
    MLE_REFUSE_MISALIGNED(MLE_ADDRESS(machine), sizeof(void *));
    MLE_REFUSE_MISALIGNED(MLE_ADDRESS(request), sizeof(uint64_t));
    return melissaledge_machine_request(machine, sender, receiver, place, request);
}

/* The word of a table by the PPN of its frame and its index below 512. MLE_ERR_NOT_OPEN, MLE_ERR_PLACE. */
static inline int32_t mle_machine_word(struct mle_machine *machine, uint64_t ppn, uint16_t index, uint64_t *word) {
    MLE_REFUSE_NULL(machine);
    MLE_REFUSE_NULL(word);
    MLE_REFUSE_MISALIGNED(MLE_ADDRESS(machine), sizeof(void *));
    MLE_REFUSE_MISALIGNED(MLE_ADDRESS(word), sizeof(uint64_t));
    return melissaledge_machine_word(machine, ppn, index, word);
}

#ifdef __cplusplus
}
#endif

#endif
