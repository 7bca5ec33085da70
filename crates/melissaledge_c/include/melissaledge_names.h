/*
 * melissaledge_names.h: texts for the numbers of melissaledge.h, to be printed. Each text lives as long as the program, and of a
 * number that is none the text says so.
 */
#ifndef MELISSALEDGE_NAMES_H
#define MELISSALEDGE_NAMES_H

#include "melissaledge.h"

#ifdef __cplusplus
extern "C" {
#endif

/* What a call answers: enum mle_status, or enum mle_error. */
static inline const char *mle_strerror(int32_t status) {
    switch (status) {
    case MLE_OK: return "done";
    case MLE_TRAP: return "the access raises an exception";
    case MLE_MISS: return "no entry of the TLB matches";
    case MLE_MORE: return "the walk waits for its next word";
    case MLE_ERR_NULL: return "a pointer is null";
    case MLE_ERR_ALIGNMENT: return "a pointer is not aligned";
    case MLE_ERR_SCHEME: return "no such scheme";
    case MLE_ERR_ACCESS: return "no such kind of access";
    case MLE_ERR_MODE: return "no such privilege mode";
    case MLE_ERR_MEMORY: return "no frame, or a PPN of more than 44 bits";
    case MLE_ERR_LENGTH: return "not 512 words for each frame";
    case MLE_ERR_ROOT: return "the root's PPN has more than 44 bits";
    case MLE_ERR_NO_MEMORY: return "no memory";
    case MLE_ERR_ALREADY_OPEN: return "the handle is open";
    case MLE_ERR_NOT_OPEN: return "the handle is closed";
    case MLE_ERR_PAGE: return "no such page";
    case MLE_ERR_KIND: return "no such kind";
    case MLE_ERR_LAYOUT: return "the configuration breaks a limit";
    case MLE_ERR_HART: return "no such hart";
    case MLE_ERR_ADDRESS: return "the address is not canonical";
    case MLE_ERR_SPACE: return "no such space";
    case MLE_ERR_TICKET: return "the ticket is not open";
    case MLE_ERR_PLACE: return "nothing is in this place";
    case MLE_ERR_AD: return "no such policy for A and D";
    case MLE_ERR_WALK: return "the numbers are no walk's";
    case MLE_ERR_TLB: return "memory has no TLB, or no TLB holds that many entries";
    default: return "no status of melissaledge";
    }
}

/* Why an access raises an exception: enum mle_why. */
static inline const char *mle_why_name(uint8_t why) {
    switch (why) {
    case MLE_WHY_NONE: return "no exception";
    case MLE_WHY_NOT_CANONICAL: return "the address is not canonical";
    case MLE_WHY_OUTSIDE: return "no memory at a table word or, in Bare, at the address";
    case MLE_WHY_INVALID: return "V is clear";
    case MLE_WHY_RESERVED: return "the word is a reserved one";
    case MLE_WHY_TOO_DEEP: return "a pointer at level 0";
    case MLE_WHY_DENIED: return "the flags do not permit the access";
    case MLE_WHY_MISALIGNED: return "a misaligned superpage";
    case MLE_WHY_NOT_ACCESSED: return "A is clear";
    case MLE_WHY_NOT_DIRTY: return "D is clear";
    default: return "no reason of melissaledge";
    }
}

/* Why a step is refused: enum mle_refusal. */
static inline const char *mle_refusal_name(uint8_t refusal) {
    switch (refusal) {
    case MLE_REFUSAL_NO_HART: return "no such hart, or a pair of the same hart twice";
    case MLE_REFUSAL_NO_SPACE: return "no such space, or a free one";
    case MLE_REFUSAL_NOT_HOME: return "another hart stores to these tables";
    case MLE_REFUSAL_WRONG_HALF: return "the page is none of this half of the address space, or none of the scheme";
    case MLE_REFUSAL_BAD_FLAGS: return "no leaf has these flags, or G is set for a space or clear for the kernel";
    case MLE_REFUSAL_PPN_TOO_LARGE: return "the PPN has more than 44 bits";
    case MLE_REFUSAL_MISALIGNED: return "the PPN is no multiple of the page's size";
    case MLE_REFUSAL_ALREADY_MAPPED: return "there is a leaf of this size already";
    case MLE_REFUSAL_LEAF_IN_WAY: return "a larger page covers it";
    case MLE_REFUSAL_TABLE_IN_WAY: return "a table of smaller pages stands there";
    case MLE_REFUSAL_NO_FRAME: return "no spare frame of the home is left";
    case MLE_REFUSAL_NOT_MAPPED: return "nothing is mapped there";
    case MLE_REFUSAL_WRONG_SIZE: return "a page of another size is mapped there";
    case MLE_REFUSAL_HOME_NOT_NAMED: return "an order has to name the hart that opens it";
    case MLE_REFUSAL_NO_TICKET: return "all 64 tickets of the hart are open";
    case MLE_REFUSAL_NOT_OPEN: return "the ticket is not open";
    case MLE_REFUSAL_NOT_NAMED: return "the order does not name that hart";
    case MLE_REFUSAL_ALREADY_POSTED: return "the order was posted to that hart before";
    case MLE_REFUSAL_CLOSED: return "the mailbox is closed";
    case MLE_REFUSAL_FULL: return "the mailbox has as many requests as it may hold";
    case MLE_REFUSAL_EMPTY: return "no request waits";
    case MLE_REFUSAL_WALKING: return "the hart is in the middle of a walk";
    case MLE_REFUSAL_NOT_WALKING: return "the hart is in no walk";
    case MLE_REFUSAL_SERVING: return "the hart took a request and has not acknowledged it";
    case MLE_REFUSAL_NOT_SERVING: return "the hart serves no request";
    case MLE_REFUSAL_NOT_FENCED: return "the hart has not fenced since it took the request";
    case MLE_REFUSAL_NOT_DONE: return "a named hart is not collected";
    case MLE_REFUSAL_RETIRING: return "the space is retiring";
    case MLE_REFUSAL_IN_USE: return "a hart is in the space";
    case MLE_REFUSAL_NOT_ACKED: return "a hart is not collected for the order that retired the space";
    case MLE_REFUSAL_NOT_RETIRING: return "the space is live";
    case MLE_REFUSAL_NOT_FREE: return "the space is live or retiring";
    case MLE_REFUSAL_ASID_IN_USE: return "another space has this ASID";
    default: return "no refusal of melissaledge";
    }
}

#ifdef __cplusplus
}
#endif

#endif
