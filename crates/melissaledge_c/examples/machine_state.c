/* What a debugger would show of a machine: the state of its harts, spaces, tickets, mailboxes and table words, in the middle of a
 * walk and in the middle of a shootdown. */
#include "melissaledge.h"
#include "melissaledge_names.h"

#include <inttypes.h>
#include <stdio.h>

static struct mle_machine machine = MLE_MACHINE_CLOSED;

/* Makes a step, and prints why if it is refused. */
static void step(struct mle_event event) {
    struct mle_reply reply;
    int32_t status = mle_machine_step(&machine, &event, &reply);
    if (status != MLE_OK) {
        printf("step: %s\n", mle_strerror(status));
    } else if (reply.kind == MLE_REPLY_REFUSED) {
        printf("refused: %s\n", mle_refusal_name(reply.refusal));
    }
}

static void print_what(const struct mle_what *what) {
    if (what->kind == MLE_WHAT_PAGE) {
        printf("page 0x%" PRIx64 " of 0x%" PRIx64 " bytes, asid %d", what->page_base, what->page_bytes, what->asid);
    } else {
        printf(what->kind == MLE_WHAT_SPACE ? "asid %d" : "all", what->asid);
    }
}

static void print_hart(uint8_t hart) {
    struct mle_hart state;
    struct mle_entry entry;
    int32_t status = mle_machine_hart(&machine, hart, &state);
    if (status != MLE_OK) {
        printf("hart %d: %s\n", hart, mle_strerror(status));
        return;
    }
    printf("hart %d: space %d, asid %d", hart, state.space, state.asid);
    if (state.is_walking) {
        printf(", walks to 0x%" PRIx64 ", level %d, table 0x%" PRIx64, state.va, state.level, state.table_ppn);
    }
    if (state.is_serving) {
        printf(", serves ticket %" PRIu32 " of hart %d, fenced %d: ", state.ticket, state.sender, state.has_fenced);
        print_what(&state.what);
    }
    printf("\n");
    for (uint32_t age = 0; mle_machine_entry(&machine, hart, age, &entry) == MLE_OK; age++) {
        printf("  entry %" PRIu32 " of %" PRIu64 ": page 0x%" PRIx64 " of 0x%" PRIx64 " bytes, ppn 0x%" PRIx64 ", asid %d, flags 0x%x\n", age,
               state.entries, entry.page_base, entry.page_bytes, entry.ppn, entry.asid, entry.flags);
    }
}

static void print_ticket(uint8_t hart, uint32_t ticket) {
    struct mle_ticket state;
    int32_t status = mle_machine_ticket(&machine, hart, ticket, &state);
    printf("ticket %" PRIu32 " of hart %d: ", ticket, hart);
    if (status != MLE_OK) {
        printf("%s\n", mle_strerror(status));
        return;
    }
    print_what(&state.what);
    printf(", named %x, posted %x, acknowledged %x, collected %x\n", state.named, state.posted, state.acknowledged, state.collected);
}

static void print_mailbox(uint8_t sender, uint8_t receiver) {
    struct mle_mailbox state;
    struct mle_request request;
    int32_t status = mle_machine_mailbox(&machine, sender, receiver, &state);
    if (status != MLE_OK) {
        printf("mailbox: %s\n", mle_strerror(status));
        return;
    }
    printf("mailbox %d to %d: %" PRIu64 " of %" PRIu64 "%s\n", sender, receiver, state.outstanding, state.capacity,
           state.is_closed ? ", closed" : "");
    for (uint32_t place = 0; mle_machine_request(&machine, sender, receiver, place, &request) == MLE_OK; place++) {
        printf("  waits: ticket %" PRIu32 ", ", request.ticket);
        print_what(&request.what);
        printf("\n");
    }
}

static void print_word(uint64_t ppn, uint16_t index) {
    uint64_t word = 0;
    int32_t status = mle_machine_word(&machine, ppn, index, &word);
    if (status == MLE_OK) {
        printf("word %d of 0x%" PRIx64 ": 0x%" PRIx64 "\n", index, ppn, word);
    } else {
        printf("word %d of 0x%" PRIx64 ": %s\n", index, ppn, mle_strerror(status));
    }
}

static void print_space(uint8_t space) {
    static const char *const phases[] = {"live", "retiring", "free"};
    struct mle_space_state state;
    int32_t status = mle_machine_space(&machine, space, &state);
    if (status == MLE_OK) {
        printf("space %d: root 0x%" PRIx64 ", asid %d, home %d, %s\n", space, state.root_ppn, state.asid, state.home,
               phases[state.phase]);
    } else {
        printf("space %d: %s\n", space, mle_strerror(status));
    }
}

static struct mle_event of_page(uint8_t kind) {
    struct mle_event event = {.kind = kind, .page_base = 0x400000, .page_bytes = 0x200000, .ppn = 0x200, .flags = 0x52, .named = 3};
    return event;
}

int main(void) {
    const struct mle_config config = {.base = 0x80000, .scheme = MLE_SV39, .harts = 2, .window = 1, .capacity = 4};
    const struct mle_space space = {.asid = 1, .home = 0};
    const uint16_t spares[2] = {8, 8};
    const struct mle_access load = {.va = 0x400123, .access = MLE_LOAD, .mode = MLE_USER};
    struct mle_version version;
    if (mle_version(&version) != MLE_OK || version.major != MLE_VERSION_MAJOR || version.minor != MLE_VERSION_MINOR) {
        printf("another version than that of the header\n");
    }
    print_hart(0);
    if (mle_machine_open(&config, &space, 1, spares, 2, &machine) != MLE_OK) {
        return 1;
    }
    step(of_page(MLE_EVENT_MAP));
    step(of_page(MLE_EVENT_MAP));
    step((struct mle_event){.kind = MLE_EVENT_BEGIN, .hart = 1, .access = load});
    step((struct mle_event){.kind = MLE_EVENT_LOAD, .hart = 1});
    print_hart(1);
    print_word(0x80001, 0); /* the pointer to 0x80002 */
    print_word(0x80002, 2); /* the leaf: R, U, A and V */
    step((struct mle_event){.kind = MLE_EVENT_LOAD, .hart = 1});
    step(of_page(MLE_EVENT_UNMAP));
    step((struct mle_event){.kind = MLE_EVENT_FLUSH, .all = 1, .named = 3});
    step((struct mle_event){.kind = MLE_EVENT_POST, .ticket = 0, .other = 1});
    step((struct mle_event){.kind = MLE_EVENT_POST, .ticket = 1, .other = 1});
    print_mailbox(0, 1);
    step((struct mle_event){.kind = MLE_EVENT_TAKE, .hart = 1, .other = 0});
    step((struct mle_event){.kind = MLE_EVENT_ACK, .hart = 1}); /* refused */
    print_hart(1);
    step((struct mle_event){.kind = MLE_EVENT_SERVE_FENCE, .hart = 1});
    print_hart(1);
    step((struct mle_event){.kind = MLE_EVENT_ACK, .hart = 1});
    print_mailbox(0, 1);
    print_ticket(0, 0);
    print_ticket(0, 1);
    print_ticket(0, 2);
    print_word(0x80002, 2);
    print_word(0x80002, 512);
    print_space(0);
    print_space(1);
    print_hart(2);
    return mle_machine_close(&machine) == MLE_OK ? 0 : 1;
}
