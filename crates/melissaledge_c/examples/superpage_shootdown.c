/* The shootdown of a page of 2 MiB by the machine: hart 0 maps and unmaps it, and hart 1, which has used it, drops it when it is
 * asked. */
#include "melissaledge.h"

#include <inttypes.h>
#include <stdio.h>

#define PAGE UINT64_C(0x400000)
#define PAGE_BYTES UINT64_C(0x200000)

static struct mle_machine machine = MLE_MACHINE_CLOSED;

/* Makes a step, and prints what is answered. Whether the step was made. */
static int step(const char *name, const struct mle_event *event) {
    static const char *const kinds[] = {"hit", "trap", "more", "filled", "table", "leaf",
                                        "opened", "ok", "taken", "done", "waiting", "refused"};
    struct mle_reply reply;
    int error = mle_machine_step(&machine, event, &reply);
    if (error != MLE_OK) {
        printf("%s: error %d\n", name, error);
        return 0;
    }
    printf("%d %s: %s", event->hart, name, kinds[reply.kind]);
    switch (reply.kind) {
    case MLE_REPLY_HIT:
    case MLE_REPLY_FILLED:
    case MLE_REPLY_TABLE:
    case MLE_REPLY_OPENED:
    case MLE_REPLY_WAITING:
        printf(" 0x%" PRIx64, reply.value);
        break;
    case MLE_REPLY_TAKEN:
        printf(" 0x%" PRIx64 ", page 0x%" PRIx64 " of 0x%" PRIx64 " bytes, asid %d", reply.value, reply.what.page_base,
               reply.what.page_bytes, reply.what.asid);
        break;
    case MLE_REPLY_TRAP:
        printf(" cause %d, why %d", reply.cause, reply.why);
        break;
    case MLE_REPLY_REFUSED:
        printf(" %d", reply.refusal);
        break;
    default:
        break;
    }
    printf("\n");
    return reply.kind != MLE_REPLY_REFUSED;
}

/* Whether the TLB of hart 1 translates the first and the last byte of the page. */
static void print_held(void) {
    printf("1 holds: %d %d\n", mle_machine_translates(&machine, 1, 1, PAGE),
           mle_machine_translates(&machine, 1, 1, PAGE + PAGE_BYTES - 1));
}

int main(void) {
    const struct mle_config config = {.base = 0x80000, .scheme = MLE_SV39, .harts = 2, .window = 1, .capacity = 4};
    const struct mle_space space = {.asid = 1, .home = 0};
    const uint16_t spares[2] = {8, 8};
    const struct mle_event map = {.kind = MLE_EVENT_MAP, .hart = 0, .page_base = PAGE, .page_bytes = PAGE_BYTES,
                                  .ppn = 0x200, .flags = 0x52}; /* R, U and A */
    const struct mle_event unmap = {.kind = MLE_EVENT_UNMAP, .hart = 0, .page_base = PAGE, .page_bytes = PAGE_BYTES,
                                    .named = 3}; /* harts 0 and 1 */
    const struct mle_event begin = {.kind = MLE_EVENT_BEGIN, .hart = 1,
                                    .access = {.va = PAGE + 0x123, .access = MLE_LOAD, .mode = MLE_USER}};
    const struct mle_event next = {.kind = MLE_EVENT_LOAD, .hart = 1};
    const struct mle_event post = {.kind = MLE_EVENT_POST, .hart = 0, .ticket = 0, .other = 1};
    const struct mle_event take = {.kind = MLE_EVENT_TAKE, .hart = 1, .other = 0};
    const struct mle_event serve = {.kind = MLE_EVENT_SERVE_FENCE, .hart = 1};
    const struct mle_event ack = {.kind = MLE_EVENT_ACK, .hart = 1};
    const struct mle_event collect = {.kind = MLE_EVENT_COLLECT, .hart = 0, .ticket = 0, .other = 1};
    const struct mle_event ack_self = {.kind = MLE_EVENT_ACK_SELF, .hart = 0, .ticket = 0};
    const struct mle_event finish = {.kind = MLE_EVENT_FINISH, .hart = 0, .ticket = 0};
    int error = mle_machine_open(&config, &space, 1, spares, 2, &machine);
    if (error != MLE_OK) {
        printf("open: error %d\n", error);
        return 1;
    }
    step("map", &map); /* the pointer to a new table */
    step("map", &map); /* the leaf */
    step("begin", &begin);
    step("load", &next); /* the root's word */
    step("load", &next); /* the leaf */
    step("unmap", &unmap);
    step("begin", &begin); /* the leaf is gone from the table, and not from the TLB */
    print_held();
    step("post", &post);
    step("take", &take);
    step("ack", &ack); /* refused: hart 1 has not fenced */
    step("serve", &serve);
    print_held();
    step("ack", &ack);
    step("collect", &collect); /* hart 0 has a TLB too */
    step("ack self", &ack_self);
    step("finish", &finish);
    step("begin", &begin);
    step("load", &next);
    step("load", &next);
    return mle_machine_close(&machine) == MLE_OK ? 0 : 1;
}
