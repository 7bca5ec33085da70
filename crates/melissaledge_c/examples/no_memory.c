/* Opens a TLB and a machine while the first, second, .. request for memory fails: each time the answer is MLE_ERR_NO_MEMORY, the
 * handle stays closed, and all memory that was taken is given back. Linked with --wrap=malloc, --wrap=calloc and
 * --wrap=free. */
#include "melissaledge.h"

#include <stdio.h>

void *__real_malloc(size_t size);
void *__real_calloc(size_t count, size_t size);
void __real_free(void *block);

static volatile long left; /* how many requests succeed from now on; a compiler may take calloc for one that changes nothing here */
static volatile long held; /* how many blocks are not given back */

void *__wrap_malloc(size_t size);
void *__wrap_calloc(size_t count, size_t size);
void __wrap_free(void *block);

void *__wrap_malloc(size_t size) {
    void *block;
    if (left == 0) return NULL;
    left--;
    block = __real_malloc(size);
    if (block != NULL) held++;
    return block;
}

void *__wrap_calloc(size_t count, size_t size) {
    void *block;
    if (left == 0) return NULL;
    left--;
    block = __real_calloc(count, size);
    if (block != NULL) held++;
    return block;
}

void __wrap_free(void *block) {
    if (block != NULL) held--;
    __real_free(block);
}

int main(void) {
    struct mle_tlb *tlb = MLE_TLB_CLOSED;
    struct mle_machine machine = MLE_MACHINE_CLOSED;
    const struct mle_config config = {.base = 0x80000, .scheme = MLE_SV39, .harts = 2, .window = 1, .capacity = 4};
    const struct mle_space space = {.asid = 1, .home = 0};
    const uint16_t spares[2] = {8, 8};
    int32_t tlb_at_first, tlb_then, error = MLE_ERR_NO_MEMORY;
    long requests = 0, wrong = 0;
    left = 0;
    tlb_at_first = mle_tlb_open(16, &tlb);
    wrong += tlb != NULL || held != 0;
    left = 1;
    tlb_then = mle_tlb_open(16, &tlb);
    wrong += tlb == NULL || held != 1;
    wrong += mle_tlb_close(&tlb) != MLE_OK || held != 0;
    while (error == MLE_ERR_NO_MEMORY && requests < 1000) {
        left = requests;
        error = mle_machine_open(&config, &space, 1, spares, 2, &machine);
        if (error != MLE_OK) {
            wrong += machine.opaque != NULL || held != 0;
            requests++;
        }
    }
    wrong += requests < 2 || machine.opaque == NULL || held == 0;
    wrong += mle_machine_close(&machine) != MLE_OK || held != 0;
    left = -1; /* for printf */
    printf("TLB: %d, then %d\nmachine: %d in the end\n%ld wrong\n", (int)tlb_at_first, (int)tlb_then, (int)error, wrong);
    return wrong != 0;
}
