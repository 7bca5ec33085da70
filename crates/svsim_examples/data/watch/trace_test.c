/* Two harts in one address space: a page is unmapped and its frame given away, first with a fence of the wrong hart alone, then
   as it should be. Prints the trace, left-out-hart.trace. */
#include <stdio.h>
#define TRACE_NO_NOTES
#ifndef TRACE_RING
#define TRACE_PUTCHAR(c) putchar(c)
#endif
#include "trace.h"

enum { ROOT = 0x80000, MIDDLE = 0x80001, LAST = 0x80002, ASID = 1 };
#define WORD(table, index) ((uint64_t)(table) << 12 | (index) << 3)
#define POINTER(ppn) ((uint64_t)(ppn) << 10 | 1)
#define LEAF(ppn) ((uint64_t)(ppn) << 10 | 0xd7) /* V, R, W, U, A, D */
#define PAGE 0x1000

static void map(unsigned hart, uint64_t ppn)
{
    trace_give_out(hart, ppn, 1);
    trace_store(hart, WORD(LAST, 1), LEAF(ppn));
}

static void unmap(unsigned hart, uint64_t ppn, uint64_t others)
{
    uint64_t flush = ppn, fence = ppn + 1; /* tokens */
    trace_store(hart, WORD(LAST, 1), 0);
    trace_claim(hart, flush, ROOT, PAGE, 0x1000);
    trace_fence(hart, PAGE, ASID);
    if (others) {
        trace_remote(hart, fence, others, PAGE, 0x1000, ASID);
        trace_remote_end(hart, fence);
    }
    trace_claim_end(hart, flush);
    trace_give_back(hart, ppn, 1);
}

int main(void)
{
    trace_open("2", "sv39");
    trace_give_out(0, ROOT, 3);
    trace_store(0, WORD(ROOT, 0), POINTER(MIDDLE));
    trace_store(0, WORD(MIDDLE, 0), POINTER(LAST));
    for (unsigned hart = 0; hart < 2; hart++) {
        trace_satp(hart, 8ull << 60 | (uint64_t)ASID << 44 | ROOT);
        trace_fence(hart, TRACE_ALL, TRACE_ALL);
    }
    map(0, 0x200);
    trace_use(1, PAGE + 0xabc);
    unmap(0, 0x200, 0);
    trace_use(1, PAGE + 0xabc);
    map(0, 0x300);
    unmap(0, 0x300, 1 << 1);
    trace_give_out(0, 0x200, 1);
#ifdef TRACE_RING
    for (unsigned i = 0; i < trace_count; i++)
        fputs(trace_ring[i], stdout);
#endif
    return 0;
}
