/* The firmware (SBI), what one hart has another do, and the trace at the end. */
#define TRACE_RING 512
#include "kernel.h"

void hart_start(void);

enum { PUTCHAR = 1, IPI = 0x735049, HSM = 0x48534d, RESET = 0x53525354 };

void sbi(uint64_t extension, uint64_t function, uint64_t a, uint64_t b, uint64_t c, uint64_t d, uint64_t e)
{
    register uint64_t a0 asm("a0") = a, a1 asm("a1") = b, a2 asm("a2") = c, a3 asm("a3") = d, a4 asm("a4") = e;
    register uint64_t a6 asm("a6") = function, a7 asm("a7") = extension;
    asm volatile("ecall" : "+r"(a0), "+r"(a1) : "r"(a2), "r"(a3), "r"(a4), "r"(a6), "r"(a7) : "memory");
}

void halt(void)
{
    for (;;)
        sbi(RESET, 0, 0, 0, 0, 0, 0);
}

static struct job {
    act *act;
    struct space *space;
    uint64_t va;
    int is_open;
} jobs[HARTS];

static void wait_for_hart(void)
{
    asm volatile("wfi\n\tcsrc sip, %0" ::"r"(2ul) : "memory");
}

/* Has a hart do something, and waits for it. */
void on(unsigned hart, act *act, struct space *space, uint64_t va)
{
    struct job *job = &jobs[hart];
    if (hart == 0) {
        act(0, space, va);
        return;
    }
    job->act = act;
    job->space = space;
    job->va = va;
    __atomic_store_n(&job->is_open, 1, __ATOMIC_SEQ_CST);
    sbi(IPI, 0, 1ul << hart, 0, 0, 0, 0);
    while (__atomic_load_n(&job->is_open, __ATOMIC_SEQ_CST))
        wait_for_hart();
}

static void serve(unsigned hart)
{
    struct job *job = &jobs[hart];
    for (;;) {
        while (!__atomic_load_n(&job->is_open, __ATOMIC_SEQ_CST))
            wait_for_hart();
        job->act(hart, job->space, job->va);
        __atomic_store_n(&job->is_open, 0, __ATOMIC_SEQ_CST);
        sbi(IPI, 0, 1, 0, 0, 0, 0);
    }
}

static void print(const char *text)
{
    while (*text)
        sbi(PUTCHAR, 0, *text++, 0, 0, 0, 0);
}

/* Each hart comes here; the first starts the others, and hart 0 tells them what to do. */
void hart_main(unsigned hart, int is_first)
{
    char end[] = "end 00\n";
    for (unsigned other = 0; is_first && other < HARTS; other++)
        if (other != hart)
            sbi(HSM, 0, other, (uintptr_t)hart_start, 0, 0, 0);
    if (hart)
        serve(hart);
    play();
    for (unsigned i = 0; i < trace_count && i < TRACE_RING; i++)
        print(trace_ring[i]);
    end[4] += harmed / 10;
    end[5] += harmed % 10;
    if (trace_count <= TRACE_RING)
        print(end);
    halt();
}
