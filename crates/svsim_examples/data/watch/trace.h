/* A kernel's side of a trace for `svsim watch` (docs/YOUR-KERNEL.md): each of the macros below makes one record, at the
   moment that it names. One file of the kernel defines, before it includes this, TRACE_PUTCHAR(c), which puts a character out,
   or TRACE_RING, a number of lines to keep in memory; or the kernel has a trace_line of its own. */
#ifndef TRACE_H
#define TRACE_H
#include <stdint.h>

#define TRACE_ALL UINT64_MAX /* x0 for rs1 or rs2; every address, ASID or root */
#define TRACE_WIDTH 128

void trace_line(const char *line, unsigned length); /* takes the lines of all harts, in one order */

static inline char *trace_digits(char *to, uint64_t n, unsigned base)
{
    char digits[20];
    unsigned count = 0;
    do
        digits[count++] = "0123456789abcdef"[n % base];
    while (n /= base);
    while (count)
        *to++ = digits[--count];
    return to;
}

/* The letter of a form stands before its fields: # for a number, - for one that may be TRACE_ALL. The note is the caller. */
static __attribute__((noinline, unused)) void trace_record(const char *form, unsigned hart, const uint64_t *field)
{
    char line[TRACE_WIDTH], *to = line;
    *to++ = *form++;
    *to++ = ' ';
    to = trace_digits(to, hart, 10);
    for (; *form; form++, field++) {
        *to++ = ' ';
        if (*form == '-' && *field == TRACE_ALL)
            *to++ = '-';
        else
            to = trace_digits(to, *field, 16);
    }
#ifndef TRACE_NO_NOTES
    *to++ = ' ';
    *to++ = '@';
    to = trace_digits(to, (uintptr_t)__builtin_return_address(0), 16);
#endif
    *to++ = '\n';
    trace_line(line, to - line);
}

#define TRACE(form, hart, ...) trace_record(form, hart, (const uint64_t[]){__VA_ARGS__})
#define trace_open(harts, scheme) trace_line("watch 1 " harts " " scheme "\n", sizeof("watch 1 " harts " " scheme))
/* after the store */
#define trace_store(hart, address, word) TRACE("w##", hart, address, word)
/* before satp is written, before SFENCE.VMA */
#define trace_satp(hart, satp) TRACE("s#", hart, satp)
#define trace_fence(hart, rs1, rs2) TRACE("f--", hart, rs1, rs2)
/* before other harts are asked for a fence, and once it is known that they have executed it; a token is any number that
   nothing else that is open has, as the address of a local variable */
#define trace_remote(hart, token, harts, start, size, asid) TRACE("r####-", hart, token, harts, start, size, asid)
#define trace_remote_end(hart, token) TRACE("e#", hart, token)
/* before a frame's new owner writes to it, and before a frame that is given back can be given out again */
#define trace_give_out(hart, ppn, count) TRACE("a##", hart, ppn, count)
#define trace_give_back(hart, ppn, count) TRACE("z##", hart, ppn, count)
/* where a flush begins, and where it returns */
#define trace_claim(hart, token, root, start, size) TRACE("c#-##", hart, token, root, start, size)
#define trace_claim_end(hart, token) TRACE("d#", hart, token)
/* at an access that is to be judged */
#define trace_use(hart, address) TRACE("u#", hart, address)

#if defined TRACE_PUTCHAR
void trace_line(const char *line, unsigned length)
{
    static int is_taken;
    while (__atomic_exchange_n(&is_taken, 1, __ATOMIC_ACQUIRE))
        ;
    while (length--)
        TRACE_PUTCHAR(*line++);
    __atomic_store_n(&is_taken, 0, __ATOMIC_RELEASE);
}
#elif defined TRACE_RING
/* The trace is what is in it but for the bytes 0. Lines for which there is no room are counted alone. */
char trace_ring[TRACE_RING][TRACE_WIDTH];
unsigned trace_count;

void trace_line(const char *line, unsigned length)
{
    unsigned place = __atomic_fetch_add(&trace_count, 1, __ATOMIC_SEQ_CST);
    for (unsigned i = 0; place < TRACE_RING && i < length; i++)
        trace_ring[place][i] = line[i];
}
#endif
#endif
