/* A small kernel in S-mode for `qemu-system-riscv64 -M virt -smp 4`, which records what it does to its tables, its satp and its
   TLBs (../trace.h), and at the end prints the trace. `scripts/watch_kernel.sh` builds it, runs it and has the trace judged.

   It makes a mistake if it is built with -DMISTAKE=N. With 0 it is right and plays all scenes, else the scene N / 10 alone. One
   hart acts at a time, and only the tables decide what comes next: the trace is the same in each run. */
#ifndef KERNEL_H
#define KERNEL_H
#include "../trace.h"

#ifndef MISTAKE
#define MISTAKE 0
#endif
enum mistake {
    HART_LEFT_OUT = 11,     /* an unmap asks no fence of hart 2, which is in the space */
    HART_FORGOTTEN = 12,    /* a hart that goes to another space is forgotten, with what it holds of the old one */
    FREED_FIRST = 13,       /* a frame is given back before the fence */
    WRONG_ASID = 14,        /* an unmap fences the page under another ASID */
    FENCED_FIRST = 15,      /* an unmap fences before it clears the word: the old leaf can be cached again in between */
    FORK_UNFENCED = 21,     /* a fork takes the right to write from the parent's page, and fences nothing */
    COPY_UNFENCED = 22,     /* a page gets a frame of its own, and the shared one is not fenced */
    ONE_PAGE_FENCED = 31,   /* small pages become a superpage, and the fence names one address: that drops one leaf (4.2.1) */
    TABLE_FREED_FIRST = 32, /* a table's frame is given back before the fence; only cached pointers make that matter */
    GLOBAL_BY_ASID = 41,    /* a global page is fenced under an ASID, which leaves global translations */
    ASID_UNFENCED = 51      /* a space ends with no fence, and the next one gets its ASID */
};

enum { HARTS = 4, FIRST_FRAME = 0x82000, FRAMES = 64, BLOCK = 0x82200, BLOCK_FRAMES = 512 }; /* PPNs, and numbers of frames */
#define PAGE 0x1000ul
#define SUPERPAGE 0x200000ul
#define WINDOW 0xffffffffc0000000ul /* the kernel's own pages */

struct space {
    uint64_t root, asid;
    uint64_t harts; /* bit h: hart h may hold its translations */
};
extern struct space idle, parent, child;
extern unsigned harmed; /* accesses that were not answered as the tables have it */

/* start.S: accesses to pages of processes */
#define FAULT UINT64_MAX
uint64_t user_load(uint64_t va);
uint64_t user_store(uint64_t va, uint64_t word);

/* machine.c: the firmware, and what one hart has another do */
typedef void act(unsigned hart, struct space *space, uint64_t va);
enum { RFENCE = 0x52464e43 };
void sbi(uint64_t extension, uint64_t function, uint64_t a, uint64_t b, uint64_t c, uint64_t d, uint64_t e);
void on(unsigned hart, act *act, struct space *space, uint64_t va);

/* kernel.c */
void start_frames(void);
void create(unsigned hart, struct space *space, uint64_t asid);
act begin, enter, add_last_table, map, unmap, unmap_window, fork, collapse, unmap_superpage, end, load, write;

/* scenes.c */
void play(void);
#endif
