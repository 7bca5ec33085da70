/* Frames, page tables, fences, and what the kernel does for its processes, with the records of all that. */
#include "kernel.h"

struct space idle, parent, child;
unsigned harmed;
static const struct space *current[HARTS];
static uint64_t window; /* the table of the kernel's own pages, which are in all spaces */
static uint64_t tokens;
static uint64_t stamps; /* each page begins with another word */

enum { VALID = 0x1, WRITE = 0x4, RIGHTS = 0xf, USER_LEAF = 0xd7, WINDOW_LEAF = 0xe7, KERNEL_LEAF = 0xef }; /* flags (4.3.1) */
#define KERNEL_PPN 0x80000ul /* 1 GiB, mapped to itself in all spaces */

/* Frames: the one that was given back last is given out first. */

static uint64_t pool[FRAMES];
static unsigned pooled, shares[FRAMES];

static uint64_t give_out(unsigned hart)
{
    uint64_t frame = pool[--pooled], *word = (uint64_t *)(frame << 12);
    trace_give_out(hart, frame, 1);
    shares[frame - FIRST_FRAME] = 1;
    for (unsigned i = 0; i < 512; i++)
        word[i] = 0;
    return frame;
}

static void give_back(unsigned hart, uint64_t frame)
{
    if (--shares[frame - FIRST_FRAME])
        return;
    trace_give_back(hart, frame, 1);
    pool[pooled++] = frame;
}

/* Page tables. */

static uint64_t leaf(uint64_t frame, uint64_t flags) { return frame << 10 | flags; }
static uint64_t frame_of(uint64_t word) { return word >> 10; }
static uint64_t *first_word(uint64_t frame) { return (uint64_t *)(frame << 12); }

static void store(unsigned hart, uint64_t *word, uint64_t value)
{
    *(volatile uint64_t *)word = value;
    trace_store(hart, (uintptr_t)word, value);
}

void start_frames(void)
{
    uint64_t last;
    for (uint64_t frame = FIRST_FRAME + FRAMES; frame-- > FIRST_FRAME;)
        pool[pooled++] = frame;
    window = give_out(0);
    last = give_out(0);
    store(0, first_word(window), leaf(last, VALID));
}

/* The word that a walk for the address ends at, or that of the lowest level asked for. */
static uint64_t *word_of(uint64_t root, uint64_t va, int lowest)
{
    uint64_t table = root;
    for (int level = 2;; level--) {
        uint64_t *word = first_word(table) + (va >> (12 + 9 * level) & 511);
        if (level == lowest || (*word & RIGHTS) != VALID)
            return word;
        table = frame_of(*word);
    }
}

/* A table given out and zeroed, and then linked. */
static void add_table(unsigned hart, uint64_t root, uint64_t va, int level)
{
    uint64_t table = give_out(hart);
    store(hart, word_of(root, va, level), leaf(table, VALID));
}

void create(unsigned hart, struct space *space, uint64_t asid)
{
    space->asid = asid;
    space->harts = 0;
    space->root = give_out(hart);
    store(hart, word_of(space->root, KERNEL_PPN << 12, 2), leaf(KERNEL_PPN, KERNEL_LEAF));
    store(hart, word_of(space->root, WINDOW, 2), leaf(window, VALID));
    if (asid) {
        add_table(hart, space->root, PAGE, 2);
        add_table(hart, space->root, PAGE, 1);
    }
}

/* Fences and satp. */

struct flush {
    uint64_t root, start, size; /* what is taken for gone at the end; TRACE_ALL is every root, every address */
    uint64_t asid, fenced;      /* the fence: its ASID, and its bytes from the start on */
    uint64_t harts;
};

static struct flush flush_of(const struct space *space, uint64_t start, uint64_t size)
{
    return (struct flush){space->root, start, size, space->asid, size, space->harts};
}

static void fence(unsigned hart, uint64_t va, uint64_t asid)
{
    trace_fence(hart, va, asid);
    if (va == TRACE_ALL && asid == TRACE_ALL)
        asm volatile("sfence.vma" ::: "memory");
    else if (va == TRACE_ALL)
        asm volatile("sfence.vma x0, %0" ::"r"(asid) : "memory");
    else if (asid == TRACE_ALL)
        asm volatile("sfence.vma %0, x0" ::"r"(va) : "memory");
    else
        asm volatile("sfence.vma %0, %1" ::"r"(va), "r"(asid) : "memory");
}

static void fence_others(unsigned hart, uint64_t harts, const struct flush *flush)
{
    uint64_t token = ++tokens, start = flush->fenced == TRACE_ALL ? 0 : flush->start;
    trace_remote(hart, token, harts, start, flush->fenced, flush->asid);
    sbi(RFENCE, flush->asid == TRACE_ALL ? 1 : 2, harts, 0, start, flush->fenced, flush->asid);
    trace_remote_end(hart, token);
}

static void do_flush(unsigned hart, const struct flush *flush)
{
    uint64_t token = ++tokens, others = flush->harts & ~(1ul << hart);
    trace_claim(hart, token, flush->root, flush->start, flush->size);
    if (flush->harts != others)
        fence(hart, flush->fenced == PAGE ? flush->start : TRACE_ALL, flush->asid);
    if (others)
        fence_others(hart, others, flush);
    trace_claim_end(hart, token);
}

void enter(unsigned hart, struct space *space, uint64_t unused)
{
    uint64_t satp = 8ul << 60 | space->asid << 44 | space->root;
    (void)unused;
    if (MISTAKE == HART_FORGOTTEN && current[hart] == &parent)
        parent.harts &= ~(1ul << hart);
    space->harts |= 1ul << hart; /* before it holds anything, and for good: that outlives a move */
    trace_satp(hart, satp);
    asm volatile("csrw satp, %0" ::"r"(satp) : "memory");
    current[hart] = space;
}

void begin(unsigned hart, struct space *space, uint64_t unused)
{
    enter(hart, space, unused);
    fence(hart, TRACE_ALL, TRACE_ALL);
}

/* What the kernel does for its processes. */

/* What becomes valid takes nothing away, and is not flushed: QEMU keeps no invalid words. */
void map(unsigned hart, struct space *space, uint64_t va)
{
    uint64_t frame = give_out(hart), *word = word_of(space->root, va, 0);
    *first_word(frame) = ++stamps;
    store(hart, word, leaf(frame, va >= WINDOW ? WINDOW_LEAF : USER_LEAF));
}

void unmap(unsigned hart, struct space *space, uint64_t va)
{
    struct flush flush = flush_of(space, va, PAGE);
    uint64_t *word = word_of(space->root, va, 0), frame = frame_of(*word);
    if (MISTAKE == HART_LEFT_OUT)
        flush.harts &= ~(1ul << 2);
    if (MISTAKE == WRONG_ASID)
        flush.asid++;
    if (MISTAKE == FENCED_FIRST)
        do_flush(hart, &flush);
    store(hart, word, 0);
    if (MISTAKE == FREED_FIRST)
        give_back(hart, frame);
    if (MISTAKE != FENCED_FIRST)
        do_flush(hart, &flush);
    if (MISTAKE != FREED_FIRST)
        give_back(hart, frame);
}

void unmap_window(unsigned hart, struct space *space, uint64_t va)
{
    struct flush flush = {TRACE_ALL, va, PAGE, TRACE_ALL, PAGE, (1ul << HARTS) - 1};
    uint64_t *word = word_of(space->root, va, 0), frame = frame_of(*word);
    if (MISTAKE == GLOBAL_BY_ASID)
        flush.asid = parent.asid;
    store(hart, word, 0);
    do_flush(hart, &flush);
    give_back(hart, frame);
}

/* The child gets the parent's page, which nobody may write to from then on. */
void fork(unsigned hart, struct space *space, uint64_t va)
{
    struct flush flush = flush_of(space, 0, TRACE_ALL);
    uint64_t *word = word_of(space->root, va, 0);
    create(hart, &child, 2);
    store(hart, word, *word & ~(uint64_t)WRITE);
    store(hart, word_of(child.root, va, 0), *word);
    shares[frame_of(*word) - FIRST_FRAME]++;
    if (MISTAKE == FORK_UNFENCED)
        flush.harts = 0;
    do_flush(hart, &flush);
}

void add_last_table(unsigned hart, struct space *space, uint64_t va)
{
    add_table(hart, space->root, va, 1);
}

/* A page that is written to gets a frame of its own. */
static void copy(unsigned hart, struct space *space, uint64_t va)
{
    struct flush flush = flush_of(space, va, PAGE);
    uint64_t *word = word_of(space->root, va, 0), old = frame_of(*word), frame = give_out(hart);
    for (unsigned i = 0; i < 512; i++)
        first_word(frame)[i] = first_word(old)[i];
    store(hart, word, leaf(frame, USER_LEAF));
    if (MISTAKE == COPY_UNFENCED)
        flush.harts = 0;
    do_flush(hart, &flush);
    give_back(hart, old);
}

/* The two small pages of a table become a superpage. A hart may have kept the pointer to the table, which a fence of an address
   or of a range leaves (4.2.1): so all are fenced. */
void collapse(unsigned hart, struct space *space, uint64_t va)
{
    struct flush flush = flush_of(space, va, SUPERPAGE);
    uint64_t *word = word_of(space->root, va, 1), table = frame_of(*word);
    trace_give_out(hart, BLOCK, BLOCK_FRAMES);
    store(hart, word, 0);
    flush.fenced = MISTAKE == ONE_PAGE_FENCED ? PAGE : TRACE_ALL;
    if (MISTAKE == TABLE_FREED_FIRST)
        give_back(hart, table);
    do_flush(hart, &flush);
    for (unsigned i = 0; i < 2; i++) {
        uint64_t frame = frame_of(first_word(table)[i]);
        for (unsigned j = 0; j < 512; j++)
            first_word(BLOCK + i)[j] = first_word(frame)[j];
        store(hart, first_word(table) + i, 0);
        give_back(hart, frame);
    }
    if (MISTAKE != TABLE_FREED_FIRST)
        give_back(hart, table);
    store(hart, word, leaf(BLOCK, USER_LEAF));
}

/* A superpage is one leaf: a fence of any address in it drops all of it. */
void unmap_superpage(unsigned hart, struct space *space, uint64_t va)
{
    struct flush flush = flush_of(space, va, SUPERPAGE);
    flush.fenced = PAGE;
    store(hart, word_of(space->root, va, 1), 0);
    do_flush(hart, &flush);
    trace_give_back(hart, BLOCK, BLOCK_FRAMES);
}

/* Ends a space with one page, which no hart is in. The page's frame is the first that will be given out again. */
void end(unsigned hart, struct space *space, uint64_t va)
{
    struct flush flush = flush_of(space, 0, TRACE_ALL);
    uint64_t frames[3]; /* the page and its tables */
    for (int level = 0; level < 3; level++) {
        uint64_t *word = word_of(space->root, va, level);
        frames[level] = frame_of(*word);
        store(hart, word, 0);
    }
    if (MISTAKE != ASID_UNFENCED)
        do_flush(hart, &flush);
    give_back(hart, frames[1]);
    give_back(hart, frames[2]);
    give_back(hart, space->root);
    give_back(hart, frames[0]);
}

/* A load by a process. */
void load(unsigned hart, struct space *space, uint64_t va)
{
    uint64_t word = *word_of(space->root, va, 0), frame = frame_of(word);
    trace_use(hart, va);
    if (frame == BLOCK)
        frame += va >> 12 & 511;
    if (user_load(va) != (word ? *first_word(frame) : FAULT))
        harmed++;
}

/* A store by a process. The kernel makes a copy of a page that the tables keep from it, whether or not the hart faulted. */
void write(unsigned hart, struct space *space, uint64_t va)
{
    int may_write = *word_of(space->root, va, 0) & WRITE;
    trace_use(hart, va);
    if ((user_store(va, ++stamps) != FAULT) != !!may_write)
        harmed++;
    if (!may_write) {
        copy(hart, space, va);
        trace_use(hart, va);
        user_store(va, stamps);
    }
}
