/* Bad arguments of each function of melissaledge.h: each is refused with its error, and changes nothing. Prints a line for each
 * call that is not, and then how many were. */
#include "melissaledge.h"

#include <stdio.h>
#include <string.h>

static int passed, failed;

static void check(const char *name, int32_t got, int32_t want, int unchanged) {
    if (got == want && unchanged) {
        passed++;
        return;
    }
    failed++;
    printf("%s: %d in place of %d%s\n", name, (int)got, (int)want, unchanged ? "" : ", and something changed");
}

/* The call is made before the condition is looked at. */
#define CHECK(name, call, want, condition)          \
    do {                                            \
        int32_t got_ = (call);                      \
        check((name), got_, (want), (condition));   \
    } while (0)

static uint64_t words[1024];
static const struct mle_tables tables = {0x80000, 2, 0x80000, MLE_SV39};
static const struct mle_access load_at_0 = {0, MLE_LOAD, MLE_USER, 0, 0};

/* A translation that is to be refused. */
static void refused(const char *name, const struct mle_tables *where, size_t count, const struct mle_access *what, int32_t want) {
    struct mle_answer answer, before;
    int32_t got;
    memset(&answer, 0x5a, sizeof answer);
    memcpy(&before, &answer, sizeof before);
    got = mle_translate(where, words, count, what, &answer);
    check(name, got, want, memcmp(&answer, &before, sizeof answer) == 0);
}

static void translations(void) {
    struct mle_tables bad;
    struct mle_access odd;
    struct mle_answer answer;
    bad = tables, bad.scheme = 1;
    refused("no scheme: Sv32", &bad, 1024, &load_at_0, MLE_ERR_SCHEME);
    bad.scheme = 10;
    refused("no scheme: Sv57", &bad, 1024, &load_at_0, MLE_ERR_SCHEME);
    odd = load_at_0, odd.access = 3;
    refused("no access", &tables, 1024, &odd, MLE_ERR_ACCESS);
    odd = load_at_0, odd.mode = 3;
    refused("machine mode", &tables, 1024, &odd, MLE_ERR_MODE);
    bad = tables, bad.frames = 0;
    refused("no frame", &bad, 0, &load_at_0, MLE_ERR_MEMORY);
    bad = tables, bad.base_ppn = UINT64_MAX;
    refused("frames past the last PPN", &bad, 1024, &load_at_0, MLE_ERR_MEMORY);
    bad = tables, bad.frames = UINT64_MAX;
    refused("more frames than PPNs", &bad, 1024, &load_at_0, MLE_ERR_MEMORY);
    refused("a word too few", &tables, 1023, &load_at_0, MLE_ERR_LENGTH);
    bad = tables, bad.frames = 1;
    refused("more words than frames", &bad, 1024, &load_at_0, MLE_ERR_LENGTH);
    bad = tables, bad.root_ppn = UINT64_C(1) << 44;
    refused("root of no PPN", &bad, 1024, &load_at_0, MLE_ERR_ROOT);
    CHECK("null tables", mle_translate(NULL, words, 1024, &load_at_0, &answer), MLE_ERR_NULL, 1);
    CHECK("null words", mle_translate(&tables, NULL, 1024, &load_at_0, &answer), MLE_ERR_NULL, 1);
    CHECK("null access", mle_translate(&tables, words, 1024, NULL, &answer), MLE_ERR_NULL, 1);
    CHECK("null answer", mle_translate(&tables, words, 1024, &load_at_0, NULL), MLE_ERR_NULL, 1);
    CHECK("odd words", mle_translate(&tables, (const uint64_t *)(const void *)((const char *)words + 1), 512, &load_at_0, &answer),
          MLE_ERR_ALIGNMENT, 1);
    CHECK("in order", mle_translate(&tables, words, 1024, &load_at_0, &answer), MLE_TRAP,
          answer.cause == 13 && answer.why == MLE_WHY_INVALID && answer.pa == 0);
    bad = tables, bad.root_ppn = 0x7ffff;
    CHECK("root before memory", mle_translate(&bad, words, 1024, &load_at_0, &answer), MLE_TRAP, answer.why == MLE_WHY_OUTSIDE);
    bad.root_ppn = 0x80002;
    CHECK("root behind memory", mle_translate(&bad, words, 1024, &load_at_0, &answer), MLE_TRAP, answer.cause == 5);
}

/* A walk of numbers that are refused, by both calls. */
static void refused_walk(const char *name, const struct mle_walk *bad, int32_t want) {
    struct mle_walk walk = *bad;
    struct mle_leaf leaf, before;
    int32_t got;
    memset(&leaf, 0x5a, sizeof leaf);
    memcpy(&before, &leaf, sizeof before);
    got = mle_walk_word(&walk, 1, &leaf);
    check(name, got, want, memcmp(&leaf, &before, sizeof leaf) == 0 && memcmp(&walk, bad, sizeof walk) == 0);
    got = mle_walk_no_word(&walk, &leaf);
    check(name, got, want, memcmp(&leaf, &before, sizeof leaf) == 0);
}

static void walks(void) {
    struct mle_walk walk, bad;
    struct mle_leaf leaf;
    struct mle_access odd;
    const struct mle_entry entry = {0x1000, 0x1000, 5, 1, 0xd2, 0};
    uint8_t permits = 9;
    memset(&walk, 0, sizeof walk);
    memset(&leaf, 0, sizeof leaf);
    CHECK("walk of no scheme", mle_walk_begin(10, 0x80000, &load_at_0, MLE_AD_SET, &walk, &leaf), MLE_ERR_SCHEME, walk.pte_pa == 0);
    odd = load_at_0, odd.access = 3;
    CHECK("walk of no access", mle_walk_begin(MLE_SV39, 0x80000, &odd, MLE_AD_SET, &walk, &leaf), MLE_ERR_ACCESS, walk.pte_pa == 0);
    odd = load_at_0, odd.mode = 3;
    CHECK("walk of no mode", mle_walk_begin(MLE_SV39, 0x80000, &odd, MLE_AD_SET, &walk, &leaf), MLE_ERR_MODE, walk.pte_pa == 0);
    CHECK("walk of no policy", mle_walk_begin(MLE_SV39, 0x80000, &load_at_0, 2, &walk, &leaf), MLE_ERR_AD, walk.pte_pa == 0);
    CHECK("walk from no PPN", mle_walk_begin(MLE_SV39, UINT64_C(1) << 44, &load_at_0, MLE_AD_SET, &walk, &leaf), MLE_ERR_ROOT,
          walk.pte_pa == 0);
    CHECK("null access of a walk", mle_walk_begin(MLE_SV39, 0x80000, NULL, MLE_AD_SET, &walk, &leaf), MLE_ERR_NULL, 1);
    CHECK("null walk to begin", mle_walk_begin(MLE_SV39, 0x80000, &load_at_0, MLE_AD_SET, NULL, &leaf), MLE_ERR_NULL, 1);
    CHECK("null leaf", mle_walk_begin(MLE_SV39, 0x80000, &load_at_0, MLE_AD_SET, &walk, NULL), MLE_ERR_NULL, walk.pte_pa == 0);
    CHECK("walk", mle_walk_begin(MLE_SV39, 0x80000, &load_at_0, MLE_AD_SET, &walk, &leaf), MLE_MORE, walk.pte_pa == 0x80000000);
    bad = walk, bad.access.access = 3;
    refused_walk("walk with no access", &bad, MLE_ERR_ACCESS);
    bad = walk, bad.access.mode = 3;
    refused_walk("walk with no mode", &bad, MLE_ERR_MODE);
    bad = walk, bad.ad = 2;
    refused_walk("walk with no policy", &bad, MLE_ERR_AD);
    bad = walk, bad.level = 4;
    refused_walk("walk at level 4", &bad, MLE_ERR_WALK);
    bad = walk, bad.table_ppn = UINT64_C(1) << 44;
    refused_walk("walk at no PPN", &bad, MLE_ERR_WALK);
    bad = walk, bad.access.va = UINT64_C(0x800000000000);
    refused_walk("walk of no address", &bad, MLE_ERR_WALK);
    CHECK("null walk", mle_walk_word(NULL, 1, &leaf), MLE_ERR_NULL, leaf.pte == 0);
    CHECK("null leaf of a word", mle_walk_word(&walk, 1, NULL), MLE_ERR_NULL, walk.level == 2);
    CHECK("null walk without a word", mle_walk_no_word(NULL, &leaf), MLE_ERR_NULL, leaf.pte == 0);
    CHECK("odd leaf", mle_walk_word(&walk, 1, (struct mle_leaf *)(void *)((char *)&leaf + 1)), MLE_ERR_ALIGNMENT, walk.level == 2);
    CHECK("no word", mle_walk_no_word(&walk, &leaf), MLE_TRAP, leaf.answer.cause == 5 && leaf.pte_pa == 0);
    CHECK("entry in no mode", mle_entry_permits(&entry, 3, 0, 0, &permits), MLE_ERR_MODE, permits == 9);
    CHECK("null entry that permits", mle_entry_permits(NULL, MLE_USER, 0, 0, &permits), MLE_ERR_NULL, permits == 9);
    CHECK("null set", mle_entry_permits(&entry, MLE_USER, 0, 0, NULL), MLE_ERR_NULL, 1);
    CHECK("entry permits", mle_entry_permits(&entry, MLE_USER, 0, 0, &permits), MLE_OK, permits == 1 << MLE_LOAD);
}

/* Memory of a TLB of two entries, and what it was before a call. */
static union {
    uint64_t aligned;
    unsigned char bytes[MLE_TLB_BYTES(2)];
} memory, before;
static struct mle_tlb *const tlb = (struct mle_tlb *)(void *)&memory;

static void remember(void) { memcpy(&before, &memory, sizeof before); }

static int is_same(void) { return memcmp(&before, &memory, sizeof before) == 0; }

static void tlb_memory(void) {
    struct mle_tlb *open = MLE_TLB_CLOSED, *first;
    memset(&memory, 0x5a, sizeof memory);
    remember();
    CHECK("check of no TLB", mle_tlb_check(&memory, sizeof memory), MLE_ERR_LENGTH, is_same());
    CHECK("TLB of 0", mle_tlb_init(&memory, sizeof memory, 0), MLE_ERR_TLB, is_same());
    CHECK("TLB of 3", mle_tlb_init(&memory, sizeof memory, 3), MLE_ERR_TLB, is_same());
    CHECK("TLB of 8192", mle_tlb_init(&memory, SIZE_MAX, 8192), MLE_ERR_TLB, is_same());
    CHECK("a byte too few", mle_tlb_init(&memory, sizeof memory - 1, 2), MLE_ERR_LENGTH, is_same());
    CHECK("odd memory", mle_tlb_init(memory.bytes + 1, sizeof memory - 1, 1), MLE_ERR_ALIGNMENT, is_same());
    CHECK("null memory", mle_tlb_init(NULL, sizeof memory, 2), MLE_ERR_NULL, 1);
    CHECK("null memory to check", mle_tlb_check(NULL, sizeof memory), MLE_ERR_NULL, 1);
    CHECK("no bytes to check", mle_tlb_check(&memory, 15), MLE_ERR_LENGTH, is_same());
    CHECK("close of a closed TLB", mle_tlb_close(&open), MLE_ERR_NOT_OPEN, open == NULL);
    CHECK("open of 5000", mle_tlb_open(5000, &open), MLE_ERR_TLB, open == NULL);
    CHECK("open", mle_tlb_open(4096, &open), MLE_OK, open != NULL);
    first = open;
    CHECK("open again", mle_tlb_open(16, &open), MLE_ERR_ALREADY_OPEN, open == first);
    CHECK("null TLB to open", mle_tlb_open(16, NULL), MLE_ERR_NULL, 1);
    CHECK("null TLB to close", mle_tlb_close(NULL), MLE_ERR_NULL, 1);
    CHECK("close", mle_tlb_close(&open), MLE_OK, open == NULL);
    CHECK("close again", mle_tlb_close(&open), MLE_ERR_NOT_OPEN, open == NULL);
    CHECK("init", mle_tlb_init(&memory, sizeof memory, 2), MLE_OK, tlb->capacity == 2 && tlb->count == 0);
    CHECK("check", mle_tlb_check(&memory, sizeof memory), MLE_OK, 1);
    CHECK("a byte too few to check", mle_tlb_check(&memory, sizeof memory - 1), MLE_ERR_LENGTH, 1);
}

static void tlbs(void) {
    struct mle_entry entry = {0x1000, 0x1000, 5, 1, 0xd2, 0}, found = {0, 0, 0, 0, 0, 0}, bad;
    const struct mle_fence all = {0, 0, 0, 0};
    struct mle_what what = {0x1000, 0x1000, 1, 1, MLE_WHAT_PAGE};
    struct mle_answer answer = {0, 0, 0, 0, 0, 0, 0, 0};
    struct mle_access at_page = {0x1234, MLE_LOAD, MLE_USER, 0, 0}, odd;
    CHECK("miss", mle_tlb_lookup(tlb, 1, 0x1000, &found), MLE_MISS, found.page_bytes == 0);
    CHECK("no translation", mle_tlb_translate(tlb, 1, &at_page, &answer, &found), MLE_MISS, answer.pa == 0 && found.page_bytes == 0);
    CHECK("no entry", mle_tlb_entry(tlb, 0, &found), MLE_MISS, found.page_bytes == 0);
    remember();
    bad = entry, bad.page_base = 0x1001;
    CHECK("page out of line", mle_tlb_fill(tlb, &bad), MLE_ERR_PAGE, is_same());
    bad = entry, bad.page_bytes = 0x2000;
    CHECK("no size of a page", mle_tlb_fill(tlb, &bad), MLE_ERR_PAGE, is_same());
    bad = entry, bad.page_base = UINT64_C(0x800000000000);
    CHECK("page that is not canonical", mle_tlb_fill(tlb, &bad), MLE_ERR_PAGE, is_same());
    CHECK("still a miss", mle_tlb_lookup(tlb, 1, 0x1000, &found), MLE_MISS, found.page_bytes == 0);
    CHECK("fill", mle_tlb_fill(tlb, &entry), MLE_OK, mle_tlb_count(tlb) == 1);
    CHECK("hit", mle_tlb_lookup(tlb, 1, 0x1fff, &found), MLE_OK, found.page_base == 0x1000 && found.ppn == 5 && found.flags == 0xd2);
    CHECK("other ASID", mle_tlb_lookup(tlb, 2, 0x1000, &found), MLE_MISS, 1);
    CHECK("translation", mle_tlb_translate(tlb, 1, &at_page, &answer, &found), MLE_OK, answer.pa == 0x5234);
    remember();
    what.kind = 3;
    CHECK("service of no kind", mle_tlb_serve(tlb, &what), MLE_ERR_KIND, is_same());
    what.kind = MLE_WHAT_PAGE, what.page_base = 1;
    CHECK("service of no page", mle_tlb_serve(tlb, &what), MLE_ERR_PAGE, is_same());
    CHECK("fence of no scheme", mle_tlb_fence(tlb, 0, &all), MLE_ERR_SCHEME, is_same());
    CHECK("still a hit", mle_tlb_lookup(tlb, 1, 0x1000, &found), MLE_OK, 1);
    odd = at_page, odd.access = 9;
    CHECK("TLB and no access", mle_tlb_translate(tlb, 1, &odd, &answer, &found), MLE_ERR_ACCESS, answer.pa == 0x5234);
    CHECK("entry and no access", mle_entry_translate(&entry, &odd, &answer), MLE_ERR_ACCESS, answer.pa == 0x5234);
    odd.access = MLE_LOAD, odd.mode = 2;
    CHECK("TLB and no mode", mle_tlb_translate(tlb, 1, &odd, &answer, &found), MLE_ERR_MODE, answer.pa == 0x5234);
    CHECK("entry and no mode", mle_entry_translate(&entry, &odd, &answer), MLE_ERR_MODE, answer.pa == 0x5234);
    odd.mode = MLE_USER, odd.va = UINT64_C(0x800000000000);
    CHECK("TLB and no address", mle_tlb_translate(tlb, 1, &odd, &answer, &found), MLE_MISS, answer.pa == 0x5234);
    CHECK("entry and no address", mle_entry_translate(&entry, &odd, &answer), MLE_ERR_ADDRESS, answer.pa == 0x5234);
    CHECK("no entry", mle_entry_translate(&bad, &load_at_0, &answer), MLE_ERR_PAGE, answer.pa == 0x5234);
    CHECK("entry answers", mle_entry_translate(&entry, &at_page, &answer), MLE_OK, answer.pa == 0x5234);
    CHECK("no entry to replace with", mle_tlb_replace(tlb, &bad), MLE_ERR_PAGE, mle_tlb_count(tlb) == 1);
    CHECK("replacement", mle_tlb_replace(tlb, &entry), 1, mle_tlb_count(tlb) == 1);
    what.page_base = 0x1000;
    CHECK("service", mle_tlb_serve(tlb, &what), 1, mle_tlb_count(tlb) == 0);
    CHECK("dropped", mle_tlb_lookup(tlb, 1, 0x1000, &found), MLE_MISS, 1);
    CHECK("fence of an empty TLB", mle_tlb_fence(tlb, MLE_SV48, &all), 0, 1);
    tlb->count = 3;
    remember();
    CHECK("broken TLB to check", mle_tlb_check(tlb, sizeof memory), MLE_ERR_TLB, is_same());
    CHECK("broken TLB to count", mle_tlb_count(tlb), MLE_ERR_TLB, is_same());
    CHECK("broken TLB to list", mle_tlb_entry(tlb, 0, &found), MLE_ERR_TLB, is_same());
    CHECK("broken TLB to look up in", mle_tlb_lookup(tlb, 1, 0, &found), MLE_ERR_TLB, is_same());
    CHECK("broken TLB to translate", mle_tlb_translate(tlb, 1, &at_page, &answer, &found), MLE_ERR_TLB, is_same());
    CHECK("broken TLB to fill", mle_tlb_fill(tlb, &entry), MLE_ERR_TLB, is_same());
    CHECK("broken TLB to replace in", mle_tlb_replace(tlb, &entry), MLE_ERR_TLB, is_same());
    CHECK("broken TLB to fence", mle_tlb_fence(tlb, MLE_SV39, &all), MLE_ERR_TLB, is_same());
    CHECK("broken TLB to serve", mle_tlb_serve(tlb, &what), MLE_ERR_TLB, is_same());
}

static void tlb_nulls(void) {
    struct mle_entry entry = {0x1000, 0x1000, 5, 1, 0xd2, 0}, found;
    const struct mle_fence all = {0, 0, 0, 0};
    const struct mle_what what = {0x1000, 0x1000, 1, 1, MLE_WHAT_PAGE};
    struct mle_answer answer;
    CHECK("null TLB to count", mle_tlb_count(NULL), MLE_ERR_NULL, 1);
    CHECK("null TLB to list", mle_tlb_entry(NULL, 0, &found), MLE_ERR_NULL, 1);
    CHECK("null entry to list", mle_tlb_entry(tlb, 0, NULL), MLE_ERR_NULL, 1);
    CHECK("null TLB to look up in", mle_tlb_lookup(NULL, 1, 0, &found), MLE_ERR_NULL, 1);
    CHECK("null entry to look up", mle_tlb_lookup(tlb, 1, 0, NULL), MLE_ERR_NULL, 1);
    CHECK("null TLB to translate", mle_tlb_translate(NULL, 1, &load_at_0, &answer, &found), MLE_ERR_NULL, 1);
    CHECK("null access of a TLB", mle_tlb_translate(tlb, 1, NULL, &answer, &found), MLE_ERR_NULL, 1);
    CHECK("null answer of a TLB", mle_tlb_translate(tlb, 1, &load_at_0, NULL, &found), MLE_ERR_NULL, 1);
    CHECK("null entry of a TLB", mle_tlb_translate(tlb, 1, &load_at_0, &answer, NULL), MLE_ERR_NULL, 1);
    CHECK("null TLB to fill", mle_tlb_fill(NULL, &entry), MLE_ERR_NULL, 1);
    CHECK("null entry to fill", mle_tlb_fill(tlb, NULL), MLE_ERR_NULL, 1);
    CHECK("null TLB to replace in", mle_tlb_replace(NULL, &entry), MLE_ERR_NULL, 1);
    CHECK("null entry to replace", mle_tlb_replace(tlb, NULL), MLE_ERR_NULL, 1);
    CHECK("null TLB to fence", mle_tlb_fence(NULL, MLE_SV39, &all), MLE_ERR_NULL, 1);
    CHECK("null fence", mle_tlb_fence(tlb, MLE_SV39, NULL), MLE_ERR_NULL, 1);
    CHECK("null TLB to serve", mle_tlb_serve(NULL, &what), MLE_ERR_NULL, 1);
    CHECK("null request", mle_tlb_serve(tlb, NULL), MLE_ERR_NULL, 1);
    CHECK("null entry to translate", mle_entry_translate(NULL, &load_at_0, &answer), MLE_ERR_NULL, 1);
    CHECK("null access of an entry", mle_entry_translate(&entry, NULL, &answer), MLE_ERR_NULL, 1);
    CHECK("null answer of an entry", mle_entry_translate(&entry, &load_at_0, NULL), MLE_ERR_NULL, 1);
}

static void machines(void) {
    struct mle_machine machine = MLE_MACHINE_CLOSED;
    struct mle_config config = {.base = 0x80000, .scheme = MLE_SV48, .harts = 1, .window = 1, .capacity = 1}, bad;
    static struct mle_space spaces[33];
    const uint16_t spares[9] = {4};
    struct mle_event event = {.kind = 19}, begin = {.kind = MLE_EVENT_BEGIN};
    struct mle_reply reply = {.kind = 0x5a};
    void *open;
    CHECK("step of a closed machine", mle_machine_step(&machine, &begin, &reply), MLE_ERR_NOT_OPEN, reply.kind == 0x5a);
    CHECK("closed machine translates", mle_machine_translates(&machine, 0, 0, 0), MLE_ERR_NOT_OPEN, machine.opaque == NULL);
    CHECK("close of a closed machine", mle_machine_close(&machine), MLE_ERR_NOT_OPEN, machine.opaque == NULL);
    bad = config, bad.scheme = 1;
    CHECK("machine of no scheme", mle_machine_open(&bad, spaces, 1, spares, 1, &machine), MLE_ERR_SCHEME, machine.opaque == NULL);
    bad = config, bad.harts = 9;
    CHECK("nine harts", mle_machine_open(&bad, spaces, 1, spares, 9, &machine), MLE_ERR_LAYOUT, machine.opaque == NULL);
    bad = config, bad.window = 0;
    CHECK("no window", mle_machine_open(&bad, spaces, 1, spares, 1, &machine), MLE_ERR_LAYOUT, machine.opaque == NULL);
    CHECK("33 spaces", mle_machine_open(&config, spaces, 33, spares, 1, &machine), MLE_ERR_LAYOUT, machine.opaque == NULL);
    CHECK("no space", mle_machine_open(&config, spaces, 0, spares, 1, &machine), MLE_ERR_LAYOUT, machine.opaque == NULL);
    CHECK("a spare too many", mle_machine_open(&config, spaces, 1, spares, 2, &machine), MLE_ERR_LAYOUT, machine.opaque == NULL);
    CHECK("open", mle_machine_open(&config, spaces, 1, spares, 1, &machine), MLE_OK, machine.opaque != NULL);
    open = machine.opaque;
    CHECK("open again", mle_machine_open(&config, spaces, 1, spares, 1, &machine), MLE_ERR_ALREADY_OPEN, machine.opaque == open);
    CHECK("event of no kind", mle_machine_step(&machine, &event, &reply), MLE_ERR_KIND, reply.kind == 0x5a);
    event.kind = MLE_EVENT_MAP, event.page_bytes = 0x1000, event.page_base = 1;
    CHECK("event of no page", mle_machine_step(&machine, &event, &reply), MLE_ERR_PAGE, reply.kind == 0x5a);
    begin.access.access = 3;
    CHECK("event of no access", mle_machine_step(&machine, &begin, &reply), MLE_ERR_ACCESS, reply.kind == 0x5a);
    begin.access.access = MLE_LOAD, begin.access.mode = 3;
    CHECK("event of no mode", mle_machine_step(&machine, &begin, &reply), MLE_ERR_MODE, reply.kind == 0x5a);
    CHECK("no hart", mle_machine_translates(&machine, 1, 0, 0), MLE_ERR_HART, machine.opaque == open);
    CHECK("null config", mle_machine_open(NULL, spaces, 1, spares, 1, &machine), MLE_ERR_NULL, 1);
    CHECK("null spaces", mle_machine_open(&config, NULL, 1, spares, 1, &machine), MLE_ERR_NULL, 1);
    CHECK("null spares", mle_machine_open(&config, spaces, 1, NULL, 1, &machine), MLE_ERR_NULL, 1);
    CHECK("null machine to open", mle_machine_open(&config, spaces, 1, spares, 1, NULL), MLE_ERR_NULL, 1);
    CHECK("null machine to step", mle_machine_step(NULL, &begin, &reply), MLE_ERR_NULL, 1);
    CHECK("null event", mle_machine_step(&machine, NULL, &reply), MLE_ERR_NULL, 1);
    CHECK("null reply", mle_machine_step(&machine, &begin, NULL), MLE_ERR_NULL, 1);
    CHECK("null machine translates", mle_machine_translates(NULL, 0, 0, 0), MLE_ERR_NULL, 1);
    CHECK("null machine to close", mle_machine_close(NULL), MLE_ERR_NULL, 1);
    begin.access.mode = MLE_USER, begin.hart = 1;
    CHECK("step of no hart", mle_machine_step(&machine, &begin, &reply), MLE_OK, reply.kind == MLE_REPLY_REFUSED && reply.refusal == 1);
    begin.hart = 0;
    CHECK("step", mle_machine_step(&machine, &begin, &reply), MLE_OK, reply.kind == MLE_REPLY_MORE && reply.refusal == 0);
    CHECK("close", mle_machine_close(&machine), MLE_OK, machine.opaque == NULL);
    CHECK("close again", mle_machine_close(&machine), MLE_ERR_NOT_OPEN, machine.opaque == NULL);
}

/* The calls that tell the state of a machine, with what is 9 before: of a closed one, then of one that is open. */
static void states(void) {
    const struct mle_config config = {0x80000, MLE_SV39, 1, 1, 1};
    const struct mle_space space = {1, 0};
    const uint16_t spares[1] = {4};
    struct mle_machine machine = MLE_MACHINE_CLOSED;
    struct mle_hart hart;
    struct mle_entry entry;
    struct mle_space_state place;
    struct mle_ticket ticket;
    struct mle_mailbox mailbox;
    struct mle_request request;
    struct mle_version version;
    uint64_t word = 9;
    memset(&hart, 9, sizeof hart);
    memset(&entry, 9, sizeof entry);
    memset(&place, 9, sizeof place);
    memset(&ticket, 9, sizeof ticket);
    memset(&mailbox, 9, sizeof mailbox);
    memset(&request, 9, sizeof request);
    CHECK("state of no machine", mle_machine_hart(NULL, 0, &hart), MLE_ERR_NULL, hart.space == 9);
    CHECK("entry of no machine", mle_machine_entry(NULL, 0, 0, &entry), MLE_ERR_NULL, entry.flags == 9);
    CHECK("space of no machine", mle_machine_space(NULL, 0, &place), MLE_ERR_NULL, place.home == 9);
    CHECK("ticket of no machine", mle_machine_ticket(NULL, 0, 0, &ticket), MLE_ERR_NULL, ticket.named == 9);
    CHECK("mailbox of no machine", mle_machine_mailbox(NULL, 0, 0, &mailbox), MLE_ERR_NULL, mailbox.is_closed == 9);
    CHECK("request of no machine", mle_machine_request(NULL, 0, 0, 0, &request), MLE_ERR_NULL, request.what.kind == 9);
    CHECK("word of no machine", mle_machine_word(NULL, 0x80001, 0, &word), MLE_ERR_NULL, word == 9);
    CHECK("null hart", mle_machine_hart(&machine, 0, NULL), MLE_ERR_NULL, machine.opaque == NULL);
    CHECK("null entry of a hart", mle_machine_entry(&machine, 0, 0, NULL), MLE_ERR_NULL, machine.opaque == NULL);
    CHECK("null space", mle_machine_space(&machine, 0, NULL), MLE_ERR_NULL, machine.opaque == NULL);
    CHECK("null ticket", mle_machine_ticket(&machine, 0, 0, NULL), MLE_ERR_NULL, machine.opaque == NULL);
    CHECK("null mailbox", mle_machine_mailbox(&machine, 0, 0, NULL), MLE_ERR_NULL, machine.opaque == NULL);
    CHECK("null request", mle_machine_request(&machine, 0, 0, 0, NULL), MLE_ERR_NULL, machine.opaque == NULL);
    CHECK("null word", mle_machine_word(&machine, 0x80001, 0, NULL), MLE_ERR_NULL, machine.opaque == NULL);
    CHECK("odd hart", mle_machine_hart(&machine, 0, (struct mle_hart *)(void *)((char *)&hart + 1)), MLE_ERR_ALIGNMENT, hart.space == 9);
    CHECK("state of a closed machine", mle_machine_hart(&machine, 0, &hart), MLE_ERR_NOT_OPEN, hart.space == 9);
    CHECK("entry of a closed machine", mle_machine_entry(&machine, 0, 0, &entry), MLE_ERR_NOT_OPEN, entry.flags == 9);
    CHECK("space of a closed machine", mle_machine_space(&machine, 0, &place), MLE_ERR_NOT_OPEN, place.home == 9);
    CHECK("ticket of a closed machine", mle_machine_ticket(&machine, 0, 0, &ticket), MLE_ERR_NOT_OPEN, ticket.named == 9);
    CHECK("mailbox of a closed machine", mle_machine_mailbox(&machine, 0, 0, &mailbox), MLE_ERR_NOT_OPEN, mailbox.is_closed == 9);
    CHECK("request of a closed machine", mle_machine_request(&machine, 0, 0, 0, &request), MLE_ERR_NOT_OPEN, request.what.kind == 9);
    CHECK("word of a closed machine", mle_machine_word(&machine, 0x80001, 0, &word), MLE_ERR_NOT_OPEN, word == 9);
    if (mle_machine_open(&config, &space, 1, spares, 1, &machine) != MLE_OK) {
        printf("no machine\n");
        return;
    }
    CHECK("state of no hart", mle_machine_hart(&machine, 1, &hart), MLE_ERR_HART, hart.space == 9);
    CHECK("entry of no hart", mle_machine_entry(&machine, 1, 0, &entry), MLE_ERR_HART, entry.flags == 9);
    CHECK("no entry", mle_machine_entry(&machine, 0, 0, &entry), MLE_ERR_PLACE, entry.flags == 9);
    CHECK("no space", mle_machine_space(&machine, 1, &place), MLE_ERR_SPACE, place.home == 9);
    CHECK("ticket of no hart", mle_machine_ticket(&machine, 1, 0, &ticket), MLE_ERR_HART, ticket.named == 9);
    CHECK("no ticket", mle_machine_ticket(&machine, 0, 64, &ticket), MLE_ERR_TICKET, ticket.named == 9);
    CHECK("mailbox to no hart", mle_machine_mailbox(&machine, 0, 1, &mailbox), MLE_ERR_HART, mailbox.is_closed == 9);
    CHECK("request to no hart", mle_machine_request(&machine, 0, 1, 0, &request), MLE_ERR_HART, request.what.kind == 9);
    CHECK("no request", mle_machine_request(&machine, 0, 0, 0, &request), MLE_ERR_PLACE, request.what.kind == 9);
    CHECK("no word", mle_machine_word(&machine, 0x80000, 512, &word), MLE_ERR_PLACE, word == 9);
    CHECK("word", mle_machine_word(&machine, 0x80001, 0, &word), MLE_OK, word == 0);
    CHECK("close after states", mle_machine_close(&machine), MLE_OK, machine.opaque == NULL);
    CHECK("null version", mle_version(NULL), MLE_ERR_NULL, 1);
    CHECK("version", mle_version(&version), MLE_OK, version.major == MLE_VERSION_MAJOR && version.minor == MLE_VERSION_MINOR);
}

int main(void) {
    translations();
    walks();
    tlb_memory();
    tlbs();
    tlb_nulls();
    machines();
    states();
    printf("%d calls, %d wrong\n", passed + failed, failed);
    return failed != 0;
}
