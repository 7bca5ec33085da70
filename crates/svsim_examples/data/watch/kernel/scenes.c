/* The scenes. At first harts 1 and 2 are in the parent's space. */
#include "kernel.h"

enum scene { PAGES = 1, FORK, SUPERPAGES, GLOBAL, EXIT };
#define PLAYS(scene) (MISTAKE == 0 || MISTAKE / 10 == (scene))

/* Pages are unmapped while hart 2 is in the space, and while it is away. */
static void play_pages(void)
{
    on(1, map, &parent, PAGE);
    on(1, load, &parent, PAGE);
    on(2, load, &parent, PAGE);
    on(1, unmap, &parent, PAGE);
    on(2, load, &parent, PAGE);
    on(1, map, &parent, 2 * PAGE);
    on(2, load, &parent, 2 * PAGE);
    on(2, enter, &idle, 0);
    on(1, unmap, &parent, 2 * PAGE);
    on(2, enter, &parent, 0);
    on(2, load, &parent, 2 * PAGE);
}

/* Hart 3 runs the child. */
static void play_fork(void)
{
    on(1, map, &parent, 3 * PAGE);
    on(1, write, &parent, 3 * PAGE);
    on(2, load, &parent, 3 * PAGE);
    on(1, fork, &parent, 3 * PAGE);
    on(3, enter, &child, 0);
    on(3, load, &child, 3 * PAGE);
    on(1, write, &parent, 3 * PAGE);
    on(2, load, &parent, 3 * PAGE);
    on(3, load, &child, 3 * PAGE);
    on(3, enter, &idle, 0);
    on(3, end, &child, 3 * PAGE);
    on(1, unmap, &parent, 3 * PAGE);
}

/* Two small pages become a superpage, which is unmapped. */
static void play_superpages(void)
{
    on(1, add_last_table, &parent, SUPERPAGE);
    on(1, map, &parent, SUPERPAGE);
    on(1, map, &parent, SUPERPAGE + PAGE);
    on(2, load, &parent, SUPERPAGE);
    on(2, load, &parent, SUPERPAGE + PAGE);
    on(1, collapse, &parent, SUPERPAGE);
    on(2, load, &parent, SUPERPAGE + PAGE);
    on(1, unmap_superpage, &parent, SUPERPAGE);
    on(2, load, &parent, SUPERPAGE + PAGE);
}

/* A page of the kernel, which all harts may hold. */
static void play_global(void)
{
    on(0, map, &idle, WINDOW);
    on(1, load, &parent, WINDOW);
    on(3, load, &idle, WINDOW);
    on(0, unmap_window, &idle, WINDOW);
    on(1, load, &parent, WINDOW);
}

/* The parent ends, and another process gets its frames and its ASID. */
static void play_exit(void)
{
    on(1, map, &parent, PAGE);
    on(1, load, &parent, PAGE);
    on(2, enter, &idle, 0);
    on(1, enter, &idle, 0);
    on(1, end, &parent, PAGE);
    create(0, &child, parent.asid);
    on(0, map, &child, PAGE);
    on(1, enter, &child, 0);
    on(1, load, &child, PAGE);
}

void play(void)
{
    trace_open("4", "sv39");
    start_frames();
    create(0, &idle, 0);
    for (unsigned hart = 0; hart < HARTS; hart++)
        on(hart, begin, &idle, 0);
    create(0, &parent, 1);
    on(1, enter, &parent, 0);
    on(2, enter, &parent, 0);
    if (PLAYS(PAGES))
        play_pages();
    if (PLAYS(FORK))
        play_fork();
    if (PLAYS(SUPERPAGES))
        play_superpages();
    if (PLAYS(GLOBAL))
        play_global();
    if (PLAYS(EXIT))
        play_exit();
}
