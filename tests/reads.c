/*
 * How much of a river a search reads. The channel list lies across the border of two stretches of memory, one of which must not be read:
 * first with one block of sixteen segments right behind the border and all before it out of reach, then right before it and all behind it
 * out of reach. The highest figure of that block alone is above the limit. A search that reads a segment of another block, or one behind
 * the river, ends in a fault, so that one which ends well both times has read none but the block's own. Where no highest figure is above
 * the limit all of the list is out of reach.
 *
 *     reads SEGMENTS ..
 *
 * For rivers of these lengths, alone and on shared lists; it prints how many searches there were, and how many went wrong.
 */
#define _GNU_SOURCE
#include <setjmp.h>
#include <signal.h>
#include <stdio.h>
#include <stdlib.h>
#include <string.h>
#include <sys/mman.h>
#include <unistd.h>

#include "yumbaqel.h"

#define BLOCK 16
#define LIMIT 1000

static unsigned char *memory;      /* two stretches of so many bytes, each longer than a list */
static size_t stretch;
static sigjmp_buf back;
static unsigned searches, wrong;

static void out_of_reach(int number)
{
    (void)number;
    siglongjmp(back, 1);
}

/* Whether a read of this segment ends in a fault. */
static int faults(const volatile uint32_t *segment)
{
    if (sigsetjmp(back, 1) != 0)
        return 1;
    (void)*segment;
    return 0;
}

static void protect(int before, int behind)
{
    if (mprotect(memory, stretch, before) != 0 || mprotect(memory + stretch, stretch, behind) != 0)
        exit(2);
}

/* One search of n segments from this one on, which is to find that segment, alone or as a river of the shared lists that begin `first`
   segments before it. */
static void search(const uint32_t *channel, uint32_t n, const uint32_t *highest, int pooled, uint32_t first, uint32_t wanted)
{
    static struct yumbaqel_table table;        /* static, as a jump out of the call leaves locals in doubt */
    static struct yumbaqel_refusal told;
    static uint32_t segment;
    static int reached;
    table.slots[2].opened = 1;
    table.slots[2].first = first;
    table.slots[2].segments = n;
    segment = 7777;
    reached = 0;
    searches++;
    if (sigsetjmp(back, 1) == 0) {
        if (pooled)
            yumbaqel_pool_search(&told.number, &told.kind, &told.place, &segment, 3, channel - first, YUMBAQEL_MOST_SEGMENTS,
                                 highest, YUMBAQEL_HIGHEST_WORDS(n), &table, LIMIT);
        else
            yumbaqel_search(&told.number, &told.kind, &told.place, &segment, n, channel, YUMBAQEL_MOST_SEGMENTS,
                            highest, YUMBAQEL_HIGHEST_WORDS(n), LIMIT);
        reached = 1;
    }
    if (!reached)
        printf("a search of %u segments reads one out of reach\n", (unsigned)n);
    else if (told.number != YUMBAQEL_ACCEPTED || segment != wanted)
        printf("a search of %u segments finds %u, not %u\n", (unsigned)n, (unsigned)segment, (unsigned)wanted);
    else
        return;
    wrong++;
}

/* Searches with one block to enter, whose segments are at the limit but for the one to be found, if any. All others are above it. */
static void enter(uint32_t n, uint32_t block, int pooled)
{
    const uint32_t begin = BLOCK * block, end = begin + BLOCK < n ? begin + BLOCK : n, first = pooled ? YUMBAQEL_MOST_SEGMENTS - n : 0;
    const uint32_t found[] = {0, begin + 1, end};
    uint32_t highest[YUMBAQEL_BLOCKS] = {0}, *channel, i, which, behind;
    highest[block] = LIMIT + 1;
    for (which = 0; which < 3; which++)
        for (behind = 0; behind < 2; behind++) {
            protect(PROT_READ | PROT_WRITE, PROT_READ | PROT_WRITE);
            for (i = 0; i < 2 * stretch / sizeof *channel; i++)
                ((uint32_t *)(void *)memory)[i] = LIMIT + 1;
            channel = (uint32_t *)(void *)(memory + stretch) - (behind ? end : begin);
            for (i = begin; i < end; i++)
                channel[i] = LIMIT;
            if (found[which] != 0)
                channel[found[which] - 1]++;
            protect(behind ? PROT_READ : PROT_NONE, behind ? PROT_NONE : PROT_READ);
            if (faults(&channel[begin]) || faults(&channel[end - 1]) || !faults(behind ? &channel[end] : &channel[begin] - 1))
                exit(2);
            search(channel, n, highest, pooled, first, found[which]);
        }
}

/* A search that has no block to enter: every highest figure is at the limit. */
static void enter_none(uint32_t n, int pooled)
{
    uint32_t highest[YUMBAQEL_BLOCKS], *const channel = (uint32_t *)(void *)(memory + stretch) - n / 2, i;
    for (i = 0; i < YUMBAQEL_BLOCKS; i++)
        highest[i] = LIMIT;
    protect(PROT_NONE, PROT_NONE);
    if (!faults(&channel[0]) || !faults(&channel[n - 1]))
        exit(2);
    search(channel, n, highest, pooled, pooled ? YUMBAQEL_MOST_SEGMENTS - n : 0, 0);
}

int main(int count, char **arguments)
{
    const size_t page = (size_t)sysconf(_SC_PAGESIZE), list = YUMBAQEL_MOST_SEGMENTS * sizeof(uint32_t);
    struct sigaction action;
    uint32_t n, block;
    int i, pooled;
    stretch = (2 * list + page - 1) / page * page;
    memory = (unsigned char *)mmap(NULL, 2 * stretch, PROT_NONE, MAP_PRIVATE | MAP_ANONYMOUS, -1, 0);
    memset(&action, 0, sizeof action);
    action.sa_handler = out_of_reach;
    if (memory == (unsigned char *)MAP_FAILED || sigaction(SIGSEGV, &action, NULL) != 0)
        return 2;
    for (i = 1; i < count; i++)
        for (pooled = 0; pooled < 2; pooled++) {
            n = (uint32_t)strtoul(arguments[i], NULL, 10);
            for (block = 0; block < YUMBAQEL_HIGHEST_WORDS(n); block++)
                enter(n, block, pooled);
            enter_none(n, pooled);
        }
    printf("searches %u wrong %u\n", searches, wrong);
    return 0;
}
