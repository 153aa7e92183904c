/*
 * What the C tests share: counting, and areas between pages that cannot be touched, with guard bytes in what is left of
 * their own pages. To be included first.
 */
#ifndef AREAS_H
#define AREAS_H

#define _DEFAULT_SOURCE /* mmap with MAP_ANONYMOUS */

#include <stddef.h>
#include <stdint.h>
#include <stdio.h>
#include <stdlib.h>
#include <string.h>
#include <sys/mman.h>
#include <unistd.h>

#define GUARD 0xa5
#define NOISE 0x5a

static int passed, failed; /* tests */
static int wrong;          /* checks of the current test that do not hold */

#define CHECK(holds) check((holds), __LINE__, #holds)

static inline int check(int holds, int line, const char *what)
{
    if (!holds) {
        wrong++;
        if (failed < 20)
            printf("line %d: not so: %s\n", line, what);
    }
    return holds;
}

/* Ends a test: counts it. */
static inline void counted(void)
{
    if (wrong == 0)
        passed++;
    else
        failed++;
    wrong = 0;
}

/* ---- areas between untouchable pages */

struct area {
    uint8_t *pages; /* the pages that can be touched */
    size_t room;
    uint8_t *bytes; /* the area within them */
    size_t length;
};

/* An area of this length, `offset` bytes from the begin of its pages, or, if negative, ending where they end. */
static inline struct area area_at(size_t length, long offset)
{
    size_t page = (size_t)sysconf(_SC_PAGESIZE);
    struct area area;
    area.length = length;
    area.room = (length + 64) / page * page + page;
    uint8_t *all = mmap(NULL, area.room + 2 * page, PROT_NONE, MAP_PRIVATE | MAP_ANONYMOUS, -1, 0);
    if (all == MAP_FAILED || mprotect(all + page, area.room, PROT_READ | PROT_WRITE) != 0) {
        perror("mmap");
        exit(2);
    }
    area.pages = all + page;
    area.bytes = offset < 0 ? area.pages + area.room - length : area.pages + offset;
    memset(area.pages, GUARD, area.room);
    memset(area.bytes, NOISE, length);
    return area;
}

static inline void release(struct area *area)
{
    size_t page = (size_t)sysconf(_SC_PAGESIZE);
    munmap(area->pages - page, area->room + 2 * page);
}

static inline int all_are(const uint8_t *bytes, size_t length, uint8_t byte)
{
    for (size_t i = 0; i < length; i++)
        if (bytes[i] != byte)
            return 0;
    return 1;
}

static inline int guards_kept(const struct area *area)
{
    size_t before = (size_t)(area->bytes - area->pages);
    return all_are(area->pages, before, GUARD) &&
           all_are(area->bytes + area->length, area->room - before - area->length, GUARD);
}

#endif
