/*
 * For the tests: buffers lent from one pool with guard bytes between, which must be untouched at
 * the end.
 */
#ifndef GUARDS_H
#define GUARDS_H

#include <stdint.h>
#include <stdio.h>
#include <stdlib.h>
#include <string.h>

/* Ends the program if something is not as the library promises. */
static void must(int holds, const char *what)
{
    if (!holds) {
        printf("not as promised: %s\n", what);
        exit(1);
    }
}

/* The pool: parts that are lent, and a guard before, between and after them. */
enum { ROOM = 131072, PARTS = 40, GUARD = 32, GUARD_BYTE = 0xA5 };
static _Alignas(8) uint8_t pool[ROOM];
static struct { size_t begin, end; } parts[PARTS];
static size_t part_count, pool_used;

static void clear_pool(void)
{
    memset(pool, GUARD_BYTE, ROOM);
}

/* Lends the next part of the pool; what it holds at first is the guard byte. */
static void *lend(size_t length)
{
    size_t begin = pool_used + GUARD;
    pool_used = begin + (length + 7) / 8 * 8;
    must(part_count < PARTS && pool_used + GUARD <= ROOM, "the pool is large enough");
    parts[part_count].begin = begin;
    parts[part_count].end = begin + length;
    part_count++;
    return pool + begin;
}

/* Whether every byte of the pool that was not lent is a guard byte still. */
static int guards_untouched(void)
{
    size_t at = 0;
    for (size_t i = 0; i <= part_count; i++) {
        size_t end = i < part_count ? parts[i].begin : ROOM;
        for (; at < end; at++)
            if (pool[at] != GUARD_BYTE)
                return 0;
        if (i < part_count)
            at = parts[i].end;
    }
    return 1;
}

#endif
