/* Buffers that end right before, or begin right behind, a page that nobody may touch: an access of the archive past either
   end stops the test, and bytes on the other side are looked at for stray writes. */
#ifndef BUFFERS_H
#define BUFFERS_H

#define _DEFAULT_SOURCE
#include <stdint.h>
#include <stdio.h>
#include <stdlib.h>
#include <string.h>
#include <sys/mman.h>

enum { PAGE = 4096, SLACK = 64, CANARY = 0xc5 };

typedef struct arena {
    uint8_t *first; /* the bytes between the two shut pages */
    size_t bytes;
} arena;

typedef struct buffer {
    uint8_t *at;
    size_t len;
    uint8_t *slack; /* SLACK bytes on the open side */
} buffer;

static void stop(const char *what, size_t a, size_t b)
{
    printf("FAILED: %s (%zu, %zu)\n", what, a, b);
    exit(1);
}

static arena new_arena(size_t most)
{
    arena r;
    r.bytes = (most + SLACK + PAGE - 1) / PAGE * PAGE;
    uint8_t *all = mmap(NULL, r.bytes + 2 * PAGE, PROT_NONE, MAP_PRIVATE | MAP_ANONYMOUS, -1, 0);
    if (all == MAP_FAILED || mprotect(all + PAGE, r.bytes, PROT_READ | PROT_WRITE) != 0) stop("no memory for an arena", most, 0);
    r.first = all + PAGE;
    return r;
}

/* A buffer of len bytes against the page behind (at_end) or before it. */
static buffer place(arena a, size_t len, int at_end)
{
    buffer b;
    if (len + SLACK > a.bytes) stop("a buffer too long for its arena", len, a.bytes);
    b.len = len;
    b.at = at_end ? a.first + a.bytes - len : a.first;
    b.slack = at_end ? b.at - SLACK : b.at + len;
    memset(b.slack, CANARY, SLACK);
    return b;
}

static int slack_kept(buffer b)
{
    for (int i = 0; i < SLACK; i++)
        if (b.slack[i] != CANARY) return 0;
    return 1;
}

static int all_zeros(buffer b)
{
    for (size_t i = 0; i < b.len; i++)
        if (b.at[i] != 0) return 0;
    return 1;
}

/* A stream of bytes that is the same in every run. */
static uint64_t stream_state = 0x9e3779b97f4a7c15u;

static uint64_t random_word(void)
{
    stream_state ^= stream_state << 13;
    stream_state ^= stream_state >> 7;
    stream_state ^= stream_state << 17;
    return stream_state;
}

static void fill(buffer b)
{
    for (size_t i = 0; i < b.len; i++) b.at[i] = (uint8_t)(random_word() >> 32);
}

#endif
