/* How deep a call goes on the stack: each is run on a stack full of one byte, and the deepest byte that changed is looked for. */
#define _DEFAULT_SOURCE
#include "romulus.h"
#include <pthread.h>
#include <stdio.h>
#include <stdlib.h>
#include <sys/mman.h>

enum { STACK = 1 << 20, PAINT = 0xa5, KEPT = 256, MOST = 65535 };

static uint8_t *stack, key[16], nonce[16], tag[16], digest[32], data[MOST], text[MOST], out[MOST];
static romulus_post post;

typedef struct measured {
    const char *name;
    int index;
    size_t bytes;
} measured;

static void call(int index)
{
    romulus_answer a = { 0, 0 };
    romulus_post_answer b = { 0, 0, 0, 0 };
    switch (index) {
    case 0: a = romulus_c_n40_seal(key, 16, nonce, 16, data, MOST, text, MOST, out, MOST, tag, 16); break;
    case 1: a = romulus_c_n40_open(key, 16, nonce, 16, data, MOST, text, MOST, tag, 16, out, MOST); break;
    case 2: a = romulus_c_m40_seal(key, 16, nonce, 16, data, MOST, text, MOST, out, MOST, tag, 16); break;
    case 3: a = romulus_c_m40_open(key, 16, nonce, 16, data, MOST, text, MOST, tag, 16, out, MOST); break;
    case 4: a = romulus_c_t40_seal(key, 16, nonce, 16, data, MOST, text, MOST, out, MOST, tag, 16); break;
    case 5: a = romulus_c_t40_open(key, 16, nonce, 16, data, MOST, text, MOST, tag, 16, out, MOST); break;
    case 6: a.number = romulus_c_h40_hash(data, MOST, digest, 32); break;
    case 7: b.number = romulus_c_post_make(&post, ROMULUS_MODE_T, 40, key, 16, 0, 0, 10, ROMULUS_MOST_ALLOWANCE); break;
    case 8: b = romulus_c_post_seal(&post, data, MOST, text, MOST, out, MOST, tag, 16); break;
    case 9: b = romulus_c_post_open(&post, nonce, 16, data, MOST, text, MOST, tag, 16, out, MOST); break;
    default: b.number = romulus_c_post_retire(&post).number; break;
    }
    if ((a.number | b.number) != 0 && a.number != ROMULUS_WRONG_FRAME && b.number != ROMULUS_WRONG_FRAME) {
        printf("FAILED: a measured call was refused (%d)\n", index);
        exit(1);
    }
}

static void *run(void *given)
{
    measured *m = given;
    uint8_t *here = __builtin_frame_address(0), *deepest = stack;
    volatile uint8_t *p;
    for (p = stack; p < here - KEPT; p++) *p = PAINT;
    call(m->index);
    while (deepest < here && *deepest == PAINT) deepest++;
    m->bytes = (size_t)(here - deepest);
    return NULL;
}

int main(int count, char **words)
{
    static const char *names[] = { "n40_seal", "n40_open", "m40_seal", "m40_open", "t40_seal", "t40_open", "h40_hash", "post_make", "post_seal", "post_open", "post_retire" };
    size_t limit = count > 1 ? strtoul(words[1], NULL, 10) : SIZE_MAX, most = 0;
    int i;
    stack = mmap(NULL, STACK, PROT_READ | PROT_WRITE, MAP_PRIVATE | MAP_ANONYMOUS, -1, 0);
    for (i = 0; i < 11; i++) call(i); /* once before, so that no call waits for the linker to find memcpy */
    printf("stack:");
    for (i = 0; i < 11; i++) {
        measured m = { names[i], i, 0 };
        pthread_attr_t attr;
        pthread_t thread;
        pthread_attr_init(&attr);
        if (pthread_attr_setstack(&attr, stack, STACK) != 0 || pthread_create(&thread, &attr, run, &m) != 0 || pthread_join(thread, NULL) != 0) return 1;
        pthread_attr_destroy(&attr);
        printf(" %s %zu", m.name, m.bytes);
        if (m.bytes > most) most = m.bytes;
    }
    printf(" bytes, at most %zu\n", most);
    if (most > limit) puts("FAILED: a call uses more stack than documented");
    return most > limit;
}
