/* A test that a soak drives on: a seed and a number of rounds from its arguments. Without them it runs once, on the stream
   that it always has. Include it after buffers.h. */
#ifndef ROUNDS_H
#define ROUNDS_H

#include "tell.h"

typedef struct soak {
    int driven;
    unsigned long long seed, rounds;
    long first_kb; /* after the first round, when all that is kept has been made */
} soak;

static unsigned long long soak_number(const char *word)
{
    char *end;
    unsigned long long n = strtoull(word, &end, 10);
    if (*word < '0' || *word > '9' || *end) stop("an argument is no number", 0, 0);
    return n;
}

static soak soak_of(int words, char **word)
{
    soak s = { words > 1, 0, 1, -1 };
    if (words != 1 && words != 3) stop("give a seed and a number of rounds, or nothing", (size_t)words - 1, 2);
    if (s.driven) {
        s.seed = soak_number(word[1]);
        s.rounds = soak_number(word[2]);
        stream_state *= 2 * s.seed + 1; /* odd, so that the stream is never stuck at 0 */
    }
    return s;
}

static void round_done(soak *s)
{
    if (s->first_kb < 0) s->first_kb = resident_kb("self");
}

static void soak_done(const soak *s, const char *name, const unsigned long *by_number, int numbers)
{
    if (!s->driven) return;
    printf("%s, seed %llu: %llu rounds, answers", name, s->seed, s->rounds);
    print_answers(by_number, numbers);
    printf(", %ld kB at the start, %ld kB at the end\n", s->first_kb, resident_kb("self"));
}

#endif
