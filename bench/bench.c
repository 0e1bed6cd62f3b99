/* The bench: what is timed, and how.

   bench              times every case: each subject in short turns, in rotation, many times over; the least of its turns counts
   bench growth       time per byte over lengths, a post's calls over a million, and the memory held
   bench list         the cases and subjects, one to a line
   bench count I N    makes N calls of the subject on line I of that list (for instruction counts) */
#define _GNU_SOURCE
#include "../include/romulus.h"
#include "baselines.h"
#include "edge.h"
#include <signal.h>
#include <stdio.h>
#include <stdlib.h>
#include <string.h>
#include <sys/mman.h>
#include <time.h>

enum { AD = 16, MOST = 1048576, ENTRIES = 8192, SERIES = 16 };
static uint8_t key[16], nonce[16], ad[AD], tweakey[48], block[16], tag[16], digest[32];
static uint8_t message[MOST], out[MOST], text_n[65536], text_m[65536], text_t[65536], tag_n[16], tag_m[16], tag_t[16];
static uint64_t entries[ENTRIES];
static volatile uint64_t sink;

/* The processor's time spent here, so that what other programs take of a shared machine is not counted. */
static double now(void)
{
    struct timespec t;
    clock_gettime(CLOCK_PROCESS_CPUTIME_ID, &t);
    return (double)t.tv_sec * 1e9 + (double)t.tv_nsec;
}

/* ---- Subjects. Each makes one call at a length. A cipher's answer is its next block, as in the modes. */
typedef void subject_call(size_t len);

#define CIPHER(name, rounds) static void name##_##rounds(size_t len) { (void)len; tweakey[0]++; name##_cipher(tweakey, block, rounds); }
CIPHER(cells, 40) CIPHER(cells, 56) CIPHER(rows, 40) CIPHER(rows, 56) CIPHER(vectors, 40) CIPHER(vectors, 56)
static void library_40(size_t len) { (void)len; tweakey[0]++; bench_edge_cipher40(tweakey, 48, block, 16); }
static void library_56(size_t len) { (void)len; tweakey[0]++; bench_edge_cipher56(tweakey, 48, block, 16); }

#define SEAL(name) static void do_##name(size_t len) { nonce[0]++; name(key, nonce, ad, AD, message, len, out, tag); }
SEAL(rows_n_seal) SEAL(rows_m_seal) SEAL(rows_t_seal) SEAL(vectors_n_seal) SEAL(shared_n_seal)

#define OPEN(name, text, made) static void do_##name(size_t len) { sink += (uint64_t)name(key, key, ad, AD, text, len, made, out); }
OPEN(rows_n_open, text_n, tag_n) OPEN(rows_m_open, text_m, tag_m) OPEN(rows_t_open, text_t, tag_t)

#define LIBRARY(mode)                                                                                                                                    \
    static void library_##mode##_seal(size_t len) { nonce[0]++; sink += romulus_c_##mode##40_seal(key, 16, nonce, 16, ad, AD, message, len, out, len, tag, 16).number; } \
    static void library_##mode##_open(size_t len) { sink += romulus_c_##mode##40_open(key, 16, key, 16, ad, AD, text_##mode, len, tag_##mode, 16, out, len).number; }
LIBRARY(n) LIBRARY(m) LIBRARY(t)

static void do_rows_hash(size_t len) { message[0]++; rows_hash(message, len, digest); }
static void library_hash(size_t len) { message[0]++; sink += romulus_c_h40_hash(message, len, digest, 32); }

static void by_posts(size_t len, size_t times)
{
    uint8_t answers[SERIES];
    sink += bench_edge_post(key, 16, ad, AD, message, len, out, len, tag, 16, answers, times);
}
static void post_of_one(size_t len) { by_posts(len, 1); }
static void post_of_many(size_t len) { by_posts(len, SERIES); }

/* What the loading of a sheet has to do at least as it is defined: compare every two nonces. */
static void rows_sheet(size_t len)
{
    for (size_t i = 0; i < len; i += 2)
        for (size_t j = i + 2; j < len; j += 2)
            if (entries[i] == entries[j] && entries[i + 1] == entries[j + 1]) sink++;
}
static void library_sheet(size_t len) { sink += bench_edge_sheet(entries, len); }

/* ---- Cases: the first subject of each is the baseline (b). */
struct subject { const char *name; subject_call *go; size_t calls; };
struct test { const char *title; size_t len; struct subject of[8]; };

#define ROWS "C rows (b)"
#define CELLS "C cells (a)"
#define VECTORS "C vectors (c)"
#define SHARED "C vectors, one schedule (c+)"
#define LIB "library"
#define N_SEAL(len) { "N seal", len, { { ROWS, do_rows_n_seal, 1 }, { VECTORS, do_vectors_n_seal, 1 }, { SHARED, do_shared_n_seal, 1 }, { LIB, library_n_seal, 1 }, { "library, a post for it alone", post_of_one, 1 }, { "library, a post of 16 seals", post_of_many, SERIES } } }
#define PAIR(title, len, baseline, subject) { title, len, { { ROWS, baseline, 1 }, { LIB, subject, 1 } } }
#define MODE(upper, lower, len) PAIR(upper " seal", len, do_rows_##lower##_seal, library_##lower##_seal), PAIR(upper " open", len, do_rows_##lower##_open, library_##lower##_open)
#define EVERY(len) N_SEAL(len), PAIR("N open", len, do_rows_n_open, library_n_open), MODE("M", m, len), MODE("T", t, len)

static const struct test tests[] = {
    { "cipher, 40 rounds", 16, { { ROWS, rows_40, 1 }, { CELLS, cells_40, 1 }, { VECTORS, vectors_40, 1 }, { LIB, library_40, 1 } } },
    { "cipher, 56 rounds", 16, { { ROWS, rows_56, 1 }, { CELLS, cells_56, 1 }, { VECTORS, vectors_56, 1 }, { LIB, library_56, 1 } } },
    EVERY(16), EVERY(64), EVERY(256), EVERY(1024), EVERY(65535),
    PAIR("hash", 32, do_rows_hash, library_hash), PAIR("hash", 65536, do_rows_hash, library_hash),
    { "sheet", ENTRIES, { { "C, every two compared", rows_sheet, 1 }, { LIB, library_sheet, 1 } } },
};
enum { TESTS = sizeof tests / sizeof *tests, SUBJECTS = 8 };

/* Frames that the openings at a length open; their nonce is the key. */
static void prepare(size_t len)
{
    static size_t ready;
    if (len == ready || len > 65535) return;
    rows_n_seal(key, key, ad, AD, message, len, text_n, tag_n);
    rows_m_seal(key, key, ad, AD, message, len, text_m, tag_m);
    rows_t_seal(key, key, ad, AD, message, len, text_t, tag_t);
    ready = len;
}

static double turn(const struct subject *s, size_t len, size_t times)
{
    double start = now();
    for (size_t i = 0; i < times; i++) s->go(len);
    return (now() - start) / (double)(times * s->calls);
}

/* ---- Times */
/* A turn is 0.1 ms, or one call that is longer; longer ones get one turn in eight. */
enum { TURNS = 400, LEAST_TURN = 100000, SELDOM = 8 };
static double least[TESTS][SUBJECTS];

static void time_all(void)
{
    static size_t times[TESTS][SUBJECTS];
    for (int round = -1; round < TURNS; round++)
        for (int t = 0; t < TESTS; t++) {
            const struct test *test = tests + t;
            int count = 0;
            while (count < SUBJECTS && test->of[count].name) count++;
            prepare(test->len);
            for (int k = 0; k < count; k++) {
                int i = (k + round + count) % count;
                if (round < 0) {
                    turn(test->of + i, test->len, 1);
                    double once = turn(test->of + i, test->len, 4) * (double)test->of[i].calls;
                    times[t][i] = once > LEAST_TURN ? 1 : (size_t)(LEAST_TURN / once) + 1;
                    least[t][i] = 1e18;
                } else if (times[t][i] > 1 || round % SELDOM == 0) {
                    double took = turn(test->of + i, test->len, times[t][i]);
                    if (took < least[t][i]) least[t][i] = took;
                }
            }
        }
}

static void report(void)
{
    printf("%-18s %7s  %-30s %12s %9s %10s\n", "case", "bytes", "subject", "ns", "ns/byte", "b/subject");
    for (int t = 0; t < TESTS; t++)
        for (int i = 0; i < SUBJECTS && tests[t].of[i].name; i++)
            printf("%-18s %7zu  %-30s %12.1f %9.2f %10.2f\n", tests[t].title, tests[t].len, tests[t].of[i].name, least[t][i], least[t][i] / (double)tests[t].len, least[t][0] / least[t][i]);
}

/* ---- Counts */
static int subject_at(int wanted, const struct test **test, const struct subject **subject)
{
    int line = 0;
    for (int t = 0; t < TESTS; t++)
        for (int i = 0; i < SUBJECTS && tests[t].of[i].name; i++)
            if (line++ == wanted) {
                *test = tests + t;
                *subject = tests[t].of + i;
                return 1;
            }
    return 0;
}

static void list(void)
{
    const struct test *test;
    const struct subject *s;
    for (int i = 0; subject_at(i, &test, &s); i++) printf("%d\t%s\t%zu\t%s\t%zu\n", i, test->title, test->len, s->name, s->calls);
}

static int count(int line, size_t times)
{
    const struct test *test;
    const struct subject *s;
    if (!subject_at(line, &test, &s)) return 2;
    prepare(test->len);
    for (size_t i = 0; i < times; i++) s->go(test->len);
    return 0;
}

/* ---- Growth */
static long resident_kib(void)
{
    char line[256];
    long kib = -1;
    FILE *f = fopen("/proc/self/status", "r");
    while (f && fgets(line, sizeof line, f)) sscanf(line, "VmRSS: %ld", &kib);
    if (f) fclose(f);
    return kib;
}

static void per_byte(const char *title, subject_call *go, size_t most)
{
    struct subject s = { title, go, 1 };
    printf("%-8s", title);
    for (size_t len = 256;; len = len * 4 < most ? len * 4 : most) {
        double best = 1e18;
        for (int i = 0; i < 40; i++) {
            double took = turn(&s, len, len > 16384 ? 1 : 16384 / len);
            if (took < best) best = took;
        }
        printf("  %zu: %.2f", len, best / (double)len);
        if (len == most) break;
    }
    putchar('\n');
}

/* The answers of a long run stand in pages that nothing may write; the first write to each is told here, with its time. */
enum { PAGE = 4096, PAGES = 256 };
static uint8_t *pages;
static double reached[PAGES + 1];

static void on_page(int signal, siginfo_t *info, void *context)
{
    (void)signal;
    (void)context;
    size_t page = (size_t)((uint8_t *)info->si_addr - pages) / PAGE;
    if (page >= PAGES) _exit(3);
    mprotect(pages + page * PAGE, PAGE, PROT_READ | PROT_WRITE);
    reached[page] = now();
}

static int by_size(const void *a, const void *b)
{
    double x = *(const double *)a, y = *(const double *)b;
    return x < y ? -1 : x > y;
}

static int long_run(void)
{
    struct sigaction action = { 0 };
    double spans[PAGES];
    action.sa_sigaction = on_page;
    action.sa_flags = SA_SIGINFO;
    pages = mmap(NULL, PAGES * PAGE, PROT_READ | PROT_WRITE, MAP_PRIVATE | MAP_ANONYMOUS | MAP_POPULATE, -1, 0);
    if (pages == MAP_FAILED || sigaction(SIGSEGV, &action, NULL) != 0) return 2;
    memset(pages, 255, PAGES * PAGE);
    for (int run = -1; run < 3; run++) {
        mprotect(pages, PAGES * PAGE, PROT_READ);
        long before = resident_kib();
        uint64_t taken = bench_edge_post(key, 16, ad, AD, message, 16, out, 16, tag, 16, pages, PAGES * PAGE);
        reached[PAGES] = now();
        long after = resident_kib();
        for (int i = 0; i < PAGES; i++) spans[i] = (reached[i + 1] - reached[i]) / PAGE;
        double first = spans[0], last = spans[PAGES - 1], least_of_8[2] = { 1e18, 1e18 };
        for (int i = 0; i < 8; i++) {
            if (spans[i] < least_of_8[0]) least_of_8[0] = spans[i];
            if (spans[PAGES - 1 - i] < least_of_8[1]) least_of_8[1] = spans[PAGES - 1 - i];
        }
        qsort(spans, PAGES, sizeof *spans, by_size);
        if (run < 0) continue; /* the first brings in what the C library keeps for itself */
        printf("one post, %llu seals of 16 bytes taken: ns a seal in the first 4,096 %.0f, in the last %.0f; least of the first eight 4,096 %.0f, of the last eight %.0f; of all: least %.0f, median %.0f\n", (unsigned long long)taken, first, last, least_of_8[0], least_of_8[1], spans[0], spans[PAGES / 2]);
        printf("memory held: %ld KiB before the run, %ld KiB after it\n", before, after);
    }
    return 0;
}

static int growth(void)
{
    memset(out, 1, MOST);
    printf("ns a byte at each length, least of 40 turns:\n");
    per_byte("N seal", library_n_seal, 65535);
    per_byte("M seal", library_m_seal, 65535);
    per_byte("T seal", library_t_seal, 65535);
    per_byte("hash", library_hash, MOST);
    return long_run();
}

int main(int argc, char **argv)
{
    for (size_t i = 0; i < MOST; i++) message[i] = (uint8_t)(i * 13 + 7);
    for (int i = 0; i < 16; i++) key[i] = (uint8_t)(i * 5), nonce[i] = (uint8_t)(200 - i), ad[i] = (uint8_t)(i ^ 77);
    for (int i = 0; i < 48; i++) tweakey[i] = (uint8_t)(i * 7 + 3);
    for (int i = 0; i < ENTRIES; i++) entries[i] = (uint64_t)i * 0x9e3779b97f4a7c15ULL;
    if (argc == 2 && strcmp(argv[1], "list") == 0) return list(), 0;
    if (argc == 4 && strcmp(argv[1], "count") == 0) return count(atoi(argv[2]), (size_t)atol(argv[3]));
    if (!agree()) return 1;
    printf("all agree on the published vectors and on random inputs\n");
    if (argc == 2 && strcmp(argv[1], "growth") == 0) return growth();
    time_all();
    report();
    return 0;
}
