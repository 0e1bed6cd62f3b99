/* (c) The fastest C found: the round tweakeys by byte shuffles on vectors (SSSE3) into an array first; then the rounds on
   columns, with the S-box and the mixing of columns in one look-up. And with the schedule of key and nonce made once for a seal. */
#include "baselines.h"
#include "tables.h"
#include <immintrin.h>
#include <string.h>

typedef __m128i vector;

/* What a cell of row 0, 1 or 2 gives to its new column; one of row 3 gives its S-box value to row 0 alone. */
static uint32_t from0[256], from1[256], from2[256];
/* Round tweakeys and round constants as they reach the columns, after the rows were shifted and the columns mixed. */
static uint8_t reaches[16][16], constants[56][16];

__attribute__((constructor)) static void prepare_tables(void)
{
    for (int x = 0; x < 256; x++) {
        uint32_t v = sbox_of[x];
        from0[x] = v * 0x01000101u;
        from1[x] = v << 16;
        from2[x] = v * 0x01010001u;
    }
    for (int r = 0; r < 16; r++)
        for (int col = 0; col < 4; col++) {
            uint8_t *at = reaches[r] + 4 * col;
            at[0] = at[1] = at[3] = place_of[r][col];
            at[2] = place_of[r][4 + ((col + 3) & 3)];
        }
    for (int r = 0; r < 56; r++) {
        uint8_t *at = constants[r];
        at[0] = at[1] = at[3] = constant_of[r] & 15;
        at[6] = constant_of[r] >> 4;
        at[8] = at[10] = at[11] = 2;
    }
}

static inline vector load(const uint8_t *x) { return _mm_loadu_si128((const vector *)x); }

static inline vector lfsr2(vector x)
{
    vector low = _mm_xor_si128(_mm_srli_epi16(x, 7), _mm_srli_epi16(x, 5));
    return _mm_xor_si128(_mm_add_epi8(x, x), _mm_and_si128(low, _mm_set1_epi8(1)));
}

static inline vector lfsr3(vector x)
{
    vector high = _mm_xor_si128(_mm_slli_epi16(x, 7), _mm_add_epi8(x, x));
    return _mm_xor_si128(_mm_and_si128(_mm_srli_epi16(x, 1), _mm_set1_epi8(127)), _mm_and_si128(high, _mm_set1_epi8(-128)));
}

/* The upper half of the cells, which odd rounds take, is one step ahead. */
static inline vector ahead(vector x, vector stepped) { return _mm_castpd_si128(_mm_move_sd(_mm_castsi128_pd(stepped), _mm_castsi128_pd(x))); }

typedef struct { uint32_t of[56][4]; } schedule;

static inline __attribute__((always_inline)) void make_schedule(schedule *k, vector one, vector two, vector three, int rounds)
{
    two = ahead(two, lfsr2(two));
    three = ahead(three, lfsr3(three));
    for (int r = 0; r < rounds; r += 2) {
        vector sum = _mm_xor_si128(one, _mm_xor_si128(two, three));
        _mm_storeu_si128((vector *)k->of[r], _mm_xor_si128(load(constants[r]), _mm_shuffle_epi8(sum, load(reaches[r & 15]))));
        _mm_storeu_si128((vector *)k->of[r + 1], _mm_xor_si128(load(constants[r + 1]), _mm_shuffle_epi8(sum, load(reaches[(r + 1) & 15]))));
        two = lfsr2(two);
        three = lfsr3(three);
    }
}

struct columns { uint32_t c0, c1, c2, c3; };

static inline struct columns columns_of(const uint8_t *b)
{
    uint32_t c[4];
    const vector turn = _mm_setr_epi8(0, 4, 8, 12, 1, 5, 9, 13, 2, 6, 10, 14, 3, 7, 11, 15);
    _mm_storeu_si128((vector *)c, _mm_shuffle_epi8(load(b), turn));
    return (struct columns){ c[0], c[1], c[2], c[3] };
}

static inline void write_columns(uint8_t *b, struct columns s)
{
    const vector turn = _mm_setr_epi8(0, 4, 8, 12, 1, 5, 9, 13, 2, 6, 10, 14, 3, 7, 11, 15);
    _mm_storeu_si128((vector *)b, _mm_shuffle_epi8(_mm_setr_epi32((int)s.c0, (int)s.c1, (int)s.c2, (int)s.c3), turn));
}

/* One new column: its cells of rows 0 to 3 come from the columns w, x, y and z. */
static inline uint32_t column(uint32_t w, uint32_t x, uint32_t y, uint32_t z)
{
    return from0[w & 255] ^ from1[x >> 8 & 255] ^ from2[y >> 16 & 255] ^ sbox_of[z >> 24];
}

static inline struct columns one_round(struct columns s, const uint32_t *k)
{
    return (struct columns){
        column(s.c0, s.c3, s.c2, s.c1) ^ k[0],
        column(s.c1, s.c0, s.c3, s.c2) ^ k[1],
        column(s.c2, s.c1, s.c0, s.c3) ^ k[2],
        column(s.c3, s.c2, s.c1, s.c0) ^ k[3],
    };
}

static inline __attribute__((always_inline)) void run(const uint8_t *tweakey, uint8_t *block, int rounds)
{
    schedule k;
    make_schedule(&k, load(tweakey), load(tweakey + 16), load(tweakey + 32), rounds);
    struct columns s = columns_of(block);
    for (int r = 0; r < rounds; r++) s = one_round(s, k.of[r]);
    write_columns(block, s);
}

void vectors_cipher(const uint8_t *tweakey, uint8_t *block, int rounds) { run(tweakey, block, rounds); }

#define CALL(tweakey, block) run(tweakey, block, 40)
#include "modes.h"

void vectors_n_seal(const uint8_t *key, const uint8_t *nonce, const uint8_t *ad, size_t ad_len, const uint8_t *message, size_t len, uint8_t *out, uint8_t *tag)
{
    pass_n(key, nonce, ad, ad_len, message, len, out, tag, 0);
}

/* A call whose TK2 and TK3 are in the schedule: only TK1 is added, and its upper half is zeros, so that odd rounds have nothing of it. */
static void scheduled(const schedule *k, unsigned domain, uint64_t c, uint8_t *block)
{
    uint32_t first[8][4];
    vector one = _mm_set_epi64x(0, (long long)(c | (uint64_t)domain << 56));
    for (int i = 0; i < 8; i++) _mm_storeu_si128((vector *)first[i], _mm_shuffle_epi8(one, load(reaches[2 * i])));
    struct columns s = columns_of(block);
    for (int r = 0; r < 40; r += 2) {
        const uint32_t *x = first[r / 2 & 7], *y = k->of[r];
        uint32_t both[4] = { x[0] ^ y[0], x[1] ^ y[1], x[2] ^ y[2], x[3] ^ y[3] };
        s = one_round(one_round(s, both), k->of[r + 1]);
    }
    write_columns(block, s);
}

void shared_n_seal(const uint8_t *key, const uint8_t *nonce, const uint8_t *ad, size_t ad_len, const uint8_t *message, size_t len, uint8_t *out, uint8_t *tag)
{
    schedule k;
    uint8_t s[16];
    uint64_t c;
    size_t at = 0;
    start_n(s, key, ad, ad_len, &c);
    make_schedule(&k, _mm_setzero_si128(), load(nonce), load(key), 40);
    scheduled(&k, ends_short(ad_len) ? 26 : 24, c, s);
    for (c = 2; len - at > 16; at += 16, c = counted(c)) {
        mixed(s, message + at, 16, out + at, 0);
        scheduled(&k, 4, c, s);
    }
    mixed(s, message + at, len - at, out + at, 0);
    scheduled(&k, ends_short(len) ? 21 : 20, c, s);
    feedback(tag, s);
}
