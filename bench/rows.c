/* (b) THE BASELINE: a row of the state is a word, the S-box is looked up, the LFSRs go over eight cells at a time, and the
   rounds are written out, so that a round tweakey is picked from cells that are never moved. With all modes over it. */
#include "baselines.h"
#include "tables.h"
#include <string.h>

static inline uint32_t turned(uint32_t row, int bits) { return row << bits | row >> (32 - bits); }

static inline uint32_t substituted(uint32_t row)
{
    uint32_t a = sbox_of[row & 255], b = sbox_of[row >> 8 & 255], c = sbox_of[row >> 16 & 255], d = sbox_of[row >> 24];
    return a | b << 8 | c << 16 | d << 24;
}

static inline uint64_t lfsr2(uint64_t x)
{
    return (x << 1 & 0xfefefefefefefefeULL) ^ ((x >> 7 ^ x >> 5) & 0x0101010101010101ULL);
}

static inline uint64_t lfsr3(uint64_t x)
{
    return (x >> 1 & 0x7f7f7f7f7f7f7f7fULL) ^ ((x << 7 ^ x << 1) & 0x8080808080808080ULL);
}

static inline uint32_t cell(uint64_t half, int place) { return (uint32_t)(half >> 8 * (place & 7)) & 255; }

static inline uint32_t picked(uint64_t half, const uint8_t *places)
{
    return cell(half, places[0]) | cell(half, places[1]) << 8 | cell(half, places[2]) << 16 | cell(half, places[3]) << 24;
}

/* Round r + i. Even rounds take the lower half of the cells, odd ones the upper half. */
#define ROUND(i)                                                                                    \
    do {                                                                                            \
        uint64_t half = one[(i) & 1] ^ two[(i) & 1] ^ three[(i) & 1];                               \
        uint32_t p = substituted(s0) ^ picked(half, place_of[i]) ^ (constant_of[r + (i)] & 15);     \
        uint32_t q = substituted(s1) ^ picked(half, place_of[i] + 4) ^ (constant_of[r + (i)] >> 4); \
        uint32_t u = turned(substituted(s2) ^ 2, 16);                                               \
        uint32_t v = turned(substituted(s3), 24);                                                   \
        s1 = p;                                                                                     \
        s2 = turned(q, 8) ^ u;                                                                      \
        s3 = p ^ u;                                                                                 \
        s0 = s3 ^ v;                                                                                \
        two[(i) & 1] = lfsr2(two[(i) & 1]);                                                         \
        three[(i) & 1] = lfsr3(three[(i) & 1]);                                                     \
    } while (0)

static inline __attribute__((always_inline)) void run(const uint8_t *tweakey, uint8_t *block, int rounds)
{
    uint64_t one[2], two[2], three[2];
    uint32_t s0, s1, s2, s3;
    memcpy(one, tweakey, 16);
    memcpy(two, tweakey + 16, 16);
    memcpy(three, tweakey + 32, 16);
    two[1] = lfsr2(two[1]);
    three[1] = lfsr3(three[1]);
    memcpy(&s0, block, 4);
    memcpy(&s1, block + 4, 4);
    memcpy(&s2, block + 8, 4);
    memcpy(&s3, block + 12, 4);
    for (int r = 0;; r += 16) {
        ROUND(0); ROUND(1); ROUND(2); ROUND(3); ROUND(4); ROUND(5); ROUND(6); ROUND(7);
        if (r + 8 >= rounds) break;
        ROUND(8); ROUND(9); ROUND(10); ROUND(11); ROUND(12); ROUND(13); ROUND(14); ROUND(15);
    }
    memcpy(block, &s0, 4);
    memcpy(block + 4, &s1, 4);
    memcpy(block + 8, &s2, 4);
    memcpy(block + 12, &s3, 4);
}

void rows_cipher(const uint8_t *tweakey, uint8_t *block, int rounds) { run(tweakey, block, rounds); }

#define CALL(tweakey, block) run(tweakey, block, 40)
#include "modes.h"

void rows_n_seal(const uint8_t *key, const uint8_t *nonce, const uint8_t *ad, size_t ad_len, const uint8_t *message, size_t len, uint8_t *out, uint8_t *tag)
{
    pass_n(key, nonce, ad, ad_len, message, len, out, tag, 0);
}

int rows_n_open(const uint8_t *key, const uint8_t *nonce, const uint8_t *ad, size_t ad_len, const uint8_t *text, size_t len, const uint8_t *tag, uint8_t *out)
{
    uint8_t made[16];
    pass_n(key, nonce, ad, ad_len, text, len, out, made, 1);
    return judged(made, tag, out, len);
}

void rows_m_seal(const uint8_t *key, const uint8_t *nonce, const uint8_t *ad, size_t ad_len, const uint8_t *message, size_t len, uint8_t *out, uint8_t *tag)
{
    tag_m(key, nonce, ad, ad_len, message, len, tag);
    pass_m(key, nonce, tag, message, len, out, 0);
}

int rows_m_open(const uint8_t *key, const uint8_t *nonce, const uint8_t *ad, size_t ad_len, const uint8_t *text, size_t len, const uint8_t *tag, uint8_t *out)
{
    uint8_t made[16];
    pass_m(key, nonce, tag, text, len, out, 1);
    tag_m(key, nonce, ad, ad_len, out, len, made);
    return judged(made, tag, out, len);
}

void rows_t_seal(const uint8_t *key, const uint8_t *nonce, const uint8_t *ad, size_t ad_len, const uint8_t *message, size_t len, uint8_t *out, uint8_t *tag)
{
    cover_t(key, nonce, message, len, out);
    tag_t(key, nonce, ad, ad_len, out, len, tag);
}

int rows_t_open(const uint8_t *key, const uint8_t *nonce, const uint8_t *ad, size_t ad_len, const uint8_t *text, size_t len, const uint8_t *tag, uint8_t *out)
{
    uint8_t made[16];
    tag_t(key, nonce, ad, ad_len, text, len, made);
    if (memcmp(made, tag, 16) != 0) {
        memset(out, 0, len);
        return 0;
    }
    cover_t(key, nonce, text, len, out);
    return 1;
}

void rows_hash(const uint8_t *input, size_t len, uint8_t *digest)
{
    struct hash h = { { 0 }, { 0 }, { 0 }, 0 };
    hash_take(&h, input, len);
    hash_end(&h, digest);
}
