/* Romulus-N, -M, -T and -H written a second time, in plain C and from the public description alone: bit rules in place of
   tables, whole padded texts in place of streams, and no line shared with the library. A test that includes this file can
   hold the library to it. */
#ifndef INDEPENDENT_H
#define INDEPENDENT_H

#include <stdint.h>
#include <stdlib.h>
#include <string.h>

typedef uint8_t u8;

enum { SKINNY_40 = 40, SKINNY_56 = 56, STAND_IN = 0 };
static int cipher_kind;
static unsigned long long calls;

/* ---- Skinny-128-384 */
static u8 sbox(u8 x)
{
    for (int turn = 0; turn < 4; turn++) {
        u8 b[8];
        for (int i = 0; i < 8; i++) b[i] = x >> i & 1;
        b[4] ^= !(b[7] | b[6]);
        b[0] ^= !(b[3] | b[2]);
        if (turn < 3)
            x = b[2] << 7 | b[1] << 6 | b[7] << 5 | b[6] << 4 | b[4] << 3 | b[0] << 2 | b[3] << 1 | b[5];
        else
            x = b[7] << 7 | b[6] << 6 | b[5] << 5 | b[4] << 4 | b[3] << 3 | b[1] << 2 | b[2] << 1 | b[0];
    }
    return x;
}

static void skinny(const u8 tweakey[48], u8 s[16], int rounds)
{
    static const u8 P[16] = { 9, 15, 8, 13, 10, 14, 12, 11, 0, 1, 2, 3, 4, 5, 6, 7 };
    static u8 table[256];
    static int ready;
    if (!ready) {
        for (int i = 0; i < 256; i++) table[i] = sbox((u8)i);
        ready = 1;
    }
    u8 tk[3][16];
    memcpy(tk, tweakey, 48);
    u8 rc = 0;
    for (int r = 0; r < rounds; r++) {
        u8 t[16];
        for (int i = 0; i < 16; i++) t[i] = table[s[i]];
        rc = (u8)((rc << 1 & 0x3f) | ((rc >> 5 ^ rc >> 4 ^ 1) & 1));
        t[0] ^= rc & 15;
        t[4] ^= rc >> 4;
        t[8] ^= 2;
        for (int i = 0; i < 8; i++) t[i] ^= tk[0][i] ^ tk[1][i] ^ tk[2][i];
        for (int z = 0; z < 3; z++) {
            u8 o[16];
            memcpy(o, tk[z], 16);
            for (int i = 0; i < 16; i++) {
                u8 x = o[P[i]];
                if (i < 8 && z == 1) x = (u8)(x << 1 | (x >> 7 ^ (x >> 5 & 1)));
                if (i < 8 && z == 2) x = (u8)(x >> 1 | ((x & 1) ^ (x >> 6 & 1)) << 7);
                tk[z][i] = x;
            }
        }
        for (int row = 0; row < 4; row++)
            for (int col = 0; col < 4; col++)
                s[4 * row + (col + row) % 4] = t[4 * row + col];
        for (int col = 0; col < 4; col++) {
            u8 p = s[col], q = s[4 + col], u = s[8 + col], v = s[12 + col];
            s[col] = p ^ u ^ v;
            s[4 + col] = p;
            s[8 + col] = q ^ u;
            s[12 + col] = p ^ u;
        }
    }
}

static void encipher(const u8 tweakey[48], u8 s[16])
{
    calls++;
    if (cipher_kind == STAND_IN)
        for (int i = 0; i < 48; i++) s[i % 16] ^= tweakey[i];
    else
        skinny(tweakey, s, cipher_kind);
}

/* ---- counter, padding, G */
static void counter_step(u8 c[7])
{
    int out = c[6] >> 7;
    for (int i = 6; i > 0; i--) c[i] = (u8)(c[i] << 1 | c[i - 1] >> 7);
    c[0] = (u8)(c[0] << 1) ^ (out ? 0x95 : 0);
}

static void counter_at(u8 c[7], size_t n)
{
    memset(c, 0, 7);
    c[0] = 1;
    while (n--) counter_step(c);
}

static void call(const u8 key[16], const u8 tweak[16], int domain, const u8 counter[7], u8 s[16])
{
    u8 tweakey[48] = { 0 };
    memcpy(tweakey, counter, 7);
    tweakey[7] = (u8)domain;
    memcpy(tweakey + 16, tweak, 16);
    memcpy(tweakey + 32, key, 16);
    encipher(tweakey, s);
}

static void call_at(const u8 key[16], const u8 tweak[16], int domain, size_t n, u8 s[16])
{
    u8 c[7];
    counter_at(c, n);
    call(key, tweak, domain, c, s);
}

static u8 g(u8 x) { return (u8)(x >> 1 | ((x >> 7) ^ (x & 1)) << 7); }

static size_t count(size_t len) { return len ? (len + 15) / 16 : 1; }

static size_t part(size_t len, size_t i) { return len > 16 * i ? (len - 16 * i < 16 ? len - 16 * i : 16) : 0; }

/* block i of a text, padded */
static void block(u8 b[16], const u8 *text, size_t len, size_t i)
{
    size_t n = part(len, i);
    memset(b, 0, 16);
    if (n) memcpy(b, text + 16 * i, n);
    if (n < 16) b[15] = (u8)n;
}

static int is_short(size_t len) { return part(len, count(len) - 1) < 16; }

static void mix(u8 s[16], const u8 b[16])
{
    for (int i = 0; i < 16; i++) s[i] ^= b[i];
}

/* enciphers (or deciphers) part i of a text and mixes the message's part in */
static void pass_part(u8 s[16], u8 *text, size_t len, size_t i, int opening)
{
    u8 before[16], after[16];
    block(before, text, len, i);
    for (size_t j = 0; j < part(len, i); j++) text[16 * i + j] ^= g(s[j]);
    block(after, text, len, i);
    mix(s, opening ? after : before);
}

static void g_all(u8 s[16])
{
    for (int i = 0; i < 16; i++) s[i] = g(s[i]);
}

/* ---- Romulus-N: text in place, tag made of the message */
static void run_n(const u8 *key, const u8 *nonce, const u8 *ad, size_t ad_len, u8 *text, size_t len, u8 tag[16], int opening)
{
    u8 s[16] = { 0 }, x[16], y[16];
    size_t a = count(ad_len), m = count(len);
    for (size_t i = 1; i <= a / 2; i++) {
        block(x, ad, ad_len, 2 * i - 2);
        block(y, ad, ad_len, 2 * i - 1);
        mix(s, x);
        call_at(key, y, 8, 2 * i - 1, s);
    }
    if (a % 2) {
        block(x, ad, ad_len, a - 1);
        mix(s, x);
    }
    call_at(key, nonce, is_short(ad_len) ? 26 : 24, a, s);
    for (size_t i = 1; i <= m; i++) {
        pass_part(s, text, len, i - 1, opening);
        call_at(key, nonce, i < m ? 4 : is_short(len) ? 21 : 20, i, s);
    }
    g_all(s);
    memcpy(tag, s, 16);
}

/* ---- Romulus-M */
static void tag_m(const u8 *key, const u8 *nonce, const u8 *ad, size_t ad_len, const u8 *text, size_t len, u8 tag[16])
{
    size_t a = count(ad_len), m = count(len);
    u8 s[16] = { 0 };
    u8 (*x)[16] = malloc((a + m) * 16);
    for (size_t i = 0; i < a; i++) block(x[i], ad, ad_len, i);
    for (size_t i = 0; i < m; i++) block(x[a + i], text, len, i);
    for (size_t i = 1; i <= (a + m) / 2; i++) {
        mix(s, x[2 * i - 2]);
        call_at(key, x[2 * i - 1], i <= a / 2 ? 40 : 44, 2 * i - 1, s);
    }
    if ((a + m) % 2) mix(s, x[a + m - 1]);
    int w = 48 ^ (is_short(ad_len) ? 2 : 0) ^ (is_short(len) ? 1 : 0) ^ (a % 2 ? 0 : 8) ^ (m % 2 ? 0 : 4);
    call_at(key, nonce, w, a + m, s);
    g_all(s);
    memcpy(tag, s, 16);
    free(x);
}

static void text_m(const u8 *key, const u8 *nonce, const u8 tag[16], u8 *text, size_t len, int opening)
{
    u8 s[16];
    memcpy(s, tag, 16);
    if (len == 0) return;
    for (size_t i = 1; i <= count(len); i++) {
        call_at(key, nonce, 36, i - 1, s);
        pass_part(s, text, len, i - 1, opening);
    }
}

/* ---- Romulus-H */
static void hash(const u8 *input, size_t len, u8 digest[32])
{
    size_t whole = (len / 32 + 1) * 32;
    u8 *q = calloc(whole, 1), l[16] = { 0 }, r[16] = { 0 };
    if (len) memcpy(q, input, len);
    q[whole - 1] = (u8)(len % 32);
    for (size_t i = 0; i < whole; i += 32) {
        u8 tweakey[48], one[16], two[16];
        if (i + 32 == whole) l[0] ^= 2;
        memcpy(tweakey, r, 16);
        memcpy(tweakey + 16, q + i, 32);
        memcpy(one, l, 16);
        memcpy(two, l, 16);
        two[0] ^= 1;
        u8 other[16];
        memcpy(other, two, 16);
        encipher(tweakey, one);
        encipher(tweakey, two);
        for (int j = 0; j < 16; j++) {
            r[j] = two[j] ^ other[j];
            l[j] ^= one[j];
        }
    }
    memcpy(digest, l, 16);
    memcpy(digest + 16, r, 16);
    free(q);
}

/* ---- Romulus-T */
static const u8 zeros[16];

static size_t append_padded(u8 *u, size_t at, const u8 *x, size_t len)
{
    if (len == 0) return at;
    size_t whole = (len / 16 + 1) * 16;
    memset(u + at, 0, whole);
    memcpy(u + at, x, len);
    u[at + whole - 1] = (u8)(len % 16);
    return at + whole;
}

static void tag_t(const u8 *key, const u8 *nonce, const u8 *ad, size_t ad_len, const u8 *text, size_t len, u8 tag[16])
{
    u8 *u = malloc(ad_len + len + 64), d[32];
    size_t n = append_padded(u, 0, ad, ad_len);
    n = append_padded(u, n, text, len);
    memcpy(u + n, nonce, 16);
    counter_at(u + n + 16, len ? count(len) : 0);
    hash(u, n + 23, d);
    call(key, d + 16, 68, zeros, d);
    memcpy(tag, d, 16);
    free(u);
}

static void text_t(const u8 *key, const u8 *nonce, u8 *text, size_t len)
{
    u8 s[16];
    if (len == 0) return;
    memcpy(s, nonce, 16);
    call(key, zeros, 66, zeros, s);
    for (size_t i = 1; i <= count(len); i++) {
        u8 e[16], next[16];
        memcpy(e, nonce, 16);
        call_at(s, zeros, 64, i - 1, e);
        for (size_t j = 0; j < part(len, i - 1); j++) text[16 * (i - 1) + j] ^= e[j];
        if (i == count(len)) break;
        memcpy(next, nonce, 16);
        call_at(s, zeros, 65, i - 1, next);
        memcpy(s, next, 16);
    }
}

/* ---- one mode: seal in place; open in place, 1 if right, zeros if wrong */
static void seal(char mode, const u8 *key, const u8 *nonce, const u8 *ad, size_t ad_len, u8 *text, size_t len, u8 tag[16])
{
    if (mode == 'N') {
        run_n(key, nonce, ad, ad_len, text, len, tag, 0);
    } else if (mode == 'M') {
        tag_m(key, nonce, ad, ad_len, text, len, tag);
        text_m(key, nonce, tag, text, len, 0);
    } else {
        text_t(key, nonce, text, len);
        tag_t(key, nonce, ad, ad_len, text, len, tag);
    }
}

static int open_frame(char mode, const u8 *key, const u8 *nonce, const u8 *ad, size_t ad_len, u8 *text, size_t len, const u8 tag[16])
{
    u8 made[16];
    if (mode == 'N') {
        run_n(key, nonce, ad, ad_len, text, len, made, 1);
    } else if (mode == 'M') {
        text_m(key, nonce, tag, text, len, 1);
        tag_m(key, nonce, ad, ad_len, text, len, made);
    } else {
        tag_t(key, nonce, ad, ad_len, text, len, made);
        if (memcmp(made, tag, 16) == 0) text_t(key, nonce, text, len);
    }
    if (memcmp(made, tag, 16) == 0) return 1;
    if (len) memset(text, 0, len);
    return 0;
}

#endif
