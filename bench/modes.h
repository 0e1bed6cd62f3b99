/* The modes over a cipher CALL(tweakey, block), which each file that includes this defines, so that it can be inlined. */
#include <stddef.h>
#include <stdint.h>
#include <string.h>

/* The counter as a number of 56 bits. */
static inline uint64_t counted(uint64_t c) { return (c << 1 & 0xffffffffffffffULL) ^ (c >> 55 & 1) * 0x95; }

/* One call under a key with a tweak, a domain and a counter. */
static inline void call(uint8_t *s, const uint8_t *key, const uint8_t *tweak, unsigned domain, uint64_t c)
{
    uint8_t t[48] = { 0 };
    uint64_t head = c | (uint64_t)domain << 56;
    memcpy(t, &head, 8);
    memcpy(t + 16, tweak, 16);
    memcpy(t + 32, key, 16);
    CALL(t, s);
}

static inline size_t blocks_in(size_t len) { return len == 0 ? 1 : (len + 15) / 16; }

static inline int ends_short(size_t len) { return len == 0 || len % 16 != 0; }

static inline void add(uint8_t *s, const uint8_t *x)
{
    uint64_t a[2], b[2];
    memcpy(a, s, 16);
    memcpy(b, x, 16);
    a[0] ^= b[0];
    a[1] ^= b[1];
    memcpy(s, a, 16);
}

static inline void feedback(uint8_t *g, const uint8_t *s)
{
    uint64_t x[2];
    memcpy(x, s, 16);
    for (int i = 0; i < 2; i++)
        x[i] = (x[i] >> 1 & 0x7f7f7f7f7f7f7f7fULL) ^ ((x[i] ^ x[i] << 7) & 0x8080808080808080ULL);
    memcpy(g, x, 16);
}

/* A part of at most 16 bytes as a block. */
static inline void padded(uint8_t *block, const uint8_t *part, size_t n)
{
    if (n >= 16) {
        memcpy(block, part, 16);
        return;
    }
    memset(block, 0, 16);
    memcpy(block, part, n);
    block[15] = (uint8_t)n;
}

static inline size_t part_at(size_t len, size_t at) { return len - at < 16 ? len - at : 16; }

/* Turns a part of one text into the other's, and adds the message's to the state. */
static inline void mixed(uint8_t *s, const uint8_t *in, size_t n, uint8_t *out, int opening)
{
    uint8_t g[16], p[16];
    feedback(g, s);
    if (n == 16) {
        memcpy(p, in, 16);
        add(g, p);
        memcpy(out, g, 16);
        add(s, opening ? g : p);
        return;
    }
    padded(p, in, n);
    for (size_t i = 0; i < n; i++) out[i] = in[i] ^ g[i];
    if (opening) padded(p, out, n);
    add(s, p);
}

/* Whether a tag is the one made; if not, the text found is taken back. */
static inline int judged(const uint8_t *made, const uint8_t *tag, uint8_t *out, size_t len)
{
    if (memcmp(made, tag, 16) == 0) return 1;
    memset(out, 0, len);
    return 0;
}

/* Romulus-N: the data, and the call that ends it. */
static inline void start_n(uint8_t *s, const uint8_t *key, const uint8_t *ad, size_t ad_len, uint64_t *c)
{
    uint8_t p[16];
    size_t at = 0;
    memset(s, 0, 16);
    *c = 2;
    for (; ad_len - at > 16; at += 32) {
        add(s, ad + at);
        padded(p, ad + at + 16, part_at(ad_len, at + 16));
        call(s, key, p, 8, *c);
        *c = counted(*c);
        if (ad_len - at <= 32) return;
        *c = counted(*c);
    }
    padded(p, ad + at, ad_len - at);
    add(s, p);
}

static inline void pass_n(const uint8_t *key, const uint8_t *nonce, const uint8_t *ad, size_t ad_len, const uint8_t *in, size_t len, uint8_t *out, uint8_t *tag, int opening)
{
    uint8_t s[16];
    uint64_t c;
    size_t at = 0;
    start_n(s, key, ad, ad_len, &c);
    call(s, key, nonce, ends_short(ad_len) ? 26 : 24, c);
    for (c = 2; len - at > 16; at += 16, c = counted(c)) {
        mixed(s, in + at, 16, out + at, opening);
        call(s, key, nonce, 4, c);
    }
    mixed(s, in + at, len - at, out + at, opening);
    call(s, key, nonce, ends_short(len) ? 21 : 20, c);
    feedback(tag, s);
}

/* Block i of data and message, one after the other. */
static inline void block_m(uint8_t *p, const uint8_t *ad, size_t ad_len, const uint8_t *message, size_t len, size_t i)
{
    size_t a = blocks_in(ad_len);
    if (i < a) padded(p, ad + 16 * i, part_at(ad_len, 16 * i));
    else padded(p, message + 16 * (i - a), part_at(len, 16 * (i - a)));
}

/* Romulus-M */
static inline void tag_m(const uint8_t *key, const uint8_t *nonce, const uint8_t *ad, size_t ad_len, const uint8_t *message, size_t len, uint8_t *tag)
{
    size_t a = blocks_in(ad_len), m = blocks_in(len), i = 0;
    uint8_t s[16] = { 0 }, p[16];
    uint64_t c = 1;
    for (; i + 1 < a + m; i += 2) {
        c = counted(c);
        block_m(p, ad, ad_len, message, len, i);
        add(s, p);
        block_m(p, ad, ad_len, message, len, i + 1);
        call(s, key, p, i + 1 < a ? 40 : 44, c);
        c = counted(c);
    }
    if (i < a + m) {
        block_m(p, ad, ad_len, message, len, i);
        add(s, p);
        c = counted(c);
    }
    call(s, key, nonce, 48u ^ (ends_short(ad_len) ? 2 : 0) ^ (ends_short(len) ? 1 : 0) ^ (a % 2 ? 0 : 8) ^ (m % 2 ? 0 : 4), c);
    feedback(tag, s);
}

static inline void pass_m(const uint8_t *key, const uint8_t *nonce, const uint8_t *tag, const uint8_t *in, size_t len, uint8_t *out, int opening)
{
    uint8_t s[16];
    uint64_t c = 1;
    memcpy(s, tag, 16);
    for (size_t at = 0; at < len; at += 16, c = counted(c)) {
        call(s, key, nonce, 36, c);
        mixed(s, in + at, part_at(len, at), out + at, opening);
    }
}

/* Romulus-H: L, R, and what waits for a block of 32 bytes. */
struct hash {
    uint8_t left[16], right[16], waiting[32];
    size_t held;
};

static inline void hash_block(struct hash *h, const uint8_t *q)
{
    uint8_t t[48], one[16], two[16], other[16];
    memcpy(t, h->right, 16);
    memcpy(t + 16, q, 32);
    memcpy(one, h->left, 16);
    memcpy(two, h->left, 16);
    two[0] ^= 1;
    memcpy(other, two, 16);
    CALL(t, one);
    CALL(t, two);
    add(h->left, one);
    add(two, other);
    memcpy(h->right, two, 16);
}

static inline void hash_take(struct hash *h, const uint8_t *x, size_t len)
{
    if (h->held + len >= 32 && h->held > 0) {
        size_t n = 32 - h->held;
        memcpy(h->waiting + h->held, x, n);
        hash_block(h, h->waiting);
        x += n;
        len -= n;
        h->held = 0;
    }
    if (h->held == 0)
        for (; len >= 32; x += 32, len -= 32) hash_block(h, x);
    memcpy(h->waiting + h->held, x, len);
    h->held += len;
}

static inline void hash_end(struct hash *h, uint8_t *digest)
{
    memset(h->waiting + h->held, 0, 32 - h->held);
    h->waiting[31] = (uint8_t)h->held;
    h->left[0] ^= 2;
    hash_block(h, h->waiting);
    memcpy(digest, h->left, 16);
    memcpy(digest + 16, h->right, 16);
}

/* Romulus-T */
static inline void hash_padded(struct hash *h, const uint8_t *x, size_t len)
{
    uint8_t p[16] = { 0 };
    size_t whole = len / 16 * 16;
    if (len == 0) return;
    hash_take(h, x, whole);
    memcpy(p, x + whole, len - whole);
    p[15] = (uint8_t)(len - whole);
    hash_take(h, p, 16);
}

static inline void tag_t(const uint8_t *key, const uint8_t *nonce, const uint8_t *ad, size_t ad_len, const uint8_t *text, size_t len, uint8_t *tag)
{
    struct hash h = { { 0 }, { 0 }, { 0 }, 0 };
    uint8_t d[32];
    uint64_t c = 1;
    hash_padded(&h, ad, ad_len);
    hash_padded(&h, text, len);
    hash_take(&h, nonce, 16);
    for (size_t i = 0; i < (len + 15) / 16; i++) c = counted(c);
    hash_take(&h, (const uint8_t *)&c, 7);
    hash_end(&h, d);
    call(d, key, d + 16, 68, 0);
    memcpy(tag, d, 16);
}

static inline void cover_t(const uint8_t *key, const uint8_t *nonce, const uint8_t *in, size_t len, uint8_t *out)
{
    static const uint8_t none[16];
    uint8_t k[16], e[16];
    uint64_t c = 1;
    memcpy(k, nonce, 16);
    if (len > 0) call(k, key, none, 66, 0);
    for (size_t at = 0; at < len; at += 16, c = counted(c)) {
        size_t n = part_at(len, at);
        memcpy(e, nonce, 16);
        call(e, k, none, 64, c);
        for (size_t i = 0; i < n; i++) out[at + i] = in[at + i] ^ e[i];
        if (len - at <= 16) return;
        memcpy(e, nonce, 16);
        call(e, k, none, 65, c);
        memcpy(k, e, 16);
    }
}
