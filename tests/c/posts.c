/* The post that a C host keeps against a model of it in C over the independent implementation: makings, runs of seals,
   openings and readings until allowance or nonces are out, and posts with any bytes in them. A seed and a number of rounds
   may be given. */
#include "buffers.h"
#include "../independent.h"
#include "../soak/rounds.h"
#include "romulus.h"

#define MOST_CALLS (UINT64_C(1) << 40)
enum { MOST = 48 };

static arena post_arena, nonce_arena, ad_arena, message_arena, text_arena, tag_arena, out_arena, key_arena;
static unsigned long by_number[16], read_by_number[16], broken;

static romulus_post *new_post_place(void)
{
    return (romulus_post *)place(post_arena, sizeof(romulus_post), 1).at;
}

/* The first question on what is kept that is answered no. */
static uint32_t kept_no(const romulus_post *p)
{
    if (p->amount > UINT64_MAX - p->count) return 1;
    if (p->mode != 'N' && p->mode != 'M' && p->mode != 'T') return 4;
    if (p->rounds != 40 && p->rounds != 56) return 4;
    if (p->left > MOST_CALLS || p->calls > MOST_CALLS || p->left + p->calls > MOST_CALLS) return 5;
    if (p->sealed > MOST_CALLS || p->opened > MOST_CALLS || p->wrong > MOST_CALLS || p->sealed + p->opened + p->wrong > p->calls) return 5;
    return 0;
}

/* What a seal, and a right opening too, costs for these lengths: the independent implementation is asked. */
static uint64_t price(const romulus_post *p, size_t ad_len, size_t len)
{
    static uint8_t zero[MOST], text[MOST];
    uint8_t tag[16];
    unsigned long long before = calls;
    cipher_kind = (int)p->rounds;
    seal((char)p->mode, zero, zero, zero, ad_len, text, len, tag);
    uint64_t cost = calls - before;
    calls = before;
    return cost;
}

static void nonce_of(uint64_t high, uint64_t low, uint8_t nonce[16])
{
    for (int i = 0; i < 8; i++) {
        nonce[i] = (uint8_t)(high >> (8 * (7 - i)));
        nonce[8 + i] = (uint8_t)(low >> (8 * (7 - i)));
    }
}

typedef struct frame {
    uint8_t nonce[16], ad[MOST], text[MOST], tag[16];
    size_t ad_len, len;
} frame;

/* ---- a seal: the model's answer, and what it leaves */
static romulus_post_answer model_seal(romulus_post *p, buffer ad, buffer message, buffer out, buffer tag, uint8_t *text, uint8_t made[16])
{
    romulus_post_answer a = { kept_no(p), 0, 0, 0 };
    if (a.number == 0 && ad.len > 65535) a.number = 6;
    if (a.number == 0 && message.len > 65535) a.number = 7;
    if (a.number == 0 && out.len != message.len) a.number = 8;
    if (a.number == 0 && tag.len != 16) a.number = 9;
    if (a.number == 0 && price(p, ad.len, message.len) > p->left) a.number = 11;
    if (a.number == 0 && p->amount == 0) a.number = 12;
    if (a.number != 0) return a;
    uint8_t nonce[16];
    nonce_of(p->prefix, p->count, nonce);
    if (message.len) memcpy(text, message.at, message.len);
    calls = 0;
    cipher_kind = (int)p->rounds;
    seal((char)p->mode, p->key, nonce, ad.at, ad.len, text, message.len, made);
    a.nonce_high = p->prefix;
    a.nonce_low = p->count;
    a.cost = calls;
    p->count++;
    p->amount--;
    p->left -= calls;
    p->calls += calls;
    p->sealed++;
    return a;
}

static void same_answer(const char *what, romulus_post_answer a, romulus_post_answer b)
{
    if (a.number != b.number || a.nonce_high != b.nonce_high || a.nonce_low != b.nonce_low || a.cost != b.cost) stop(what, a.number, b.number);
    by_number[a.number]++;
}

static void same_post(const char *what, const romulus_post *a, const romulus_post *b)
{
    if (memcmp(a, b, sizeof *a) != 0) stop(what, a->mode, b->mode);
}

static size_t sixteen_or(unsigned odds)
{
    return random_word() % odds ? 16 : random_word() % 33;
}

/* A seal on the post, which goes on to what the model has; the frame of a taken one is kept. */
static int compare_seal(romulus_post *post, frame *taken)
{
    romulus_post model = *post;
    uint8_t text[MOST], made[16];
    int at_end = random_word() >> 63 & 1;
    size_t len = random_word() % (MOST + 1);
    buffer ad = place(ad_arena, random_word() % (MOST + 1), at_end), message = place(message_arena, len, at_end);
    buffer out = place(out_arena, random_word() % 12 ? len : len + 1, at_end), tag = place(tag_arena, sixteen_or(12), at_end);
    fill(ad);
    fill(message);
    fill(out);
    fill(tag);
    romulus_post_answer want = model_seal(&model, ad, message, out, tag, text, made);
    romulus_post_answer got = romulus_post_seal(post, ad.at, ad.len, message.at, message.len, out.at, out.len, tag.at, tag.len);
    same_answer("the answer of a seal by a post", got, want);
    same_post("the post after a seal", post, &model);
    if (!slack_kept(ad) || !slack_kept(message) || !slack_kept(out) || !slack_kept(tag)) stop("a byte beside a buffer of a seal", len, 0);
    if (got.number != 0) {
        if (!all_zeros(out) || !all_zeros(tag)) stop("the places of a refused seal", len, got.number);
        return 0;
    }
    if ((len && memcmp(out.at, text, len) != 0) || memcmp(tag.at, made, 16) != 0) stop("the frame of a post", ad.len, len);
    romulus_post_nonce(got, taken->nonce);
    nonce_of(want.nonce_high, want.nonce_low, made);
    if (memcmp(taken->nonce, made, 16) != 0) stop("the nonce's bytes", ad.len, len);
    taken->ad_len = ad.len;
    taken->len = len;
    if (ad.len) memcpy(taken->ad, ad.at, ad.len);
    if (len) memcpy(taken->text, out.at, len);
    memcpy(taken->tag, tag.at, 16);
    return 1;
}

/* An opening of a frame, damaged or not, or with a wrong size. */
static void compare_open(romulus_post *post, const frame *f)
{
    romulus_post model = *post;
    uint8_t message[MOST];
    int at_end = random_word() >> 63 & 1, right = 0;
    buffer nonce = place(nonce_arena, sixteen_or(12), at_end), ad = place(ad_arena, f->ad_len, at_end), text = place(text_arena, f->len, at_end);
    buffer tag = place(tag_arena, sixteen_or(12), at_end), out = place(out_arena, random_word() % 12 ? f->len : f->len + 1, at_end);
    fill(out);
    fill(nonce);
    fill(tag);
    if (nonce.len == 16) memcpy(nonce.at, f->nonce, 16);
    if (tag.len == 16) memcpy(tag.at, f->tag, 16);
    if (ad.len) memcpy(ad.at, f->ad, ad.len);
    if (text.len) memcpy(text.at, f->text, text.len);
    if (random_word() & 1) {
        buffer parts[4] = { nonce, ad, text, tag }, part = parts[random_word() & 3];
        if (part.len) part.at[random_word() % part.len] ^= (uint8_t)(1u << random_word() % 8);
    }
    romulus_post_answer want = { kept_no(&model), 0, 0, 0 };
    if (want.number == 0 && out.len != text.len) want.number = 8;
    if (want.number == 0 && tag.len != 16) want.number = 9;
    if (want.number == 0 && nonce.len != 16) want.number = 10;
    if (want.number == 0 && price(&model, ad.len, text.len) > model.left) want.number = 11;
    if (want.number == 0) {
        if (text.len) memcpy(message, text.at, text.len);
        calls = 0;
        cipher_kind = (int)model.rounds;
        right = open_frame((char)model.mode, model.key, nonce.at, ad.at, ad.len, message, text.len, tag.at);
        want.number = right ? 0 : 13;
        want.cost = calls;
        model.left -= calls;
        model.calls += calls;
        if (right) model.opened++; else model.wrong++;
    }
    romulus_post_answer got = romulus_post_open(post, nonce.at, nonce.len, ad.at, ad.len, text.at, text.len, tag.at, tag.len, out.at, out.len);
    same_answer("the answer of an opening by a post", got, want);
    same_post("the post after an opening", post, &model);
    if (!slack_kept(nonce) || !slack_kept(ad) || !slack_kept(text) || !slack_kept(out) || !slack_kept(tag)) stop("a byte beside a buffer of an opening", text.len, 0);
    if (right ? (text.len && memcmp(out.at, message, text.len) != 0) : !all_zeros(out)) stop("the place of an opening by a post", ad.len, text.len);
}

static romulus_reading noted(romulus_reading r)
{
    if (r.number > 15) stop("the number of a reading", r.number, 15);
    read_by_number[r.number]++;
    return r;
}

static void compare_read(const romulus_post *post)
{
    uint32_t number = kept_no(post);
    romulus_reading r = noted(romulus_post_read(post));
    int same = number ? r.left == 0 && r.sealed == 0 && r.opened == 0 && r.wrong == 0
                      : r.left == post->left && r.sealed == post->sealed && r.opened == post->opened && r.wrong == post->wrong;
    if (r.number != number || !same) stop("a reading", r.number, number);
}

static void compare_retire(romulus_post *post)
{
    romulus_reading before = noted(romulus_post_read(post)), last = noted(romulus_post_retire(post));
    static const romulus_post none;
    if (before.number != last.number || before.left != last.left || before.sealed != last.sealed || before.opened != last.opened || before.wrong != last.wrong)
        stop("the last reading", before.number, last.number);
    same_post("a retired post", post, &none);
    if (noted(romulus_post_read(post)).number != ROMULUS_KEY_LENGTH) stop("a retired post is none", 0, 0);
}

static uint64_t near_the_end(void) { return random_word() & 1 ? UINT64_MAX - random_word() % 20 : random_word() % 20; }

/* A making, lawful or not. */
static uint32_t compare_make(romulus_post *post, uint32_t mode, uint32_t rounds, size_t key_len, uint64_t first, uint64_t amount, uint64_t allowance)
{
    romulus_post model;
    buffer key = place(key_arena, key_len, 1);
    fill(key);
    memset(&model, 0, sizeof model);
    uint64_t prefix = random_word();
    romulus_post want = { mode, rounds, { 0 }, prefix, first, amount, allowance, 0, 0, 0, 0 };
    uint32_t number = kept_no(&want);
    if (number != 1 && key_len != 16) number = 4;
    if (number == 0) {
        memcpy(want.key, key.at, 16);
        model = want;
    }
    memset(post, 0xa5, sizeof *post);
    uint32_t got = romulus_post_make(post, mode, rounds, key.at, key.len, prefix, first, amount, allowance);
    if (got != number) stop("the number of a making", got, number);
    same_post("a post as it is made", post, &model);
    by_number[got]++;
    return got;
}

static const uint32_t modes[] = { ROMULUS_MODE_N, ROMULUS_MODE_M, ROMULUS_MODE_T };

/* One life, from the making to the retirement. */
static void live(uint32_t mode, uint32_t rounds, uint64_t amount, uint64_t allowance)
{
    romulus_post *post = new_post_place();
    frame f = { { 1 }, { 2 }, { 3 }, { 4 }, 5, 6 };
    if (compare_make(post, mode, rounds, 16, UINT64_MAX - amount - random_word() % 3, amount, allowance) != 0) stop("a lawful making", mode, rounds);
    for (int i = 0; i < 60; i++) {
        compare_read(post);
        if (random_word() & 1) (void)compare_seal(post, &f); else compare_open(post, &f);
    }
    compare_retire(post);
    (void)compare_seal(post, &f);
    compare_open(post, &f);
}

/* A post with other bytes in it than a call left there. */
static void break_post(uint32_t mode, uint32_t rounds)
{
    romulus_post *post = new_post_place();
    frame f = { { 1 }, { 2 }, { 3 }, { 4 }, 5, 6 };
    (void)compare_make(post, mode, rounds, 16, near_the_end(), random_word() % 20, random_word() % 100);
    (void)compare_seal(post, &f);
    switch (random_word() % 10) {
    case 0: post->mode = (uint32_t)(random_word() % 100); break;
    case 1: post->rounds = (uint32_t)(random_word() % 100); break;
    case 2: post->count = near_the_end(); break;
    case 3: post->amount = near_the_end(); break;
    case 4: post->left = MOST_CALLS - post->calls + random_word() % 2; break;
    case 5: post->calls = near_the_end(); break;
    case 6: post->sealed = near_the_end(); break;
    case 7: post->opened = near_the_end(); break;
    case 8: post->wrong = near_the_end(); break;
    default:
        for (int i = 0; i < 3; i++) ((uint8_t *)post)[random_word() % sizeof *post] ^= (uint8_t)(1u << random_word() % 8);
        break;
    }
    broken += kept_no(post) != 0;
    compare_read(post);
    (void)compare_seal(post, &f);
    compare_open(post, &f);
    compare_read(post);
    compare_retire(post);
}

/* Lives, posts with other bytes in them, and makings. */
static void one_round(void)
{
    for (int m = 0; m < 3; m++)
        for (uint32_t rounds = 40; rounds <= 56; rounds += 16) {
            for (int i = 0; i < 40; i++) live(modes[m], rounds, random_word() % 40, random_word() % 2 ? MOST_CALLS : random_word() % 400);
            for (int i = 0; i < 400; i++) break_post(modes[m], rounds);
        }
    for (int i = 0; i < 3000; i++) {
        romulus_post *post = new_post_place();
        uint32_t mode = random_word() % 4 ? modes[random_word() % 3] : (uint32_t)(random_word() % 256);
        uint32_t rounds = random_word() % 4 ? 40 : (uint32_t)(random_word() % 64);
        (void)compare_make(post, mode, rounds, random_word() % 4 ? 16 : random_word() % 33, near_the_end(), near_the_end(), random_word() % 2 ? MOST_CALLS + random_word() % 2 : near_the_end());
    }
}

int main(int words, char **word)
{
    soak s = soak_of(words, word);
    post_arena = new_arena(sizeof(romulus_post));
    nonce_arena = new_arena(64);
    tag_arena = new_arena(64);
    key_arena = new_arena(64);
    ad_arena = new_arena(MOST);
    message_arena = new_arena(MOST);
    text_arena = new_arena(MOST);
    out_arena = new_arena(MOST + 1);
    for (unsigned long long i = 0; i < s.rounds; i++) {
        one_round();
        round_done(&s);
    }
    unsigned long all = 0;
    for (int i = 0; i < 16; i++) all += by_number[i];
    for (int i = 0; i < 16; i++)
        if (by_number[i] == 0 && i != 2 && i != 3 && i != 6 && i != 7 && i != 14 && i != 15) stop("a number that never came", (size_t)i, 0);
    printf("posts: %lu makings, seals and openings, %lu of them taken, %lu broken posts: all as the model\n", all, by_number[0], broken);
    for (int i = 0; i < 16; i++) by_number[i] += read_by_number[i];
    soak_done(&s, "posts", by_number, 16);
    return 0;
}
