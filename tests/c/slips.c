/* What the inline functions make of the common slips: NULL, lengths that no buffer has, overlapping buffers. */
#include "romulus.h"
#include <stdio.h>
#include <stdlib.h>

static void want(int holds, const char *what)
{
    if (!holds) {
        printf("FAILED: %s\n", what);
        exit(1);
    }
}

static int zeros(const uint8_t *x, size_t len)
{
    for (size_t i = 0; i < len; i++)
        if (x[i]) return 0;
    return 1;
}

static int is(romulus_answer answer, uint32_t number)
{
    return answer.number == number && (number == ROMULUS_TAKEN ? answer.cost > 0 : answer.cost == 0);
}

static uint8_t key[16], nonce[16], ad[20], message[20], out[20], tag[16], store[64];

static void start(void)
{
    memset(key, 1, sizeof key);
    memset(nonce, 2, sizeof nonce);
    memset(ad, 3, sizeof ad);
    memset(message, 4, sizeof message);
    memset(out, 5, sizeof out);
    memset(tag, 6, sizeof tag);
    memset(store, 7, sizeof store);
}

/* A seal of the buffers above, and an opening. */
#define SEAL(k, kn, n, nn, a, an, m, mn, o, on, t, tn) romulus_m40_seal(k, kn, n, nn, a, an, m, mn, o, on, t, tn)
#define OPEN(k, kn, n, nn, a, an, m, mn, t, tn, o, on) romulus_m40_open(k, kn, n, nn, a, an, m, mn, t, tn, o, on)

static void empty_buffers(void)
{
    uint8_t other[16], digest[32], other_digest[32];
    start();
    want(is(SEAL(key, 16, nonce, 16, NULL, 0, NULL, 0, NULL, 0, tag, 16), 0), "an empty frame of NULLs is sealed");
    want(is(SEAL(key, 16, nonce, 16, ad, 0, message, 0, out, 0, other, 16), 0), "an empty frame is sealed");
    want(memcmp(tag, other, 16) == 0, "NULL and an empty buffer are the same");
    want(is(OPEN(key, 16, nonce, 16, NULL, 0, NULL, 0, tag, 16, NULL, 0), 0), "an empty frame of NULLs is opened");
    want(romulus_h40_hash(NULL, 0, digest, 32) == 0 && romulus_h40_hash(message, 0, other_digest, 32) == 0, "nothing is hashed");
    want(memcmp(digest, other_digest, 32) == 0, "the digest of NULL is that of an empty buffer");
    want(is(SEAL(NULL, 0, nonce, 16, ad, 20, message, 20, out, 20, tag, 16), 4), "a key of no bytes");
    want(is(SEAL(key, 16, NULL, 0, ad, 20, message, 20, out, 20, tag, 16), 10), "a nonce of no bytes");
    want(is(SEAL(key, 16, nonce, 16, ad, 20, message, 20, out, 20, NULL, 0), 9), "a tag's place of no bytes");
    want(is(SEAL(key, 16, nonce, 16, ad, 20, message, 20, NULL, 0, tag, 16), 8), "an output place of no bytes");
    want(is(OPEN(key, 16, nonce, 16, ad, 20, message, 20, NULL, 0, out, 20), 9), "a tag of no bytes");
    want(romulus_h40_hash(message, 20, NULL, 0) == 15, "a digest's place of no bytes");
}

static void absent_buffers(void)
{
    start();
    want(is(SEAL(NULL, 16, nonce, 16, ad, 20, message, 20, out, 20, tag, 16), 4) && zeros(out, 20) && zeros(tag, 16), "no key");
    start();
    want(is(SEAL(key, 16, nonce, 16, NULL, 20, message, 20, out, 20, tag, 16), 6) && zeros(out, 20) && zeros(tag, 16), "no data");
    start();
    want(is(SEAL(key, 16, nonce, 16, ad, 20, NULL, 20, out, 20, tag, 16), 7) && zeros(out, 20) && zeros(tag, 16), "no message");
    start();
    want(is(SEAL(key, 16, nonce, 16, ad, 20, message, 20, NULL, 20, tag, 16), 8) && zeros(tag, 16), "no output place");
    start();
    want(is(SEAL(key, 16, nonce, 16, ad, 20, message, 20, out, 20, NULL, 16), 9) && zeros(out, 20), "no tag's place");
    start();
    want(is(SEAL(key, 16, NULL, 16, ad, 20, message, 20, out, 20, tag, 16), 10) && zeros(out, 20) && zeros(tag, 16), "no nonce");
    start();
    want(is(OPEN(key, 16, nonce, 16, ad, 20, message, 20, NULL, 16, out, 20), 9) && zeros(out, 20), "no tag");
    start();
    want(is(OPEN(key, 16, nonce, 16, ad, 20, message, 20, tag, 16, NULL, 20), 8), "no output place of an opening");
    start();
    want(is(SEAL(key, 16, nonce, 16, ad, 20, message, 20, out, SIZE_MAX, tag, 16), 8) && out[0] == 5 && zeros(tag, 16), "a length of -1");
    start();
    want(is(OPEN(key, 16, nonce, 16, ad, SIZE_MAX, message, 20, tag, 16, out, 20), 6) && zeros(out, 20), "a data length of -1");
    start();
    want(romulus_h56_hash(NULL, 5, store, 32) == 14 && zeros(store, 32) && store[32] == 7, "no input");
    want(romulus_h56_hash(message, 20, NULL, 32) == 15, "no digest's place");
}

static void overlaps(void)
{
    start();
    want(is(SEAL(key, 16, nonce, 16, ad, 20, message, 20, message, 20, tag, 16), 8) && zeros(message, 20) && zeros(tag, 16), "a seal in place");
    start();
    want(is(SEAL(key, 16, nonce, 16, ad, 20, store, 20, store + 19, 20, tag, 16), 8) && zeros(store + 19, 20) && store[18] == 7, "output over the message's last byte");
    start();
    want(is(SEAL(key, 16, nonce, 16, ad, 20, store + 19, 20, store, 20, tag, 16), 8) && zeros(store, 20) && store[20] == 7, "output over the message's first byte");
    start();
    want(is(SEAL(key, 16, nonce, 16, ad, 20, store, 20, store + 20, 20, store + 40, 16), 0), "buffers side by side");
    want(is(OPEN(key, 16, nonce, 16, ad, 20, store + 20, 20, store + 40, 16, out, 20), 0), "buffers side by side, opened");
    start();
    want(is(SEAL(key, 16, nonce, 16, ad, 20, message, 20, out, 20, out + 4, 16), 8) && zeros(out, 20), "a tag in the output place");
    start();
    want(is(SEAL(key, 16, nonce, 16, ad, 20, message, 20, out, 20, nonce, 16), 9) && zeros(out, 20) && zeros(nonce, 16), "a tag over the nonce");
    start();
    want(is(SEAL(key, 16, nonce, 16, ad, 20, message, 20, out, 20, key, 16), 9) && zeros(key, 16), "a tag over the key");
    start();
    want(is(SEAL(key, 16, nonce, 16, ad, 20, message, 20, out, 20, ad + 4, 16), 9) && zeros(ad + 4, 16) && ad[3] == 3, "a tag over the data");
    start();
    want(is(SEAL(key, 16, nonce, 16, ad, 20, message, 20, out, 20, message, 16), 9) && zeros(message, 16), "a tag over the message");
    start();
    want(is(OPEN(key, 16, nonce, 16, ad, 20, message, 20, tag, 16, message, 20), 8) && zeros(message, 20), "an opening in place");
    start();
    want(is(OPEN(key, 16, nonce, 16, ad, 20, message, 20, tag, 16, ad, 20), 8) && zeros(ad, 20), "an opening over the data");
    start();
    want(is(OPEN(key, 16, nonce, 16, ad, 20, message, 16, tag, 16, tag, 16), 8) && zeros(tag, 16), "an opening over the tag");
    start();
    want(is(OPEN(key, 16, nonce, 16, ad, 20, message, 16, tag, 16, key, 16), 8) && zeros(key, 16), "an opening over the key");
    start();
    want(is(OPEN(key, 16, nonce, 16, ad, 20, message, 16, tag, 16, nonce, 16), 8) && zeros(nonce, 16), "an opening over the nonce");
    start();
    want(romulus_h40_hash(store, 33, store + 32, 32) == 15 && zeros(store + 32, 32) && store[31] == 7, "a digest over its input");
    want(is(SEAL(key, 16, key, 16, key, 16, key, 16, out, 16, tag, 16), 0), "inputs may share bytes");
}

static int post_is(romulus_post_answer answer, uint32_t number)
{
    return answer.number == number && (number == ROMULUS_TAKEN ? answer.cost > 0 : answer.cost == 0 && answer.nonce_high == 0 && answer.nonce_low == 0);
}

static void start_post(romulus_post *post)
{
    start();
    want(romulus_post_make(post, ROMULUS_MODE_T, 56, key, 16, 1, 2, 3, 1000) == 0, "a post is made");
}

static void posts(void)
{
    romulus_post post, before;
    uint8_t *inside = post.key;
    want(romulus_post_make(NULL, ROMULUS_MODE_N, 40, key, 16, 1, 2, 3, 4) == 4, "no place for a post");
    want(romulus_post_make(&post, ROMULUS_MODE_N, 40, NULL, 16, 1, 2, 3, 4) == 4 && zeros((uint8_t *)&post, sizeof post), "no key for a post");
    want(romulus_post_make(&post, ROMULUS_MODE_N, 40, NULL, 0, 1, 2, 3, 4) == 4 && zeros((uint8_t *)&post, sizeof post), "a post's key of no bytes");
    start_post(&post);
    want(romulus_post_make(&post, ROMULUS_MODE_N, 40, inside, 16, 1, 2, 3, 4) == 4 && zeros((uint8_t *)&post, sizeof post), "a key inside the post");
    want(post_is(romulus_post_seal(NULL, ad, 20, message, 20, out, 20, tag, 16), 4) && zeros(out, 20) && zeros(tag, 16), "a seal by no post");
    start();
    want(post_is(romulus_post_open(NULL, nonce, 16, ad, 20, message, 20, tag, 16, out, 20), 4) && zeros(out, 20), "an opening by no post");
    want(romulus_post_read(NULL).number == 4 && romulus_post_retire(NULL).number == 4, "no post is read and retired");
    start_post(&post);
    want(post_is(romulus_post_seal(&post, NULL, 0, NULL, 0, NULL, 0, tag, 16), 0), "a post seals an empty frame of NULLs");
    before = post;
    want(post_is(romulus_post_seal(&post, NULL, 5, message, 20, out, 20, tag, 16), 6) && zeros(out, 20) && zeros(tag, 16), "no data for a post");
    start();
    want(post_is(romulus_post_seal(&post, inside, 16, message, 20, out, 20, tag, 16), 6) && zeros(out, 20) && zeros(tag, 16), "data inside the post");
    want(post_is(romulus_post_seal(&post, ad, 20, inside, 16, out, 16, tag, 16), 7), "a message inside the post");
    want(post_is(romulus_post_seal(&post, ad, 20, message, 20, message, 20, tag, 16), 8) && zeros(message, 20), "a post seals in place");
    start();
    want(post_is(romulus_post_seal(&post, ad, 20, message, 20, out, 20, message, 16), 9) && zeros(message, 16), "a post's tag over the message");
    want(post_is(romulus_post_open(&post, inside, 16, ad, 20, message, 20, tag, 16, out, 20), 10) && zeros(out, 20), "a nonce inside the post");
    want(post_is(romulus_post_open(&post, nonce, 16, ad, 20, message, 16, inside, 16, out, 16), 9), "a tag inside the post");
    want(post_is(romulus_post_open(&post, nonce, 16, ad, 20, message, 20, tag, 16, message, 20), 8) && zeros(message, 20), "a post opens in place");
    want(memcmp(&before, &post, sizeof post) == 0, "no slip alters the post");
    want(post_is(romulus_post_open(&post, nonce, 16, ad, 20, message, 16, tag, 16, inside, 16), 8) && zeros((uint8_t *)&post, sizeof post), "an opening into the post ends it");
    start_post(&post);
    want(post_is(romulus_post_seal(&post, ad, 20, message, 8, (uint8_t *)&post.count, 8, tag, 16), 8) && zeros((uint8_t *)&post, sizeof post), "a seal over the count ends the post");
    start_post(&post);
    want(post_is(romulus_post_seal(&post, ad, 20, message, 20, out, 20, inside + 8, 16), 9) && zeros((uint8_t *)&post, sizeof post), "a tag in the post ends it");
}

static void words(void)
{
    want(strcmp(romulus_number_words(ROMULUS_WRONG_FRAME), "the frame is wrong") == 0, "a number in words");
    want(strcmp(romulus_number_words(ROMULUS_DIGEST_LENGTH + 1), "no number of this library") == 0, "another number in words");
}

int main(void)
{
    empty_buffers();
    absent_buffers();
    overlaps();
    posts();
    words();
    puts("slips: NULL, impossible lengths and overlaps are refused or safe");
    return 0;
}
