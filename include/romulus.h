/* Romulus-N, -M, -T and -H for C hosts: seal, open and hash on byte buffers, and a post that the host keeps.

   How to link, the sizes, the costs and what is proved: docs/c-host.md.

   Direct calls: romulus_n40_seal, romulus_t56_open, romulus_h40_hash and so on. The letter is the mode, and 40 or 56 the
   rounds of the cipher. Version 1.3 of Romulus has 40; N and M with 56 are version 1.2. There is no number to choose a
   cipher by, so that no direct call can name one that does not exist.

   A post: romulus_post_make, romulus_post_seal, romulus_post_open, romulus_post_read, romulus_post_retire. It seals under
   nonces of its own, none of them twice, and within an allowance of cipher calls.

   Each of these is an inline function that catches the common slips and then calls the export romulus_c_.. of the archive.

   What a call answers. 0, the call was taken, or the number of the first question that was answered no, as named in
   enum romulus_number; a seal and an opening also answer their cost, in calls of the cipher. A refusal costs nothing and
   leaves zeros in every output place, whatever the length of that place; only ROMULUS_WRONG_FRAME has a cost. Nothing
   in an output place is a ciphertext, a tag, a message or a digest unless the number is 0.

   What the inline functions see to:
   - NULL with the length 0 is an empty buffer.
   - NULL with another length, or a length that no buffer has (above PTRDIFF_MAX), is refused with the number that asks
     for the length of that buffer, before the lengths are looked at. Where a post should be, NULL holds no key:
     ROMULUS_KEY_LENGTH.
   - An output place that overlaps another buffer is refused: out with ROMULUS_OUTPUT_LENGTH, a tag's place with
     ROMULUS_TAG_LENGTH, a digest's place with ROMULUS_DIGEST_LENGTH. It is then full of zeros, and so is what it covers.
     A buffer that overlaps the post is refused with the number that asks for its length; where it is an output place the
     post is ended too, with zeros in all of it, so that no count is set back.

   What C owes, and nothing can check: each pointer points at as many bytes as its length says, which last for the whole
   call, and no other thread writes there meanwhile. A nonce comes only once under one key: with N and T a second use
   gives the messages away; with M it shows only whether nonce, data and message all came again. And a post is not copied,
   nor set back to an earlier copy: both would use nonces again.

   No function allocates, keeps anything from call to call or touches shared memory, so that any number of threads may
   call at a time. */
#ifndef ROMULUS_H
#define ROMULUS_H

#include <stddef.h>
#include <stdint.h>
#include <string.h>

#if defined(__GNUC__)
#define ROMULUS_EXPORT __attribute__((warn_unused_result, nonnull))
#define ROMULUS_CALL __attribute__((warn_unused_result)) static inline
#else
#define ROMULUS_EXPORT
#define ROMULUS_CALL static inline
#endif

#ifdef __cplusplus
extern "C" {
#endif

/* Sizes, in bytes. */
#define ROMULUS_KEY_BYTES 16
#define ROMULUS_NONCE_BYTES 16
#define ROMULUS_TAG_BYTES 16
#define ROMULUS_DIGEST_BYTES 32
#define ROMULUS_MOST_DATA_BYTES 65535
#define ROMULUS_MOST_TEXT_BYTES 65535
#define ROMULUS_MOST_INPUT_BYTES 1048576

/* The largest allowance of a post, 2^40 calls of the cipher. */
#define ROMULUS_MOST_ALLOWANCE UINT64_C(1099511627776)

/* The modes of a post: their letters. */
#define ROMULUS_MODE_N 78u
#define ROMULUS_MODE_M 77u
#define ROMULUS_MODE_T 84u

/* The numbers that a call answers, in the order in which their questions are asked. */
enum romulus_number {
    ROMULUS_TAKEN = 0,             /* every question was answered yes */
    ROMULUS_COUNT_RANGE = 1,       /* the last count of a post's nonces lies past 2^64 - 1 */
    ROMULUS_KEY_LENGTH = 4,        /* the key has not 16 bytes; a post that is no post, or of no known mode, has none */
    ROMULUS_ALLOWANCE_SIZE = 5,    /* the allowance is above 2^40, or a post's counters fit no allowance */
    ROMULUS_DATA_LENGTH = 6,       /* the associated data has more than 65,535 bytes */
    ROMULUS_TEXT_LENGTH = 7,       /* the message or ciphertext has more than 65,535 bytes */
    ROMULUS_OUTPUT_LENGTH = 8,     /* the output place is not exactly as long as the text */
    ROMULUS_TAG_LENGTH = 9,        /* the tag or its place has not 16 bytes */
    ROMULUS_NONCE_LENGTH = 10,     /* the nonce has not 16 bytes */
    ROMULUS_ALLOWANCE_SPENT = 11,  /* the allowance left does not hold the cost */
    ROMULUS_NO_NONCE = 12,         /* no nonce is left */
    ROMULUS_WRONG_FRAME = 13,      /* no message seals to the frame: nonce, data, text, tag or key is another */
    ROMULUS_HASH_LENGTH = 14,      /* the input of a hash has more than 1,048,576 bytes */
    ROMULUS_DIGEST_LENGTH = 15     /* the digest's place has not 32 bytes */
};

/* What a seal or an opening answers. */
typedef struct romulus_answer {
    uint32_t number;
    uint64_t cost;
} romulus_answer;

/* A post. The host keeps it, passes it to each call, and alters nothing in it. Each call asks the questions of a making of
   what stands there, whatever it is, and is refused with 1, 4 or 5 where it can be no post; a place full of zeros is none. */
typedef struct romulus_post {
    uint32_t mode;      /* the mode's letter */
    uint32_t rounds;    /* 40 or 56 */
    uint8_t key[16];
    uint64_t prefix;    /* the first half of every nonce */
    uint64_t count;     /* the second half of the next nonce */
    uint64_t amount;    /* how many nonces are left */
    uint64_t left;      /* the allowance left */
    uint64_t calls;     /* the calls of the cipher so far */
    uint64_t sealed;    /* seals taken */
    uint64_t opened;    /* openings taken */
    uint64_t wrong;     /* wrong frames */
} romulus_post;

/* What a seal or an opening by a post answers; the nonce is that of a taken seal, and otherwise 0 0. */
typedef struct romulus_post_answer {
    uint32_t number;
    uint64_t nonce_high;
    uint64_t nonce_low;
    uint64_t cost;
} romulus_post_answer;

/* What reading out tells; all zeros but the number where that is not 0. */
typedef struct romulus_reading {
    uint32_t number;
    uint64_t left;
    uint64_t sealed;
    uint64_t opened;
    uint64_t wrong;
} romulus_reading;

/* ---- The exports of the archive.
   They ask the questions on the lengths, and have no other defence: every pointer is valid, an empty buffer's too, and
   no output place overlaps another buffer.

   A seal asks 4, 6, 7, 8, 9, 10, and writes the ciphertext of the message over out and its tag over tag.
   An opening asks 4, 6, 7, 8, 9, 10, 13, and writes the message of the frame over out.
   A hash asks 14, 15, and writes the digest of the input over digest.

   Making a post asks 1, 4, 5. It seals under the nonces prefix, first; prefix, first + 1; and so on, amount of them, each
   number as 8 bytes, highest byte first; and its calls may cost as much as the allowance. A refused making leaves zeros.
   A seal by a post asks 1, 4, 5 of the post and then 6, 7, 8, 9, 11, 12. A taken one answers the nonce too.
   An opening by a post asks 1, 4, 5 of the post and then 6, 7, 8, 9, 10, 11, 13.
   Only a taken call and 13 alter the post: the cost leaves the allowance.
   Reading asks 1, 4, 5 and alters nothing; retiring reads, and leaves zeros in the post's place whatever stood there. */
ROMULUS_EXPORT romulus_answer romulus_c_n40_seal(
    const uint8_t *key, size_t key_len, const uint8_t *nonce, size_t nonce_len,
    const uint8_t *ad, size_t ad_len, const uint8_t *message, size_t message_len,
    uint8_t *out, size_t out_len, uint8_t *tag, size_t tag_len);
ROMULUS_EXPORT romulus_answer romulus_c_n40_open(
    const uint8_t *key, size_t key_len, const uint8_t *nonce, size_t nonce_len,
    const uint8_t *ad, size_t ad_len, const uint8_t *text, size_t text_len,
    const uint8_t *tag, size_t tag_len, uint8_t *out, size_t out_len);
ROMULUS_EXPORT romulus_answer romulus_c_n56_seal(
    const uint8_t *key, size_t key_len, const uint8_t *nonce, size_t nonce_len,
    const uint8_t *ad, size_t ad_len, const uint8_t *message, size_t message_len,
    uint8_t *out, size_t out_len, uint8_t *tag, size_t tag_len);
ROMULUS_EXPORT romulus_answer romulus_c_n56_open(
    const uint8_t *key, size_t key_len, const uint8_t *nonce, size_t nonce_len,
    const uint8_t *ad, size_t ad_len, const uint8_t *text, size_t text_len,
    const uint8_t *tag, size_t tag_len, uint8_t *out, size_t out_len);
ROMULUS_EXPORT romulus_answer romulus_c_m40_seal(
    const uint8_t *key, size_t key_len, const uint8_t *nonce, size_t nonce_len,
    const uint8_t *ad, size_t ad_len, const uint8_t *message, size_t message_len,
    uint8_t *out, size_t out_len, uint8_t *tag, size_t tag_len);
ROMULUS_EXPORT romulus_answer romulus_c_m40_open(
    const uint8_t *key, size_t key_len, const uint8_t *nonce, size_t nonce_len,
    const uint8_t *ad, size_t ad_len, const uint8_t *text, size_t text_len,
    const uint8_t *tag, size_t tag_len, uint8_t *out, size_t out_len);
ROMULUS_EXPORT romulus_answer romulus_c_m56_seal(
    const uint8_t *key, size_t key_len, const uint8_t *nonce, size_t nonce_len,
    const uint8_t *ad, size_t ad_len, const uint8_t *message, size_t message_len,
    uint8_t *out, size_t out_len, uint8_t *tag, size_t tag_len);
ROMULUS_EXPORT romulus_answer romulus_c_m56_open(
    const uint8_t *key, size_t key_len, const uint8_t *nonce, size_t nonce_len,
    const uint8_t *ad, size_t ad_len, const uint8_t *text, size_t text_len,
    const uint8_t *tag, size_t tag_len, uint8_t *out, size_t out_len);
ROMULUS_EXPORT romulus_answer romulus_c_t40_seal(
    const uint8_t *key, size_t key_len, const uint8_t *nonce, size_t nonce_len,
    const uint8_t *ad, size_t ad_len, const uint8_t *message, size_t message_len,
    uint8_t *out, size_t out_len, uint8_t *tag, size_t tag_len);
ROMULUS_EXPORT romulus_answer romulus_c_t40_open(
    const uint8_t *key, size_t key_len, const uint8_t *nonce, size_t nonce_len,
    const uint8_t *ad, size_t ad_len, const uint8_t *text, size_t text_len,
    const uint8_t *tag, size_t tag_len, uint8_t *out, size_t out_len);
ROMULUS_EXPORT romulus_answer romulus_c_t56_seal(
    const uint8_t *key, size_t key_len, const uint8_t *nonce, size_t nonce_len,
    const uint8_t *ad, size_t ad_len, const uint8_t *message, size_t message_len,
    uint8_t *out, size_t out_len, uint8_t *tag, size_t tag_len);
ROMULUS_EXPORT romulus_answer romulus_c_t56_open(
    const uint8_t *key, size_t key_len, const uint8_t *nonce, size_t nonce_len,
    const uint8_t *ad, size_t ad_len, const uint8_t *text, size_t text_len,
    const uint8_t *tag, size_t tag_len, uint8_t *out, size_t out_len);
ROMULUS_EXPORT uint32_t romulus_c_h40_hash(
    const uint8_t *input, size_t input_len, uint8_t *digest, size_t digest_len);
ROMULUS_EXPORT uint32_t romulus_c_h56_hash(
    const uint8_t *input, size_t input_len, uint8_t *digest, size_t digest_len);
ROMULUS_EXPORT uint32_t romulus_c_post_make(
    romulus_post *post, uint32_t mode, uint32_t rounds, const uint8_t *key, size_t key_len,
    uint64_t prefix, uint64_t first, uint64_t amount, uint64_t allowance);
ROMULUS_EXPORT romulus_post_answer romulus_c_post_seal(
    romulus_post *post, const uint8_t *ad, size_t ad_len, const uint8_t *message, size_t message_len,
    uint8_t *out, size_t out_len, uint8_t *tag, size_t tag_len);
ROMULUS_EXPORT romulus_post_answer romulus_c_post_open(
    romulus_post *post, const uint8_t *nonce, size_t nonce_len, const uint8_t *ad, size_t ad_len,
    const uint8_t *text, size_t text_len, const uint8_t *tag, size_t tag_len, uint8_t *out, size_t out_len);
ROMULUS_EXPORT romulus_reading romulus_c_post_read(const romulus_post *post);
ROMULUS_EXPORT romulus_reading romulus_c_post_retire(romulus_post *post);

/* ---- What the inline functions share. */
typedef romulus_answer romulus_seal_export(
    const uint8_t *key, size_t key_len, const uint8_t *nonce, size_t nonce_len,
    const uint8_t *ad, size_t ad_len, const uint8_t *message, size_t message_len,
    uint8_t *out, size_t out_len, uint8_t *tag, size_t tag_len);
typedef romulus_answer romulus_open_export(
    const uint8_t *key, size_t key_len, const uint8_t *nonce, size_t nonce_len,
    const uint8_t *ad, size_t ad_len, const uint8_t *text, size_t text_len,
    const uint8_t *tag, size_t tag_len, uint8_t *out, size_t out_len);
typedef uint32_t romulus_hash_export(
    const uint8_t *input, size_t input_len, uint8_t *digest, size_t digest_len);

/* Whether no buffer can be where and as long as that. */
static inline int romulus_absent(const uint8_t *at, size_t len)
{
    return len > PTRDIFF_MAX || (at == NULL && len != 0);
}

/* Whether two buffers share a byte. */
static inline int romulus_overlap(const uint8_t *a, size_t a_len, const uint8_t *b, size_t b_len)
{
    uintptr_t x = (uintptr_t)a, y = (uintptr_t)b;
    return a_len != 0 && b_len != 0 && (x < y ? y - x < a_len : x - y < b_len);
}

static inline void romulus_zero(uint8_t *at, size_t len)
{
    if (len != 0 && !romulus_absent(at, len)) memset(at, 0, len);
}

/* An empty buffer may have no address; the exports want one. */
static inline const uint8_t *romulus_address(const uint8_t *at)
{
    static const uint8_t nothing = 0;
    return at == NULL ? &nothing : at;
}

static inline romulus_answer romulus_refused(uint32_t number)
{
    romulus_answer answer;
    answer.number = number;
    answer.cost = 0;
    return answer;
}

/* The number of a slip, or 0. A direct call has a key and no post, a call of a post has a post and no key; what the call has
   not is NULL with the length 0. A seal writes the tag, an opening reads it. */
static inline uint32_t romulus_slip(
    const uint8_t *post, size_t post_len, const uint8_t *key, size_t key_len, const uint8_t *nonce, size_t nonce_len,
    const uint8_t *ad, size_t ad_len, const uint8_t *text, size_t text_len,
    const uint8_t *tag, size_t tag_len, const uint8_t *out, size_t out_len, int sealing)
{
    if (romulus_absent(post, post_len) || romulus_absent(key, key_len)) return ROMULUS_KEY_LENGTH;
    if (romulus_absent(ad, ad_len) || romulus_overlap(post, post_len, ad, ad_len)) return ROMULUS_DATA_LENGTH;
    if (romulus_absent(text, text_len) || romulus_overlap(post, post_len, text, text_len)) return ROMULUS_TEXT_LENGTH;
    if (romulus_absent(out, out_len) || romulus_overlap(post, post_len, out, out_len)
        || romulus_overlap(key, key_len, out, out_len) || romulus_overlap(nonce, nonce_len, out, out_len)
        || romulus_overlap(ad, ad_len, out, out_len) || romulus_overlap(text, text_len, out, out_len)
        || romulus_overlap(tag, tag_len, out, out_len))
        return ROMULUS_OUTPUT_LENGTH;
    if (romulus_absent(tag, tag_len) || romulus_overlap(post, post_len, tag, tag_len)) return ROMULUS_TAG_LENGTH;
    if (sealing
        && (romulus_overlap(key, key_len, tag, tag_len) || romulus_overlap(nonce, nonce_len, tag, tag_len)
            || romulus_overlap(ad, ad_len, tag, tag_len) || romulus_overlap(text, text_len, tag, tag_len)))
        return ROMULUS_TAG_LENGTH;
    if (romulus_absent(nonce, nonce_len) || romulus_overlap(post, post_len, nonce, nonce_len)) return ROMULUS_NONCE_LENGTH;
    return ROMULUS_TAKEN;
}

ROMULUS_CALL romulus_answer romulus_seal_by(
    romulus_seal_export *seal, const uint8_t *key, size_t key_len, const uint8_t *nonce, size_t nonce_len,
    const uint8_t *ad, size_t ad_len, const uint8_t *message, size_t message_len,
    uint8_t *out, size_t out_len, uint8_t *tag, size_t tag_len)
{
    uint8_t nothing[2];
    uint32_t slip = romulus_slip(NULL, 0, key, key_len, nonce, nonce_len, ad, ad_len, message, message_len, tag, tag_len, out, out_len, 1);
    if (slip != ROMULUS_TAKEN) {
        romulus_zero(out, out_len);
        romulus_zero(tag, tag_len);
        return romulus_refused(slip);
    }
    return seal(romulus_address(key), key_len, romulus_address(nonce), nonce_len, romulus_address(ad), ad_len,
        romulus_address(message), message_len, out == NULL ? nothing : out, out_len, tag == NULL ? nothing + 1 : tag, tag_len);
}

ROMULUS_CALL romulus_answer romulus_open_by(
    romulus_open_export *open, const uint8_t *key, size_t key_len, const uint8_t *nonce, size_t nonce_len,
    const uint8_t *ad, size_t ad_len, const uint8_t *text, size_t text_len,
    const uint8_t *tag, size_t tag_len, uint8_t *out, size_t out_len)
{
    uint8_t nothing[1];
    uint32_t slip = romulus_slip(NULL, 0, key, key_len, nonce, nonce_len, ad, ad_len, text, text_len, tag, tag_len, out, out_len, 0);
    if (slip != ROMULUS_TAKEN) {
        romulus_zero(out, out_len);
        return romulus_refused(slip);
    }
    return open(romulus_address(key), key_len, romulus_address(nonce), nonce_len, romulus_address(ad), ad_len,
        romulus_address(text), text_len, romulus_address(tag), tag_len, out == NULL ? nothing : out, out_len);
}

ROMULUS_CALL uint32_t romulus_hash_by(
    romulus_hash_export *hash, const uint8_t *input, size_t input_len, uint8_t *digest, size_t digest_len)
{
    uint8_t nothing[1];
    uint32_t slip = romulus_absent(input, input_len) ? ROMULUS_HASH_LENGTH
        : romulus_absent(digest, digest_len) || romulus_overlap(digest, digest_len, input, input_len) ? ROMULUS_DIGEST_LENGTH
        : ROMULUS_TAKEN;
    if (slip != ROMULUS_TAKEN) {
        romulus_zero(digest, digest_len);
        return slip;
    }
    return hash(romulus_address(input), input_len, digest == NULL ? nothing : digest, digest_len);
}

/* ---- The direct calls. Parameters, answers and outputs are those of the exports. */
ROMULUS_CALL romulus_answer romulus_n40_seal(
    const uint8_t *key, size_t key_len, const uint8_t *nonce, size_t nonce_len,
    const uint8_t *ad, size_t ad_len, const uint8_t *message, size_t message_len,
    uint8_t *out, size_t out_len, uint8_t *tag, size_t tag_len)
{
    return romulus_seal_by(romulus_c_n40_seal, key, key_len, nonce, nonce_len, ad, ad_len, message, message_len, out, out_len, tag, tag_len);
}

ROMULUS_CALL romulus_answer romulus_n40_open(
    const uint8_t *key, size_t key_len, const uint8_t *nonce, size_t nonce_len,
    const uint8_t *ad, size_t ad_len, const uint8_t *text, size_t text_len,
    const uint8_t *tag, size_t tag_len, uint8_t *out, size_t out_len)
{
    return romulus_open_by(romulus_c_n40_open, key, key_len, nonce, nonce_len, ad, ad_len, text, text_len, tag, tag_len, out, out_len);
}

ROMULUS_CALL romulus_answer romulus_n56_seal(
    const uint8_t *key, size_t key_len, const uint8_t *nonce, size_t nonce_len,
    const uint8_t *ad, size_t ad_len, const uint8_t *message, size_t message_len,
    uint8_t *out, size_t out_len, uint8_t *tag, size_t tag_len)
{
    return romulus_seal_by(romulus_c_n56_seal, key, key_len, nonce, nonce_len, ad, ad_len, message, message_len, out, out_len, tag, tag_len);
}

ROMULUS_CALL romulus_answer romulus_n56_open(
    const uint8_t *key, size_t key_len, const uint8_t *nonce, size_t nonce_len,
    const uint8_t *ad, size_t ad_len, const uint8_t *text, size_t text_len,
    const uint8_t *tag, size_t tag_len, uint8_t *out, size_t out_len)
{
    return romulus_open_by(romulus_c_n56_open, key, key_len, nonce, nonce_len, ad, ad_len, text, text_len, tag, tag_len, out, out_len);
}

ROMULUS_CALL romulus_answer romulus_m40_seal(
    const uint8_t *key, size_t key_len, const uint8_t *nonce, size_t nonce_len,
    const uint8_t *ad, size_t ad_len, const uint8_t *message, size_t message_len,
    uint8_t *out, size_t out_len, uint8_t *tag, size_t tag_len)
{
    return romulus_seal_by(romulus_c_m40_seal, key, key_len, nonce, nonce_len, ad, ad_len, message, message_len, out, out_len, tag, tag_len);
}

ROMULUS_CALL romulus_answer romulus_m40_open(
    const uint8_t *key, size_t key_len, const uint8_t *nonce, size_t nonce_len,
    const uint8_t *ad, size_t ad_len, const uint8_t *text, size_t text_len,
    const uint8_t *tag, size_t tag_len, uint8_t *out, size_t out_len)
{
    return romulus_open_by(romulus_c_m40_open, key, key_len, nonce, nonce_len, ad, ad_len, text, text_len, tag, tag_len, out, out_len);
}

ROMULUS_CALL romulus_answer romulus_m56_seal(
    const uint8_t *key, size_t key_len, const uint8_t *nonce, size_t nonce_len,
    const uint8_t *ad, size_t ad_len, const uint8_t *message, size_t message_len,
    uint8_t *out, size_t out_len, uint8_t *tag, size_t tag_len)
{
    return romulus_seal_by(romulus_c_m56_seal, key, key_len, nonce, nonce_len, ad, ad_len, message, message_len, out, out_len, tag, tag_len);
}

ROMULUS_CALL romulus_answer romulus_m56_open(
    const uint8_t *key, size_t key_len, const uint8_t *nonce, size_t nonce_len,
    const uint8_t *ad, size_t ad_len, const uint8_t *text, size_t text_len,
    const uint8_t *tag, size_t tag_len, uint8_t *out, size_t out_len)
{
    return romulus_open_by(romulus_c_m56_open, key, key_len, nonce, nonce_len, ad, ad_len, text, text_len, tag, tag_len, out, out_len);
}

ROMULUS_CALL romulus_answer romulus_t40_seal(
    const uint8_t *key, size_t key_len, const uint8_t *nonce, size_t nonce_len,
    const uint8_t *ad, size_t ad_len, const uint8_t *message, size_t message_len,
    uint8_t *out, size_t out_len, uint8_t *tag, size_t tag_len)
{
    return romulus_seal_by(romulus_c_t40_seal, key, key_len, nonce, nonce_len, ad, ad_len, message, message_len, out, out_len, tag, tag_len);
}

ROMULUS_CALL romulus_answer romulus_t40_open(
    const uint8_t *key, size_t key_len, const uint8_t *nonce, size_t nonce_len,
    const uint8_t *ad, size_t ad_len, const uint8_t *text, size_t text_len,
    const uint8_t *tag, size_t tag_len, uint8_t *out, size_t out_len)
{
    return romulus_open_by(romulus_c_t40_open, key, key_len, nonce, nonce_len, ad, ad_len, text, text_len, tag, tag_len, out, out_len);
}

ROMULUS_CALL romulus_answer romulus_t56_seal(
    const uint8_t *key, size_t key_len, const uint8_t *nonce, size_t nonce_len,
    const uint8_t *ad, size_t ad_len, const uint8_t *message, size_t message_len,
    uint8_t *out, size_t out_len, uint8_t *tag, size_t tag_len)
{
    return romulus_seal_by(romulus_c_t56_seal, key, key_len, nonce, nonce_len, ad, ad_len, message, message_len, out, out_len, tag, tag_len);
}

ROMULUS_CALL romulus_answer romulus_t56_open(
    const uint8_t *key, size_t key_len, const uint8_t *nonce, size_t nonce_len,
    const uint8_t *ad, size_t ad_len, const uint8_t *text, size_t text_len,
    const uint8_t *tag, size_t tag_len, uint8_t *out, size_t out_len)
{
    return romulus_open_by(romulus_c_t56_open, key, key_len, nonce, nonce_len, ad, ad_len, text, text_len, tag, tag_len, out, out_len);
}

ROMULUS_CALL uint32_t romulus_h40_hash(
    const uint8_t *input, size_t input_len, uint8_t *digest, size_t digest_len)
{
    return romulus_hash_by(romulus_c_h40_hash, input, input_len, digest, digest_len);
}

ROMULUS_CALL uint32_t romulus_h56_hash(
    const uint8_t *input, size_t input_len, uint8_t *digest, size_t digest_len)
{
    return romulus_hash_by(romulus_c_h56_hash, input, input_len, digest, digest_len);
}

/* ---- The calls of a post. */
static inline romulus_post_answer romulus_post_refused(uint32_t number)
{
    romulus_post_answer answer;
    answer.number = number;
    answer.nonce_high = answer.nonce_low = answer.cost = 0;
    return answer;
}

static inline romulus_reading romulus_post_unread(void)
{
    romulus_reading reading;
    reading.number = ROMULUS_KEY_LENGTH;
    reading.left = reading.sealed = reading.opened = reading.wrong = 0;
    return reading;
}

/* Zeros over an output place, and over the whole post where that is touched. */
static inline void romulus_post_zero(romulus_post *post, uint8_t *at, size_t len)
{
    if (post != NULL && romulus_overlap((const uint8_t *)post, sizeof *post, at, len)) memset(post, 0, sizeof *post);
    romulus_zero(at, len);
}

ROMULUS_CALL uint32_t romulus_post_make(
    romulus_post *post, uint32_t mode, uint32_t rounds, const uint8_t *key, size_t key_len,
    uint64_t prefix, uint64_t first, uint64_t amount, uint64_t allowance)
{
    if (post == NULL) return ROMULUS_KEY_LENGTH;
    if (romulus_absent(key, key_len) || romulus_overlap((const uint8_t *)post, sizeof *post, key, key_len)) {
        memset(post, 0, sizeof *post);
        return ROMULUS_KEY_LENGTH;
    }
    return romulus_c_post_make(post, mode, rounds, romulus_address(key), key_len, prefix, first, amount, allowance);
}

ROMULUS_CALL romulus_post_answer romulus_post_seal(
    romulus_post *post, const uint8_t *ad, size_t ad_len, const uint8_t *message, size_t message_len,
    uint8_t *out, size_t out_len, uint8_t *tag, size_t tag_len)
{
    uint8_t nothing[2];
    uint32_t slip = romulus_slip((const uint8_t *)post, sizeof *post, NULL, 0, NULL, 0, ad, ad_len, message, message_len, tag, tag_len, out, out_len, 1);
    if (slip != ROMULUS_TAKEN) {
        romulus_post_zero(post, out, out_len);
        romulus_post_zero(post, tag, tag_len);
        return romulus_post_refused(slip);
    }
    return romulus_c_post_seal(post, romulus_address(ad), ad_len, romulus_address(message), message_len,
        out == NULL ? nothing : out, out_len, tag == NULL ? nothing + 1 : tag, tag_len);
}

ROMULUS_CALL romulus_post_answer romulus_post_open(
    romulus_post *post, const uint8_t *nonce, size_t nonce_len, const uint8_t *ad, size_t ad_len,
    const uint8_t *text, size_t text_len, const uint8_t *tag, size_t tag_len, uint8_t *out, size_t out_len)
{
    uint8_t nothing[1];
    uint32_t slip = romulus_slip((const uint8_t *)post, sizeof *post, NULL, 0, nonce, nonce_len, ad, ad_len, text, text_len, tag, tag_len, out, out_len, 0);
    if (slip != ROMULUS_TAKEN) {
        romulus_post_zero(post, out, out_len);
        return romulus_post_refused(slip);
    }
    return romulus_c_post_open(post, romulus_address(nonce), nonce_len, romulus_address(ad), ad_len,
        romulus_address(text), text_len, romulus_address(tag), tag_len, out == NULL ? nothing : out, out_len);
}

ROMULUS_CALL romulus_reading romulus_post_read(const romulus_post *post)
{
    return post == NULL ? romulus_post_unread() : romulus_c_post_read(post);
}

/* The reading may be let go, so that a host can retire a post at any place. */
static inline romulus_reading romulus_post_retire(romulus_post *post)
{
    return post == NULL ? romulus_post_unread() : romulus_c_post_retire(post);
}

/* The 16 bytes of the nonce that a taken seal answered. */
static inline void romulus_post_nonce(romulus_post_answer answer, uint8_t nonce[ROMULUS_NONCE_BYTES])
{
    int i;
    for (i = 0; i < 8; i++) {
        nonce[i] = (uint8_t)(answer.nonce_high >> (56 - 8 * i));
        nonce[8 + i] = (uint8_t)(answer.nonce_low >> (56 - 8 * i));
    }
}

/* A number in a few words, for a log. */
static inline const char *romulus_number_words(uint32_t number)
{
    switch (number) {
    case ROMULUS_TAKEN: return "taken";
    case ROMULUS_COUNT_RANGE: return "the count of nonces runs over";
    case ROMULUS_KEY_LENGTH: return "there is no key of 16 bytes";
    case ROMULUS_ALLOWANCE_SIZE: return "the allowance is too large";
    case ROMULUS_DATA_LENGTH: return "the associated data is too long";
    case ROMULUS_TEXT_LENGTH: return "the text is too long";
    case ROMULUS_OUTPUT_LENGTH: return "the output place is not as long as the text";
    case ROMULUS_TAG_LENGTH: return "the tag has not 16 bytes";
    case ROMULUS_NONCE_LENGTH: return "the nonce has not 16 bytes";
    case ROMULUS_ALLOWANCE_SPENT: return "the allowance is spent";
    case ROMULUS_NO_NONCE: return "no nonce is left";
    case ROMULUS_WRONG_FRAME: return "the frame is wrong";
    case ROMULUS_HASH_LENGTH: return "the input is too long";
    case ROMULUS_DIGEST_LENGTH: return "the digest's place has not 32 bytes";
    default: return "no number of this library";
    }
}

#ifdef __cplusplus
}
#endif

#endif
