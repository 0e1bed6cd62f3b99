/* The direct calls of the archive against the independent implementation: every data length up to 70 with every text length
   up to 70, on 40 and 56 rounds in turn, some lengths up to the limits, right and damaged frames, every set of wrong sizes,
   and the hash. A seed and a number of rounds may be given; there are other lengths then too. */
#include "buffers.h"
#include "../independent.h"
#include "../soak/rounds.h"
#include "romulus.h"

typedef struct kind {
    char mode;
    int rounds;
    romulus_seal_export *seal, *raw_seal;
    romulus_open_export *open, *raw_open;
} kind;

static const kind kinds[] = {
    { 'N', 40, romulus_n40_seal, romulus_c_n40_seal, romulus_n40_open, romulus_c_n40_open },
    { 'N', 56, romulus_n56_seal, romulus_c_n56_seal, romulus_n56_open, romulus_c_n56_open },
    { 'M', 40, romulus_m40_seal, romulus_c_m40_seal, romulus_m40_open, romulus_c_m40_open },
    { 'M', 56, romulus_m56_seal, romulus_c_m56_seal, romulus_m56_open, romulus_c_m56_open },
    { 'T', 40, romulus_t40_seal, romulus_c_t40_seal, romulus_t40_open, romulus_c_t40_open },
    { 'T', 56, romulus_t56_seal, romulus_c_t56_seal, romulus_t56_open, romulus_c_t56_open },
};
enum { KINDS = sizeof kinds / sizeof kinds[0] };

/* One more than the longest lawful text, for the sizes past the limits. */
enum { MOST = ROMULUS_MOST_TEXT_BYTES + 1 };

static arena key_arena, nonce_arena, ad_arena, message_arena, text_arena, tag_arena, out_arena, input_arena, digest_arena;
static uint8_t wanted[MOST], wanted_tag[16];
static unsigned long taken, wrong, refused, hashed, by_number[16];

/* All that a seal and an opening are handed. */
typedef struct call_buffers {
    buffer key, nonce, ad, message, text, tag, out;
} call_buffers;

static call_buffers new_buffers(size_t key, size_t nonce, size_t ad, size_t message, size_t out, size_t tag)
{
    int at_end = random_word() >> 63 & 1;
    call_buffers b;
    b.key = place(key_arena, key, at_end);
    b.nonce = place(nonce_arena, nonce, at_end);
    b.ad = place(ad_arena, ad, at_end);
    b.message = place(message_arena, message, at_end);
    b.text = place(text_arena, message, at_end);
    b.tag = place(tag_arena, tag, at_end);
    b.out = place(out_arena, out, at_end);
    fill(b.key);
    fill(b.nonce);
    fill(b.ad);
    fill(b.message);
    fill(b.text);
    fill(b.tag);
    fill(b.out);
    return b;
}

static void look_at_slack(const call_buffers *b)
{
    if (!slack_kept(b->key) || !slack_kept(b->nonce) || !slack_kept(b->ad) || !slack_kept(b->message) || !slack_kept(b->text)
        || !slack_kept(b->tag) || !slack_kept(b->out))
        stop("a byte beside a buffer was written", b->ad.len, b->message.len);
}

static void note(uint32_t number)
{
    if (number > 15) stop("the number of an answer", number, 15);
    by_number[number]++;
}

/* A seal through the inline function or, every other time, the export. */
static romulus_answer seal_by_archive(const kind *k, const call_buffers *b, buffer out, buffer tag)
{
    romulus_seal_export *seal = random_word() >> 62 & 1 ? k->seal : k->raw_seal;
    romulus_answer answer = seal(b->key.at, b->key.len, b->nonce.at, b->nonce.len, b->ad.at, b->ad.len, b->message.at, b->message.len, out.at, out.len, tag.at, tag.len);
    look_at_slack(b);
    note(answer.number);
    return answer;
}

static romulus_answer open_by_archive(const kind *k, const call_buffers *b, buffer text)
{
    romulus_open_export *open = random_word() >> 62 & 1 ? k->open : k->raw_open;
    romulus_answer answer = open(b->key.at, b->key.len, b->nonce.at, b->nonce.len, b->ad.at, b->ad.len, text.at, text.len, b->tag.at, b->tag.len, b->out.at, b->out.len);
    look_at_slack(b);
    note(answer.number);
    return answer;
}

/* The opening of the frame in text and tag, by both. */
static void compare_opening(const kind *k, const call_buffers *b, int right)
{
    size_t len = b->text.len;
    fill(b->out);
    if (len) memcpy(wanted, b->text.at, len);
    calls = 0;
    if (open_frame(k->mode, b->key.at, b->nonce.at, b->ad.at, b->ad.len, wanted, len, b->tag.at) != right) stop("the independent verdict", b->ad.len, len);
    romulus_answer answer = open_by_archive(k, b, b->text);
    if (answer.number != (right ? ROMULUS_TAKEN : ROMULUS_WRONG_FRAME)) stop("the number of an opening", b->ad.len, len);
    if (answer.cost != calls) stop("the cost of an opening", b->ad.len, len);
    if (len && memcmp(b->out.at, wanted, len) != 0) stop("the message of an opening", b->ad.len, len);
    if (!right && !all_zeros(b->out)) stop("the place of a wrong opening", b->ad.len, len);
    if (right) taken++; else wrong++;
}

/* Turns one bit of one part that is not empty. */
static void damage(const call_buffers *b)
{
    buffer parts[5] = { b->key, b->nonce, b->ad, b->text, b->tag };
    buffer part;
    do part = parts[random_word() % 5]; while (part.len == 0);
    part.at[random_word() % part.len] ^= (uint8_t)(1u << random_word() % 8);
}

/* One frame: sealed, opened, and opened damaged. */
static void compare_frame(const kind *k, size_t ad, size_t len)
{
    call_buffers b = new_buffers(16, 16, ad, len, len, 16);
    cipher_kind = k->rounds;
    calls = 0;
    if (len) memcpy(wanted, b.message.at, len);
    seal(k->mode, b.key.at, b.nonce.at, b.ad.at, ad, wanted, len, wanted_tag);
    romulus_answer answer = seal_by_archive(k, &b, b.text, b.tag);
    if (answer.number != ROMULUS_TAKEN) stop("the number of a seal", ad, len);
    if (answer.cost != calls) stop("the cost of a seal", ad, len);
    if (len && memcmp(b.text.at, wanted, len) != 0) stop("a ciphertext", ad, len);
    if (memcmp(b.tag.at, wanted_tag, 16) != 0) stop("a tag", ad, len);
    taken++;
    compare_opening(k, &b, 1);
    if (len && memcmp(b.out.at, b.message.at, len) != 0) stop("the message sealed and opened", ad, len);
    damage(&b);
    compare_opening(k, &b, 0);
}

/* ---- wrong sizes: the first question answered no gives the number */
static uint32_t first_no(const call_buffers *b)
{
    if (b->key.len != 16) return 4;
    if (b->ad.len > 65535) return 6;
    if (b->message.len > 65535) return 7;
    if (b->out.len != b->message.len) return 8;
    if (b->tag.len != 16) return 9;
    if (b->nonce.len != 16) return 10;
    return 0;
}

static size_t wrong_sixteen(void)
{
    static const size_t sizes[] = { 0, 1, 15, 17, 32 };
    return sizes[random_word() % 5];
}

/* Every set of wrong sizes, by the bits of faults. */
static void compare_refusals(const kind *k)
{
    for (unsigned faults = 1; faults < 64; faults++)
        for (int turn = 0; turn < 2; turn++) {
            size_t message = faults & 4 ? MOST : random_word() % 40;
            size_t out = !(faults & 8) ? message : turn && message ? message - 1 : message + 1;
            call_buffers b = new_buffers(faults & 1 ? wrong_sixteen() : 16, faults & 32 ? wrong_sixteen() : 16, faults & 2 ? MOST : random_word() % 40,
                message, out, faults & 16 ? wrong_sixteen() : 16);
            romulus_answer answer = open_by_archive(k, &b, b.message);
            if (answer.number != first_no(&b) || answer.cost != 0) stop("the answer of a refused opening", faults, answer.number);
            if (!all_zeros(b.out)) stop("the place of a refused opening", faults, answer.number);
            fill(b.out);
            answer = seal_by_archive(k, &b, b.out, b.tag);
            if (answer.number != first_no(&b) || answer.cost != 0) stop("the answer of a refused seal", faults, answer.number);
            if (!all_zeros(b.out) || !all_zeros(b.tag)) stop("the places of a refused seal", faults, answer.number);
            refused += 2;
        }
}

/* ---- the hash */
static uint32_t hash_by_archive(int rounds, buffer input, buffer place)
{
    romulus_hash_export *hashes[2][2] = { { romulus_h40_hash, romulus_c_h40_hash }, { romulus_h56_hash, romulus_c_h56_hash } };
    uint32_t number = hashes[rounds == 56][random_word() >> 62 & 1](input.at, input.len, place.at, place.len);
    if (!slack_kept(input) || !slack_kept(place)) stop("a byte beside a buffer of a hash was written", input.len, place.len);
    note(number);
    return number;
}

static void compare_hash(int rounds, size_t len, size_t place_len)
{
    int at_end = random_word() >> 63 & 1;
    buffer input = place(input_arena, len, at_end), digest = place(digest_arena, place_len, at_end);
    uint8_t want[32];
    uint32_t wanted_number = len > 1048576 ? 14 : place_len != 32 ? 15 : 0;
    fill(input);
    fill(digest);
    uint32_t number = hash_by_archive(rounds, input, digest);
    if (number != wanted_number) stop("the number of a hash", len, number);
    if (number == 0) {
        cipher_kind = rounds;
        hash(input.at, len, want);
        if (memcmp(digest.at, want, 32) != 0) stop("a digest", len, place_len);
        hashed++;
    } else {
        if (!all_zeros(digest)) stop("the place of a refused hash", len, place_len);
        refused++;
    }
}

static void compare_hashes(int rounds)
{
    static const size_t long_ones[] = { 1000, 4095, 4096, 65535, 65536, 1048575, 1048576 };
    for (size_t len = 0; len <= 200; len++) compare_hash(rounds, len, 32);
    for (size_t i = 0; i < sizeof long_ones / sizeof long_ones[0]; i++) compare_hash(rounds, long_ones[i], 32);
    for (size_t place_len = 0; place_len <= 70; place_len++)
        if (place_len != 32) compare_hash(rounds, place_len, place_len);
    compare_hash(rounds, 1048577, 32);
    compare_hash(rounds, 1048577, 31);
    compare_hash(rounds, 1048576, 33);
}

/* Every kind at the lengths named above. */
static void one_round(void)
{
    static const size_t long_pairs[][2] = { { 65535, 65535 }, { 65534, 0 }, { 0, 65520 }, { 1000, 4096 }, { 4095, 1023 }, { 71, 255 }, { 256, 72 } };
    for (int k = 0; k < KINDS; k++) {
        for (size_t ad = 0; ad <= 70; ad++)
            for (size_t len = (ad + (size_t)k) % 2; len <= 70; len += 2) compare_frame(&kinds[k], ad, len);
        for (size_t i = 0; i < sizeof long_pairs / sizeof long_pairs[0]; i++) compare_frame(&kinds[k], long_pairs[i][0], long_pairs[i][1]);
        compare_refusals(&kinds[k]);
    }
    compare_hashes(40);
    compare_hashes(56);
}

/* Frames and hashes of lengths that nobody chose. */
static void other_lengths(void)
{
    for (int i = 0; i < 300; i++) compare_frame(&kinds[random_word() % KINDS], random_word() % 3000, random_word() % 3000);
    for (int i = 0; i < 100; i++) compare_hash(random_word() & 1 ? 40 : 56, random_word() % 5000, 32);
}

int main(int words, char **word)
{
    soak s = soak_of(words, word);
    key_arena = new_arena(64);
    nonce_arena = new_arena(64);
    tag_arena = new_arena(64);
    digest_arena = new_arena(128);
    ad_arena = new_arena(MOST);
    message_arena = new_arena(MOST);
    text_arena = new_arena(MOST);
    out_arena = new_arena(MOST + 1);
    input_arena = new_arena(1048577);
    for (unsigned long long i = 0; i < s.rounds; i++) {
        one_round();
        if (s.driven) other_lengths();
        round_done(&s);
    }
    printf("calls: %lu taken, %lu wrong frames, %lu refused, %lu hashed: all as the independent implementation\n", taken, wrong, refused, hashed);
    soak_done(&s, "calls", by_number, 16);
    return 0;
}
