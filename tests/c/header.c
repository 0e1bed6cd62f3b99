/* Compiled as C and as C++: the header can be included twice and beside the declarations that are made of the exports' own
   sources, its structs have the exports' layout, and every call links. */
#include "romulus.h"
#include "romulus.h"
#ifdef __cplusplus
extern "C" {
#endif
#include "exports.h"
#ifdef __cplusplus
}
#endif
#include <stdio.h>

#define HOLDS(name, fact) typedef char name[(fact) ? 1 : -1]
HOLDS(answer_cost, offsetof(romulus_answer, cost) == 8 && sizeof(romulus_answer) == 16);
HOLDS(post_key, offsetof(romulus_post, key) == 8 && offsetof(romulus_post, prefix) == 24 && offsetof(romulus_post, wrong) == 80 && sizeof(romulus_post) == 88);
HOLDS(post_answer_nonce, offsetof(romulus_post_answer, nonce_high) == 8 && offsetof(romulus_post_answer, cost) == 24 && sizeof(romulus_post_answer) == 32);
HOLDS(reading_left, offsetof(romulus_reading, left) == 8 && offsetof(romulus_reading, wrong) == 32 && sizeof(romulus_reading) == 40);

int main(void)
{
    romulus_seal_export *seals[] = { romulus_n40_seal, romulus_n56_seal, romulus_m40_seal, romulus_m56_seal, romulus_t40_seal, romulus_t56_seal };
    romulus_open_export *opens[] = { romulus_n40_open, romulus_n56_open, romulus_m40_open, romulus_m56_open, romulus_t40_open, romulus_t56_open };
    uint32_t modes[] = { ROMULUS_MODE_N, ROMULUS_MODE_N, ROMULUS_MODE_M, ROMULUS_MODE_M, ROMULUS_MODE_T, ROMULUS_MODE_T };
    uint8_t key[16] = { 1 }, message[5] = { 2 }, text[5], same[5], tag[16], other[16], nonce[16], out[5], digest[32];
    int good = romulus_h40_hash(message, 5, digest, 32) == ROMULUS_TAKEN && romulus_h56_hash(message, 5, digest, 32) == ROMULUS_TAKEN;
    int i;
    for (i = 0; i < 6; i++) {
        romulus_post post;
        romulus_post_answer sealed;
        romulus_answer direct, opened;
        good &= romulus_post_make(&post, modes[i], i % 2 ? 56u : 40u, key, 16, 7, 9, 1, 100) == ROMULUS_TAKEN;
        sealed = romulus_post_seal(&post, NULL, 0, message, 5, text, 5, tag, 16);
        romulus_post_nonce(sealed, nonce);
        direct = seals[i](key, 16, nonce, 16, NULL, 0, message, 5, same, 5, other, 16);
        opened = opens[i](key, 16, nonce, 16, NULL, 0, text, 5, tag, 16, out, 5);
        good &= sealed.number == ROMULUS_TAKEN && direct.number == ROMULUS_TAKEN && opened.number == ROMULUS_TAKEN;
        good &= sealed.cost == direct.cost && sealed.nonce_high == 7 && sealed.nonce_low == 9;
        good &= memcmp(text, same, 5) == 0 && memcmp(tag, other, 16) == 0 && memcmp(out, message, 5) == 0;
        good &= romulus_post_open(&post, nonce, 16, NULL, 0, text, 5, tag, 16, out, 5).number == ROMULUS_TAKEN;
        good &= romulus_post_read(&post).sealed == 1 && romulus_post_retire(&post).opened == 1;
    }
    puts(good ? "header: every call links, and posts and direct calls make the same frames" : "FAILED: header");
    return !good;
}
