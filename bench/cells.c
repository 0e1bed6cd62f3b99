/* (a) As a reference is written: sixteen byte cells, tables, and a tweakey that moves with each round.
   Its speed depends on what the compiler makes of the loops, so that it is shown and no goal is set against it. */
#include "baselines.h"
#include "tables.h"
#include <string.h>

static void next_tweakey(uint8_t t[3][16])
{
    static const uint8_t from[16] = { 9, 15, 8, 13, 10, 14, 12, 11, 0, 1, 2, 3, 4, 5, 6, 7 };
    for (int part = 0; part < 3; part++) {
        uint8_t moved[16];
        for (int i = 0; i < 16; i++) moved[i] = t[part][from[i]];
        memcpy(t[part], moved, 16);
    }
    for (int i = 0; i < 8; i++) {
        uint8_t x = t[1][i], y = t[2][i];
        t[1][i] = (uint8_t)(x << 1 | ((x >> 7 ^ x >> 5) & 1));
        t[2][i] = (uint8_t)(y >> 1 | (y << 7 ^ (y << 1 & 0x80)));
    }
}

void cells_cipher(const uint8_t *tweakey, uint8_t *block, int rounds)
{
    uint8_t t[3][16], s[16], m[16];
    memcpy(t, tweakey, 48);
    memcpy(s, block, 16);
    for (int r = 0; r < rounds; r++) {
        for (int i = 0; i < 16; i++) s[i] = sbox_of[s[i]];
        s[0] ^= constant_of[r] & 15;
        s[4] ^= constant_of[r] >> 4;
        s[8] ^= 2;
        for (int i = 0; i < 8; i++) s[i] ^= t[0][i] ^ t[1][i] ^ t[2][i];
        next_tweakey(t);
        for (int row = 0; row < 4; row++)
            for (int col = 0; col < 4; col++) m[4 * row + col] = s[4 * row + ((col - row) & 3)];
        for (int col = 0; col < 4; col++) {
            s[4 + col] = m[col];
            s[8 + col] = m[4 + col] ^ m[8 + col];
            s[12 + col] = m[col] ^ m[8 + col];
            s[col] = s[12 + col] ^ m[12 + col];
        }
    }
    memcpy(block, s, 16);
}
