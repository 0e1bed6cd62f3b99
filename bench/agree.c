/* Whether everything that is timed computes the same: the published vectors of the cipher, and random inputs of many lengths,
   against the independent implementation of the tests. */
#include "../include/romulus.h"
#include "../tests/independent.h"
#include "baselines.h"
#include "edge.h"
#include <stdio.h>

static int faults;

static void expect(int holds, const char *what)
{
    if (holds) return;
    faults++;
    printf("DIFFERS: %s\n", what);
}

static uint64_t seed = 1;

static void draw(u8 *x, size_t len)
{
    for (size_t i = 0; i < len; i++) {
        seed = seed * 6364136223846793005ULL + 1442695040888963407ULL;
        x[i] = (u8)(seed >> 56);
    }
}

static void expect_cipher(const u8 *tweakey, const u8 *block, int rounds, const u8 *answer)
{
    static const struct { cipher_call *call; const char *name; } ours[] = {
        { cells_cipher, "cells" }, { rows_cipher, "rows" }, { vectors_cipher, "vectors" } };
    u8 b[16];
    for (size_t i = 0; i < 3; i++) {
        memcpy(b, block, 16);
        ours[i].call(tweakey, b, rounds);
        expect(memcmp(b, answer, 16) == 0, ours[i].name);
    }
    memcpy(b, block, 16);
    (rounds == 40 ? bench_edge_cipher40 : bench_edge_cipher56)(tweakey, 48, b, 16);
    expect(memcmp(b, answer, 16) == 0, "the library's cipher");
}

static void published(void)
{
    static const u8 tweakey[48] = {
        0xdf, 0x88, 0x95, 0x48, 0xcf, 0xc7, 0xea, 0x52, 0xd2, 0x96, 0x33, 0x93, 0x01, 0x79, 0x74, 0x49,
        0xab, 0x58, 0x8a, 0x34, 0xa4, 0x7f, 0x1a, 0xb2, 0xdf, 0xe9, 0xc8, 0x29, 0x3f, 0xbe, 0xa9, 0xa5,
        0xab, 0x1a, 0xfa, 0xc2, 0x61, 0x10, 0x12, 0xcd, 0x8c, 0xef, 0x95, 0x26, 0x18, 0xc3, 0xeb, 0xe8 };
    static const u8 block[16] = { 0xa3, 0x99, 0x4b, 0x66, 0xad, 0x85, 0xa3, 0x45, 0x9f, 0x44, 0xe9, 0x2b, 0x08, 0xf5, 0x50, 0xcb };
    static const u8 forty[16] = { 0xff, 0x38, 0xd1, 0xd2, 0x4c, 0x86, 0x4c, 0x43, 0x52, 0xa8, 0x53, 0x69, 0x0f, 0xe3, 0x6e, 0x5e };
    static const u8 fifty_six[16] = { 0x94, 0xec, 0xf5, 0x89, 0xe2, 0x01, 0x7c, 0x60, 0x1b, 0x38, 0xc6, 0x34, 0x6a, 0x10, 0xdc, 0xfa };
    expect_cipher(tweakey, block, 40, forty);
    expect_cipher(tweakey, block, 56, fifty_six);
}

static void random_blocks(void)
{
    u8 tweakey[48], block[16], answer[16];
    for (int i = 0; i < 500; i++) {
        draw(tweakey, 48);
        draw(block, 16);
        for (int rounds = 40; rounds <= 56; rounds += 16) {
            memcpy(answer, block, 16);
            skinny(tweakey, answer, rounds);
            expect_cipher(tweakey, block, rounds, answer);
        }
    }
}

enum { MOST = 5000 };
static u8 key[16], nonce[16], ad[128], message[MOST], text[MOST], out[MOST];

static void expect_seal(seal_call *ours, const char *name, size_t ad_len, size_t len, const u8 *wanted)
{
    u8 tag[16];
    ours(key, nonce, ad, ad_len, message, len, out, tag);
    expect(memcmp(out, text, len) == 0 && memcmp(tag, wanted, 16) == 0, name);
}

static void expect_open(open_call *ours, const char *name, size_t ad_len, size_t len, const u8 *tag)
{
    u8 other[16];
    memcpy(other, tag, 16);
    other[len % 16] ^= 4;
    expect(ours(key, nonce, ad, ad_len, text, len, tag, out) && memcmp(out, message, len) == 0, name);
    expect(!ours(key, nonce, ad, ad_len, text, len, other, out), name);
}

static void expect_library(romulus_seal_export *seals, romulus_open_export *opens, const char *name, size_t ad_len, size_t len, const u8 *wanted)
{
    u8 tag[16];
    romulus_answer a = seals(key, 16, nonce, 16, ad, ad_len, message, len, out, len, tag, 16);
    expect(a.number == 0 && memcmp(out, text, len) == 0 && memcmp(tag, wanted, 16) == 0, name);
    a = opens(key, 16, nonce, 16, ad, ad_len, text, len, tag, 16, out, len);
    expect(a.number == 0 && memcmp(out, message, len) == 0, name);
}

static void modes_at(size_t ad_len, size_t len)
{
    u8 tag[16], digest[32], wanted[32], answer;
    draw(key, 16);
    draw(nonce, 16);
    draw(ad, ad_len);
    draw(message, len);
    memcpy(text, message, len);
    seal('N', key, nonce, ad, ad_len, text, len, tag);
    expect_seal(rows_n_seal, "rows, N", ad_len, len, tag);
    expect_seal(vectors_n_seal, "vectors, N", ad_len, len, tag);
    expect_seal(shared_n_seal, "vectors with a shared schedule, N", ad_len, len, tag);
    expect_open(rows_n_open, "rows, opening by N", ad_len, len, tag);
    expect_library(romulus_c_n40_seal, romulus_c_n40_open, "the library's N", ad_len, len, tag);

    memcpy(text, message, len);
    seal('M', key, nonce, ad, ad_len, text, len, tag);
    expect_seal(rows_m_seal, "rows, M", ad_len, len, tag);
    expect_open(rows_m_open, "rows, opening by M", ad_len, len, tag);
    expect_library(romulus_c_m40_seal, romulus_c_m40_open, "the library's M", ad_len, len, tag);

    memcpy(text, message, len);
    seal('T', key, nonce, ad, ad_len, text, len, tag);
    expect_seal(rows_t_seal, "rows, T", ad_len, len, tag);
    expect_open(rows_t_open, "rows, opening by T", ad_len, len, tag);
    expect_library(romulus_c_t40_seal, romulus_c_t40_open, "the library's T", ad_len, len, tag);

    hash(message, len, wanted);
    rows_hash(message, len, digest);
    expect(memcmp(digest, wanted, 32) == 0, "rows, hash");
    expect(romulus_c_h40_hash(message, len, digest, 32) == 0 && memcmp(digest, wanted, 32) == 0, "the library's hash");

    memcpy(nonce, "the desk\0\0\0\0\0\0\0", 16);
    memcpy(text, message, len);
    seal('N', key, nonce, ad, ad_len, text, len, wanted);
    expect(bench_edge_post(key, 16, ad, ad_len, message, len, out, len, tag, 16, &answer, 1) == 1 && answer == 0
        && memcmp(out, text, len) == 0 && memcmp(tag, wanted, 16) == 0, "the library's post");
}

static void sheets(void)
{
    uint64_t entries[64];
    for (int i = 0; i < 64; i++) entries[i] = (uint64_t)i;
    expect(bench_edge_sheet(entries, 64) == 0, "a sheet without repeats");
    entries[62] = 4;
    entries[63] = 5;
    expect(bench_edge_sheet(entries, 64) == 3, "a sheet with a repeat");
    expect(bench_edge_sheet(entries, 63) == 2, "a sheet of odd size");
}

int agree(void)
{
    cipher_kind = SKINNY_40;
    published();
    random_blocks();
    for (size_t a = 0; a <= 70; a += 7)
        for (size_t m = 0; m <= 100; m += a % 2 ? 5 : 4) modes_at(a, m);
    modes_at(16, 16);
    modes_at(32, 64);
    modes_at(100, MOST - 8);
    sheets();
    return faults == 0;
}
