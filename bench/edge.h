/* The exports of the archive bench_edge. A slice is a pointer and a length. */
#ifndef EDGE_H
#define EDGE_H

#include <stddef.h>
#include <stdint.h>

/* A block of 16 bytes in its place under a tweakey of 48; with other lengths the block stays. */
void bench_edge_cipher40(const uint8_t *tweakey, size_t tweakey_len, uint8_t *block, size_t block_len);
void bench_edge_cipher56(const uint8_t *tweakey, size_t tweakey_len, uint8_t *block, size_t block_len);

/* Makes a post of Romulus-N on 40 rounds, whose nonces are "the desk" and a count from 0 on; seals one message as often as
   there are answers, and writes the number of each; retires the post, and answers how many seals were taken. */
uint64_t bench_edge_post(const uint8_t *key, size_t key_len, const uint8_t *ad, size_t ad_len, const uint8_t *message, size_t len, uint8_t *out, size_t out_len, uint8_t *tag, size_t tag_len, uint8_t *answers, size_t answers_len);

/* Loads a sheet of nonces, two entries for each, and answers 0 or the refusal's number. */
uint32_t bench_edge_sheet(const uint64_t *entries, size_t entries_len);

#endif
