/* The C that the library is measured against, in three styles. */
#ifndef BASELINES_H
#define BASELINES_H

#include <stddef.h>
#include <stdint.h>

/* A block in its place under a tweakey of 48 bytes. */
typedef void cipher_call(const uint8_t *tweakey, uint8_t *block, int rounds);
cipher_call cells_cipher, rows_cipher, vectors_cipher;

/* Seals of a message into out and tag; openings answer 1 for a right frame, and leave zeros in out for a wrong one. 40 rounds. */
typedef void seal_call(const uint8_t *key, const uint8_t *nonce, const uint8_t *ad, size_t ad_len, const uint8_t *message, size_t len, uint8_t *out, uint8_t *tag);
typedef int open_call(const uint8_t *key, const uint8_t *nonce, const uint8_t *ad, size_t ad_len, const uint8_t *text, size_t len, const uint8_t *tag, uint8_t *out);
typedef void hash_call(const uint8_t *input, size_t len, uint8_t *digest);
seal_call rows_n_seal, rows_m_seal, rows_t_seal, vectors_n_seal, shared_n_seal;
open_call rows_n_open, rows_m_open, rows_t_open;
hash_call rows_hash;

/* Whether all C agrees with the independent implementation, and the library with both; it says where not. */
int agree(void);

#endif
