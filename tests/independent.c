/* The cases of the program 'sweep', run on the independent implementation. It prints the same lines, so that each holds the
   other to the definition. */
#include "independent.h"
#include <stdio.h>

/* ---- the sweep */
static void pattern(u8 *x, size_t len, u8 factor, size_t first)
{
    u8 b = (u8)first;
    for (size_t i = 0; i < len; i++, b = (u8)(b + factor)) x[i] = b;
}

static void sweep(char mode, int kind, const char *name)
{
    unsigned long frames = 0, right = 0, damaged = 0, refused = 0;
    u8 key[16], digest[32] = { 0 };
    pattern(key, 16, 1, 0);
    calls = 0;
    for (size_t a = 0; a < 50; a++)
        for (size_t m = 0; m < 51; m++) {
            u8 nonce[16], ad[64], message[64], text[64], tag[16], chain[128];
            pattern(nonce, 16, 1, a + 3 * m);
            pattern(ad, a, 7, a);
            pattern(message, m, 11, m + 5);
            memcpy(text, message, sizeof text);
            cipher_kind = kind;
            seal(mode, key, nonce, ad, a, text, m, tag);
            unsigned long long kept = calls;
            memcpy(chain, digest, 32);
            memcpy(chain + 32, text, m);
            memcpy(chain + 32 + m, tag, 16);
            cipher_kind = SKINNY_40;
            hash(chain, 48 + m, digest);
            calls = kept;
            cipher_kind = kind;
            u8 out[64];
            memcpy(out, text, sizeof out);
            frames++;
            right += open_frame(mode, key, nonce, ad, a, out, m, tag) && memcmp(out, message, m) == 0;
            for (int p = 0; p < 4; p++) {
                u8 *what = p == 0 ? nonce : p == 1 ? ad : p == 2 ? text : tag;
                size_t len = p == 1 ? a : p == 2 ? m : 16;
                if (len == 0) continue;
                what[len - 1] ^= 0x80;
                memcpy(out, text, sizeof out);
                damaged++;
                refused += !open_frame(mode, key, nonce, ad, a, out, m, tag);
                what[len - 1] ^= 0x80;
            }
        }
    printf("%c %s: %lu frames, %lu opened, %lu of %lu damaged refused, %llu calls, 0 strays, ", mode, name, frames, right, refused, damaged, calls);
    for (int i = 0; i < 32; i++) printf("%02x", digest[i]);
    putchar('\n');
}

int main(void)
{
    for (const char *mode = "NMT"; *mode; mode++) {
        sweep(*mode, SKINNY_40, "40");
        sweep(*mode, SKINNY_56, "56");
        sweep(*mode, STAND_IN, "stand-in");
    }
    return 0;
}
