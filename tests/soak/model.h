/* A session that answers lines, as docs/lines.md tells it, over the independent implementation. */
#ifndef MODEL_H
#define MODEL_H

#include "../independent.h"

enum { MOST_DIGITS = 8192, MOST_FRAME = MOST_DIGITS / 2, MOST_ANSWER = 2 * (1 + MOST_FRAME + 16) };

typedef struct session {
    int has_key, cipher;
    u8 key[16];
} session;

static const session new_session = { 0, SKINNY_40, { 0 } };

static int digit(u8 c)
{
    if (c >= '0' && c <= '9') return c - '0';
    if (c >= 'a' && c <= 'f') return c - 'a' + 10;
    if (c >= 'A' && c <= 'F') return c - 'A' + 10;
    return -1;
}

static size_t put_bytes(u8 *text, size_t at, const u8 *bytes, size_t len)
{
    for (size_t i = 0; i < len; i++) {
        text[at++] = (u8)"0123456789abcdef"[bytes[i] >> 4];
        text[at++] = (u8)"0123456789abcdef"[bytes[i] & 15];
    }
    return at;
}

static size_t refuse(u8 *text, int number, char layer, size_t place)
{
    u8 report[4] = { (u8)number, (u8)layer, (u8)(place >> 8), (u8)place };
    return put_bytes(text, 0, report, 4);
}

static size_t taken(u8 *text, const u8 *result, size_t len)
{
    static const u8 none;
    return put_bytes(text, put_bytes(text, 0, &none, 1), result, len);
}

static char capital(u8 letter) { return letter == 'n' ? 'N' : letter == 'm' ? 'M' : letter == 't' ? 'T' : 0; }

/* Seals: the body is nonce, data length, data, message. */
static size_t seal_body(const session *s, char mode, const u8 *body, size_t len, size_t ad_len, u8 *text)
{
    static u8 frame[1 + MOST_FRAME + 16];
    frame[0] = (u8)mode;
    memcpy(frame + 1, body, len);
    cipher_kind = s->cipher;
    seal(mode, s->key, body, body + 18, ad_len, frame + 19 + ad_len, len - 18 - ad_len, frame + 1 + len);
    return taken(text, frame, 1 + len + 16);
}

/* Opens: the body is nonce, data length, data, ciphertext, tag. */
static size_t open_body(const session *s, char mode, const u8 *body, size_t len, size_t ad_len, u8 *text)
{
    static u8 message[MOST_FRAME];
    size_t message_len = len - 18 - ad_len - 16;
    memcpy(message, body + 18 + ad_len, message_len);
    cipher_kind = s->cipher;
    if (!open_frame(mode, s->key, body, body + 18, ad_len, message, message_len, body + len - 16)) return refuse(text, 13, 'M', 0);
    return taken(text, message, message_len);
}

static size_t seal_or_open(const session *s, const u8 *frame, size_t len, u8 *text)
{
    char sealing = capital(frame[0]);
    size_t least = sealing ? 19 : 35, ad_len = len < least ? 0 : (size_t)frame[17] << 8 | frame[18];
    if (len < least + ad_len) return refuse(text, 20, 'F', len);
    if (!s->has_key) return refuse(text, 21, 'F', 0);
    return sealing ? seal_body(s, sealing, frame + 1, len - 1, ad_len, text) : open_body(s, (char)frame[0], frame + 1, len - 1, ad_len, text);
}

static size_t answer_frame(session *s, const u8 *frame, size_t len, u8 *text)
{
    u8 digest[32];
    switch (len ? frame[0] : 0) {
    case 'K':
        if (len != 17) return refuse(text, 20, 'F', len);
        memcpy(s->key, frame + 1, 16);
        s->has_key = 1;
        return taken(text, NULL, 0);
    case 'C':
        if (len != 2) return refuse(text, 20, 'F', len);
        if (frame[1] != 0x28 && frame[1] != 0x38 && frame[1] != 0) return refuse(text, 22, 'F', 0);
        s->cipher = frame[1] == 0x28 ? SKINNY_40 : frame[1] == 0x38 ? SKINNY_56 : STAND_IN;
        return taken(text, NULL, 0);
    case 'H':
        cipher_kind = s->cipher;
        hash(frame + 1, len - 1, digest);
        return taken(text, digest, 32);
    case 'n': case 'm': case 't': case 'N': case 'M': case 'T':
        return seal_or_open(s, frame, len, text);
    default:
        return refuse(text, 19, 'F', 0);
    }
}

/* The answer to a line without its newline; at most MOST_ANSWER characters. */
static size_t answer_line(session *s, const u8 *line, size_t len, u8 *text)
{
    static u8 frame[MOST_FRAME];
    if (len > MOST_DIGITS) return refuse(text, 18, 'L', 0);
    for (size_t i = 0; i < len; i++)
        if (digit(line[i]) < 0) return refuse(text, 16, 'L', i);
    if (len % 2) return refuse(text, 17, 'L', 0);
    for (size_t i = 0; i < len / 2; i++) frame[i] = (u8)(digit(line[2 * i]) << 4 | digit(line[2 * i + 1]));
    return answer_frame(s, frame, len / 2, text);
}

#endif
