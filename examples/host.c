/* A host's day in C: a scanner's settings are sealed into a frame, the frame is filed, read back and opened, a damaged one is
   refused, and the day's sheet is hashed.

   From the repository's root:
       (cd crates/romulus_c && rt lib)
       gcc -std=c99 -O2 -Iinclude examples/host.c crates/romulus_c/out/libromulus_c.a -o host && ./host */
#include "romulus.h"
#include <stdio.h>
#include <stdlib.h>
#include <string.h>

enum { MOST_LABEL = 64, MOST_RECORD = 256 };

/* What is filed: all that an opening needs but the key. */
typedef struct frame {
    uint8_t nonce[ROMULUS_NONCE_BYTES];
    uint8_t tag[ROMULUS_TAG_BYTES];
    uint8_t label[MOST_LABEL];
    uint8_t text[MOST_RECORD];
    size_t label_len, text_len;
} frame;

static void give_up(const char *what)
{
    fprintf(stderr, "%s\n", what);
    exit(1);
}

static void print_bytes(const char *name, const uint8_t *at, size_t len)
{
    size_t i;
    printf("  %s ", name);
    for (i = 0; i < len; i++) printf("%02x", at[i]);
    putchar('\n');
}

/* Seals a record under the post's next nonce. The label goes along unsealed, and is held by the tag. */
static int seal_record(romulus_post *post, const char *label, const char *record, frame *f)
{
    romulus_post_answer answer;
    f->label_len = strlen(label);
    f->text_len = strlen(record);
    if (f->label_len > MOST_LABEL || f->text_len > MOST_RECORD) return 0;
    memcpy(f->label, label, f->label_len);
    answer = romulus_post_seal(post, f->label, f->label_len, (const uint8_t *)record, f->text_len, f->text, f->text_len, f->tag, sizeof f->tag);
    printf("sealed '%s': %s, %llu cipher calls\n", label, romulus_number_words(answer.number), (unsigned long long)answer.cost);
    if (answer.number != ROMULUS_TAKEN) return 0;
    romulus_post_nonce(answer, f->nonce);
    return 1;
}

/* Opens a frame and prints the record, or why there is none. */
static int open_record(romulus_post *post, const frame *f)
{
    uint8_t record[MOST_RECORD];
    romulus_post_answer answer = romulus_post_open(post, f->nonce, sizeof f->nonce, f->label, f->label_len, f->text, f->text_len, f->tag, sizeof f->tag, record, f->text_len);
    printf("opened '%.*s': %s, %llu cipher calls\n", (int)f->label_len, (const char *)f->label, romulus_number_words(answer.number), (unsigned long long)answer.cost);
    if (answer.number != ROMULUS_TAKEN) return 0;
    printf("  record %.*s\n", (int)f->text_len, (const char *)record);
    return 1;
}

/* Files a frame, and reads it back as another program would. */
static void file_frame(const frame *sealed, frame *read_back)
{
    FILE *file = tmpfile();
    if (file == NULL || fwrite(sealed, sizeof *sealed, 1, file) != 1) give_up("the frame could not be filed");
    rewind(file);
    if (fread(read_back, sizeof *read_back, 1, file) != 1) give_up("the frame could not be read back");
    fclose(file);
    if (read_back->label_len > MOST_LABEL || read_back->text_len > MOST_RECORD) give_up("the file holds no frame");
}

int main(void)
{
    /* A real host draws its key at random and keeps it apart. */
    uint8_t key[ROMULUS_KEY_BYTES] = { 's', 'h', 'e', 'l', 'f', ' ', 'b', 'o', 'x', ' ', 'k', 'e', 'y', ' ', '0', '7' };
    const char *sheet = "serial 4711 front gate; serial 0815 cold store";
    uint8_t digest[ROMULUS_DIGEST_BYTES];
    romulus_post post;
    romulus_reading reading;
    romulus_answer answer;
    frame sealed, filed;
    memset(&sealed, 0, sizeof sealed);

    /* Romulus-N on 40 rounds, a hundred nonces from 1 on, and a thousand calls of the cipher. */
    if (romulus_post_make(&post, ROMULUS_MODE_N, 40, key, sizeof key, 0x62656e6368203037, 1, 100, 1000) != ROMULUS_TAKEN) give_up("no post");

    if (!seal_record(&post, "serial 4711", "trigger=250 beep=on baud=9600", &sealed)) give_up("not sealed");
    print_bytes("nonce", sealed.nonce, sizeof sealed.nonce);
    print_bytes("text ", sealed.text, sealed.text_len);
    print_bytes("tag  ", sealed.tag, sizeof sealed.tag);

    file_frame(&sealed, &filed);
    if (!open_record(&post, &filed)) give_up("not opened");

    /* The same frame by a direct call, as a box that has the key and no post opens it. */
    {
        uint8_t record[MOST_RECORD];
        answer = romulus_n40_open(key, sizeof key, filed.nonce, sizeof filed.nonce, filed.label, filed.label_len, filed.text, filed.text_len, filed.tag, sizeof filed.tag, record, filed.text_len);
        printf("opened directly: %s\n", romulus_number_words(answer.number));
        if (answer.number != ROMULUS_TAKEN) give_up("not opened directly");
    }

    /* One bit of the label is turned: the frame is refused, and no byte of a record is written. */
    filed.label[7] ^= 1;
    if (open_record(&post, &filed)) give_up("a damaged frame was opened");

    if (romulus_h40_hash((const uint8_t *)sheet, strlen(sheet), digest, sizeof digest) != ROMULUS_TAKEN) give_up("not hashed");
    printf("hashed the day's sheet\n");
    print_bytes("digest", digest, sizeof digest);

    reading = romulus_post_retire(&post);
    printf("retired: %llu calls left, %llu sealed, %llu opened, %llu wrong\n", (unsigned long long)reading.left, (unsigned long long)reading.sealed,
        (unsigned long long)reading.opened, (unsigned long long)reading.wrong);
    if (seal_record(&post, "serial 4711", "trigger=300 beep=on baud=9600", &sealed)) give_up("a retired post has sealed");
    return 0;
}
