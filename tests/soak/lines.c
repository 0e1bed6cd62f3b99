/* The line program on as many bytes of random or of mixed lines as are asked for, each answer held to the model.
   Arguments: the program, random or mixed, bytes, seed. The same arguments give the same lines. */
#define _GNU_SOURCE
#include "model.h"
#include "program.h"
#include <time.h>

enum { MOST_LINE = 20000, KEPT_FRAMES = 32, LINES_WITHOUT_KEY = 5000, MOST_GROWTH_KB = 512 };

/* ---- chance */
static uint64_t state;

static uint64_t word(void)
{
    state ^= state << 13;
    state ^= state >> 7;
    state ^= state << 17;
    return state * 0x2545f4914f6cdd1du;
}

static size_t below(size_t n) { return (size_t)((word() >> 32) % n); }

static void fill(u8 *bytes, size_t len)
{
    for (size_t i = 0; i < len; i++) bytes[i] = (u8)(word() >> 56);
}

/* ---- the line that is being made */
static u8 line[MOST_LINE];
static size_t line_len;

static const char *const alphabets[] = { "0123456789abcdef", "0123456789ABCDEF" };

/* The digits of some bytes: all small, all capital, or each as it falls. */
static void put_digits(const u8 *bytes, size_t len)
{
    size_t style = below(4);
    for (size_t i = 0; i < 2 * len; i++) {
        u8 value = i % 2 ? bytes[i / 2] & 15 : bytes[i / 2] >> 4;
        line[line_len++] = (u8)alphabets[style < 3 ? style / 2 : below(2)][value];
    }
}

static void random_digits(size_t len)
{
    for (size_t i = 0; i < len; i++) line[line_len++] = (u8)"0123456789abcdefABCDEF"[below(22)];
}

static u8 any_but_newline(void)
{
    u8 c = (u8)(word() >> 56);
    return c == '\n' ? '\r' : c;
}

static u8 no_digit(void)
{
    u8 c;
    do c = any_but_newline(); while (digit(c) >= 0);
    return c;
}

/* ---- random lines: mostly short, up to 10,000 characters */
static size_t random_length(void)
{
    static const size_t tops[] = { 20, 100, 600, 3000, 10001 };
    return below(tops[below(5)]);
}

static void random_bytes(size_t len)
{
    while (len--) line[line_len++] = any_but_newline();
}

/* Bytes of all values up to the newline that comes among them. */
static void up_to_newline(void)
{
    u8 c;
    while ((c = (u8)(word() >> 56)) != '\n' && line_len < MOST_LINE) line[line_len++] = c;
}

static void random_line(void)
{
    static const u8 letters[] = "KCnmtNMTH";
    switch (below(8)) {
    case 0: random_digits(random_length()); break;
    case 1: random_digits(random_length() / 2 * 2); break;
    case 2: put_digits(letters + below(9), 1); random_digits(random_length()); break;
    case 3: random_digits(random_length()); line[line_len++] = no_digit(); random_bytes(below(100)); break;
    case 4: case 5: up_to_newline(); break;
    default: random_bytes(random_length()); break;
    }
}

/* ---- mixed lines */
static u8 frames[KEPT_FRAMES][MOST_ANSWER]; /* the digits of sealed frames, for giving them back */
static size_t frame_lens[KEPT_FRAMES], kept_frames;

static void keep_frame(const u8 *digits, size_t len)
{
    size_t place = kept_frames < KEPT_FRAMES ? kept_frames++ : below(KEPT_FRAMES);
    memcpy(frames[place], digits, len);
    frame_lens[place] = len;
}

/* Mostly short, since the model is slow; now and then as long as a line can hold. */
static size_t text_length(void)
{
    size_t chance = below(100);
    return chance < 60 ? below(40) : chance < 92 ? below(200) : chance < 99 ? below(800) : below(4078);
}

static void key_line(void)
{
    u8 frame[17] = { 'K' };
    fill(frame + 1, 16);
    put_digits(frame, 17);
}

/* A key line that is refused: cut, lengthened, odd, with a bad digit, or too long. */
static void bad_key_line(void)
{
    key_line();
    switch (below(5)) {
    case 0: line_len -= 2 * (1 + below(16)); break;
    case 1: random_digits(2 * (1 + below(40))); break;
    case 2: line_len--; break;
    case 3: line[2 + below(line_len - 2)] = no_digit(); break;
    default: random_digits(MOST_DIGITS - line_len + 1 + below(3)); break;
    }
}

static void cipher_line(void)
{
    static const u8 names[] = { 0x28, 0x38, 0x28, 0x38, 0 };
    u8 frame[2] = { 'C', names[below(5)] };
    put_digits(frame, 2);
}

static void bad_cipher_line(void)
{
    u8 frame[4] = { 'C' };
    fill(frame + 1, 3);
    put_digits(frame, below(4) ? 2 : below(2) ? 1 : 3 + below(2));
}

/* A frame to seal: as long as a line can be in one case of a hundred. */
static void seal_line(void)
{
    static u8 frame[MOST_FRAME];
    size_t ad = text_length(), message = below(100) ? text_length() : MOST_FRAME, room = MOST_FRAME - 19;
    if (ad > room) ad = room;
    if (message > room - ad) message = room - ad;
    fill(frame, 19 + ad + message);
    frame[0] = "nmt"[below(3)];
    frame[17] = (u8)(ad >> 8);
    frame[18] = (u8)ad;
    put_digits(frame, 19 + ad + message);
}

/* A frame to open that nobody sealed. */
static void strange_frame_line(void)
{
    static u8 frame[MOST_FRAME];
    size_t ad = below(60), text = below(120);
    fill(frame, 35 + ad + text);
    frame[0] = "NMT"[below(3)];
    frame[17] = 0;
    frame[18] = (u8)ad;
    put_digits(frame, 35 + ad + text);
}

static void give_back(void)
{
    size_t place, capitals = below(3) == 0;
    if (kept_frames == 0) {
        strange_frame_line();
        return;
    }
    place = below(kept_frames);
    memcpy(line, frames[place], frame_lens[place]);
    line_len = frame_lens[place];
    for (size_t i = 0; capitals && i < line_len; i++)
        if (line[i] >= 'a') line[i] = (u8)(line[i] - 'a' + 'A');
}

/* A sealed frame with another digit, or under another mode's letter, or with a byte more or less. */
static void give_back_damaged(void)
{
    static const char letters[3][3] = { "4e", "4d", "54" };
    size_t place;
    give_back();
    switch (below(8)) {
    case 0: line_len -= 2; break;
    case 1: random_digits(2); break;
    case 2: memcpy(line, letters[below(3)], 2); break;
    default:
        place = 2 + below(line_len - 2);
        line[place] = (u8)alphabets[0][digit(line[place]) ^ (1 + below(15))];
        break;
    }
}

static void hash_line(void)
{
    static u8 frame[MOST_FRAME];
    size_t len = 1 + text_length();
    fill(frame, len);
    frame[0] = 'H';
    put_digits(frame, len);
}

/* Frames of every kind with too few bytes, or a data length past the frame's end. */
static void wrong_length_line(void)
{
    u8 frame[64];
    size_t len = 1 + below(64);
    fill(frame, len);
    frame[0] = (u8)"KCnmtNMT"[below(8)];
    if (len > 18) frame[17] = (u8)below(2);
    put_digits(frame, len == 17 ? 16 : len); /* 17 would be right for a key */
}

static void unknown_letter_line(void)
{
    u8 frame[40];
    fill(frame, sizeof frame);
    put_digits(frame, below(sizeof frame + 1));
}

static void sealing_and_opening(void)
{
    size_t chance = below(100);
    if (chance < 45) seal_line();
    else if (chance < 70) give_back();
    else if (chance < 88) give_back_damaged();
    else if (chance < 91) strange_frame_line();
    else hash_line();
}

/* A line with one fault of its characters. */
static void spoiled_line(void)
{
    sealing_and_opening();
    switch (below(5)) {
    case 0: line_len--; break;
    case 1: random_digits(1); break;
    case 2: line[line_len++] = '\r'; break;
    case 3: line[below(line_len)] = no_digit(); break;
    default: random_digits(line_len < MOST_DIGITS ? MOST_DIGITS - line_len + below(3) : 1 + below(1000)); break;
    }
}

/* Good key lines come after some thousand lines, so that there is a time without a key. */
static void mixed_line(unsigned long long number)
{
    size_t chance = below(1000);
    if (chance < 10 && number >= LINES_WITHOUT_KEY) key_line();
    else if (chance < 20) bad_key_line();
    else if (chance < 30) cipher_line();
    else if (chance < 40) bad_cipher_line();
    else if (chance < 60) wrong_length_line();
    else if (chance < 80) unknown_letter_line();
    else if (chance < 120) spoiled_line();
    else sealing_and_opening();
}

/* ---- the run */
static u8 answer[MOST_ANSWER];

static void next_line(program *p, session *s, int mixed, int newline)
{
    line_len = 0;
    if (mixed) mixed_line(p->lines); else random_line();
    if (!newline && line_len == 0) line[line_len++] = '4'; /* nothing at all is no line */
    size_t len = answer_line(s, line, line_len, answer);
    /* of the nine letters only n, m and t are spelled from 6 or 7 on */
    int sealed = len > 2 && line_len > 1 && memcmp(answer, "00", 2) == 0 && (line[0] == '6' || line[0] == '7');
    if (mixed && sealed) keep_frame(answer + 2, len - 2);
    ask(p, line, line_len, answer, len, newline);
}

/* A soak of mixed lines in which one of these never came has shown nothing of it. */
static void all_came(const program *p)
{
    static const int numbers[] = { 0, 13, 16, 17, 18, 19, 20, 21, 22 };
    for (size_t i = 0; i < sizeof numbers / sizeof numbers[0]; i++)
        if (p->by_number[numbers[i]] == 0) {
            printf("FAILED: no answer %d\n", numbers[i]);
            exit(1);
        }
}

static unsigned long long number_of(const char *word)
{
    char *end;
    unsigned long long n = strtoull(word, &end, 10);
    if (*word < '0' || *word > '9' || *end) stop("an argument is no number");
    return n;
}

int main(int words, char **word_at)
{
    if (words != 5) stop("give the program, random or mixed, bytes, seed");
    int mixed = strcmp(word_at[2], "mixed") == 0;
    if (!mixed && strcmp(word_at[2], "random") != 0) stop("lines are random or mixed");
    unsigned long long bytes = number_of(word_at[3]), seed = number_of(word_at[4]);
    state = 0x9e3779b97f4a7c15u * (2 * seed + 1); /* odd, so never 0 */
    session s = new_session;
    time_t began = time(NULL);
    program p = start(word_at[1]);
    while (p.bytes < bytes) next_line(&p, &s, mixed, 1);
    wait_until(&p, 0, 0);
    long last_kb = program_kb(&p);
    next_line(&p, &s, mixed, 0); /* the last line may have no newline */
    finish(&p);
    if (mixed) all_came(&p);
    if (p.first_kb <= 0 || last_kb <= 0) stop("the memory was not read");
    if (last_kb > p.first_kb + MOST_GROWTH_KB) stop("the program's memory grew");
    printf("%s lines, seed %llu: %llu lines, %llu bytes, answers", word_at[2], seed, p.lines, p.bytes);
    print_answers(p.by_number, NUMBERS);
    printf(", %ld kB at the start, %ld kB at the end, %lld s: all as the model\n", p.first_kb, last_kb, (long long)(time(NULL) - began));
    return 0;
}
