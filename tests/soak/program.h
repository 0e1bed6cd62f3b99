/* The line program behind two pipes. Lines are asked as fast as the pipe takes them while answers are read, so that neither
   side waits for the other; each answer is compared with the one that is wanted. */
#ifndef PROGRAM_H
#define PROGRAM_H

#include <errno.h>
#include <fcntl.h>
#include <poll.h>
#include <signal.h>
#include <stdint.h>
#include <stdio.h>
#include <stdlib.h>
#include <string.h>
#include <sys/wait.h>
#include <unistd.h>
#include "tell.h"

enum { PIPE_ROOM = 1 << 20, MOST_UNSENT = 1 << 20, CHUNK = 1 << 16, PATIENCE = 120 * 1000, NUMBERS = 23, FIRST_ANSWERS = 1000, SHOWN = 400 };

static void stop(const char *what)
{
    printf("FAILED: %s\n", what);
    exit(1);
}

/* Bytes that come at the end and leave at the front. */
typedef struct queue {
    uint8_t *bytes;
    size_t at, end, room;
} queue;

static size_t waiting(const queue *q) { return q->end - q->at; }

static uint8_t *room_for(queue *q, size_t len)
{
    if (q->room - q->end < len) {
        if (q->at) memmove(q->bytes, q->bytes + q->at, waiting(q));
        q->end -= q->at;
        q->at = 0;
    }
    if (q->room - q->end < len) {
        q->room = 2 * (q->end + len);
        q->bytes = realloc(q->bytes, q->room);
        if (q->bytes == NULL) stop("no memory for a queue");
    }
    return q->bytes + q->end;
}

static void add(queue *q, const void *bytes, size_t len)
{
    uint8_t *place = room_for(q, len);
    if (len) memcpy(place, bytes, len);
    q->end += len;
}

/* The length of the first line with its newline, or 0 where no newline has come. */
static size_t first_line(const queue *q)
{
    const uint8_t *end = waiting(q) ? memchr(q->bytes + q->at, '\n', waiting(q)) : NULL;
    return end == NULL ? 0 : (size_t)(end - (q->bytes + q->at)) + 1;
}

typedef struct program {
    pid_t pid;
    int in, out, ended;
    queue asked, wanted, got; /* lines not answered yet, their answers, and what has come of them */
    size_t sent;              /* bytes of asked that the pipe has taken */
    unsigned long long bytes, lines, answers;
    unsigned long by_number[NUMBERS];
    long first_kb;
} program;

static long program_kb(const program *p)
{
    char id[32];
    snprintf(id, sizeof id, "%ld", (long)p->pid);
    return resident_kb(id);
}

static program start(const char *path)
{
    program p;
    int in[2], out[2];
    memset(&p, 0, sizeof p);
    signal(SIGPIPE, SIG_IGN);
    if (pipe2(in, O_CLOEXEC) != 0 || pipe2(out, O_CLOEXEC) != 0) stop("no pipe");
    p.pid = fork();
    if (p.pid < 0) stop("no process");
    if (p.pid == 0) {
        if (dup2(in[0], 0) == 0 && dup2(out[1], 1) == 1) execl(path, path, (char *)NULL);
        _exit(127);
    }
    close(in[0]);
    close(out[1]);
    p.in = in[1];
    p.out = out[0];
    /* larger pipes are only quicker */
    (void)fcntl(p.in, F_SETPIPE_SZ, PIPE_ROOM);
    (void)fcntl(p.out, F_SETPIPE_SZ, PIPE_ROOM);
    if (fcntl(p.in, F_SETFL, O_NONBLOCK) != 0) stop("no pipe that does not wait");
    return p;
}

/* Prints a text with what is no letter, digit or sign as \xHH, and not all of a long one. */
static void show(const char *what, const uint8_t *text, size_t len)
{
    printf("%s (%zu): ", what, len);
    for (size_t i = 0; i < len && i < SHOWN; i++)
        if (text[i] > ' ' && text[i] < 127) putchar(text[i]); else printf("\\x%02x", text[i]);
    puts(len > SHOWN ? " .." : "");
}

static size_t asked_line(const program *p)
{
    size_t len = first_line(&p->asked);
    return len ? len : waiting(&p->asked);
}

static void differ(const program *p, size_t got, size_t wanted)
{
    size_t line = asked_line(p);
    printf("FAILED: answer %llu is another\n", p->answers + 1);
    show("line", p->asked.bytes + p->asked.at, line);
    show("answer", p->got.bytes + p->got.at, got);
    show("wanted", p->wanted.bytes + p->wanted.at, wanted);
    exit(1);
}

static int nibble(uint8_t c) { return c <= '9' ? c - '0' : c - 'a' + 10; }

/* Compares whole answers as far as they have come. */
static void compare_answers(program *p)
{
    size_t got, wanted, line;
    while ((got = first_line(&p->got)) != 0) {
        const uint8_t *text = p->got.bytes + p->got.at;
        wanted = first_line(&p->wanted);
        line = asked_line(p);
        if (wanted == 0) stop("an answer to no line");
        if (got != wanted || memcmp(text, p->wanted.bytes + p->wanted.at, got) != 0) differ(p, got, wanted);
        if (p->sent < line) stop("an answer before its line was sent");
        p->by_number[16 * nibble(text[0]) + nibble(text[1])]++;
        p->got.at += got;
        p->wanted.at += wanted;
        p->asked.at += line;
        p->sent -= line;
        if (++p->answers == FIRST_ANSWERS) p->first_kb = program_kb(p);
    }
}

/* Writes and reads what can be at once, and waits up to so many milliseconds for either. */
static int pump(program *p, int wait)
{
    size_t unsent = waiting(&p->asked) - p->sent;
    struct pollfd ends[2] = { { p->out, POLLIN, 0 }, { unsent ? p->in : -1, POLLOUT, 0 } };
    int ready = poll(ends, 2, wait);
    if (ready < 0) stop("the pipes cannot be watched");
    if (ends[1].revents) {
        ssize_t n = write(p->in, p->asked.bytes + p->asked.at + p->sent, unsent);
        if (n < 0 && errno != EAGAIN) stop("the program takes no more lines");
        if (n > 0) p->sent += (size_t)n;
    }
    if (ends[0].revents) {
        ssize_t n = read(p->out, room_for(&p->got, CHUNK), CHUNK);
        if (n < 0) stop("the answers cannot be read");
        if (n == 0) p->ended = 1;
        p->got.end += (size_t)n;
        compare_answers(p);
    }
    return ready;
}

/* Waits until no more than so many bytes are unsent, and so many unanswered. */
static void wait_until(program *p, size_t unsent, size_t unanswered)
{
    while (waiting(&p->asked) - p->sent > unsent || waiting(&p->asked) > unanswered) {
        if (pump(p, PATIENCE) == 0) stop("no answer for two minutes");
        if (p->ended) stop("the program ended before its input");
    }
}

/* Asks a line, given without its newline, and says what the answer is to be, without its own. */
static void ask(program *p, const uint8_t *line, size_t len, const uint8_t *answer, size_t answer_len, int newline)
{
    add(&p->asked, line, len);
    add(&p->asked, "\n", newline ? 1 : 0);
    add(&p->wanted, answer, answer_len);
    add(&p->wanted, "\n", 1);
    p->bytes += len + (newline ? 1 : 0);
    p->lines++;
    if (waiting(&p->asked) - p->sent > CHUNK) (void)pump(p, 0);
    if (waiting(&p->asked) - p->sent > MOST_UNSENT) wait_until(p, MOST_UNSENT / 2, SIZE_MAX);
}

/* Ends the input, and wants all answers, no more, and the status 0. */
static void finish(program *p)
{
    int status;
    wait_until(p, 0, SIZE_MAX);
    close(p->in);
    while (!p->ended)
        if (pump(p, PATIENCE) == 0) stop("no end for two minutes");
    if (p->answers != p->lines || waiting(&p->got) != 0) stop("fewer answers than lines, or half an answer");
    if (waitpid(p->pid, &status, 0) != p->pid || !WIFEXITED(status) || WEXITSTATUS(status) != 0) stop("the program ended with another status than 0");
}

#endif
