/* The sheet program in C: standard input to standard output. */
#include "engines.h"

#include <stdlib.h>
#include <string.h>
#include <unistd.h>

enum { LONGEST_LINE = 116, LONGEST_ANSWER = 128 };

/* ---- reading: each moves *at past what it reads, and fails where that is not there */

/* An optional minus and digits, no leading zero, no -0. */
static int read_number(const char **at, const char *end, int64_t *value) {
    const char *p = *at;
    int negative = p < end && *p == '-';
    p += negative;
    const char *first = p;
    uint64_t size = 0;
    while (p < end && *p >= '0' && *p <= '9')
        size = 10 * size + (uint64_t)(*p++ - '0');
    /* 19 digits do not overflow. */
    if (p == first || p - first > 19 || (*first == '0' && (negative || p - first > 1)))
        return 0;
    if (size > (uint64_t)INT64_MAX + (uint64_t)negative)
        return 0;
    *at = p;
    *value = (int64_t)(negative ? -size : size);
    return 1;
}

static int read_tab(const char **at, const char *end) {
    return *at < end && *(*at)++ == '\t';
}

/* So many numbers, each behind a tab, and the line's end. */
static int read_numbers(const char *at, const char *end, int count, int64_t *values) {
    for (int i = 0; i < count; i++)
        if (!read_tab(&at, end) || !read_number(&at, end, &values[i]))
            return 0;
    return at == end;
}

/* ---- writing: each gives the place behind what it writes */

static char *put_number(char *at, int64_t value) {
    char digits[20];
    int count = 0;
    uint64_t size = (uint64_t)value;
    if (value < 0) {
        *at++ = '-';
        size = -size;
    }
    do
        digits[count++] = (char)('0' + size % 10);
    while (size /= 10);
    while (count > 0)
        *at++ = digits[--count];
    return at;
}

static char *put_line(char *at, int64_t serial, const char *word, const int64_t *values, int count) {
    at = put_number(at, serial);
    *at++ = '\t';
    memcpy(at, word, 3);
    at += 3;
    for (int i = 0; i < count; i++) {
        *at++ = '\t';
        at = put_number(at, values[i]);
    }
    *at++ = '\n';
    return at;
}

static char *put_refusal(char *at, int64_t serial, int64_t refusal) {
    return put_line(at, serial, "REF", &refusal, 1);
}

/* The largest serial of the lines so far that have the form. */
static int64_t largest;

static char *answer_line(const char *at, const char *end, char *out) {
    int64_t serial, v[5];
    if (!read_number(&at, end, &serial) || serial < 1 || serial > 9999999 || !read_tab(&at, end) || end - at < 3)
        return put_refusal(out, 0, 5);
    int is_exp = memcmp(at, "EXP", 3) == 0;
    if (!(is_exp || memcmp(at, "LOG", 3) == 0) || !read_numbers(at + 3, end, is_exp ? 5 : 3, v))
        return put_refusal(out, 0, 5);
    if (serial <= largest)
        return put_refusal(out, serial, 7);
    largest = serial;
    struct answer a = is_exp ? engine_exp(v[0], v[1], v[2], v[3], v[4]) : engine_log(v[0], v[1], v[2]);
    if (a.refusal != 0)
        return put_refusal(out, serial, a.refusal);
    if (is_exp)
        return put_line(out, serial, "EXP", (int64_t[]){v[0], a.x, a.y, a.remainder_x, a.remainder_y, a.k, a.bound}, 7);
    return put_line(out, serial, "LOG", (int64_t[]){v[0], a.x, a.y, a.remainder_x, a.remainder_y, a.k, a.q, a.bound}, 8);
}

/* ---- the streams */

static char in[1 << 16], out[1 << 16];
static size_t written;

static void flush(void) {
    for (size_t done = 0; done < written;) {
        ssize_t now = write(STDOUT_FILENO, out + done, written - done);
        if (now < 0)
            exit(1);
        done += (size_t)now;
    }
    written = 0;
}

static void answer(const char *line, const char *end) {
    if (sizeof out - written < LONGEST_ANSWER)
        flush();
    written = (size_t)(answer_line(line, end, out + written) - out);
}

int main(void) {
    memcpy(out, "BKM\t48\n", written = 7);
    size_t held = 0; /* bytes of a line that has begun, at the front of `in` */
    ssize_t got;
    while ((got = read(STDIN_FILENO, in + held, sizeof in - held)) > 0) {
        const char *line = in, *from = in + held, *end = from + got, *newline;
        while ((newline = memchr(from, '\n', (size_t)(end - from))) != NULL) {
            answer(line, newline);
            line = from = newline + 1;
        }
        held = (size_t)(end - line);
        /* A line too long to have the form is malformed however it goes on. */
        if (held > LONGEST_LINE + 1)
            held = LONGEST_LINE + 1;
        memmove(in, line, held);
    }
    if (held > 0)
        answer(in, in + held);
    flush();
    return got < 0;
}
