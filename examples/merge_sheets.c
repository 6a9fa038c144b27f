/* Merges two sheets whose numbers rise into one, on standard output:
 *
 *     gcc -Iinclude examples/merge_sheets.c target/staticlib/libcontroller.a -o target/merge_sheets
 *     target/merge_sheets first.sheet second.sheet > both.sheet
 *
 * A refusal is said on standard error, with the line that it is due to, and nothing is written; the
 * exit status is its number:
 *
 *     merge_sheets: second.sheet, line 3: malformed (5)
 */
#include "bkm.h"

#include <stdio.h>
#include <stdlib.h>

struct bytes {
    uint8_t *at;
    size_t count;
};

static int fail(const char *name)
{
    fprintf(stderr, "merge_sheets: ");
    perror(name);
    return 1;
}

/* A whole file; at is NULL where it cannot be read. */
static struct bytes contents(const char *name)
{
    struct bytes all = {NULL, 0};
    FILE *file = fopen(name, "rb");
    if (!file)
        return all;
    size_t room = 0, got = 1;
    while (got > 0) {
        if (all.count == room) {
            room = 2 * room + 65536;
            uint8_t *more = realloc(all.at, room);
            if (!more)
                break;
            all.at = more;
        }
        got = fread(all.at + all.count, 1, room - all.count, file);
        all.count += got;
    }
    if (got > 0 || ferror(file)) {
        free(all.at);
        all.at = NULL;
    }
    fclose(file);
    return all;
}

static const char *reason(int64_t refusal)
{
    switch (refusal) {
    case BKM_REFUSED_LINE: return "malformed";
    case BKM_REFUSED_SERIAL: return "its number is not above the one before it";
    case BKM_REFUSED_CLASH: return "the other sheet has a differing line under its number";
    default: return "refused";
    }
}

/* Says which lines stop the merge. */
static int refused(char **names, const struct bytes *sheets)
{
    const bkm_stop stop = bkm_merge_stopped_at(sheets[0].at, sheets[0].count, sheets[1].at, sheets[1].count);
    const size_t lines[2] = {stop.first, stop.second};
    for (int i = 0; i < 2; i++)
        if (lines[i] > 0)
            fprintf(stderr, "merge_sheets: %s, line %zu: %s (%d)\n", names[i], lines[i], reason(stop.refusal), (int)stop.refusal);
    return (int)stop.refusal;
}

int main(int count, char **names)
{
    if (count != 3) {
        fprintf(stderr, "merge_sheets: two sheets are to be named\n");
        return 2;
    }
    struct bytes sheets[2];
    for (int i = 0; i < 2; i++) {
        sheets[i] = contents(names[i + 1]);
        if (!sheets[i].at)
            return fail(names[i + 1]);
    }
    size_t room = sheets[0].count + sheets[1].count + 2;
    uint8_t *out = malloc(room);
    if (!out)
        return fail("memory");
    int64_t written = bkm_merge(sheets[0].at, sheets[0].count, sheets[1].at, sheets[1].count, out, room);
    if (written < 0)
        return refused(names + 1, sheets);
    if (fwrite(out, 1, (size_t)written, stdout) != (size_t)written || fflush(stdout))
        return fail("standard output");
    return 0;
}
