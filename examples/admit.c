/* What a loader does before it seals a design: it admits a model's text only with a sheet that holds as safe.
 *
 *   admit TEXT SHEET
 *
 * It writes one line, and ends with 0 where the model is safe for every table, with 1 where it is unsafe or void or
 * the sheet fails, and with 2 where a file can't be read or is refused. */
#include <stdio.h>

#include "nutseason.h"

/* A byte more than the longest that is taken, so that a longer file is refused and not cut. */
static uint8_t text[NUTSEASON_LONGEST_TEXT + 1];
static uint8_t sheet[NUTSEASON_LONGEST_SHEET + 1];

static int read_file(const char *path, uint8_t *room, size_t size, size_t *len)
{
    FILE *file = fopen(path, "rb");
    if (file == NULL) {
        perror(path);
        return 0;
    }
    *len = fread(room, 1, size, file);
    int failed = ferror(file);
    fclose(file);
    if (failed)
        fprintf(stderr, "%s: cannot be read\n", path);
    return !failed;
}

int main(int argc, char **argv)
{
    size_t text_len, sheet_len;
    if (argc != 3) {
        fprintf(stderr, "usage: admit TEXT SHEET\n");
        return 2;
    }
    if (!read_file(argv[1], text, sizeof text, &text_len) || !read_file(argv[2], sheet, sizeof sheet, &sheet_len))
        return 2;

    uint64_t said = nutseason_test(text, text_len, sheet, sheet_len);
    unsigned answer = nutseason_answer(said);
    switch (answer) {
    case 's':
        puts("admitted: the model is safe for every table of one row or more");
        return 0;
    case 'v':
        /* Nothing is known of a monitor by a model that has no run. */
        puts("not admitted: the model has no start state");
        return 1;
    case 't':
        puts("not admitted: the sheet is a run that breaks the property");
        return 1;
    case 'A': case 'B': case 'C': case 'D': case 'E': case 'F':
        printf("not admitted: the sheet fails by %c\n", (char)answer);
        return 1;
    default:
        printf("not admitted: refused %u at %llu\n", answer, (unsigned long long)nutseason_rest(said));
        return 2;
    }
}
