/* What a build machine does with a design: it reserves what the search takes at most, searches with just that room,
 * and has the sheet tested.
 *
 *   reserve TEXT
 *
 * It writes a line each of the reservation, the search and the test, and ends with 0 where the model is safe, with 1
 * where it is unsafe or void, and with 2 where the file can't be read or is refused, memory is short, the test does
 * not agree with the search, or the lines can't be written. */
#include <inttypes.h>
#include <stdio.h>
#include <stdlib.h>

#include "nutseason.h"

/* A byte more than the longest that is taken, so that a longer file is refused and not cut. */
static uint8_t text[NUTSEASON_LONGEST_TEXT + 1];
static size_t text_len;

/* What is lent to a search. */
struct room {
    size_t entries, bytes;
    uint16_t *first, *second;
    uint8_t *sheet;
};

static int read_file(const char *path)
{
    FILE *file = fopen(path, "rb");
    if (file == NULL) {
        perror(path);
        return 0;
    }
    text_len = fread(text, 1, sizeof text, file);
    int failed = ferror(file);
    fclose(file);
    if (failed)
        fprintf(stderr, "%s: cannot be read\n", path);
    return !failed;
}

static void tell_refusal(const char *who, uint64_t said)
{
    printf("%s: refused %u at %" PRIu64 "\n", who, nutseason_answer(said), nutseason_rest(said));
}

/* Whether the test of the sheet gives the answer that is due. */
static int passes(const struct room *room, size_t sheet_len, unsigned due)
{
    uint64_t said = nutseason_test(text, text_len, room->sheet, sheet_len);
    unsigned answer = nutseason_answer(said);
    switch (answer) {
    case 's':
        puts("test: safe holds");
        break;
    case 'v':
        puts("test: void");
        break;
    case 't':
        puts("test: trace holds");
        break;
    case 'A': case 'B': case 'C': case 'D': case 'E': case 'F':
        printf("test: the sheet fails by %c\n", (char)answer);
        break;
    default:
        tell_refusal("test", said);
    }
    return answer == due;
}

static int search(const struct room *room)
{
    uint64_t said = nutseason_search(text, text_len, room->first, room->entries, room->second, room->entries,
                                     room->sheet, room->bytes);
    switch (nutseason_answer(said)) {
    case 's':
        printf("search: safe, trials %" PRIu64 "\n", nutseason_trials(said));
        return passes(room, nutseason_length(said), 's') ? 0 : 2;
    case 'v':
        puts("search: void");
        return passes(room, nutseason_length(said), 'v') ? 1 : 2;
    case 'u':
        puts("search: unsafe");
        return passes(room, nutseason_length(said), 't') ? 1 : 2;
    default:
        tell_refusal("search", said);
        return 2;
    }
}

int main(int argc, char **argv)
{
    uint64_t needs[3];
    if (argc != 2) {
        fprintf(stderr, "usage: reserve TEXT\n");
        return 2;
    }
    if (!read_file(argv[1]))
        return 2;

    uint64_t said = nutseason_reserve(text, text_len, needs, 3);
    if (nutseason_answer(said) != 'r') {
        tell_refusal("reserve", said);
        return 2;
    }
    printf("reserve: entries %" PRIu64 ", bytes %" PRIu64 ", trials %" PRIu64 "\n", needs[0], needs[1], needs[2]);

    struct room room = {.entries = needs[0], .bytes = needs[1]};
    room.first = malloc(room.entries * sizeof *room.first);
    room.second = malloc(room.entries * sizeof *room.second);
    room.sheet = malloc(room.bytes);
    int status = 2;
    if (room.first == NULL || room.second == NULL || room.sheet == NULL)
        fprintf(stderr, "reserve: there is too little memory\n");
    else
        status = search(&room);
    free(room.first);
    free(room.second);
    free(room.sheet);
    if (fflush(stdout) != 0) {
        perror("standard output");
        return 2;
    }
    return status;
}
