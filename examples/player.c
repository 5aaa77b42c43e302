/* What a program does for a person who reviews a trace: it walks to the end, and back by the same states.
 *
 *   player TEXT SHEET
 *
 * It writes a line for each place on the way to the end, and one for the way back. It ends with 0 where the sheet is a
 * trace that holds, with 1 where it is a map that passes or a sheet that fails, and with 2 where a file can't be read
 * or is refused, the moves do not agree, or the lines can't be written. */
#include <inttypes.h>
#include <stdio.h>

#include "nutseason.h"

/* A byte more than the longest that is taken, so that a longer file is refused and not cut. */
static uint8_t text[NUTSEASON_LONGEST_TEXT + 1];
static uint8_t sheet[NUTSEASON_LONGEST_SHEET + 1];
static size_t text_len, sheet_len;

/* A record's entries, and the state seen at each place. A step takes ten bytes of the sheet, so no trace has more. */
enum { PLACE, STATE, ENTRIES, PLACES = NUTSEASON_LONGEST_SHEET / 10 };
static uint64_t seen[PLACES];

/* A move of a record: forward, back, or to the beginning. */
typedef uint64_t move(const uint8_t *, size_t, const uint8_t *, size_t, uint64_t *, size_t);

static int read_file(const char *path, uint8_t *room, size_t size, size_t *len)
{
    FILE *file = fopen(path, "rb");
    if (file == NULL) {
        perror(path);
        return 0;
    }
    *len = fread(room, 1, size, file);
    int failed = ferror(file);
    fclose(file);
    if (failed)
        fprintf(stderr, "%s: cannot be read\n", path);
    return !failed;
}

static unsigned answer_of(move *made, uint64_t *record)
{
    return nutseason_answer(made(text, text_len, sheet, sheet_len, record, ENTRIES));
}

/* Whether a move leads to this place, and there to the state that was seen. */
static int leads(move *made, uint64_t *record, uint64_t place)
{
    return answer_of(made, record) == 'm' && record[PLACE] == place && record[STATE] == seen[place];
}

/* Whether the moves agree. A copy of the record stays at the end, and goes from there to the beginning. */
static int walk(uint64_t *record)
{
    uint64_t place = 0;
    unsigned answer = 'm';
    while (answer == 'm' && record[PLACE] == place && place < PLACES) {
        printf("place %" PRIu64 ": state %" PRIu64 "\n", place, record[STATE]);
        seen[place++] = record[STATE];
        answer = answer_of(nutseason_forward, record);
    }
    if (answer != 'e')
        return 0;
    uint64_t copy[ENTRIES] = {record[PLACE], record[STATE]};
    for (place--; place > 0; place--)
        if (!leads(nutseason_back, record, place - 1))
            return 0;
    return answer_of(nutseason_back, record) == 'e' && leads(nutseason_beginning, copy, 0);
}

/* The status of a sheet, by what is said where a player is to be opened. */
static int play(uint64_t said, uint64_t *record)
{
    unsigned answer = nutseason_answer(said);
    switch (answer) {
    case 'o':
        if (!walk(record)) {
            puts("the moves do not agree");
            return 2;
        }
        puts("back at place 0, by the same states");
        return 0;
    case 's':
        puts("no trace: the sheet is a map, and safe holds");
        return 1;
    case 'v':
        puts("no trace: the sheet is a map, and the model is void");
        return 1;
    case 'A': case 'B': case 'C': case 'D': case 'E': case 'F':
        printf("no trace: the sheet fails by %c\n", (char)answer);
        return 1;
    default:
        printf("no trace: refused %u at %" PRIu64 "\n", answer, nutseason_rest(said));
        return 2;
    }
}

int main(int argc, char **argv)
{
    uint64_t record[ENTRIES];
    if (argc != 3) {
        fprintf(stderr, "usage: player TEXT SHEET\n");
        return 2;
    }
    if (!read_file(argv[1], text, sizeof text, &text_len) || !read_file(argv[2], sheet, sizeof sheet, &sheet_len))
        return 2;

    int status = play(nutseason_player(text, text_len, sheet, sheet_len, record, ENTRIES), record);
    if (fflush(stdout) != 0 || ferror(stdout)) {
        fprintf(stderr, "player: standard output cannot be written\n");
        return 2;
    }
    return status;
}
