/* What a program does for an operator who looks for bursts of commands in a trace.
 *
 *   bursts TEXT SHEET WIDTH [COMMAND]
 *
 * It writes a line for the trace, and one for each command: how many of the steps are its own, how many at most in a
 * stretch of WIDTH steps, and the place where the first such stretch starts. With COMMAND, a number from 0, it writes
 * the line of that command alone, and behind it the steps of the stretch.
 *
 * It ends with 0 where the sheet is a trace that holds, with 1 where it is a map that passes or a sheet that fails, and
 * with 2 where a file can't be read or is refused, there is no such width or command, the answers do not agree, or the
 * lines can't be written. */
#include <errno.h>
#include <inttypes.h>
#include <stdio.h>
#include <stdlib.h>
#include <string.h>

#include "nutseason.h"

/* A byte more than the longest that is taken, so that a longer file is refused and not cut. */
static uint8_t text[NUTSEASON_LONGEST_TEXT + 1];
static uint8_t sheet[NUTSEASON_LONGEST_SHEET + 1];
static size_t text_len, sheet_len;

/* The steps of the trace, and as later calls list them again. */
static struct nutseason_step list[NUTSEASON_MOST_STEPS], again[NUTSEASON_MOST_STEPS];
static size_t steps;

static uint16_t counts[NUTSEASON_MOST_COMMANDS];

static int read_file(const char *path, uint8_t *room, size_t size, size_t *len)
{
    FILE *file = fopen(path, "rb");
    if (file == NULL) {
        perror(path);
        return 0;
    }
    *len = fread(room, 1, size, file);
    int failed = ferror(file);
    fclose(file);
    if (failed)
        fprintf(stderr, "%s: cannot be read\n", path);
    return !failed;
}

static int read_number(const char *said, uint64_t *number)
{
    char *end;
    errno = 0;
    *number = strtoull(said, &end, 10);
    return said[0] >= '0' && said[0] <= '9' && *end == '\0' && errno == 0;
}

static int tell_refusal(const char *who, uint64_t said)
{
    printf("%s: refused %u at %" PRIu64 "\n", who, nutseason_answer(said), nutseason_rest(said));
    return 2;
}

static int tell_disagreement(void)
{
    puts("the answers do not agree");
    return 2;
}

static int listed_alike(void)
{
    return memcmp(list, again, steps * sizeof *list) == 0;
}

/* How many steps of a stretch are a command's own. */
static unsigned occurrences(uint64_t command, size_t place, size_t length)
{
    unsigned found = 0;
    for (size_t i = 0; i < length; i++)
        found += list[place - 1 + i].command == command;
    return found;
}

/* Whether a command has its counts by the list too, in all and in the stretch. */
static int agrees(uint64_t command, unsigned most, size_t place, size_t length)
{
    return command < NUTSEASON_MOST_COMMANDS && counts[command] == occurrences(command, 1, steps) && place >= 1 &&
           place <= steps - length + 1 && most == occurrences(command, place, length);
}

static int tell_burst(uint64_t command, uint64_t width, int with_steps)
{
    uint64_t said = nutseason_burst(text, text_len, sheet, sheet_len, again, steps, command, width);
    if (nutseason_answer(said) != 'b')
        return tell_refusal("no burst", said);
    unsigned most = nutseason_most(said);
    size_t place = nutseason_first_place(said), length = width < steps ? (size_t)width : steps;
    if (!listed_alike() || !agrees(command, most, place, length))
        return tell_disagreement();
    printf("command %" PRIu64 ": count %u, most %u, from place %zu\n", command, counts[command], most, place);
    for (size_t i = place - 1; with_steps && i < place - 1 + length; i++)
        printf("place %zu: command %u, word %u, state %u\n", i + 1, list[i].command, list[i].word, list[i].after);
    return 0;
}

static int tell_bursts(uint64_t width)
{
    uint64_t said = nutseason_read(text, text_len), commands = nutseason_rest(said) >> 16 & 255;
    int status = nutseason_answer(said) == 'm' ? 0 : tell_disagreement();
    for (uint64_t command = 0; command < commands && status == 0; command++)
        status = tell_burst(command, width, 0);
    return status;
}

/* Later calls are lent just as many places as there are steps. */
static int tell_trace(uint64_t width, const uint64_t *command)
{
    printf("trace: steps %zu, width %" PRIu64 "\n", steps, width);
    uint64_t said = nutseason_counts(text, text_len, sheet, sheet_len, again, steps, counts, NUTSEASON_MOST_COMMANDS);
    if (nutseason_answer(said) != 'n' || nutseason_rest(said) != steps || !listed_alike())
        return tell_disagreement();
    return command == NULL ? tell_bursts(width) : tell_burst(*command, width, 1);
}

/* The status of a sheet, by what is said where its steps are to be listed. */
static int look(uint64_t said, uint64_t width, const uint64_t *command)
{
    unsigned answer = nutseason_answer(said);
    switch (answer) {
    case 'n':
        steps = nutseason_rest(said);
        return steps <= NUTSEASON_MOST_STEPS ? tell_trace(width, command) : tell_disagreement();
    case 's':
        puts("no trace: the sheet is a map, and safe holds");
        return 1;
    case 'v':
        puts("no trace: the sheet is a map, and the model is void");
        return 1;
    case 'A': case 'B': case 'C': case 'D': case 'E': case 'F':
        printf("no trace: the sheet fails by %c\n", (char)answer);
        return 1;
    default:
        return tell_refusal("no trace", said);
    }
}

int main(int argc, char **argv)
{
    uint64_t width, command;
    if (argc < 4 || argc > 5 || !read_number(argv[3], &width) || (argc == 5 && !read_number(argv[4], &command))) {
        fprintf(stderr, "usage: bursts TEXT SHEET WIDTH [COMMAND]\n");
        return 2;
    }
    if (!read_file(argv[1], text, sizeof text, &text_len) || !read_file(argv[2], sheet, sizeof sheet, &sheet_len))
        return 2;

    uint64_t said = nutseason_steps(text, text_len, sheet, sheet_len, list, NUTSEASON_MOST_STEPS);
    int status = look(said, width, argc == 5 ? &command : NULL);
    if (fflush(stdout) != 0 || ferror(stdout)) {
        fprintf(stderr, "bursts: standard output cannot be written\n");
        return 2;
    }
    return status;
}
