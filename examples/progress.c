/* What a program does for a person who waits: it searches in portions, shows after each how far it is, and can be
 * interrupted.
 *
 *   progress TEXT [STATES [STATE]]
 *
 * A portion expands STATES states, or as many as make some 262,144 trials. At each pause a line on standard error shows
 * the states expanded (#) and met (-) of all that there are; on a terminal it is drawn anew in its place. After an
 * interrupt (Ctrl-C) the program tells how far it is, and no verdict; else it writes a line each of the reservation,
 * the search and the test. Where STATE is given, it also tells whether a run leads to that state.
 *
 * It ends with 0 where the model is safe, with 1 where it is unsafe or void, with 3 where it was interrupted, and
 * with 2 where the file can't be read or is refused, there is no such state, memory is short, the test does not agree
 * with the search, or the lines can't be written. */
#define _POSIX_C_SOURCE 200809L
#include <errno.h>
#include <inttypes.h>
#include <signal.h>
#include <stdio.h>
#include <stdlib.h>
#include <unistd.h>

#include "nutseason.h"

/* So many trials take some milliseconds: long beside the reading of the text, which every call does, and short for
 * whoever waits. */
enum { TRIALS_IN_PORTION = 1 << 18, BAR = 32, LINE = 79 };

/* A byte more than the longest that is taken, so that a longer file is refused and not cut. */
static uint8_t text[NUTSEASON_LONGEST_TEXT + 1];
static size_t text_len;

/* What a search is lent. Its sheet buffer is needed at the end only. */
struct room {
    size_t entries, bytes;
    uint16_t *first, *second;
};

/* What is asked: nothing, or for a state. */
struct question {
    int asked;
    uint64_t state;
};

static volatile sig_atomic_t interrupted;

static void interrupt(int number)
{
    (void)number;
    interrupted = 1;
}

static int read_file(const char *path)
{
    FILE *file = fopen(path, "rb");
    if (file == NULL) {
        perror(path);
        return 0;
    }
    text_len = fread(text, 1, sizeof text, file);
    int failed = ferror(file);
    fclose(file);
    if (failed)
        fprintf(stderr, "%s: cannot be read\n", path);
    return !failed;
}

static int read_number(const char *said, uint64_t least, uint64_t *number)
{
    char *end;
    errno = 0;
    *number = strtoull(said, &end, 10);
    return said[0] >= '0' && said[0] <= '9' && *end == '\0' && errno == 0 && *number >= least;
}

static void tell_refusal(const char *who, uint64_t said)
{
    printf("%s: refused %u at %" PRIu64 "\n", who, nutseason_answer(said), nutseason_rest(said));
}

/* A pause: of all states so many are expanded, and so many met. */
static void show(uint64_t position, size_t entries, int terminal)
{
    char bar[BAR + 1] = "";
    unsigned expanded = nutseason_states_expanded(position), met = nutseason_states_met(position);
    for (size_t i = 0; i < BAR; i++)
        bar[i] = i * entries < (size_t)expanded * BAR ? '#' : i * entries < (size_t)met * BAR ? '-' : '.';
    fprintf(stderr, "%s[%s] %4u expanded, %4u met, at most %zu%s", terminal ? "\r" : "", bar, expanded, met, entries,
            terminal ? "" : "\n");
}

/* The position when the search is at its end, or at the pause at which it is interrupted; or a refusal. */
static uint64_t search(const struct room *room, uint64_t states)
{
    int terminal = isatty(STDERR_FILENO);
    uint64_t position = nutseason_open(text, text_len, room->first, room->entries, room->second, room->entries);
    while (nutseason_answer(position) == 'p' && !interrupted) {
        show(position, room->entries, terminal);
        position = nutseason_portion(position, states, text, text_len, room->first, room->entries,
                                     room->second, room->entries);
    }
    if (terminal)
        fprintf(stderr, "\r%*s\r", LINE, "");
    return position;
}

/* Whether there is an answer to a question. What a no means depends on who was asked. */
static int tell_reply(uint64_t state, uint64_t said, const char *no)
{
    printf("state %" PRIu64 ": ", state);
    switch (nutseason_answer(said)) {
    case 'y':
        puts("a run leads to it");
        return 1;
    case 'n':
        puts(no);
        return 1;
    default:
        tell_refusal("no answer", said);
        return 0;
    }
}

/* The tables are asked while they have what the search has met, and a sheet that is a map after that. */
static int ask_tables(const struct room *room, uint64_t position, struct question about)
{
    return !about.asked || tell_reply(about.state, nutseason_met(position, about.state, text, text_len, room->first,
                                                                 room->entries, room->second, room->entries),
                                      "not met");
}

static int ask_map(const uint8_t *sheet, size_t sheet_len, struct question about)
{
    return !about.asked || tell_reply(about.state, nutseason_reached(text, text_len, sheet, sheet_len, about.state),
                                      "no run leads to it");
}

/* Whether the test of the sheet gives the answer that is due. */
static int passes(const uint8_t *sheet, size_t sheet_len, unsigned due)
{
    uint64_t said = nutseason_test(text, text_len, sheet, sheet_len);
    unsigned answer = nutseason_answer(said);
    switch (answer) {
    case 's':
        puts("test: safe holds");
        break;
    case 'v':
        puts("test: void");
        break;
    case 't':
        puts("test: trace holds");
        break;
    case 'A': case 'B': case 'C': case 'D': case 'E': case 'F':
        printf("test: the sheet fails by %c\n", (char)answer);
        break;
    default:
        tell_refusal("test", said);
    }
    return answer == due;
}

/* Clears the tables, so what they are to be asked is asked before. */
static int finish(const struct room *room, uint64_t position, uint8_t *sheet, struct question about)
{
    uint64_t said = nutseason_finish(position, text, text_len, room->first, room->entries, room->second, room->entries,
                                     sheet, room->bytes);
    size_t length = nutseason_length(said);
    switch (nutseason_answer(said)) {
    case 's':
        printf("search: safe, trials %" PRIu64 "\n", nutseason_trials(said));
        return passes(sheet, length, 's') && ask_map(sheet, length, about) ? 0 : 2;
    case 'v':
        puts("search: void");
        return passes(sheet, length, 'v') && ask_map(sheet, length, about) ? 1 : 2;
    case 'u':
        puts("search: unsafe");
        return passes(sheet, length, 't') ? 1 : 2;
    default:
        tell_refusal("search", said);
        return 2;
    }
}

static int search_and_finish(const struct room *room, uint64_t states, struct question about)
{
    uint64_t position = search(room, states);
    if (nutseason_answer(position) != 'p' && !nutseason_ended(position)) {
        tell_refusal("search", position);
        return 2;
    }
    printf("search: %s, states expanded %u, met %u\n", nutseason_ended(position) ? "ended" : "interrupted",
           nutseason_states_expanded(position), nutseason_states_met(position));
    if ((!nutseason_ended(position) || nutseason_broke(position)) && !ask_tables(room, position, about))
        return 2;
    if (!nutseason_ended(position))
        return 3;
    uint8_t *sheet = malloc(room->bytes);
    if (sheet == NULL) {
        fprintf(stderr, "progress: there is too little memory\n");
        return 2;
    }
    int status = finish(room, position, sheet, about);
    free(sheet);
    return status;
}

int main(int argc, char **argv)
{
    uint64_t states = 0, needs[3];
    struct question about = {.asked = argc == 4};
    if (argc < 2 || argc > 4 || (argc > 2 && !read_number(argv[2], 1, &states)) ||
        (about.asked && !read_number(argv[3], 0, &about.state))) {
        fprintf(stderr, "usage: progress TEXT [STATES [STATE]]\n");
        return 2;
    }
    if (!read_file(argv[1]))
        return 2;
    /* A second interrupt ends the program at once. */
    sigaction(SIGINT, &(struct sigaction){.sa_handler = interrupt, .sa_flags = SA_RESTART | SA_RESETHAND}, NULL);

    uint64_t said = nutseason_reserve(text, text_len, needs, 3);
    if (nutseason_answer(said) != 'r') {
        tell_refusal("reserve", said);
        return 2;
    }
    printf("reserve: entries %" PRIu64 ", bytes %" PRIu64 ", trials %" PRIu64 "\n", needs[0], needs[1], needs[2]);
    fflush(stdout);
    if (states == 0)
        states = TRIALS_IN_PORTION / (needs[2] / needs[0]);

    struct room room = {.entries = needs[0], .bytes = needs[1]};
    room.first = malloc(room.entries * sizeof *room.first);
    room.second = malloc(room.entries * sizeof *room.second);
    int status = 2;
    if (room.first == NULL || room.second == NULL)
        fprintf(stderr, "progress: there is too little memory\n");
    else
        status = search_and_finish(&room, states, about);
    free(room.first);
    free(room.second);
    if (fflush(stdout) != 0 || ferror(stdout)) {
        fprintf(stderr, "progress: standard output cannot be written\n");
        return 2;
    }
    return status;
}
