/* Calls a function of the product and its twins on the same text and sheet,
 * compares what they say and leave, and measures them in turns.
 *
 *   calls read TURNS TEXT SHEET
 *   calls test TURNS TEXT SHEET
 *   calls search TURNS TEXT SHEET     the sheet is the one to be written
 *
 * It writes the number that all of them answer, and a line for each, the
 * product's first, then the twin with one choice word at a time and the twin
 * with 64: the bytes of stack that a call takes, and the least processor time
 * of a call in nanoseconds, 0 after no turns. A difference ends it with 1. */
#include <stdio.h>
#include <stdlib.h>
#include <string.h>
#include <time.h>
#include <ucontext.h>

#include "twin.h"

enum { STACK = 1 << 20, MARGIN = 64, NOISE = 0xa5 };

/* In nanoseconds: how long a turn takes, and what can be timed, at the least. */
static const double TURN = 0.3e9;
static const double TIMED = 0.05e9;

/* Moves all code behind it in the program by so many bytes. */
__asm__(".text\n.skip " PADDING);

static uint8_t text[NUTSEASON_LONGEST_TEXT + 1];
static uint8_t sheet[NUTSEASON_LONGEST_SHEET + 1];
static size_t text_len, sheet_len;

/* What is lent is longer than what is needed, to see that the rest stays. */
struct lent {
    uint16_t first[NUTSEASON_MOST_STATES + MARGIN];
    uint16_t second[NUTSEASON_MOST_STATES + MARGIN];
    uint8_t sheet[NUTSEASON_SHEET_ROOM + MARGIN];
};

static struct lent lent;

/* ---- who is called ---- */

typedef uint64_t contender(void);

static uint64_t product_reads(void)
{
    return nutseason_read(text, text_len);
}

static uint64_t twin_reads(void)
{
    return twin_read(text, text_len);
}

static uint64_t product_tests(void)
{
    return nutseason_test(text, text_len, sheet, sheet_len);
}

static uint64_t twin_tests(void)
{
    return twin_test(text, text_len, sheet, sheet_len, 0);
}

static uint64_t lanes_test(void)
{
    return twin_test(text, text_len, sheet, sheet_len, 1);
}

#define LENT lent.first, NUTSEASON_MOST_STATES + MARGIN, \
             lent.second, NUTSEASON_MOST_STATES + MARGIN, \
             lent.sheet, NUTSEASON_SHEET_ROOM + MARGIN

static uint64_t product_searches(void)
{
    return nutseason_search(text, text_len, LENT);
}

static uint64_t twin_searches(void)
{
    return twin_search(text, text_len, LENT, 0);
}

static uint64_t lanes_search(void)
{
    return twin_search(text, text_len, LENT, 1);
}

static const struct {
    const char *name;
    contender *calls[3];        /* the product's first, NULL behind the last */
} functions[] = {
    {"read", {product_reads, twin_reads, NULL}},
    {"test", {product_tests, twin_tests, lanes_test}},
    {"search", {product_searches, twin_searches, lanes_search}},
};

/* ---- the stack of a call ---- */

static uint8_t stack[STACK];
static ucontext_t outside, inside;
static contender *called;
static uint64_t said;

static void call_inside(void)
{
    said = called();
}

/* Calls on a stack of its own; how many bytes are no longer as they were. */
static int stack_used(contender *call)
{
    int untouched = 0;
    memset(stack, NOISE, sizeof stack);
    called = call;
    getcontext(&inside);
    inside.uc_stack.ss_sp = stack;
    inside.uc_stack.ss_size = sizeof stack;
    inside.uc_link = &outside;
    makecontext(&inside, call_inside, 0);
    swapcontext(&outside, &inside);
    while (stack[untouched] == NOISE)
        untouched++;
    return STACK - untouched;
}

static uint64_t nothing(void)
{
    return 0;
}

/* ---- comparing ---- */

static void differ(const char *what)
{
    fprintf(stderr, "calls: the %s differs\n", what);
    exit(1);
}

/* Calls each once, with noise in the buffers; what all of them say. */
static uint64_t compare(contender *const *calls, int count, int searching,
                        int used[3])
{
    static struct lent left;
    uint64_t answer = 0;
    int around = stack_used(nothing);
    for (int j = 0; j < count; j++) {
        memset(&lent, NOISE, sizeof lent);
        used[j] = stack_used(calls[j]) - around;
        if (j == 0) {
            answer = said;
            left = lent;
        }
        if (said != answer)
            differ("answer");
        if (memcmp(&left, &lent, sizeof lent) != 0)
            differ("content of the lent buffers");
    }
    if (searching && memcmp(lent.sheet, sheet, sheet_len) != 0)
        differ("sheet");
    return answer;
}

/* ---- measuring ---- */

static double now(void)
{
    struct timespec t;
    clock_gettime(CLOCK_PROCESS_CPUTIME_ID, &t);
    return t.tv_sec * 1e9 + t.tv_nsec;
}

static double timed(contender *call, long times)
{
    double before = now();
    for (long i = 0; i < times; i++)
        call();
    return now() - before;
}

/* The least time of a call in a turn. Calls that are too short to be timed one
 * by one are timed together. */
static double turn(contender *call)
{
    long times = 1;
    double took, least = 0;
    for (double spent = 0; spent < TURN; spent += took) {
        took = timed(call, times);
        if (took < TIMED)
            times *= 2;
        else if (least == 0 || took / times < least)
            least = took / times;
    }
    return least;
}

static void measure(contender *const *calls, int count, int turns,
                    double least[3])
{
    for (int i = 0; i < turns; i++)
        for (int j = 0; j < count; j++) {
            double each = turn(calls[j]);
            if (i == 0 || each < least[j])
                least[j] = each;
        }
}

static size_t read_file(const char *path, uint8_t *room, size_t size)
{
    FILE *file = fopen(path, "rb");
    if (file == NULL) {
        perror(path);
        exit(2);
    }
    size_t len = fread(room, 1, size, file);
    fclose(file);
    return len;
}

int main(int argc, char **argv)
{
    int count = 0, chosen = 0, used[3];
    double least[3] = {0};
    while (argc == 5 && chosen < 3 && strcmp(argv[1], functions[chosen].name))
        chosen++;
    if (argc != 5 || chosen == 3) {
        fprintf(stderr, "usage: calls read|test|search TURNS TEXT SHEET\n");
        return 2;
    }
    text_len = read_file(argv[3], text, sizeof text);
    sheet_len = read_file(argv[4], sheet, sizeof sheet);
    contender *const *calls = functions[chosen].calls;
    while (count < 3 && calls[count])
        count++;
    int searching = calls[0] == product_searches;
    uint64_t answer = compare(calls, count, searching, used);
    measure(calls, count, atoi(argv[2]), least);
    printf("%llu\n", (unsigned long long)answer);
    for (int j = 0; j < count; j++)
        printf("%d %.1f\n", used[j], least[j]);
    return 0;
}
