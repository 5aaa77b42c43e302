/* The reader and the acceptance test in plain C. */
#include "twin.h"
#include "twin_stepping.h"

uint64_t twin_read(const uint8_t *bytes, size_t size)
{
    uint64_t refusal = text_refused(bytes, size);
    if (refusal)
        return refusal;
    return 'm' | (uint64_t)shared << 8 | (uint64_t)row << 16
         | (uint64_t)commands << 24;
}

/* ---- the sheet ---- */

static const uint8_t *sheet;
static int sheet_length;
static const uint8_t *map;

static uint32_t number(const uint8_t *bytes, int count)
{
    uint32_t n = 0;
    while (count-- > 0)
        n = n << 8 | bytes[count];
    return n;
}

static int is_record(int from, uint32_t kind, uint32_t size)
{
    return from + 6 <= sheet_length && number(sheet + from, 4) == size
        && number(sheet + from + 4, 2) == kind
        && size <= (uint32_t)(sheet_length - from - 6);
}

static uint64_t refused(int refusal, int from)
{
    return (uint64_t)refusal | (uint64_t)from << 8;
}

static uint64_t map_refused(int size)
{
    map = sheet + 15;
    if (states < 8 && map[0] >> states)
        return refused(9, 9);
    if (sheet_length > 15 + size)
        return refused(9, 15 + size);
    return 0;
}

static uint64_t trace_refused(void)
{
    map = NULL;
    if (!is_record(9, 3, 2))
        return refused(9, 9);
    if (number(sheet + 15, 2) >= (uint32_t)states)
        return refused(10, 9);
    for (int from = 17; from < sheet_length; from += 10) {
        if (!is_record(from, 4, 4))
            return refused(9, from);
        if (sheet[from + 6] >= commands
            || sheet[from + 7] >> stars[sheet[from + 6]]
            || number(sheet + from + 8, 2) >= (uint32_t)states)
            return refused(10, from);
    }
    return 0;
}

/* The first refusal of the sheet, or 0; without a map it is then a trace. */
static uint64_t sheet_refused(const uint8_t *bytes, size_t size)
{
    int map_size = states < 8 ? 1 : states / 8;
    if (size > NUTSEASON_LONGEST_SHEET)
        return refused(9, NUTSEASON_LONGEST_SHEET);
    sheet = bytes;
    sheet_length = (int)size;
    if (!is_record(0, 1, 3))
        return refused(9, 0);
    if (sheet[6] != shared || sheet[7] != row || sheet[8] != commands)
        return refused(10, 0);
    return is_record(9, 2, map_size) ? map_refused(map_size)
                                     : trace_refused();
}

/* ---- its conditions ---- */

static int member(uint32_t state)
{
    return map[state >> 3] >> (state & 7) & 1;
}

static int leaves(uint32_t state, int command, int lanes)
{
    uint16_t batch[64];
    uint32_t words = 1u << stars[command];
    for (uint32_t word = 0; word < words; word++)
        if (!member(after(lanes, command, state, word, batch)))
            return 1;
    return 0;
}

static char test_map(int lanes)
{
    int begun = 0;
    for (int s = 0; s < states; s++)
        if (starts(s)) {
            begun = 1;
            if (!member(s))
                return 'A';
        }
    for (int s = 0; s < states; s++)
        if (member(s) && breaks(s))
            return 'B';
    for (int s = 0; s < states; s++)
        if (member(s))
            for (int c = 0; c < commands; c++)
                if (leaves(s, c, lanes))
                    return 'C';
    return begun ? 's' : 'v';
}

static char test_trace(void)
{
    uint32_t state = number(sheet + 15, 2);
    if (!starts(state))
        return 'D';
    for (int from = 17; from < sheet_length; from += 10) {
        uint32_t next = number(sheet + from + 8, 2);
        if (step(sheet[from + 6], state, sheet[from + 7]) != next)
            return 'E';
        state = next;
    }
    return breaks(state) ? 't' : 'F';
}

uint64_t twin_test(const uint8_t *bytes, size_t size, const uint8_t *tested,
                   size_t tested_size, int lanes)
{
    uint64_t refusal = text_refused(bytes, size);
    if (!refusal)
        refusal = sheet_refused(tested, tested_size);
    if (refusal)
        return refusal;
    return map ? test_map(lanes) : test_trace();
}
