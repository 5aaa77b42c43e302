/* The search in plain C: the sheet has the trace of the first breaking run, or
 * the map of the states that runs reach, of which there are none where nothing
 * starts. With a map the number of trials is returned too: of states, commands
 * and choice words by which a step was tried. */
#include <stdio.h>
#include <stdlib.h>

#include "twin.h"
#include "twin_stepping.h"

/* ---- the states met ---- */

static uint16_t *queue;         /* in the order of their meeting */
static uint16_t *parent;        /* whence, plus 1; 0 is not met */
static int met;
static uint64_t trials;

/* Puts a state in the queue; whether it breaks the property. */
static int enqueue(uint32_t state, uint32_t whence)
{
    parent[state] = (uint16_t)(whence + 1);
    queue[met++] = (uint16_t)state;
    return breaks(state);
}

/* Whether a breaking state is met; it is then the queue's last. */
static int search(int lanes)
{
    uint16_t batch[64];
    for (int s = 0; s < states; s++)
        if (starts(s) && enqueue(s, s))
            return 1;
    for (int head = 0; head < met; head++) {
        uint32_t state = queue[head];
        for (int c = 0; c < commands; c++) {
            uint32_t words = 1u << stars[c];
            for (uint32_t word = 0; word < words; word++) {
                uint32_t target = after(lanes, c, state, word, batch);
                if (!parent[target] && enqueue(target, state))
                    return 1;
            }
            trials += words;
        }
    }
    return 0;
}

/* ---- the sheet ---- */

static uint8_t *sheet;

static void put_number(int from, uint32_t number, int count)
{
    for (int j = 0; j < count; j++)
        sheet[from + j] = (uint8_t)(number >> 8 * j);
}

/* The length and kind of a record; where its payload begins. */
static int put_head(int from, int size, int kind)
{
    put_number(from, size, 4);
    put_number(from + 4, kind, 2);
    return from + 6;
}

static void put_counts(void)
{
    int payload = put_head(0, 3, 1);
    sheet[payload] = (uint8_t)shared;
    sheet[payload + 1] = (uint8_t)row;
    sheet[payload + 2] = (uint8_t)commands;
}

/* The map of the states met; how long the sheet is. */
static int put_map(void)
{
    int size = states < 8 ? 1 : states / 8;
    int payload = put_head(9, size, 2);
    memset(sheet + payload, 0, size);
    for (int s = 0; s < states; s++)
        sheet[payload + s / 8] |= (uint8_t)((parent[s] != 0) << s % 8);
    return payload + size;
}

static void fail(const char *what)
{
    fprintf(stderr, "twin: %s\n", what);
    exit(2);
}

/* A step's record, with the first move from one state to the other. */
static void put_step(int lanes, int from, uint32_t state, uint32_t target)
{
    uint16_t batch[64];
    int payload = put_head(from, 4, 4);
    put_number(payload + 2, target, 2);
    for (int c = 0; c < commands; c++) {
        uint32_t words = 1u << stars[c];
        for (uint32_t word = 0; word < words; word++)
            if (after(lanes, c, state, word, batch) == target) {
                sheet[payload] = (uint8_t)c;
                sheet[payload + 1] = (uint8_t)word;
                return;
            }
    }
    fail("a state without a move that leads to it");
}

/* The trace to the queue's last state, step by step from its end; how long
 * the sheet is. */
static int put_trace(int lanes)
{
    uint32_t state = queue[met - 1];
    int steps = 0;
    for (uint32_t s = state; parent[s] - 1u != s; s = parent[s] - 1u)
        steps++;
    for (int i = steps; i > 0; i--) {
        uint32_t before = parent[state] - 1u;
        put_step(lanes, 7 + 10 * i, before, state);
        state = before;
    }
    put_number(put_head(9, 2, 3), state, 2);
    return 17 + 10 * steps;
}

static void clear(uint16_t *table)
{
    memset(table, 0, states * sizeof *table);
}

uint64_t twin_search(const uint8_t *bytes, size_t size,
                     uint16_t *first, size_t first_len,
                     uint16_t *second, size_t second_len,
                     uint8_t *room, size_t room_len, int lanes)
{
    uint64_t refusal = text_refused(bytes, size);
    if (refusal)
        return refusal;
    if (first_len < (size_t)states || second_len < (size_t)states
        || room_len < 7 + 10 * (size_t)states)
        return 8;
    queue = first;
    parent = second;
    sheet = room;
    met = 0;
    trials = 0;
    clear(parent);
    put_counts();
    int found = search(lanes);
    int written = found ? put_trace(lanes) : put_map();
    clear(queue);
    clear(parent);
    return (found ? 'u' : met ? 's' : 'v') | (uint64_t)written << 8
         | (found ? 0 : trials) << 24;
}
