/* The twins' evaluation of a model's code, with one choice word at a time and
 * with 64. */
#ifndef TWIN_STEPPING_H
#define TWIN_STEPPING_H

#include "twin_reading.h"

/* ---- one choice word at a time ---- */

/* Values and masks are stacks of bits with the top in bit 0. */
struct machine {
    uint64_t stack;
    uint32_t mask;
    uint32_t state;
};

static struct machine run(int from, int to, uint32_t state, uint32_t word)
{
    uint64_t stack = 0;
    uint32_t mask = 1;
    for (int i = from; i < to; i++) {
        uint32_t argument = code[i] & 31;
        switch (code[i] >> 5) {
        case PUSH:
            stack = stack << 1 | (argument & 1);
            break;
        case LOAD:
            stack = stack << 1 | (state >> argument & 1);
            break;
        case CHOOSE:
            stack = stack << 1 | (word >> argument & 1);
            break;
        case NEGATE:
            stack ^= 1;
            break;
        case BOTH:
            stack = stack >> 1 & (stack | ~(uint64_t)1);
            break;
        case EITHER:
            stack = stack >> 1 | (stack & 1);
            break;
        case STORE:
            if (mask & 1)
                state = (state & ~(1u << argument))
                      | (uint32_t)(stack & 1) << argument;
            stack >>= 1;
            break;
        case WHEN:
            mask = mask << 1 | (mask & (uint32_t)stack & 1);
            stack >>= 1;
            break;
        case OTHERWISE:
            mask = (mask & ~1u) | (mask >> 1 & ~mask & 1);
            break;
        case DONE:
            mask >>= 1;
            break;
        default:
            break;
        }
    }
    return (struct machine){stack, mask, state};
}

static int holds(int segment, uint32_t state)
{
    int from = segment ? ends[segment - 1] : 0;
    return (run(from, ends[segment], state, 0).stack & 1)
        && (run(ends[segment], ends[segment + 1], state, 0).stack & 1);
}

static int starts(uint32_t state)
{
    return holds(0, state);
}

static int breaks(uint32_t state)
{
    return !holds(2, state);
}

static uint32_t step(int command, uint32_t state, uint32_t word)
{
    return run(ends[3 + command], ends[4 + command], state, word).state;
}

/* ---- 64 choice words at a time ---- */

/* Lane l of a cell belongs to the word 64 * batch + l. */
static uint64_t star_lanes(uint32_t star, uint32_t batch)
{
    static const uint64_t low[6] = {
        0xaaaaaaaaaaaaaaaa, 0xcccccccccccccccc, 0xf0f0f0f0f0f0f0f0,
        0xff00ff00ff00ff00, 0xffff0000ffff0000, 0xffffffff00000000};
    return star < 6 ? low[star] : -(uint64_t)(batch >> (star - 6) & 1);
}

/* The states after a command for the 64 words of a batch, from one state. */
static void step_lanes(int command, uint32_t state, uint32_t batch,
                       uint16_t targets[64])
{
    uint64_t bits[32], values[64], masks[32];
    int top = -1, outer = 0;
    for (int j = 0; j < names; j++)
        bits[j] = -(uint64_t)(state >> j & 1);
    masks[0] = ~(uint64_t)0;
    for (int i = ends[3 + command]; i < ends[4 + command]; i++) {
        uint32_t argument = code[i] & 31;
        switch (code[i] >> 5) {
        case PUSH:
            values[++top] = -(uint64_t)(argument & 1);
            break;
        case LOAD:
            values[++top] = bits[argument];
            break;
        case CHOOSE:
            values[++top] = star_lanes(argument, batch);
            break;
        case NEGATE:
            values[top] = ~values[top];
            break;
        case BOTH:
            top--;
            values[top] &= values[top + 1];
            break;
        case EITHER:
            top--;
            values[top] |= values[top + 1];
            break;
        case STORE:
            bits[argument] ^= (bits[argument] ^ values[top--]) & masks[outer];
            break;
        case WHEN:
            masks[outer + 1] = masks[outer] & values[top--];
            outer++;
            break;
        case OTHERWISE:
            masks[outer] = masks[outer - 1] & ~masks[outer];
            break;
        case DONE:
            outer--;
            break;
        default:
            break;
        }
    }
    /* Four lanes at once, in fields of 16 bits. */
    for (int r = 0; r < 16; r++) {
        uint64_t four = 0;
        for (int j = names; j-- > 0;)
            four = four << 1 | (bits[j] >> r & 0x0001000100010001);
        targets[r] = (uint16_t)four;
        targets[r + 16] = (uint16_t)(four >> 16);
        targets[r + 32] = (uint16_t)(four >> 32);
        targets[r + 48] = (uint16_t)(four >> 48);
    }
}

/* ---- either ---- */

/* The state after a command. A batch of lanes is made where its first word is
 * asked for, so a command's words are to be asked for in ascending order. */
static inline uint32_t after(int lanes, int command, uint32_t state,
                             uint32_t word, uint16_t batch[64])
{
    if (!lanes)
        return step(command, state, word);
    if (word % 64 == 0)
        step_lanes(command, state, word / 64, batch);
    return batch[word % 64];
}

#endif
