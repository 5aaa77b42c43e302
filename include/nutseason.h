/* Nutseason for programs in C: the reader and the acceptance test (libloader.a); and the search, in one go or in
 * portions, its reservations, questions about states, a player that walks a trace, and bursts in a trace
 * (libworkbench.a). They are installed as libnutseason_loader.a and libnutseason_workbench.a;
 * `pkg-config --libs nutseason` names both.
 *
 * Every function is proved: it ends on all inputs, touches nothing but what it is handed, keeps nothing between
 * calls, and needs no heap. It answers with one number. The low byte says which answer it is, and the rest,
 * number / 256, is a place, three counts, a length with a number of trials, where a search stands, a number of steps,
 * or how often a command occurs with a place; it is 0 where there is nothing to say.
 *
 * What a caller owes: a pointer with its length is memory that the call may read, and write where it is not const;
 * a table or list is aligned as its type asks; no two of the arguments overlap where one of them is written; and
 * nothing else writes them during the call. A pointer whose length is 0 is not followed.
 *
 * In a text, names that differ only in the case of their letters are one name; reserved words are written in small
 * letters, and in any other case they can stand nowhere.
 *
 * The refusals, with what their place says. Places count bytes from 0.
 *
 *    1  the text is longer than 16,384 bytes                        16384
 *    2  a byte that no text may have, or a word over 16 bytes       the byte, or the first byte of the word
 *    3  a token that cannot stand here, or an end too early         the token, or the text's length
 *    4  a name that is taken already                                the second of the two
 *    5  a name that is not declared, or of the wrong kind           the name
 *    6  a star after `start` or `keep`                              the star
 *    7  one name, command, item, node, star or depth too many       the token that is too many
 *    8  a lent table, sheet buffer or list of needs is too short    0
 *       or a player's record has fewer than two entries             0
 *       or a list of steps or of counts has too few places          0
 *    9  the sheet's records are not in form                         the record, or 65536 where the sheet is too long
 *   10  a number in the sheet does not fit the model                the record
 *       or a question is about a state that the model has not       0
 *       or about a command that the model has not                   0
 *   16  a stretch is to have no steps, or more than 4,095           0
 */
#ifndef NUTSEASON_H
#define NUTSEASON_H

#include <stddef.h>
#include <stdint.h>

#ifdef __cplusplus
extern "C" {
#endif

/* The largest that can be asked for: a longer text or sheet is refused by its length alone, and no search needs more
 * room. What a search of one text needs, nutseason_reserve tells. In a sheet a step takes ten bytes behind the first
 * seventeen, so no trace has more steps than these. */
enum {
    NUTSEASON_LONGEST_TEXT = 16384,
    NUTSEASON_LONGEST_SHEET = 65536,
    NUTSEASON_MOST_STATES = 4096,
    NUTSEASON_SHEET_ROOM = 7 + 10 * NUTSEASON_MOST_STATES,
    NUTSEASON_MOST_STEPS = (NUTSEASON_LONGEST_SHEET - 17) / 10,
    NUTSEASON_MOST_COMMANDS = 16,
    NUTSEASON_GREATEST_WIDTH = 4095
};

/* Which answer it is: a letter, or the number of a refusal. */
static inline unsigned nutseason_answer(uint64_t said)
{
    return (unsigned)(said & 255);
}

/* The place, the counts or the number of steps that come with it. What comes with the verdict of a search, the next two
 * tell; where a search stands that is not finished, the four behind them; and what comes with a burst, the last two. */
static inline uint64_t nutseason_rest(uint64_t said)
{
    return said >> 8;
}

/* After 's', 'v' or 'u' of nutseason_search and nutseason_finish: how many bytes the sheet has. */
static inline size_t nutseason_length(uint64_t said)
{
    return (size_t)(said >> 8 & 65535);
}

/* After 's' of the same: how many trials were made; after 'v' and 'u' 0. */
static inline uint64_t nutseason_trials(uint64_t said)
{
    return said >> 24;
}

/* Of a position ('p' or 'e' of nutseason_open and nutseason_portion): whether the search is at its end. */
static inline int nutseason_ended(uint64_t position)
{
    return nutseason_answer(position) == 'e';
}

/* Whether it is because the state met last breaks the property: then the model is unsafe. */
static inline int nutseason_broke(uint64_t position)
{
    return (int)(position >> 8 & 1);
}

/* How many states are expanded. */
static inline unsigned nutseason_states_expanded(uint64_t position)
{
    return (unsigned)(position >> 9 & 8191);
}

/* How many states are met, those expanded among them. */
static inline unsigned nutseason_states_met(uint64_t position)
{
    return (unsigned)(position >> 22 & 8191);
}

/* After 'b' of nutseason_burst: how often at most the command occurs in a stretch. */
static inline unsigned nutseason_most(uint64_t said)
{
    return (unsigned)(said >> 8 & 65535);
}

/* And the place where the first such stretch starts. */
static inline unsigned nutseason_first_place(uint64_t said)
{
    return (unsigned)(said >> 24 & 65535);
}

/* Reads a text. 'm': it says a model, and the next three bytes of the answer are its counts of shared names
 * (bits 8 to 15), row names (16 to 23) and commands (24 to 31). 1 to 7: the text's first refusal, and its place. */
uint64_t nutseason_read(const uint8_t *text, size_t text_len);

/* Tests a sheet for the model that a text says. 's': the sheet is a map, and safe holds: over a table of any number
 * of rows from 1 there is a start state, and no run of any length breaks the property. 'v': the sheet is a map that
 * passes, with members or without, but the model is void: no such table has a start state, and so none has a run.
 * 't': it is a trace, and it holds: over every such table it is a run that ends in a broken property. 'A' to 'F':
 * the first condition that fails, also where the model is void. 1 to 7: the refusal of the text, which comes first;
 * 9 and 10: that of the sheet. A design is to be admitted after 's' alone. */
uint64_t nutseason_test(const uint8_t *text, size_t text_len, const uint8_t *sheet, size_t sheet_len);

/* Tells from a text alone what a search of its model takes at most. With k names there are 2^k states. 'r': needs[0]
 * is the entries of each table, 2^k; needs[1] the bytes of the sheet buffer, 7 + 10 * 2^k; and needs[2] the trials,
 * where a trial runs one command from one state with one choice word: 2^k times the choice words of all commands, of
 * which a command with j stars has 2^j. What stands in the list beyond these three stays. With that room no search of
 * the text is refused; with an entry or a byte less it is, by 8. 1 to 7: the text's refusal, with the place; 8: the
 * text is read, but the list has fewer than three entries. The list is then as it was. */
uint64_t nutseason_reserve(const uint8_t *text, size_t text_len, uint64_t *needs, size_t needs_len);

/* Searches the table of one row, with the room that nutseason_reserve tells, or more. 's', 'v' or 'u': the model is
 * safe, void or unsafe, the buffer begins with its sheet, which is nutseason_length(said) bytes long, and the first
 * 2^k entries of both tables are 0; all else is as it was, and nutseason_test then answers 's', 'v' or 't' to the same
 * text and that sheet. A void model has no start state, and its sheet the map without members. After 's',
 * nutseason_trials(said) is the number of trials made, the members of the map times the choice words of all commands;
 * after 'v' none were made, and after 'u' none are told. 1 to 8: the call is refused, with the place, and every buffer
 * is as it was. What the buffers hold beforehand does not matter. */
uint64_t nutseason_search(const uint8_t *text, size_t text_len, uint16_t *first, size_t first_len,
                          uint16_t *second, size_t second_len, uint8_t *sheet, size_t sheet_len);

/* The same search in portions: nutseason_open, then nutseason_portion any number of times, then nutseason_finish. To
 * expand a state is to try every command from it with every choice word; what that leads to is met, and so are the
 * start states. The search is at its end once a state is met that breaks, or once all that are met are expanded.
 *
 * In between, all there is of it is with the caller: the position, which is a number with the low byte 'p' or, at the
 * end, 'e'; and the first 2^k entries of both tables. As long as each call is handed the text, and these as the call
 * before left them, any portions come to the answer, the sheet and the tables that nutseason_search leaves. The tables
 * may have moved, and been kept in a file; from copies a search can be taken up more than once.
 *
 * Where position, text or such an entry was altered, a call still ends, is refused just where it would have been, and
 * writes nothing but the first 2^k entries of the tables and, in nutseason_finish, the first 7 + 10 * 2^k bytes of the
 * sheet buffer. Where it is not refused, its answer is free and tells nothing, be it a position, a yes, a no or a
 * verdict; and what its sheet is worth, nutseason_test alone tells. */

/* Opens a search, with the tables that nutseason_reserve tells, or longer ones; what they hold does not matter. 'p' or
 * 'e': a position. The start states are met, the lowest first and none behind one that breaks, and no state is
 * expanded. Without a start state the search is at its end. 1 to 8: the call is refused, with the place, and both
 * tables are as they were. */
uint64_t nutseason_open(const uint8_t *text, size_t text_len, uint16_t *first, size_t first_len,
                        uint16_t *second, size_t second_len);

/* Expands so many states more, or fewer up to the end: those that wait, in the order in which they were met, which is
 * the order of their first runs. 'p' or 'e': the next position. A portion of 0 states changes nothing, nor does any
 * portion at the end. At a break the state being expanded stays uncounted, and nothing behind the breaking state is
 * met. 1 to 8: the call is refused, with the place, and both tables are as they were. */
uint64_t nutseason_portion(uint64_t position, uint64_t states, const uint8_t *text, size_t text_len,
                           uint16_t *first, size_t first_len, uint16_t *second, size_t second_len);

/* Asks whether a state is met, at any pause or at the end, before nutseason_finish clears the tables. 'y': it is, so a
 * run of the table of one row leads to it; later pauses say the same. 'n': it is not, and that tells nothing of runs.
 * Until a state breaks, 'y' is said of the start states, of what a step leads to from a state expanded, and of no
 * others. 1 to 8: refused, with the place; then 10, with place 0, for a state from 2^k up. */
uint64_t nutseason_met(uint64_t position, uint64_t state, const uint8_t *text, size_t text_len,
                       const uint16_t *first, size_t first_len, const uint16_t *second, size_t second_len);

/* Finishes a search: expands all that is left, writes the sheet, and puts 0 in the first 2^k entries of both tables.
 * It answers and leaves what nutseason_search does, with the trials of all portions together. After a refusal, 8 for a
 * short sheet buffer too, everything is as it was, and the call can be made again. */
uint64_t nutseason_finish(uint64_t position, const uint8_t *text, size_t text_len, uint16_t *first, size_t first_len,
                          uint16_t *second, size_t second_len, uint8_t *sheet, size_t sheet_len);

/* Asks the map of a sheet for a state: what to do once a search has ended as safe or void. 'y' or 'n': the sheet is a
 * map that passes, and the state is a member or not. 'n' means that no run of the table of one row leads to the state,
 * whoever wrote the sheet; 'y', of a sheet that the search wrote, that a run does. Another map that passes may have
 * members besides. 't', 'A' to 'F', 1 to 7, 9 or 10: the sheet is no map that passes, and this is what nutseason_test
 * says; then 10, with place 0, for a state from 2^k up. */
uint64_t nutseason_reached(const uint8_t *text, size_t text_len, const uint8_t *sheet, size_t sheet_len,
                           uint64_t state);

/* A player walks a trace forward and back: nutseason_player opens it, and the three functions behind it move it. All
 * there is of it is its record, the first two entries of a lent list: record[0] is its place, how many steps of the
 * trace are behind it, and record[1] the state there. At place 0 that is the start state, and at any other the state
 * after the step with that number. Either, copied in every row, is a state of the trace's run over every table of one
 * row or more.
 *
 * What is said, in this order: where the sheet is no trace that holds, the answer of nutseason_test: 1 to 7, 9, 10,
 * 's', 'v', or 'A' to 'F', and so never 't'. Then 8, where the list has fewer than two entries. Then, of a move, 'f':
 * the record is foreign, its place is beyond the trace's last step, or its state is not the one that the trace has
 * there. Then 'e': it is at an end, and the move leads nowhere. Else 'o' after opening, and 'm' after a move. Only
 * these two change the record, and what stands in the list beyond it always stays.
 *
 * The record may be copied, kept in a file, and handed back with the same text and sheet. Handed back with another
 * sheet, or altered, it is told to be foreign, unless the sheet has just that state at that place: then nothing tells
 * it from a record that was moved there. */

/* Opens a player. 'o': opened; the record is place 0 and the start state, whatever the list held. */
uint64_t nutseason_player(const uint8_t *text, size_t text_len, const uint8_t *sheet, size_t sheet_len,
                          uint64_t *record, size_t record_len);

/* One step forward. 'm': moved; the record is the next place, with the state there, and nutseason_back says 'm' of it
 * and restores both entries. 'e': the record is at the last place. */
uint64_t nutseason_forward(const uint8_t *text, size_t text_len, const uint8_t *sheet, size_t sheet_len,
                           uint64_t *record, size_t record_len);

/* One step back. 'm': moved; the record is the place before, with the state there, and nutseason_forward says 'm' of it
 * and restores both entries. 'e': the record is at place 0. */
uint64_t nutseason_back(const uint8_t *text, size_t text_len, const uint8_t *sheet, size_t sheet_len,
                        uint64_t *record, size_t record_len);

/* To the beginning. 'm': moved, which is said at place 0 too; the record is the one that nutseason_player gives. 'e' is
 * never said. */
uint64_t nutseason_beginning(const uint8_t *text, size_t text_len, const uint8_t *sheet, size_t sheet_len,
                             uint64_t *record, size_t record_len);

/* Bursts in a trace: where commands occur most densely. The place of a step is its number, from 1. A stretch is as many
 * consecutive steps as its width says, and its place is that of its first step; a trace that is not longer than the
 * width is one stretch as a whole, from place 1, even without a step.
 *
 * What is said, in this order: where the sheet is no trace that holds, the answer of nutseason_test: 1 to 7, 9, 10,
 * 's', 'v', or 'A' to 'F', and so never 't'. Then 8, where the list has fewer places than the trace has steps, or the
 * list of counts fewer than 16. Then, of nutseason_burst, 10 for a command that the model has not, and 16 for a width
 * of 0 or over 4,095. These three have place 0. Else 'n' or 'b': the list begins with the steps of the trace, in their
 * order, whatever it held, and what stands behind the last step stays. With every other answer all of the list stays,
 * and so do all counts. A list of NUTSEASON_MOST_STEPS places is never too short. */

/* A step: its command, counted from 0 in the order of the text, its choice word, and the state after it. */
struct nutseason_step {
    uint8_t command;
    uint8_t word;
    uint16_t after;
};

/* Lists the steps. 'n': nutseason_rest(said) is how many there are. */
uint64_t nutseason_steps(const uint8_t *text, size_t text_len, const uint8_t *sheet, size_t sheet_len,
                         struct nutseason_step *list, size_t list_len);

/* Lists the steps, and looks for the stretch of this width in which a command occurs most often. 'b': it occurs
 * nutseason_most(said) times in the stretch from nutseason_first_place(said) on, less often in each that starts before,
 * and in none more often. A command that does not occur has 0 times, from place 1. */
uint64_t nutseason_burst(const uint8_t *text, size_t text_len, const uint8_t *sheet, size_t sheet_len,
                         struct nutseason_step *list, size_t list_len, uint64_t command, uint64_t width);

/* Lists the steps, and counts them by command. 'n': nutseason_rest(said) is how many there are, and counts[0] to
 * counts[15] are how many of each command, 0 for those beyond the model's; together they are all steps. What stands in
 * the counts beyond the sixteenth stays. */
uint64_t nutseason_counts(const uint8_t *text, size_t text_len, const uint8_t *sheet, size_t sheet_len,
                          struct nutseason_step *list, size_t list_len, uint16_t *counts, size_t counts_len);

#ifdef __cplusplus
}
#endif

#endif
