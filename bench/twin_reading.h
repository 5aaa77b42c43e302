/* The twins' reader: from a text to the code of its model, or to the text's
 * first refusal. */
#ifndef TWIN_READING_H
#define TWIN_READING_H

#include <setjmp.h>
#include <stdint.h>
#include <string.h>

enum { LONGEST_CODE = 2048 };

/* The limits of a text. */
enum { LONGEST_TEXT = 16384, LONGEST_WORD = 16, MOST_SHARED = 8, MOST_ROW = 10,
       MOST_NAMES = 12, MOST_COMMANDS = 16, MOST_STARS = 8, MOST_NODES = 1024,
       MOST_ITEMS = 256, DEEPEST = 16 };

/* The refusals. */
enum { TOO_LONG = 1, NO_TOKEN, MISPLACED, DECLARED_BEFORE, WRONG_NAME,
       STRAY_STAR, OVER_LIMIT };

/* A code word is a kind times 32 and an argument below 32. Operands come
 * before their operator; a test comes before WHEN, its first branch ends at
 * OTHERWISE and its second at DONE. */
enum { PUSH, LOAD, CHOOSE, NEGATE, BOTH, EITHER, STORE, WHEN, OTHERWISE, DONE,
       PASS };

static uint16_t code[LONGEST_CODE];
static int length;              /* code words so far */
/* The code of start, its each, keep, its each and the commands ends there. */
static int ends[4 + MOST_COMMANDS];
static int stars[MOST_COMMANDS]; /* free choices of each command */
static int shared, row, commands, names, states;

static const uint8_t *text;
static int text_length, place;
/* In small letters, as names are compared; "" at the text's end, "!" where it
 * can stand nowhere. */
static char token[LONGEST_WORD + 1];
static int token_place;
static int fault;               /* how it is refused where it may not stand */
static int nodes, item_count;
static int all_names;           /* the names and the commands' */
static char declared[MOST_NAMES + MOST_COMMANDS][LONGEST_WORD + 1];

static jmp_buf outside;
static uint64_t first_refusal;

static _Noreturn void refuse(int number)
{
    first_refusal = (uint64_t)number | (uint64_t)token_place << 8;
    longjmp(outside, 1);
}

/* A byte of a word, in small letters; 0 where it is of no word. */
static int word_byte(int byte)
{
    if (byte >= 'a' && byte <= 'z')
        return byte;
    if (byte >= 'A' && byte <= 'Z')
        return byte + 'a' - 'A';
    return (byte >= '0' && byte <= '9') || byte == '_' ? byte : 0;
}

static int at(const char *word)
{
    return strcmp(token, word) == 0;
}

static int is_reserved(void)
{
    static const char words[15][8] = {
        "shared", "row", "start", "keep", "each", "command", "if", "do",
        "else", "for", "end", "skip", "and", "or", "not"};
    for (int j = 0; j < 15; j++)
        if (at(words[j]))
            return 1;
    return 0;
}

/* Takes down a word in small letters and tells its size. */
static int take_word(void)
{
    int size = 0, capitals = 0, byte;
    while (place < text_length && (byte = word_byte(text[place]))
           && size < LONGEST_WORD) {
        capitals |= byte ^ text[place++];
        token[size++] = (char)byte;
    }
    token[size] = 0;
    int too_long = place < text_length && word_byte(text[place]);
    if (too_long)
        fault = NO_TOKEN;
    if (too_long || (capitals && is_reserved())) {
        token[0] = '!';
        size = 1;
    }
    return size;
}

static void next(void)
{
    int size = 0;
    while (place < text_length && (text[place] == ' ' || text[place] == '\n'))
        place++;
    token_place = place;
    fault = MISPLACED;
    if (place < text_length && word_byte(text[place])) {
        size = take_word();
    } else if (place < text_length) {
        switch (text[place]) {
        case ':':
            token[size++] = text[place++];
            if (place < text_length && text[place] == '=')
                token[size++] = text[place++];
            break;
        case '.': case ';': case '(': case ')': case '*': case '=':
            token[size++] = text[place++];
            break;
        default:
            fault = NO_TOKEN;
            token[size++] = '!';
        }
    }
    token[size] = 0;
}

static void pass(const char *word)
{
    if (!at(word))
        refuse(fault);
    next();
}

static int is_name(void)
{
    return token[0] >= 'a' && token[0] <= 'z' && !is_reserved();
}

static void count_node(void)
{
    if (nodes == MOST_NODES)
        refuse(OVER_LIMIT);
    nodes++;
}

static void count_item(void)
{
    if (item_count == MOST_ITEMS)
        refuse(OVER_LIMIT);
    item_count++;
}

static void emit(int kind, int argument)
{
    code[length++] = (uint16_t)(kind * 32 + argument);
}

/* The number of the token among the names from..to. */
static int name_number(int from, int to)
{
    for (int j = from; j < to; j++)
        if (at(declared[j]))
            return j;
    refuse(is_name() ? WRONG_NAME : fault);
}

/* Whether row names and stars may stand in an expression. */
struct scope {
    int rows, stars;
};

static void disjunction(int *choices, struct scope scope, int depth);

static void factor(int *choices, struct scope scope, int depth)
{
    if (at("not")) {
        if (depth == 0)
            refuse(OVER_LIMIT);
        count_node();
        next();
        factor(choices, scope, depth - 1);
        emit(NEGATE, 0);
    } else if (at("(")) {
        if (depth == 0)
            refuse(OVER_LIMIT);
        next();
        disjunction(choices, scope, depth - 1);
        pass(")");
    } else if (at("0") || at("1")) {
        count_node();
        emit(PUSH, at("1"));
        next();
    } else if (at("*")) {
        if (!scope.stars)
            refuse(STRAY_STAR);
        if (*choices == MOST_STARS)
            refuse(OVER_LIMIT);
        count_node();
        emit(CHOOSE, (*choices)++);
        next();
    } else {
        int j = name_number(0, scope.rows ? names : shared);
        count_node();
        emit(LOAD, j);
        next();
    }
}

static void conjunction(int *choices, struct scope scope, int depth)
{
    factor(choices, scope, depth);
    while (at("and")) {
        count_node();
        next();
        factor(choices, scope, depth);
        emit(BOTH, 0);
    }
}

static void disjunction(int *choices, struct scope scope, int depth)
{
    conjunction(choices, scope, depth);
    while (at("or")) {
        count_node();
        next();
        conjunction(choices, scope, depth);
        emit(EITHER, 0);
    }
}

static void items(int *choices, int rows);

/* Two lists of items behind a test: `do`, the first, `else`, the second. */
static void branches(int *choices, int rows)
{
    disjunction(choices, (struct scope){rows, 1}, DEEPEST);
    pass("do");
    emit(WHEN, 0);
    items(choices, rows);
    pass("else");
    emit(OTHERWISE, 0);
    items(choices, rows);
}

static void item(int *choices, int rows)
{
    if (at("skip")) {
        count_item();
        next();
        emit(PASS, 0);
    } else if (!rows && at("for")) {
        count_item();
        next();
        branches(choices, 1);
        pass("end");
        emit(DONE, 0);
    } else {
        int target = rows ? name_number(shared, names) : name_number(0, shared);
        count_item();
        next();
        pass(":=");
        disjunction(choices, (struct scope){rows, 1}, DEEPEST);
        emit(STORE, target);
    }
}

static void items(int *choices, int rows)
{
    item(choices, rows);
    while (at(";")) {
        next();
        item(choices, rows);
    }
}

static void new_name(void)
{
    for (int j = 0; j < all_names; j++)
        if (at(declared[j]))
            refuse(DECLARED_BEFORE);
}

static void declare(void)
{
    strcpy(declared[all_names++], token);
    next();
}

static int declarations(const char *word, int most)
{
    int before = names;
    pass(word);
    while (is_name()) {
        new_name();
        if (names == MOST_NAMES || names - before == most)
            refuse(OVER_LIMIT);
        declare();
        names++;
    }
    pass(".");
    return names - before;
}

static void clause(const char *word, int segment)
{
    int none = 0;
    pass(word);
    disjunction(&none, (struct scope){0, 0}, DEEPEST);
    ends[segment] = length;
    pass("each");
    disjunction(&none, (struct scope){1, 0}, DEEPEST);
    ends[segment + 1] = length;
    pass(".");
}

static void read_command(void)
{
    if (!at("command"))
        refuse(fault);
    if (commands == MOST_COMMANDS)
        refuse(OVER_LIMIT);
    next();
    if (!is_name())
        refuse(fault);
    new_name();
    declare();
    pass("if");
    branches(&stars[commands], 0);
    pass(".");
    emit(DONE, 0);
    ends[4 + commands++] = length;
}

static void read_text(void)
{
    next();
    shared = declarations("shared", MOST_SHARED);
    row = declarations("row", MOST_ROW);
    clause("start", 0);
    clause("keep", 2);
    do
        read_command();
    while (at("command"));
    if (token[0])
        refuse(fault);
    states = 1 << names;
}

/* The first refusal of the text, or 0 where it was read. */
static uint64_t text_refused(const uint8_t *bytes, size_t size)
{
    if (size > LONGEST_TEXT)
        return TOO_LONG | (uint64_t)LONGEST_TEXT << 8;
    memset(code, 0, sizeof code);
    memset(ends, 0, sizeof ends);
    memset(stars, 0, sizeof stars);
    text = bytes;
    text_length = (int)size;
    place = length = commands = names = all_names = nodes = item_count = 0;
    if (_setjmp(outside))
        return first_refusal;
    read_text();
    return 0;
}

#endif
