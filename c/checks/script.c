/* What a line of a script says, by how many words it has. Words are parted by one space each. */
#include "script.h"

#include <string.h>

enum { MOST_WORDS = 4 };

static const uint64_t MOST = UINT32_MAX;

/* What stands behind a call's name is told by its shape. */
enum shape { NOTHING, PLAIN, LOOK, PAYLOAD, LENGTH, LSN, LSN_LOOK, SIZES };

#define CALL_NAME(NAME, name, shape, word, ...) word,
#define CALL_SHAPE(NAME, name, shape, ...) shape,
static const char *const CALL_NAMES[CALL_COUNT] = {CALLS(CALL_NAME)};
static const enum shape SHAPES[CALL_COUNT] = {CALLS(CALL_SHAPE)};

#define FIELD_NAME(field, type, offset, word, most) word,
#define FIELD_LARGEST(field, type, offset, word, most) most,
static const char *const FIELD_NAMES[FIELD_COUNT] = {FIELDS(FIELD_NAME)};
static const uint64_t FIELD_MOST[FIELD_COUNT] = {FIELDS(FIELD_LARGEST)};

/* The commands of two numbers, with the largest of each. */
#define ENTRY_PAIR(field, type, offset, name, word, most) {word, SET_##field, 63, most},
static const struct pair {
    const char *name;
    enum kind kind;
    uint64_t first;
    uint64_t second;
} PAIRS[] = {{"create", LAY, UINT32_MAX, UINT8_MAX}, {"poke", POKE, UINT32_MAX, UINT8_MAX}, ARRAYS(ENTRY_PAIR)};

struct word {
    const char *at;
    size_t length;
};

static bool is(struct word w, const char *name)
{
    return strlen(name) == w.length && memcmp(name, w.at, w.length) == 0;
}

/* Where a word stands among names; their count where it is none of them. */
static size_t position(struct word w, const char *const *names, size_t count)
{
    size_t i = 0;
    while (i < count && !is(w, names[i]))
        i++;
    return i;
}

/* How many words a line has, and the first four of them. */
static size_t split(const char *line, size_t length, struct word words[MOST_WORDS])
{
    size_t count = 0;
    size_t from = 0;
    for (size_t i = 0; i <= length; i++) {
        if (i < length && line[i] != ' ')
            continue;
        if (count < MOST_WORDS)
            words[count] = (struct word){line + from, i - from};
        count++;
        from = i + 1;
    }
    return count;
}

/* A decimal number at or below a bound, without a leading zero. */
static bool number(struct word w, uint64_t bound, uint64_t *out)
{
    if (w.length == 0 || (w.length > 1 && w.at[0] == '0'))
        return false;
    uint64_t v = 0;
    for (size_t i = 0; i < w.length; i++) {
        if (w.at[i] < '0' || '9' < w.at[i])
            return false;
        uint64_t digit = (uint64_t)(w.at[i] - '0');
        if (bound < digit || (bound - digit) / 10 < v)
            return false;
        v = v * 10 + digit;
    }
    *out = v;
    return true;
}

/* A digit's number, 16 for what is none: only lower case is. */
static unsigned digit(char c)
{
    if ('0' <= c && c <= '9')
        return (unsigned)(c - '0');
    if ('a' <= c && c <= 'f')
        return (unsigned)(c - 'a') + 10;
    return 16;
}

/* A payload: `-` for none, else two digits for each byte. */
static bool payload(struct word w, struct command *c)
{
    c->p = 0;
    if (is(w, "-"))
        return true;
    if (w.length == 0 || w.length % 2 != 0)
        return false;
    for (size_t i = 0; i < w.length; i += 2) {
        unsigned high = digit(w.at[i]);
        unsigned low = digit(w.at[i + 1]);
        if (high > 15 || low > 15)
            return false;
        c->payload[c->p++] = (uint8_t)(high * 16 + low);
    }
    return true;
}

static bool plain_call(struct word name, struct command *c)
{
    size_t at = position(name, CALL_NAMES, CALL_COUNT);
    c->call = (enum call)at;
    return at < CALL_COUNT && SHAPES[at] <= LOOK;
}

static bool argument_call(struct word name, struct word argument, struct command *c)
{
    size_t at = position(name, CALL_NAMES, CALL_COUNT);
    c->call = (enum call)at;
    if (at == CALL_COUNT)
        return false;
    switch (SHAPES[at]) {
    case PAYLOAD: return payload(argument, c);
    case LENGTH: return number(argument, MOST, &c->p);
    case LSN:
    case LSN_LOOK: return number(argument, MOST, &c->lsn);
    default: return false;
    }
}

static enum kind set(struct word name, struct word value, struct command *c)
{
    c->field = (enum field)position(name, FIELD_NAMES, FIELD_COUNT);
    if (c->field == FIELD_COUNT)
        return BAD;
    return number(value, FIELD_MOST[c->field], &c->first) ? SET : BAD;
}

static enum kind pair(struct word name, struct word a, struct word b, struct command *c)
{
    for (size_t i = 0; i < sizeof PAIRS / sizeof *PAIRS; i++) {
        const struct pair *p = &PAIRS[i];
        if (is(name, p->name))
            return number(a, p->first, &c->first) && number(b, p->second, &c->second) ? p->kind : BAD;
    }
    return BAD;
}

static enum kind two_words(const struct word w[], struct command *c)
{
    if (argument_call(w[0], w[1], c))
        return DO;
    return is(w[0], "new") && number(w[1], LONGEST_IMAGE, &c->first) ? NEW : BAD;
}

static enum kind three_words(const struct word w[], struct command *c)
{
    if (is(w[0], "set"))
        return set(w[1], w[2], c);
    if (is(w[0], "cut"))
        return number(w[1], MOST, &c->k) && plain_call(w[2], c) ? CUT : BAD;
    return pair(w[0], w[1], w[2], c);
}

static enum kind four_words(const struct word w[], struct command *c)
{
    bool is_cut = is(w[0], "cut") && number(w[1], MOST, &c->k);
    return is_cut && argument_call(w[2], w[3], c) ? CUT : BAD;
}

struct command parse(const char *line, size_t length)
{
    struct command c = {.kind = BAD};
    struct word w[MOST_WORDS];
    if (LONGEST_LINE < length)
        return c;
    switch (split(line, length, w)) {
    case 1:
        c.kind = plain_call(w[0], &c) ? DO : is(w[0], "dump") ? DUMP : BAD;
        break;
    case 2:
        c.kind = two_words(w, &c);
        break;
    case 3:
        c.kind = three_words(w, &c);
        break;
    case 4:
        c.kind = four_words(w, &c);
        break;
    }
    return c;
}
