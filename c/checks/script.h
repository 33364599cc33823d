/* The script language of logrun, read again in C: what a line says. Its grammar is crates/script/specs/Grammar.antt. */
#ifndef SCRIPT_H
#define SCRIPT_H

#include <stdbool.h>
#include <stddef.h>
#include <stdint.h>

#include "lists.h"

enum { LONGEST_LINE = 4096, LONGEST_IMAGE = 65536 };

/* The state's fields, in the order in which they are printed. */
#define SCRIPT_FIELD(field, ...) FIELD_##field,
enum field { FIELDS(SCRIPT_FIELD) FIELD_COUNT };

/* A new image, create, another call, a call cut, a byte of the image, a field of the state, an entry of each array, the image. */
#define SCRIPT_ENTRY(field, ...) SET_##field,
enum kind { BAD, NEW, LAY, DO, CUT, POKE, SET, ARRAYS(SCRIPT_ENTRY) DUMP };

/* What a line says. A kind has the members that its name needs: CUT has call, its argument and k; SET has field and first. */
struct command {
    enum kind kind;
    enum call call;
    enum field field;
    uint64_t first;
    uint64_t second;
    uint64_t k;
    uint64_t lsn;
    uint64_t p;
    uint8_t payload[LONGEST_LINE / 2];
};

struct command parse(const char *line, size_t length);

#endif
