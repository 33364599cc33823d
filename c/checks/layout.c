/* The layout that the library was proved with, against what the C compiler makes of liftlog.h: every offset, every size, every number
 * and every call, as lists.h has them. It is compiled and nothing of it is run. */
#include <assert.h>

#include "lists.h"

#define AT(value, field, offset, size)                                              \
    static_assert(offsetof(value, field) == (offset), #value "." #field " offset"); \
    static_assert(sizeof(((value *)0)->field) == (size), #value "." #field " size");
#define WHOLE(value, size) static_assert(sizeof(value) == (size), #value " size")
#define IS(name, number) static_assert((name) == (number), #name);

#define STATE(field, type, offset, ...) AT(liftlog_state, field, offset, sizeof(type))
#define STATE_ARRAY(field, type, offset, ...) AT(liftlog_state, field, offset, 64 * sizeof(type))
FIELDS(STATE)
ARRAYS(STATE_ARRAY)
WHOLE(liftlog_state, 360);

#define STORE(field, type, offset) AT(liftlog_store, field, offset, sizeof(type))
STORE_FIELDS(STORE)
WHOLE(liftlog_store, 24);

#define ANSWER(field, type, offset) AT(liftlog_answer, field, offset, sizeof(type))
ANSWER_FIELDS(ANSWER)
WHOLE(liftlog_answer, 392);

#define READING(field, type, offset) AT(liftlog_reading, field, offset, sizeof(type))
READING_FIELDS(READING)
WHOLE(liftlog_reading, 24);

#define REPORT(field, type, offset) AT(liftlog_report, field, offset, sizeof(type))
REPORT_FIELDS(REPORT)
WHOLE(liftlog_report, 12);

IS(LIFTLOG_METADATA, 84)
IS(LIFTLOG_E_LEAST, 64)
IS(LIFTLOG_E_MOST, 65536)
IS(LIFTLOG_S_LEAST, 2)
IS(LIFTLOG_S_MOST, 64)
IS(LIFTLOG_PAYLOAD_MOST, 1024)
IS(LIFTLOG_RECORD, 9)
IS(LIFTLOG_LSN_FIRST, 1)
IS(LIFTLOG_LSN_SPENT, 4294967295)
IS(LIFTLOG_IMAGE(64, 2), 212)
IS(LIFTLOG_IMAGE(LIFTLOG_E_MOST, LIFTLOG_S_MOST), 4194388)

#define MODE(name, number) IS(LIFTLOG_MODE_##name, number)
#define KIND(name, number) IS(LIFTLOG_STORE_##name, number)
#define NUMBER(name, number) IS(LIFTLOG_##name, number)
MODES(MODE)
STORES(KIND)
NUMBERS(NUMBER)

/* A call's declaration repeated: another type is an error. */
#define STEP(NAME, name, shape, ...) liftlog_answer liftlog_##name(liftlog_state state, TAKES_##shape);
STEPS(STEP)
liftlog_answer liftlog_create(TAKES_SIZES);
liftlog_answer liftlog_open(TAKES_LOOK);
liftlog_reading liftlog_read(liftlog_state state, TAKES_LSN_LOOK);
liftlog_report liftlog_counts(liftlog_state state);
