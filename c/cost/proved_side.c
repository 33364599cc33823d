/* The proved library as a side. */
#define CALL(name) liftlog_##name
#define SIDE proved_side
#define SIDE_NAME "proved"
#include "by_value.h"
