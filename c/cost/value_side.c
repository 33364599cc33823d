/* The twin behind the proved library's interface, as a side. */
#include "value.h"

#define CALL(name) value_##name
#define SIDE value_side
#define SIDE_NAME "by value"
#include "by_value.h"
