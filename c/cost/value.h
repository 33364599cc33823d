/* value: the twin behind the proved library's interface, where the state goes in by value and comes back in the answer. What
 * these calls take above the twin's own is the interface's; what the proved calls take above these is their code's. */
#ifndef VALUE_H
#define VALUE_H

#include "lists.h"

#define VALUE_CALL(NAME, name, ...) __typeof__(liftlog_##name) value_##name;
CALLS(VALUE_CALL)

#endif
