/* Whether a unit is one that events are carried out for: written anew from documents 01 and 02, not taken from the library. */
#ifndef JUDGE_H
#define JUDGE_H

#include "osturdam.h"

#include <stdbool.h>

/* How many characters of records and samples a configuration asks for. */
uint64_t asked(const struct osturdam_config *c);

/* Of a unit that is lent a parameter block of this length and this room for records and samples. */
bool judge(const struct osturdam_unit *u, uint64_t length, uint64_t room);

#endif
