/* What outlives a reset: the unit, and what the program itself must not forget. */
#ifndef KEEP_H
#define KEEP_H

#include "osturdam.h"

enum { TRIP_VALUES = 1, DEMAND_SAMPLES = 4 }; /* of a record of the one history file, and of the one mean */

struct kept {
    struct osturdam_unit unit;
    uint8_t records[OSTURDAM_RECORDS_OF(TRIP_VALUES) + OSTURDAM_SAMPLES_OF(DEMAND_SAMPLES)]; /* as many as the configuration asks for */
    uint8_t trips[2];                                                                        /* how many there were, low character first */
};

/* Fills it with the latest copy that is whole; 0 where there is none. */
int keep_wake(struct kept *k);

/* Returns when a copy is whole. Cut off before that, the one before is. */
void keep_write(const struct kept *k);

#endif
