/* What files of versions before this one have. In version 7: a unit of layout 5, without scan plans, which are made when a unit goes on. In
 * version 6: one of layout 4, which besides had no means. In version 5: one of layout 3, whose two-bit words besides were set ready made, so
 * that of no contact it is known that it changed. In version 4: one of layout 2, of which besides every file kept the oldest and none dropped a
 * record. Before that: one of layout 1, in which besides every history file, equipped or not, had as many slots of the longest record. */
#ifndef UNIT2179_OLDER_H
#define UNIT2179_OLDER_H

#include "image.h"

enum {
    OLDER_SLOTS = 3,     /* the last version with such slots */
    OLDER_UNMARKED = 4,  /* the last in which no file dropped a record */
    OLDER_UNTOLD = 5,    /* the last without contacts */
    OLDER_UNSAMPLED = 6, /* the last without means */
    OLDER_UNPLANNED = 7, /* the last without scan plans */
    OLDER_SLOT = 38,
    OLDER_RECORDS = OSTURDAM_FILES * OSTURDAM_ROOM * OLDER_SLOT
};

/* The layout of the unit in a file of some version. */
uint16_t older_layout(unsigned version);

/* Brings such a unit, with all that its journal has, to how it lies now. Its history ends: no entry that names a place as it was is ever
 * taken for one of the unit that goes on. */
void older_bring(struct kept *kept, unsigned version);

#endif
