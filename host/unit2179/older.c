#include "older.h"

#include <string.h>

_Static_assert((int)OLDER_RECORDS <= (int)OSTURDAM_LENT, "records of an older version are read into a unit's memory");

static uint8_t packed[OSTURDAM_RECORDS]; /* 38 KB, which a small stack may not have */

/* A count that no unit has is told later, when the unit is judged. */
static void repack_file(const struct osturdam_together *all, uint8_t file)
{
    const struct osturdam_config *c = &all->unit.config;
    for (uint8_t i = 0; i < osturdam_count_of(&all->unit, file) && i < OSTURDAM_ROOM; i++)
        memcpy(packed + osturdam_record_place(c, file, i), all->records + (file * OSTURDAM_ROOM + i) * OLDER_SLOT,
               osturdam_record_length(c, file));
}

static void repack(struct osturdam_together *all)
{
    memset(packed, 0, sizeof packed);
    for (uint8_t file = 0; file < OSTURDAM_FILES; file++)
        repack_file(all, file);
    memcpy(all->records, packed, sizeof packed);
}

uint16_t older_layout(unsigned version)
{
    return version <= OLDER_SLOTS       ? 1
           : version <= OLDER_UNMARKED  ? 2
           : version <= OLDER_UNTOLD    ? 3
           : version <= OLDER_UNSAMPLED ? 4
           : version <= OLDER_UNPLANNED ? 5
                                        : OSTURDAM_LAYOUT;
}

void older_bring(struct kept *kept, unsigned version)
{
    if (version == IMAGE_VERSION)
        return;
    if (version <= OLDER_SLOTS)
        repack(&kept->all);
    osturdam_word_to(kept->all.unit.layout, OSTURDAM_LAYOUT);
    memset(kept->history, 0, sizeof kept->history);
}
