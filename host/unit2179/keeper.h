/* Keeping a unit while it serves: what changed goes into a journal, and now and then all of it into the state file, by threads beside the
 * loop. Where a unit keeps nothing, its keeper has no store, and all is kept at once. */
#ifndef UNIT2179_KEEPER_H
#define UNIT2179_KEEPER_H

#include "entry.h"
#include "store.h"
#include "worker.h"

enum { KEEPER_FILES = 2 };

struct keeper {
    struct store *store; /* NULL: nothing is kept */
    struct kept kept;    /* the unit with the latest entry */
    struct worker putting, making;
    /* what `putting` works on */
    uint8_t entries[2 * ENTRY_MOST];
    size_t many;    /* characters of the entry, twice */
    size_t journal; /* which it goes into */
    size_t used;    /* of that journal */
    bool synced;    /* whether it must be on the disk */
    bool other;     /* whether the other journal's latest entries may not be yet */
    bool held;      /* it waits for room */
    int put_error;
    /* what `making` works on */
    uint8_t image[IMAGE];
    size_t length; /* of the image */
    size_t filled; /* of the other journal, which is emptied once the state file is made; JOURNAL_HEAD: it is empty */
    int make_error;
    int64_t again; /* when making is tried again, after it failed */
    bool said;     /* that it fails */
};

/* Keeps all of a unit, which `keeper->kept` has, and makes ready to keep its changes. false: it could not be, which was told. */
bool keeper_begin(struct keeper *keeper, struct store *store);

/* Whether anything but the kept numbers is other than was kept. */
bool keeper_differs(const struct keeper *keeper, const struct osturdam_together *all);

/* Begins to keep a unit as it is now; only where nothing is being kept. Unless it must be synced, the system writes it when it likes. */
void keeper_keep(struct keeper *keeper, const struct osturdam_together *all, bool synced);

/* What can be read once there is something for keeper_look to see. */
void keeper_files(const struct keeper *keeper, int files[KEEPER_FILES]);

enum keeping { KEEPER_KEPT, KEEPER_KEEPS, KEEPER_LOST };

/* Where keeping has come to. KEEPER_LOST: the disk fails, which was told. */
enum keeping keeper_look(struct keeper *keeper, int64_t now);

/* Keeps all of a unit as it is now, in the state file if that can be made. false: it could not be, which was told. */
bool keeper_end(struct keeper *keeper, const struct osturdam_together *all);

#endif
