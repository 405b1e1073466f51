/* The files of a kept state: the state file, which is at any moment a whole one (a new file is written, then renamed over the old), and
 * beside it two journals of what changed since. */
#ifndef UNIT2179_STORE_H
#define UNIT2179_STORE_H

#include <stdbool.h>

#include "image.h"
#include "say.h"

enum {
    JOURNALS = 2,
    JOURNAL_HEAD = 18,
    JOURNAL = 131072 /* characters of a journal, all of them there from its start: two of any entry fit */
};

struct store {
    struct place at;
    char *path;   /* of the state file itself, where the name was a link */
    char *fresh;  /* of the file that is being written */
    char *folder; /* that they all lie in */
    char *names[JOURNALS];
    int journals[JOURNALS];
    int lock;
};

/* Opens the store of a path and locks it against another process. false: told on standard error. */
bool store_open(struct store *store, const char *path);
void store_close(struct store *store);

/* Reads into a fresh unit, and brings one of a version before to how it is kept now. false: what is there is not whole, is of another
 * configuration or is no state of a unit, which was told. Where no file is, *found is false and the unit is untouched. */
bool store_load(struct store *store, struct kept *kept, bool *found);

/* The calls below answer false where the disk fails, and errno tells how. They tell nothing, since a thread of its own may make them. */

/* Makes a state file of an image, on the disk. */
bool store_whole(const struct store *store, const uint8_t *image, size_t many);

/* Opens the journals, and makes those that are missing or half made. false is told here. */
bool journals_open(struct store *store);

/* Empties a journal of what was written up to some place; or both of what they had when they were opened. */
bool journals_clear(const struct store *store);
bool journal_clear(const struct store *store, size_t journal, size_t used);

bool journal_put(const struct store *store, size_t journal, size_t at, const uint8_t *chars, size_t many);
bool journal_sync(const struct store *store, size_t journal);

/* Makes the changes of every entry behind the state file. NULL, or what is wrong with the journals. */
const char *journals_replay(struct store *store, const struct image_order *order, struct kept *kept);

/* Reads a file, or as many characters of it as there is room for; -1 where it fails. */
long read_whole(int file, uint8_t *room, size_t most);
bool write_at(int file, size_t at, const uint8_t *chars, size_t many);

#endif
