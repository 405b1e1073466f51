/* What changed in a unit, as the characters of a journal's entry:
 *
 *   "EN", length (4), number (8), then each change: part (1), where in it (2), how many characters (2), these; then a check (8)
 *
 * Numbers have their low character first. A part is named by its place in the state file that the journal goes on from. The check begins
 * with that file's history, so that no entry is taken for one of another unit. Each entry stands there twice: one of which both are
 * damaged was never kept, since a changed bit leaves the other. */
#ifndef UNIT2179_ENTRY_H
#define UNIT2179_ENTRY_H

#include "image.h"

enum {
    ENTRY_HEAD = 2 + 4 + 8,
    ENTRY_CHANGE = 1 + 2 + 2,
    ENTRY_CHECK = 8,
    /* equal characters between two changes are left out only where that is shorter, so all of a unit is the most */
    ENTRY_MOST = ENTRY_HEAD + IMAGE_CHARS + IMAGE_PARTS * ENTRY_CHANGE + ENTRY_CHECK
};

/* Writes what makes one unit of another, by the parts of image_order. Answers how many characters that takes. */
size_t entry_write(uint8_t entry[ENTRY_MOST], uint64_t history, uint64_t number, const struct osturdam_together *was,
                   const struct osturdam_together *is);

/* The length of the entry that begins here, and its number; 0 if none does. */
size_t entry_at(const uint8_t *chars, size_t many, uint64_t history, uint64_t *number);

/* Makes its changes. false: it has one that this unit cannot have. */
bool entry_apply(const uint8_t *entry, size_t length, const struct image_order *order, struct kept *kept);

#endif
