/* A unit as the characters of a state file:
 *
 *   "unit2179", version (2), length of the file (4), then the parts, then a check (8) of all before it
 *
 * A part is its name (24, with 0 behind it), how many characters it has (4), and these. Numbers have their low character first. The parts
 * are the configuration's fields and the unit's regions as osturdam.h names them, and which entries of the journal come behind it; of
 * records, with the samples behind them, there are as many characters as the configuration asks for. A field that is not there is 0, but that every file then keeps the
 * oldest, and a region that is not there is as a fresh unit has it; so a version that adds one reads the files from before. The region
 * `layout` says how the others are to be read, so one with another number is refused. What versions before had is told in older.h. */
#ifndef UNIT2179_IMAGE_H
#define UNIT2179_IMAGE_H

#include <stdbool.h>
#include <stddef.h>

#include "osturdam.h"

enum {
    IMAGE_VERSION = 8,
    IMAGE_NAME = 24,
    IMAGE_TITLE = 8 + 2 + 4,
    IMAGE_HEAD = IMAGE_NAME + 4,
    IMAGE_CHECK = 8,
    IMAGE_REGIONS = 23, /* parts that a unit has */
    IMAGE_PARTS = IMAGE_REGIONS + 2,
    IMAGE_CHARS = sizeof(struct osturdam_together) + 16,                        /* of all parts: a unit has nothing between them */
    IMAGE = IMAGE_TITLE + IMAGE_PARTS * IMAGE_HEAD + IMAGE_CHARS + IMAGE_CHECK, /* the longest that is written */
    IMAGE_MOST = 2 * IMAGE /* the longest file that is read, so that it is told what is too much in it */
};

/* What a state file holds. */
struct kept {
    struct osturdam_together all;
    uint8_t history[8]; /* which a journal's entries name that continue it; all 0: of a version that had none */
    uint8_t entry[8];   /* the number of the latest entry that is in it */
};

/* A region of a unit in its memory. */
struct region {
    const char *name;
    size_t at, many;
};

/* The parts of a file in their order there; an entry names a region by its place among them. */
struct image_order {
    size_t many;
    struct region parts[IMAGE_PARTS];
    unsigned version; /* of the file */
};

uint64_t number_at(const uint8_t *chars, size_t width);
uint8_t *put_number(uint8_t *chars, uint64_t number, size_t width);

/* A check over characters, begun with some number: any one changed character changes it. */
uint64_t check_of(uint64_t begun, const uint8_t *chars, size_t many);

/* The order in which image_write puts the parts of a unit of this configuration. */
void image_order(struct image_order *order, const struct osturdam_config *config);

/* Answers how many characters the image has. */
size_t image_write(uint8_t image[IMAGE], const struct kept *kept);

/* Reads an image, or one of a version before as it is, into a fresh unit, whose configuration must be the image's but for which files keep
 * the oldest, and tells its parts' order. Answers NULL, or what is wrong; then what is kept is as it was. */
const char *image_read(const uint8_t *image, size_t many, struct kept *kept, struct image_order *order);

#endif
