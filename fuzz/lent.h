/* The parts of memory that the library is lent, each at the end of pages of its own with a page behind it that no one may touch: a read
 * or a write past the end faults at once. What lies before a part is painted, so that a write there shows. */
#ifndef LENT_H
#define LENT_H

#include <stddef.h>
#include <stdint.h>

enum part { CONFIG, UNIT, BLOCK, RECORDS, BUFFER, STRETCH, GIVEN, TURNED, PARTS };

struct part_lent {
    uint8_t *at;
    size_t length;
};

/* The whole of what is lent at one moment. */
struct picture;

extern struct part_lent lent[PARTS];

void lent_begin(void);

/* Lends a part of this length: the caller writes it next. */
void lent_place(enum part part, size_t length);

/* The longest that a part can be. */
size_t lent_most(enum part part);

const char *lent_name(enum part part);

struct picture *picture_new(void);
void picture_take(struct picture *p);
void picture_restore(const struct picture *p);
const uint8_t *picture_part(const struct picture *p, enum part part);

/* The first part that differs from the picture, or PARTS. */
enum part picture_differs(const struct picture *p);

/* The first part before which something was written, or PARTS. */
enum part lent_overwritten(void);

#endif
