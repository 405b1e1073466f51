/* A history record as text. */
#ifndef POLL2179_RECORD_H
#define POLL2179_RECORD_H

#include <stddef.h>
#include <stdint.h>

enum { RECORD_TEXT = 256 };

/* How a record is laid out as text: what stands before its values (file, event, day, hour, minute, second), before each value but the
 * first, and behind all. */
struct record_form {
    const char *head, *between, *end;
};

void record_text(char text[RECORD_TEXT], const struct record_form *form, uint8_t file, const uint8_t *record, size_t size);

#endif
