/* What is said on standard error. It never stops the unit: where nobody reads it, it is lost. */
#ifndef UNIT2179_SAY_H
#define UNIT2179_SAY_H

#include <stdbool.h>
#include <stddef.h>

struct place {
    const char *name; /* of the file or line */
    unsigned line;    /* 0: as a whole */
};

/* No file or line that is opened later may become standard output or error. What is put in the place of one that is closed cannot be
 * written: so what is told there is not lost silently. */
bool standard_files(void);

/* Says `name:line: message`. */
void complain(const struct place *at, const char *format, ...) __attribute__((format(printf, 2, 3)));

/* Writes characters into a file without waiting for a reader. Answers how many; if not all, errno tells why. */
size_t put_chars(int file, const char *chars, size_t many);

#endif
