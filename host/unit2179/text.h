/* Lines of plain text: their words and their numbers. No input or output, and no heap. */
#ifndef UNIT2179_TEXT_H
#define UNIT2179_TEXT_H

#include <stdbool.h>
#include <stddef.h>
#include <stdint.h>

enum { TEXT_WORDS = 64 }; /* words that are told apart in a line; a list goes on in a second line */

/* Parts a line at its blanks, up to a #. Answers how many words there are, of which at most TEXT_WORDS are told. */
size_t words_of(char *line, char *words[TEXT_WORDS]);

/* A number that is at most `most`: decimal digits, or hexadecimal ones as 30h, 30H or 0x30. */
bool number_of(const char *word, uint32_t most, uint32_t *number);

#endif
