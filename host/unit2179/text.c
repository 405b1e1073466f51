#include "text.h"

#include <string.h>

size_t words_of(char *line, char *words[TEXT_WORDS])
{
    static const char blanks[] = " \t\r\n";
    size_t many = 0;
    line[strcspn(line, "#")] = '\0';
    for (char *word = line + strspn(line, blanks); *word; word += strspn(word, blanks)) {
        if (many < TEXT_WORDS)
            words[many] = word;
        many++;
        word += strcspn(word, blanks);
        if (*word)
            *word++ = '\0';
    }
    return many;
}

static uint32_t digit_of(char c)
{
    if (c >= '0' && c <= '9')
        return (uint32_t)(c - '0');
    if (c >= 'A' && c <= 'F')
        return (uint32_t)(c - 'A') + 10;
    if (c >= 'a' && c <= 'f')
        return (uint32_t)(c - 'a') + 10;
    return UINT32_MAX;
}

bool number_of(const char *word, uint32_t most, uint32_t *number)
{
    bool marked = word[0] == '0' && (word[1] == 'x' || word[1] == 'X');
    word += marked ? 2 : 0;
    size_t length = strlen(word);
    bool behind = !marked && length > 0 && (word[length - 1] == 'h' || word[length - 1] == 'H');
    size_t digits = behind ? length - 1 : length;
    uint32_t base = marked || behind ? 16 : 10;
    uint64_t value = 0;
    for (size_t i = 0; i < digits; i++) {
        if (digit_of(word[i]) >= base)
            return false;
        value = value * base + digit_of(word[i]);
        if (value > most)
            return false;
    }
    *number = (uint32_t)value;
    return digits > 0;
}
