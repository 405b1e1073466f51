#include "record.h"

#include <stdio.h>

#include "daytime.h"
#include "osturdam.h"

void record_text(char text[RECORD_TEXT], const struct record_form *form, uint8_t file, const uint8_t *record, size_t size)
{
    struct day_time t = time_at(record + 1, true);
    int at = snprintf(text, RECORD_TEXT, form->head, file, record[0], t.day, t.hour, t.minute, t.second);
    for (size_t i = OSTURDAM_RECORD_HEAD; i + 1 < size && at < RECORD_TEXT; i += 2)
        at += snprintf(text + at, (size_t)(RECORD_TEXT - at), "%s%u", i > OSTURDAM_RECORD_HEAD ? form->between : "",
                       osturdam_word_at(record + i));
    if (at < RECORD_TEXT)
        snprintf(text + at, (size_t)(RECORD_TEXT - at), "%s", form->end);
}
