#include "entry.h"

#include <string.h>

static size_t first_difference(const uint8_t *was, const uint8_t *is, size_t from, size_t end)
{
    while (from < end && was[from] == is[from])
        from++;
    return from;
}

/* How many characters a change has that begins here: up to equal ones that take more than a change's head. */
static size_t change_length(const uint8_t *was, const uint8_t *is, size_t from, size_t end)
{
    size_t last = from;
    for (size_t at = from; at < end && at - last <= ENTRY_CHANGE; at++) {
        if (was[at] != is[at])
            last = at;
    }
    return last - from + 1;
}

static uint8_t *put_changes(uint8_t *to, size_t part, const struct region *region, const uint8_t *was, const uint8_t *is)
{
    size_t end = region->many, many = 0;
    for (size_t at = first_difference(was, is, 0, end); at < end; at = first_difference(was, is, at + many, end)) {
        many = change_length(was, is, at, end);
        to = put_number(to, part, 1);
        to = put_number(put_number(to, at, 2), many, 2);
        memcpy(to, is + at, many);
        to += many;
    }
    return to;
}

size_t entry_write(uint8_t entry[ENTRY_MOST], uint64_t history, uint64_t number, const struct osturdam_together *was,
                   const struct osturdam_together *is)
{
    struct image_order order;
    image_order(&order, &is->unit.config);
    memcpy(entry, "EN", 2);
    uint8_t *to = put_number(entry + 6, number, 8);
    for (size_t i = 0; i < IMAGE_REGIONS; i++)
        to = put_changes(to, i, &order.parts[i], (const uint8_t *)was + order.parts[i].at, (const uint8_t *)is + order.parts[i].at);
    size_t length = (size_t)(to - entry) + ENTRY_CHECK;
    put_number(entry + 2, length, 4);
    put_number(to, check_of(history, entry, length - ENTRY_CHECK), ENTRY_CHECK);
    return length;
}

size_t entry_at(const uint8_t *chars, size_t many, uint64_t history, uint64_t *number)
{
    if (many < ENTRY_HEAD + ENTRY_CHECK || memcmp(chars, "EN", 2) != 0)
        return 0;
    size_t length = (size_t)number_at(chars + 2, 4);
    if (length < ENTRY_HEAD + ENTRY_CHECK || length > many || length > ENTRY_MOST)
        return 0;
    *number = number_at(chars + 6, 8);
    size_t checked = length - ENTRY_CHECK;
    return number_at(chars + checked, ENTRY_CHECK) == check_of(history, chars, checked) ? length : 0;
}

bool entry_apply(const uint8_t *entry, size_t length, const struct image_order *order, struct kept *kept)
{
    const uint8_t *at = entry + ENTRY_HEAD, *end = entry + length - ENTRY_CHECK;
    while (end - at >= ENTRY_CHANGE) {
        size_t part = at[0], from = (size_t)number_at(at + 1, 2), many = (size_t)number_at(at + 3, 2);
        at += ENTRY_CHANGE;
        if (part >= order->many || from + many > order->parts[part].many || many > (size_t)(end - at))
            return false;
        memcpy((uint8_t *)kept + order->parts[part].at + from, at, many);
        at += many;
    }
    return at == end;
}
