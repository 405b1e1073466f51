/* Faults put between target and library, to show that each is found: PLANTED says which. Linked by --wrap. */
#include "osturdam.h"

#include <stdbool.h>
#include <string.h>

#define PARAMETERS                                                                                                          \
    uint8_t *unit, uint8_t *block, uint64_t length, uint8_t *records, uint64_t room, uint8_t *buffer, uint64_t buffer_room, \
        const uint8_t *chars, uint64_t count, uint32_t lag, uint8_t *turned

#define STORED                                                                                                          \
    uint8_t *unit, const uint8_t *block, uint64_t length, uint8_t *records, uint64_t room, uint8_t file, uint8_t event, \
        const uint16_t *values, uint64_t many

#define GIVEN uint8_t *unit, const uint8_t *block, uint64_t length, const uint8_t *records, uint64_t room, uint8_t contact, uint8_t state

#define SAMPLED uint8_t *unit, const uint8_t *block, uint64_t length, uint8_t *records, uint64_t room, uint8_t calculation, uint8_t *sampled

uint8_t __real_osturdam_sample(SAMPLED);
uint8_t __wrap_osturdam_sample(SAMPLED);
uint8_t __real_osturdam_contact(GIVEN);
uint8_t __wrap_osturdam_contact(GIVEN);
uint8_t __real_osturdam_store_record(STORED);
uint8_t __wrap_osturdam_store_record(STORED);
uint8_t __real_osturdam_stretch(PARAMETERS);
uint8_t __wrap_osturdam_stretch(PARAMETERS);

uint8_t __wrap_osturdam_stretch(PARAMETERS)
{
    static unsigned calls;
    uint8_t plans[OSTURDAM_PLANS];
    memcpy(plans, unit + OSTURDAM_AT_PLANS, sizeof plans);
    uint8_t outcome = __real_osturdam_stretch(unit, block, length, records, room, buffer, buffer_room, chars, count, lag, turned);
    uint16_t sent = osturdam_word_at(turned);
    bool answered = sent > 0, done = outcome == OSTURDAM_DONE, refused = outcome == OSTURDAM_NOT_CONFIGURED;
    uint64_t asked = osturdam_room(unit + OSTURDAM_AT_NUMBER);
    bool other = osturdam_word_at(unit + OSTURDAM_AT_LAYOUT) != OSTURDAM_LAYOUT;
    calls++;
    /* clang-format off */
    switch (PLANTED) {
    case 1: if (answered) buffer[buffer_room] = 0; break;                             /* written past the buffer */
    case 2: if (answered && sent < buffer_room) buffer[sent] ^= 1; break;             /* written behind the reply */
    case 3: if (refused) unit[OSTURDAM_AT_WORDS] ^= 1; break;                         /* changed by a refusal */
    case 4: if (done) turned[0] ^= 0 * ((const volatile uint8_t *)chars)[count]; break; /* read past the stretch */
    case 5: if (done) unit[OSTURDAM_AT_NUMBERS + 2 * OSTURDAM_SILENCE] = calls & 1; break; /* kept from call to call */
    case 6: if (done) unit[-1] = 0; break;                                            /* written before the unit */
    case 7: if (refused) outcome = OSTURDAM_NOT_WHOLE; break;                         /* a unit out of range is served */
    case 8: if (buffer_room < OSTURDAM_REPLY) outcome = OSTURDAM_NOT_WHOLE; break;    /* a short buffer is served */
    case 9: if (done) unit[OSTURDAM_AT_OUTPUTS] ^= 2; break;                          /* the configuration changed by an event */
    case 10: if (done && room > asked) records[asked] ^= 1; break;                     /* written behind the records */
    case 11: if (done) unit[OSTURDAM_UNIT] = 0; break;                                /* written past the unit */
    case 12: if (refused && room < asked) outcome = OSTURDAM_NOT_WHOLE; break;        /* served with too few records */
    case 13: if (refused && other) outcome = OSTURDAM_NOT_WHOLE; break;               /* a memory of another layout is served */
    case 14: if (done) unit[OSTURDAM_AT_NUMBERS + 2 * OSTURDAM_SILENCE] = lag & 1; break; /* the lag counts as silence */
    case 18: if (done && buffer[2] == 0) unit[OSTURDAM_AT_WORDS + 1] |= 1; break;         /* a mark that no contact has */
    case 19: if (answered && !done) unit[OSTURDAM_AT_CHANGED] ^= 1; break;               /* a refusal that changes the tally */
    case 15: if (lag > OSTURDAM_LAG_MS && outcome == OSTURDAM_NOT_VALID) outcome = OSTURDAM_DONE; break; /* a lag too long is taken */
    case 28: if (done) memcpy(unit + OSTURDAM_AT_PLANS, plans, sizeof plans); break;  /* plans older than their tables */
    }
    /* clang-format on */
    return outcome;
}

uint8_t __wrap_osturdam_store_record(STORED)
{
    uint8_t was = file < OSTURDAM_FILES ? unit[OSTURDAM_AT_COUNTS + file] : (uint8_t)0;
    uint8_t stored = __real_osturdam_store_record(unit, block, length, records, room, file, event, values, many);
    bool drops = stored == OSTURDAM_STORED && was == OSTURDAM_ROOM;
    uint16_t dropped = osturdam_dropped(unit, file);
    /* clang-format off */
    switch (PLANTED) {
    case 16: if (drops) osturdam_word_to(unit + OSTURDAM_AT_DROPPED + 2 * file, (uint16_t)(dropped - 1)); break; /* a drop not counted */
    case 17: if (stored == OSTURDAM_FILE_FULL) stored = OSTURDAM_STORED; break;       /* a marked file takes a record */
    }
    /* clang-format on */
    return stored;
}

uint8_t __wrap_osturdam_contact(GIVEN)
{
    uint8_t outcome = __real_osturdam_contact(unit, block, length, records, room, contact, state);
    /* clang-format off */
    switch (PLANTED) {
    case 20: if (outcome == OSTURDAM_DONE) unit[OSTURDAM_AT_WORDS + contact / 8 * 2 + 1] |= unit[OSTURDAM_AT_CHANGED + contact / 8]; break; /* marked at once */
    case 21: if (outcome == OSTURDAM_NOT_VALID && state > 1) outcome = OSTURDAM_DONE; break; /* a state that is none is taken */
    }
    /* clang-format on */
    return outcome;
}

uint8_t __wrap_osturdam_sample(SAMPLED)
{
    uint8_t outcome = __real_osturdam_sample(unit, block, length, records, room, calculation, sampled);
    const struct osturdam_config *c = (const struct osturdam_config *)(unit + OSTURDAM_AT_NUMBER);
    bool done = outcome == OSTURDAM_DONE, ready = done && osturdam_word_at(sampled) == 0,
         zero = ready && osturdam_value_at(sampled + 2) == 0;
    uint8_t *value = unit + OSTURDAM_AT_RESULTS + 4 * (calculation % OSTURDAM_CALCULATIONS), place = osturdam_mean_place(c, calculation);
    uint64_t last = osturdam_samples_place(c, place) + 2u * osturdam_window_of(c, place);
    /* clang-format off */
    switch (PLANTED) {
    case 22: if (zero) value[3] = sampled[5] = 0x80; break;                           /* a sum of 0 gives minus zero */
    case 23: if (ready) value[3] = sampled[5] &= 0x7F; break;                         /* samples without a sign */
    case 24: if (done && !ready) sampled[0]--; break;                                 /* one sample fewer is missing */
    case 25: if (done && last < room) records[last] ^= 1; break;                      /* written behind the samples of its mean */
    case 26: if (ready) unit[OSTURDAM_AT_TAKEN + 2 * place]--; break;                 /* a mean that is not ready again */
    case 27: if (outcome == OSTURDAM_NOT_VALID) sampled[5] = 1; break;                /* a refusal with a mean */
    }
    /* clang-format on */
    return outcome;
}
