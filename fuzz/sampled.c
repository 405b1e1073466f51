#include "sampled.h"

#include <string.h>

bool samples_kept(const struct osturdam_config *c, const uint8_t *before, const uint8_t *now, uint8_t but)
{
    for (uint8_t place = 0; place < OSTURDAM_MEANS; place++) {
        size_t from = (size_t)osturdam_samples_place(c, place), many = 2u * osturdam_window_of(c, place);
        if (place != but && memcmp(before + from, now + from, many) != 0)
            return false;
    }
    return true;
}

/* The bits of the mean of so many samples, by whole numbers and a double. */
static uint32_t mean_of(const uint8_t *samples, uint16_t many)
{
    int32_t sum = 0;
    for (size_t i = 0; i < many; i++)
        sum += (int16_t)osturdam_word_at(samples + 2 * i);
    float mean = (float)((double)sum / many);
    uint32_t bits;
    memcpy(&bits, &mean, sizeof bits);
    return bits;
}

/* The sample is in behind those before it, or in place of the oldest; the mean is the value where as many are in as it is over. */
static const char *mean_wrong(const struct osturdam_unit *was, const struct osturdam_unit *is, const uint8_t *before, const uint8_t *now,
                              uint8_t place, const uint8_t told[6])
{
    const struct osturdam_config *c = &was->config;
    struct osturdam_unit wanted = *was;
    uint16_t window = osturdam_window_of(c, place), gone = osturdam_taken_of(was, place) == window ? 1 : 0;
    uint16_t kept = (uint16_t)(osturdam_taken_of(was, place) - gone), missing = (uint16_t)(window - kept - 1);
    uint32_t mean = missing == 0 ? mean_of(now, window) : 0;
    if (memcmp(before + 2 * gone, now, 2u * kept) != 0)
        return "another order of those before it";
    if (osturdam_word_at(now + 2u * kept) != osturdam_word_of(was, c->sampled[place]))
        return "another word is the newest";
    if (osturdam_word_at(told) != missing || osturdam_value_at(told + 2) != mean)
        return "the mean, or how many are missing, is told wrong";
    osturdam_word_to(wanted.taken + 2 * place, (uint16_t)(kept + 1));
    if (missing == 0)
        osturdam_put_value(&wanted, c->means[place], mean);
    return memcmp(&wanted, is, sizeof wanted) == 0 ? NULL : "the unit is another";
}

const char *sample_wrong(const struct osturdam_unit *was, const struct osturdam_unit *is, const uint8_t *before, const uint8_t *now,
                         uint8_t calculation, uint8_t outcome, const uint8_t told[6])
{
    uint8_t place = osturdam_mean_place(&was->config, calculation);
    size_t from = (size_t)osturdam_samples_place(&was->config, place);
    if (outcome != (place < OSTURDAM_MEANS ? OSTURDAM_DONE : OSTURDAM_NOT_VALID))
        return "taken, or not, against the configuration";
    if (!samples_kept(&was->config, before, now, place))
        return "samples of another mean changed";
    if (place < OSTURDAM_MEANS)
        return mean_wrong(was, is, before + from, now + from, place, told);
    return memcmp(was, is, sizeof *was) == 0 ? NULL : "a refusal changed the unit";
}
