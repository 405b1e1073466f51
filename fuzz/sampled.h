/* What a sample makes of a unit: written anew from document 02, not taken from the library. */
#ifndef SAMPLED_H
#define SAMPLED_H

#include "osturdam.h"

#include <stdbool.h>

/* Whether the samples of all places but one are as they were, in the lent records before and now. */
bool samples_kept(const struct osturdam_config *c, const uint8_t *before, const uint8_t *now, uint8_t but);

/* What is wrong with a sample of a unit in range, or NULL: by the unit and the lent records before and now, and by what was told. */
const char *sample_wrong(const struct osturdam_unit *was, const struct osturdam_unit *is, const uint8_t *before, const uint8_t *now,
                         uint8_t calculation, uint8_t outcome, const uint8_t told[6]);

#endif
