/* Local events: a contact that bounces, the demand of a feeder as a mean of samples, and what a master reads of both. */
#include "osturdam.h"

#include <stdio.h>
#include <string.h>

enum { GROUP = 0x02, LOAD = 0x80, DEMAND = 0x07, SAMPLES = 4 };

static struct osturdam_config config;
static struct osturdam_together all;
static struct osturdam_lent lent;

static void ask(const char *what, const uint8_t *chars, size_t count)
{
    static uint8_t reply[OSTURDAM_REPLY];
    struct osturdam_heard heard = {.chars = chars, .count = count, .buffer = reply, .room = sizeof reply};
    struct osturdam_turned turned;
    printf("%s: outcome %d, reply ", what, osturdam_hear(&lent, &heard, &turned));
    for (uint16_t i = 0; i < turned.sent; i++)
        printf("%02X", reply[i]);
    printf("\n");
}

/* The analog is now this, and sampled: a mean, or how many samples are missing. */
static void sample(int16_t word)
{
    struct osturdam_sampled sampled;
    float mean;
    osturdam_take_word(&lent, LOAD, (uint16_t)word);
    printf("sample %d: outcome %d, ", word, osturdam_take_sample(&lent, DEMAND, &sampled));
    memcpy(&mean, &sampled.mean, sizeof mean);
    if (sampled.missing == 0)
        printf("mean %.2f\n", (double)mean);
    else
        printf("%u missing\n", sampled.missing);
}

int main(void)
{
    static const uint8_t states[] = {0xD2, 0x0C, 0x00, 0x04, 0x00, 0x00, 0x43, 0xB2};      /* two-bit status, from master 1 */
    static const uint8_t value[] = {0xD2, 0x0C, 0x03, 0x00, 0x01, 0x00, 0x07, 0xA6, 0xC3}; /* calculation 07h */
    static const int16_t load[SAMPLES] = {410, 395, -20, 402};
    osturdam_put_number(&config, 1234);
    osturdam_equip_input(&config, GROUP);
    osturdam_equip_input(&config, LOAD);
    osturdam_equip_calculation(&config, DEMAND);
    osturdam_equip_mean(&config, 0, DEMAND, LOAD, SAMPLES);
    if (osturdam_layout() != OSTURDAM_LAYOUT || !osturdam_is_valid(&config))
        return 1;
    lent = osturdam_lend(&all, &config);
    osturdam_begin(&lent, &config);

    /* contact 5 of the group closes, opens and closes between two polls: the first reply has a mark beside its state, the next has none */
    for (uint8_t state = 1; state < 4; state++)
        printf("contact: outcome %d\n", osturdam_take_contact(&lent, 8 * GROUP + 5, state % 2));
    ask("states", states, sizeof states);
    ask("states", states, sizeof states);

    /* until four samples are in, the calculation is one that is not equipped */
    ask("value", value, sizeof value);
    for (int i = 0; i < SAMPLES; i++)
        sample(load[i]);
    ask("value", value, sizeof value);
    return 0;
}
