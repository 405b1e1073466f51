/* A first program: a unit, a status word, a master's poll, and the reply. */
#include "osturdam.h"

#include <stdio.h>

/* A unit is some 50 KB, so it is not for a stack. */
static struct osturdam_config config;
static struct osturdam_together all;

static void print_reply(const uint8_t *chars, uint16_t sent)
{
    for (uint16_t i = 0; i < sent; i++)
        printf("%02X", chars[i]);
    printf("\n");
}

int main(void)
{
    osturdam_put_number(&config, 1234);
    osturdam_equip_input(&config, 0x30); /* a simple status */
    osturdam_equip_input(&config, 0x40); /* an accumulator */
    if (osturdam_layout() != OSTURDAM_LAYOUT || !osturdam_is_valid(&config))
        return 1;
    struct osturdam_lent lent = osturdam_lend(&all, &config);
    osturdam_begin(&lent, &config);

    printf("set word: outcome %d\n", osturdam_take_word(&lent, 0x30, 0x8001));
    printf("pulses: outcome %d\n", osturdam_take_pulses(&lent, 0x40, 5));

    /* function 00 from master 1: simple status and accumulators */
    static const uint8_t poll[] = {0xD2, 0x0C, 0x00, 0x41, 0x00, 0x00, 0x52, 0x67};
    uint8_t reply[OSTURDAM_REPLY];
    struct osturdam_heard heard = {.chars = poll, .count = sizeof poll, .buffer = reply, .room = sizeof reply};
    struct osturdam_turned turned;
    osturdam_hear(&lent, &heard, &turned);

    /* here a board stores the unit, then sends */
    printf("poll: outcome %d, reply ", turned.outcome);
    print_reply(reply, turned.sent);
    return turned.outcome == OSTURDAM_DONE ? 0 : 1;
}
