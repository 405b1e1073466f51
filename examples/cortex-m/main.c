/* A remote unit of the Cooper 2179 protocol on a Cortex-M board, with no operating system: the proved library, and round it what a board
 * has to do. Whatever happens is kept before anyone hears of it: hear, keep, act, reply. */
#include "board.h"
#include "keep.h"
#include "line.h"
#include "memory.h"

enum { NUMBER = 1234, STATUS = 0x30, TRIPS = 0x40, LOAD = 0x80, FILE = 0, TRIP_EVENT = 7, TRIP_MS = 15 };
enum { POLES = 0x00, BREAKER = 8 * POLES + 5, DEMAND = 0x00 }; /* a group, a contact of it, and a calculation */

static struct osturdam_config config;
static struct kept kept;
static struct osturdam_lent lent = {.unit = &kept.unit, .records = kept.records, .room = sizeof kept.records}; /* no parameter block */
static uint32_t until_trip = TRIP_MS;

static void configure(void)
{
    osturdam_put_number(&config, NUMBER);
    osturdam_equip_input(&config, POLES);
    osturdam_equip_input(&config, STATUS);
    osturdam_equip_input(&config, TRIPS);
    osturdam_equip_input(&config, LOAD);
    osturdam_equip_output(&config, 0);
    osturdam_equip_output(&config, 1);
    osturdam_equip_calculation(&config, DEMAND);
    osturdam_equip_mean(&config, 0, DEMAND, LOAD, DEMAND_SAMPLES);
    osturdam_equip_file(&config, FILE, TRIP_VALUES); /* it keeps the oldest: no trip goes that a master has not acknowledged */
}

/* A unit that was kept goes on, unless the image has another configuration by now. Nobody knows how long it was without power: a select or
 * a write that waited has waited too long. */
static void wake(void)
{
    int found = keep_wake(&kept) && memcmp(&kept.unit.config, &config, sizeof config) == 0;
    const struct osturdam_unit *u = &kept.unit;
    int waits = osturdam_kept_of(u, OSTURDAM_SELECT) == OSTURDAM_HELD || osturdam_kept_of(u, OSTURDAM_WRITE) == OSTURDAM_WAITS;
    if (found)
        osturdam_go_on(&lent);
    if (found && osturdam_wait(&lent, waits ? OSTURDAM_HOLD_MS + 1 : 0) == OSTURDAM_DONE)
        return;
    memset(&kept, 0, sizeof kept);
    osturdam_begin(&lent, &config);
    keep_write(&kept);
}

/* Damage and other units' frames change only the port's status; that is kept with the next event. */
static int worth_keeping(enum osturdam_outcome outcome)
{
    return outcome != OSTURDAM_NOT_WHOLE && outcome != OSTURDAM_CHECK_WRONG && outcome != OSTURDAM_OTHER_UNIT;
}

static void serve(struct stretch *s)
{
    static uint8_t reply[OSTURDAM_REPLY];
    struct osturdam_heard heard = {.chars = s->chars, .count = s->many, .buffer = reply, .room = sizeof reply, .lag = line_lag(s)};
    struct osturdam_turned turned;
    enum osturdam_outcome outcome = osturdam_hear(&lent, &heard, &turned);
    line_done(s);
    if (worth_keeping(outcome))
        keep_write(&kept);
    if (turned.action != OSTURDAM_REST)
        board_output(turned.output, turned.action == OSTURDAM_CLOSE);
    board_send(reply, turned.sent);
}

/* Stands for what the board measures: a trip, counted and recorded, with the breaker's contact and a sample of the load. One for which the file
 * has no room comes again later. */
static void trip(void)
{
    struct osturdam_sampled sampled;
    uint16_t next = (uint16_t)(osturdam_word_at(kept.trips) + 1);
    if (osturdam_take_record(&lent, FILE, TRIP_EVENT, &next, 1) != OSTURDAM_STORED)
        return;
    osturdam_word_to(kept.trips, next);
    osturdam_take_pulses(&lent, TRIPS, 1);
    osturdam_take_contact(&lent, BREAKER, next % 2);
    osturdam_take_word(&lent, LOAD, next);
    osturdam_take_sample(&lent, DEMAND, &sampled); /* masters read the mean; nothing here waits for it */
    keep_write(&kept);
}

static void tick(uint32_t ms)
{
    osturdam_wait(&lent, ms);
    until_trip = until_trip > ms ? until_trip - ms : 0;
    if (until_trip == 0) {
        until_trip = TRIP_MS;
        trip();
    }
}

int main(void)
{
    if (osturdam_layout() != OSTURDAM_LAYOUT)
        return 1; /* a library of another layout was linked */
    configure();
    if (osturdam_room_of(&config) > sizeof kept.records)
        return 1; /* another file or mean was equipped, and no room set aside */
    board_start();
    wake();
    for (;;) {
        board_sleep();
        struct stretch *s = line_stretch(); /* before the time that passed, so that its idle mark is not later than that */
        tick(line_passed());
        if (s)
            serve(s);
    }
}
