/* Holds what the header says of means to what the library does: each fault of a configuration, where samples stand, and both answers. */
#include "osturdam.h"

#include <stdio.h>
#include <string.h>

enum { DEMAND = 5, LOAD = 0x80, OTHER = 0xFF };

static struct osturdam_config config;
static struct osturdam_together all;
static struct osturdam_lent lent;
static int failed;

static void expect(const char *what, long wanted, long got)
{
    if (wanted != got) {
        printf("header: %s is %ld, the library answers %ld\n", what, wanted, got);
        failed = 1;
    }
}

/* Every calculation and two analogs are equipped, and a file before the samples. */
static void configure(void)
{
    memset(&config, 0, sizeof config);
    for (int n = 0; n < OSTURDAM_CALCULATIONS; n++)
        osturdam_equip_calculation(&config, (uint8_t)n);
    osturdam_equip_input(&config, 0x30);
    osturdam_equip_input(&config, LOAD);
    osturdam_equip_input(&config, OTHER);
    osturdam_equip_file(&config, 3, 2);
}

static void start(void)
{
    lent = osturdam_lend(&all, &config);
    osturdam_begin(&lent, &config);
}

/* Whether a configuration with this mean in its last place is valid, as told before and by the first event. */
static void judged(const char *what, int valid, uint8_t calculation, uint8_t analog, uint16_t samples)
{
    struct osturdam_sampled sampled;
    configure();
    osturdam_equip_mean(&config, 0, DEMAND, LOAD, 1);
    osturdam_equip_mean(&config, OSTURDAM_MEANS - 1, calculation, analog, samples);
    osturdam_equip_mean(&config, OSTURDAM_MEANS, 0, 0, 0xFFFF); /* no place: nothing is written */
    start();
    expect(what, valid, osturdam_is_valid(&config));
    expect(what, valid ? OSTURDAM_DONE : OSTURDAM_NOT_CONFIGURED, osturdam_take_sample(&lent, DEMAND, &sampled));
    expect(what, valid, (long)(sampled.outcome == OSTURDAM_DONE));
}

static void configurations(void)
{
    judged("a mean of 1", 1, 0, LOAD, 1);
    judged("a mean of the most", 1, OSTURDAM_CALCULATIONS - 1, OTHER, OSTURDAM_SAMPLES);
    judged("a place not used", 1, DEMAND, 0x30, 0);
    judged("a mean of 3", 0, 0, LOAD, 3);
    judged("a mean of more", 0, 0, LOAD, 2 * OSTURDAM_SAMPLES);
    judged("a number named twice", 0, DEMAND, LOAD, 1);
    judged("a calculation not equipped", 0, OSTURDAM_CALCULATIONS, LOAD, 1);
    judged("an analog not equipped", 0, 0, LOAD + 1, 1);
    judged("an input that is no analog", 0, 0, 0x30, 1);
}

/* Both answers, the value, and where the samples are found: behind the records, oldest first. */
static void samples(void)
{
    enum { FIRST = OSTURDAM_RECORDS_OF(2) + OSTURDAM_SAMPLES_OF(8) };
    struct osturdam_sampled sampled;
    configure();
    osturdam_equip_mean(&config, 2, 0, OTHER, 8);
    osturdam_equip_mean(&config, 7, DEMAND, LOAD, 2);
    start();
    expect("the room", FIRST + OSTURDAM_SAMPLES_OF(2), (long)osturdam_room_of(&config));
    expect("the place of a mean", 7, osturdam_mean_place(&config, DEMAND));
    expect("the place of none", OSTURDAM_MEANS, osturdam_mean_place(&config, 1));
    expect("where its samples start", FIRST, (long)osturdam_samples_place(&config, 7));
    for (int i = 0; i < 3; i++) {
        expect("a word", OSTURDAM_DONE, osturdam_take_word(&lent, LOAD, (uint16_t)(10 * i - 11)));
        expect("a sample", OSTURDAM_DONE, osturdam_take_sample(&lent, DEMAND, &sampled));
        expect("the samples missing", i == 0, sampled.missing);
        expect("the bits of the mean", i == 0 ? 0 : i == 1 ? 0xC0C00000 : 0x40800000, (long)sampled.mean); /* -6, then 4 */
        expect("the samples in", i == 0 ? 1 : 2, osturdam_taken_of(&all.unit, 7));
    }
    expect("the value", 0x40800000, (long)osturdam_value_of(&all.unit, DEMAND));
    expect("the oldest sample", 0xFFFF, osturdam_word_at(all.records + FIRST));
    expect("the newest sample", 9, osturdam_word_at(all.records + FIRST + 2));
    expect("a value set", OSTURDAM_NOT_VALID, osturdam_take_value(&lent, DEMAND, 0));
    expect("a sample of no mean", OSTURDAM_NOT_VALID, osturdam_take_sample(&lent, 1, &sampled));
    expect("and nothing missing", 0, sampled.missing);
    lent.room = osturdam_room_of(&config) - 1;
    expect("room too short", OSTURDAM_NOT_CONFIGURED, osturdam_take_sample(&lent, DEMAND, &sampled));
    lent.room++;
    osturdam_word_to(all.unit.taken + 2 * 7, 3);
    expect("more samples than asked for", OSTURDAM_NOT_CONFIGURED, osturdam_take_sample(&lent, DEMAND, &sampled));
}

/* Sixteen means over the most samples and the longest records in every file ask for the most. */
static void most(void)
{
    configure();
    for (uint8_t place = 0; place < OSTURDAM_MEANS; place++)
        osturdam_equip_mean(&config, place, place, LOAD, OSTURDAM_SAMPLES);
    for (uint8_t file = 0; file < OSTURDAM_FILES; file++)
        osturdam_equip_file(&config, file, OSTURDAM_VALUES);
    expect("OSTURDAM_LENT", OSTURDAM_LENT, (long)osturdam_room_of(&config));
    start();
    expect("a unit of the most", OSTURDAM_DONE, osturdam_wait(&lent, 0));
    lent.room = OSTURDAM_LENT - 1;
    expect("one character less", OSTURDAM_NOT_CONFIGURED, osturdam_wait(&lent, 0));
}

int main(void)
{
    configurations();
    samples();
    most();
    return failed;
}
