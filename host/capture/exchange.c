/* Runs a fixed exchange between masters and a unit of the library and prints it, one message a line, for checks/capture:
 *   I <TAB> the equipped input numbers      C <TAB> the calculation numbers that are equipped from now on      F <TAB> a file <TAB> its values
 *   W <TAB> what the next messages show     T <TAB> milliseconds that passed
 *   M <TAB> a master's stretch <TAB> its outcome      U <TAB> the unit's reply */
#include <stdio.h>
#include <stdlib.h>

#include "osturdam.h"
#include "steps.h"

static struct osturdam_config config;
static struct osturdam_together all;
static struct osturdam_lent lent;

static void part(char kind, const uint8_t *chars, size_t many)
{
    printf("%c\t", kind);
    for (size_t i = 0; i < many; i++)
        printf("%02X", chars[i]);
}

static void line(char kind, const uint8_t *chars, size_t many)
{
    part(kind, chars, many);
    printf("\n");
}

/* A local event that the unit does not take is a fault of this program. */
static void must(int answer, const char *what)
{
    if (answer == 0)
        return;
    fprintf(stderr, "exchange: %s answers %d\n", what, answer);
    exit(1);
}

/* The check word bit by bit, so that a master's frames do not rest on the library's own table. */
static uint16_t check_of(const uint8_t *chars, size_t many)
{
    unsigned word = 0;
    for (size_t i = 0; i < many; i++) {
        word ^= chars[i];
        for (int bit = 0; bit < 8; bit++)
            word = word & 1 ? word >> 1 ^ 0xA001 : word >> 1;
    }
    return (uint16_t)word;
}

static size_t lay_out(const struct step *s, uint8_t *frame)
{
    size_t n = 6 + s->count;
    frame[0] = s->unit & 0xFF;
    frame[1] = (uint8_t)(s->unit >> 8 | s->master << 3);
    frame[2] = s->function;
    frame[3] = s->command;
    frame[4] = s->count;
    frame[5] = 0;
    for (size_t i = 0; i < s->count; i++)
        frame[6 + i] = s->data[i];
    uint16_t check = check_of(frame, n);
    frame[n] = (check & 0xFF) ^ s->damage;
    frame[n + 1] = check >> 8;
    return n + 2 - s->cut;
}

static void pass(uint32_t ms)
{
    if (ms == 0)
        return;
    must(osturdam_wait(&lent, ms), "an elapsed time");
    printf("T\t%u\n", ms);
}

static void run(const struct step *steps, size_t many)
{
    for (size_t i = 0; i < many; i++) {
        uint8_t chars[OSTURDAM_STRETCH], reply[OSTURDAM_REPLY];
        pass(steps[i].before);
        if (steps[i].what)
            printf("W\t%s\n", steps[i].what);
        size_t heard = lay_out(&steps[i], chars);
        if (steps[i].together)
            heard += lay_out(&steps[++i], chars + heard);
        struct osturdam_heard stretch = {.chars = chars, .count = heard, .buffer = reply, .room = sizeof reply};
        struct osturdam_turned turned;
        osturdam_hear(&lent, &stretch, &turned);
        part('M', chars, heard);
        printf("\t%u\n", (unsigned)turned.outcome);
        if (turned.sent > 0)
            line('U', reply, turned.sent);
    }
}

static void equip(void (*take)(struct osturdam_config *, uint8_t), const uint8_t *numbers, size_t many)
{
    for (size_t i = 0; i < many; i++)
        take(&config, numbers[i]);
}

static void configure(void)
{
    osturdam_put_number(&config, UNIT);
    osturdam_put_length(&config, 300);
    equip(osturdam_equip_input, inputs, sizeof inputs);
    equip(osturdam_equip_output, outputs, sizeof outputs);
    equip(osturdam_equip_calculation, calculations, sizeof calculations);
    osturdam_equip_calculation(&config, DEMAND);
    osturdam_equip_mean(&config, 0, DEMAND, LOAD, 2);
    line('I', inputs, sizeof inputs);
    line('C', calculations, sizeof calculations);
    for (size_t i = 0; i < sizeof files; i++) {
        osturdam_equip_file(&config, files[i], values[i]);
        printf("F\t%u\t%u\n", files[i], values[i]);
    }
    lent = osturdam_lend(&all, &config);
    osturdam_begin(&lent, &config);
}

/* Contacts that bring a group to its word: those that are marked change twice more. */
static void contacts(uint8_t group, uint16_t word)
{
    for (uint8_t i = 0; i < 8; i++) {
        uint8_t contact = (uint8_t)(8 * group + i), state = word >> i & 1;
        unsigned marked = word >> (8 + i) & 1;
        for (int change = marked ? 2 : 0; change >= 0; change--)
            must(osturdam_take_contact(&lent, contact, (uint8_t)(state ^ (change & 1))), "a contact");
    }
}

/* Words and values that show every character and the sign; accumulators are counted up. */
static void measure(void)
{
    for (size_t i = 0; i < sizeof inputs; i++) {
        if (inputs[i] >= 0x40 && inputs[i] < 0x60)
            must(osturdam_take_pulses(&lent, inputs[i], words[i]), "a pulse count");
        else if (inputs[i] < OSTURDAM_GROUPS)
            contacts(inputs[i], words[i]);
        else
            must(osturdam_take_word(&lent, inputs[i], words[i]), "a word");
    }
    for (size_t i = 0; i < sizeof calculations; i++)
        must(osturdam_take_value(&lent, calculations[i], results[i]), "a value");
}

/* The load as it was measured, and another: then the mean is ready, and among the calculations. */
static void sample(void)
{
    uint8_t ready[sizeof calculations + 1];
    struct osturdam_sampled sampled;
    size_t lower = 0;
    while (lower < sizeof calculations && calculations[lower] < DEMAND)
        lower++;
    for (size_t i = 0; i < sizeof ready; i++)
        ready[i] = i < lower ? calculations[i] : i == lower ? DEMAND : calculations[i - 1];
    must(osturdam_take_sample(&lent, DEMAND, &sampled), "a sample");
    must(osturdam_take_word(&lent, LOAD, words[sizeof inputs - 1]), "a word");
    must(osturdam_take_sample(&lent, DEMAND, &sampled), "a sample");
    line('C', ready, sizeof ready);
}

/* Records of every file but the last, which stays empty; time passes from one to the next. */
static void record(void)
{
    uint16_t given[OSTURDAM_VALUES];
    for (size_t i = 0; i + 1 < sizeof files; i++) {
        for (size_t n = 0; n < held[i]; n++) {
            for (size_t v = 0; v < values[i]; v++)
                given[v] = (uint16_t)(0x8001 + 0x1357 * n + 0x0111 * v);
            must(osturdam_take_record(&lent, files[i], (uint8_t)(0x11 * n + i), given, values[i]), "a record");
            pass(37501);
        }
    }
}

int main(void)
{
    configure();
    measure();
    run(opening, sizeof opening / sizeof opening[0]);
    record();
    sample();
    run(rest, sizeof rest / sizeof rest[0]);
    return 0;
}
