#include "config.h"

#include <stdarg.h>
#include <stdio.h>
#include <string.h>

#include "text.h"

struct reading {
    unsigned line;
    struct osturdam_config *config;
    bool unit, block;                      /* already given */
    unsigned means, lines[OSTURDAM_MEANS]; /* how many means are given, and where */
    struct config_notes *faults, *notices;
};

static void note(struct config_notes *to, unsigned line, const char *format, va_list given)
{
    if (to->many < to->room) {
        to->notes[to->many].line = line;
        vsnprintf(to->notes[to->many].what, CONFIG_WHAT, format, given);
    }
    to->many++;
}

static void wrong(struct reading *r, const char *format, ...) __attribute__((format(printf, 2, 3)));

static void wrong(struct reading *r, const char *format, ...)
{
    va_list given;
    va_start(given, format);
    note(r->faults, r->line, format, given);
    va_end(given);
}

static void unsaid(struct reading *r, const char *format, ...) __attribute__((format(printf, 2, 3)));

static void unsaid(struct reading *r, const char *format, ...)
{
    va_list given;
    va_start(given, format);
    note(r->notices, r->line, format, given);
    va_end(given);
}

static bool any_fits(uint32_t number)
{
    return number <= CONFIG_NUMBER_MOST;
}

static bool input_fits(uint32_t number)
{
    return number < 0x20 || (number >= 0x30 && number < 0x60) || number >= 0x80;
}

static bool calculation_fits(uint32_t number)
{
    return number < OSTURDAM_CALCULATIONS;
}

/* A number, or two joined by a dash. */
static bool range_of(char *word, uint32_t *first, uint32_t *last)
{
    char *dash = strchr(word, '-');
    if (!dash)
        return number_of(word, CONFIG_NUMBER_MOST, first) && number_of(word, CONFIG_NUMBER_MOST, last);
    *dash = '\0';
    bool good = number_of(word, CONFIG_NUMBER_MOST, first) && number_of(dash + 1, CONFIG_NUMBER_MOST, last) && *first <= *last;
    *dash = '-';
    return good;
}

static void equip(struct reading *r, char **words, size_t many, bool (*fits)(uint32_t), void (*take)(struct osturdam_config *, uint8_t))
{
    if (many < 2)
        wrong(r, "%s: no number is given", words[0]);
    for (size_t i = 1; i < many; i++) {
        uint32_t first, last;
        if (!range_of(words[i], &first, &last)) {
            wrong(r, "%s: '%.40s' is no number from 0 to FFh and no rising range of two", words[0], words[i]);
            continue;
        }
        while (first <= last && fits(first))
            take(r->config, (uint8_t)first++);
        if (first <= last)
            wrong(r, "%s: none can have the number %02Xh", words[0], (unsigned)first);
    }
}

static void take_inputs(struct reading *r, char **words, size_t many)
{
    equip(r, words, many, input_fits, osturdam_equip_input);
}

static void take_outputs(struct reading *r, char **words, size_t many)
{
    equip(r, words, many, any_fits, osturdam_equip_output);
}

static void take_calculations(struct reading *r, char **words, size_t many)
{
    equip(r, words, many, calculation_fits, osturdam_equip_calculation);
}

/* A line of one number that may stand once. */
static void take_single(struct reading *r, char **words, size_t many, uint32_t most, bool *given, uint32_t *number)
{
    if (*given)
        wrong(r, "%s is given a second time", words[0]);
    *given = true;
    if (many != 2 || !number_of(words[1], most, number))
        wrong(r, "%s takes one number, 0 to %u (%Xh)", words[0], (unsigned)most, (unsigned)most);
}

static void take_unit(struct reading *r, char **words, size_t many)
{
    uint32_t number = 0;
    take_single(r, words, many, CONFIG_UNIT_MOST, &r->unit, &number);
    osturdam_put_number(r->config, (uint16_t)number);
}

static void take_block(struct reading *r, char **words, size_t many)
{
    uint32_t length = 0;
    take_single(r, words, many, OSTURDAM_BLOCK, &r->block, &length);
    osturdam_put_length(r->config, (uint16_t)length);
}

/* Files of a text from before there was a choice all kept the oldest, so one that does not say is read so. */
static void take_file(struct reading *r, char **words, size_t many)
{
    uint32_t file, values;
    bool newest = many == 4 && strcmp(words[3], "newest") == 0, said = newest || (many == 4 && strcmp(words[3], "oldest") == 0);
    if ((many != 3 && !said) || !number_of(words[1], OSTURDAM_FILES - 1, &file) || !number_of(words[2], OSTURDAM_VALUES, &values) ||
        values == 0) {
        wrong(r, "file takes its number, 0 to %d, how many values its records have, 1 to %d, and oldest or newest", OSTURDAM_FILES - 1,
              OSTURDAM_VALUES);
        return;
    }
    if (osturdam_has_file(r->config, (uint8_t)file))
        wrong(r, "file %u is given a second time", (unsigned)file);
    if (!said)
        unsaid(r, "file %u says neither oldest nor newest: it keeps the oldest, and takes no record when it is full", (unsigned)file);
    osturdam_equip_file(r->config, (uint8_t)file, (uint8_t)values);
    if (newest)
        osturdam_keep_newest(r->config, (uint8_t)file);
}

/* A power of two to the most has one bit. */
static bool window_fits(uint32_t samples)
{
    return samples > 0 && (samples & (samples - 1)) == 0;
}

static void take_mean(struct reading *r, char **words, size_t many)
{
    uint32_t calculation, analog, samples;
    if (many != 4 || !number_of(words[1], CONFIG_NUMBER_MOST, &calculation) || !number_of(words[2], CONFIG_NUMBER_MOST, &analog) ||
        !number_of(words[3], OSTURDAM_SAMPLES, &samples) || !window_fits(samples)) {
        wrong(r, "mean takes a calculation, an analog, and over how many samples it is: 1, 2, 4, 8, 16, 32, 64, 128 or %d",
              OSTURDAM_SAMPLES);
        return;
    }
    if (osturdam_mean_place(r->config, (uint8_t)calculation) < OSTURDAM_MEANS)
        wrong(r, "the mean %02Xh is given a second time", (unsigned)calculation);
    if (r->means < OSTURDAM_MEANS) {
        r->lines[r->means] = r->line;
        osturdam_equip_mean(r->config, (uint8_t)r->means, (uint8_t)calculation, (uint8_t)analog, (uint16_t)samples);
    }
    if (r->means++ == OSTURDAM_MEANS)
        wrong(r, "there are more than %d means", OSTURDAM_MEANS);
}

/* What a mean names may be equipped by a later line, so this is judged behind the last. */
static void judge_means(struct reading *r)
{
    for (size_t place = 0; place < r->means && place < OSTURDAM_MEANS; place++) {
        uint8_t calculation = r->config->means[place], analog = r->config->sampled[place];
        r->line = r->lines[place];
        if (!osturdam_has_calculation(r->config, calculation))
            wrong(r, "the mean %02Xh is no equipped calculation", calculation);
        if (analog < CONFIG_ANALOG_LEAST)
            wrong(r, "the mean %02Xh: %02Xh is no analog", calculation, analog);
        else if (!osturdam_has_input(r->config, analog))
            wrong(r, "the mean %02Xh: the analog %02Xh is not equipped", calculation, analog);
    }
}

static const struct {
    const char *word;
    void (*take)(struct reading *r, char **words, size_t many);
} lines[] = {
    {"unit", take_unit}, {"inputs", take_inputs}, {"outputs", take_outputs}, {"calculations", take_calculations},
    {"file", take_file}, {"block", take_block},   {"mean", take_mean},
};

static void take_words(struct reading *r, char **words, size_t many)
{
    for (size_t i = 0; i < sizeof lines / sizeof *lines; i++) {
        if (strcmp(words[0], lines[i].word) == 0) {
            lines[i].take(r, words, many);
            return;
        }
    }
    wrong(r, "'%.40s' is no word that a line begins with (unit, inputs, outputs, calculations, mean, file, block)", words[0]);
}

static void take_line(struct reading *r, const char *chars, size_t length)
{
    char line[CONFIG_LINE];
    char *words[TEXT_WORDS];
    r->line++;
    if (length >= sizeof line) {
        wrong(r, "the line is longer than %d characters", CONFIG_LINE - 1);
        return;
    }
    memcpy(line, chars, length);
    line[length] = '\0';
    if (strlen(line) != length) {
        wrong(r, "the line has a character that is no text");
        return;
    }
    size_t many = words_of(line, words);
    if (many > TEXT_WORDS)
        wrong(r, "the line has %zu words, of which %d are read: let the list go on in a second line", many, TEXT_WORDS);
    else if (many > 0)
        take_words(r, words, many);
}

bool config_read(const char *text, size_t length, struct osturdam_config *config, struct config_notes *faults, struct config_notes *notices)
{
    struct reading r = {.config = config, .faults = faults, .notices = notices};
    memset(config, 0, sizeof *config);
    faults->many = notices->many = 0;
    for (const char *end = text + length; text < end;) {
        const char *ends = memchr(text, '\n', (size_t)(end - text));
        size_t many = (size_t)((ends ? ends : end) - text);
        take_line(&r, text, many);
        text += ends ? many + 1 : many;
    }
    judge_means(&r);
    r.line = 0;
    if (!r.unit)
        wrong(&r, "there is no line with the unit's number");
    return faults->many == 0;
}

void config_bench(struct osturdam_config *config)
{
    memset(config, 0, sizeof *config);
    osturdam_put_number(config, 1234);
    osturdam_equip_input(config, 0x30);
    osturdam_equip_input(config, 0x40);
}
