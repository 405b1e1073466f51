#include "events.h"

#include <errno.h>
#include <fcntl.h>
#include <stdio.h>
#include <string.h>
#include <sys/stat.h>
#include <unistd.h>

#include "text.h"

static unsigned set_word(struct event *e, const struct osturdam_lent *l)
{
    return osturdam_take_word(l, (uint8_t)e->figures[0], (uint16_t)e->figures[1]);
}

static unsigned contact(struct event *e, const struct osturdam_lent *l)
{
    return osturdam_take_contact(l, (uint8_t)e->figures[0], (uint8_t)e->figures[1]);
}

static unsigned pulses(struct event *e, const struct osturdam_lent *l)
{
    return osturdam_take_pulses(l, (uint8_t)e->figures[0], (uint16_t)e->figures[1]);
}

static unsigned set_value(struct event *e, const struct osturdam_lent *l)
{
    return osturdam_take_value(l, (uint8_t)e->figures[0], e->figures[1]);
}

static unsigned store_record(struct event *e, const struct osturdam_lent *l)
{
    uint16_t values[OSTURDAM_VALUES];
    for (size_t i = 2; i < e->many; i++)
        values[i - 2] = (uint16_t)e->figures[i];
    return osturdam_take_record(l, (uint8_t)e->figures[0], (uint8_t)e->figures[1], values, e->many - 2);
}

static unsigned sample(struct event *e, const struct osturdam_lent *l)
{
    return osturdam_take_sample(l, (uint8_t)e->figures[0], &e->sampled);
}

enum { INPUT_MOST = OSTURDAM_INPUTS - 1, CONTACT_MOST = 8 * OSTURDAM_GROUPS - 1, FILE_MOST = OSTURDAM_FILES - 1 };

static const struct {
    const char *word, *takes;
    size_t least, most; /* figures */
    uint32_t limits[3]; /* of the first, the second and each further figure */
    unsigned (*apply)(struct event *e, const struct osturdam_lent *l);
} kinds[] = {
    {"word", "an input, 0 to FFh, and a word, 0 to FFFFh", 2, 2, {INPUT_MOST, 0xFFFF, 0}, set_word},
    {"contact", "a contact, 0 to 255, and its state, 0 or 1", 2, 2, {CONTACT_MOST, 0xFF, 0}, contact}, /* 8 is told of any other state */
    {"pulse", "an input, 0 to FFh, and a count, 0 to 65535", 2, 2, {INPUT_MOST, 0xFFFF, 0}, pulses},
    {"value", "a calculation, 0 to FFh, and a pattern of 32 bits", 2, 2, {INPUT_MOST, 0xFFFFFFFF, 0}, set_value},
    {"sample", "a calculation that is a mean, 0 to FFh", 1, 1, {INPUT_MOST, 0, 0}, sample},
    {"record",
     "the number of a file, an event type, 0 to FFh, and values, 0 to FFFFh, as many as its records have",
     3,
     EVENT_FIGURES,
     {FILE_MOST, 0xFF, 0xFFFF},
     store_record},
};

enum { KINDS = sizeof kinds / sizeof *kinds };

bool events_open(struct events *events, const char *path)
{
    struct stat found;
    *events = (struct events){.at = {path, 0}, .file = -1, .writer = -1};
    if (!path)
        return true;
    if (strcmp(path, "-") == 0) {
        events->at.name = "standard input";
        events->file = STDIN_FILENO;
        return true;
    }
    if (mkfifo(path, 0644) != 0 && errno != EEXIST) {
        complain(&events->at, "%s", strerror(errno));
        return false;
    }
    if (stat(path, &found) != 0 || !S_ISFIFO(found.st_mode)) {
        complain(&events->at, "is no FIFO; a file of events is given as --events - <FILE");
        return false;
    }
    events->file = open(path, O_RDONLY | O_NONBLOCK | O_CLOEXEC);
    events->writer = open(path, O_WRONLY | O_NONBLOCK | O_CLOEXEC);
    if (events->file < 0 || events->writer < 0)
        complain(&events->at, "%s", strerror(errno));
    return events->file >= 0 && events->writer >= 0;
}

static bool figures_of(char **words, size_t many, struct event *event)
{
    const uint32_t *limits = kinds[event->kind].limits;
    event->many = many - 1;
    if (event->many < kinds[event->kind].least || event->many > kinds[event->kind].most)
        return false;
    for (size_t i = 0; i < event->many; i++) {
        if (!number_of(words[i + 1], limits[i < 2 ? i : 2], &event->figures[i]))
            return false;
    }
    return true;
}

/* Whether a line is an event; an empty one is none and no fault. */
static bool event_of(const struct place *at, char *line, struct event *event)
{
    char *words[TEXT_WORDS];
    size_t many = words_of(line, words);
    if (many == 0)
        return false;
    for (event->kind = 0; event->kind < KINDS; event->kind++) {
        if (strcmp(words[0], kinds[event->kind].word) != 0)
            continue;
        if (figures_of(words, many, event))
            return true;
        complain(at, "%s takes %s", words[0], kinds[event->kind].takes);
        return false;
    }
    complain(at, "'%s' is no event (word, contact, pulse, value, sample, record)", words[0]);
    return false;
}

/* Takes characters that have come until a line is whole. */
static void gather(struct events *e)
{
    while (!e->ready && e->from < e->to) {
        char c = e->come[e->from++];
        if (c == '\n')
            e->ready = true;
        else if (e->length < EVENT_LINE)
            e->line[e->length++] = c;
    }
    if (e->file < 0 && e->length > 0)
        e->ready = true;
}

void events_read(struct events *e)
{
    ssize_t many = read(e->file, e->come, sizeof e->come);
    if (many < 0 && (errno == EAGAIN || errno == EINTR))
        return;
    if (many < 0)
        complain(&e->at, "%s", strerror(errno));
    e->from = 0;
    e->to = many > 0 ? (size_t)many : 0;
    if (many <= 0)
        e->file = -1;
    gather(e);
}

bool events_ready(const struct events *e)
{
    return e->ready;
}

bool events_next(struct events *e, struct event *event)
{
    char line[EVENT_LINE];
    size_t length = e->length;
    memcpy(line, e->line, length);
    e->length = 0;
    e->ready = false;
    e->at.line++;
    gather(e);
    if (length == EVENT_LINE) {
        complain(&e->at, "the line is longer than %d characters", EVENT_LINE - 1);
        return false;
    }
    line[length] = '\0';
    if (strlen(line) == length)
        return event_of(&e->at, line, event);
    complain(&e->at, "the line has a character that is no text");
    return false;
}

unsigned event_apply(struct event *event, const struct osturdam_lent *lent)
{
    return kinds[event->kind].apply(event, lent);
}

const char *event_kind(const struct event *event)
{
    return kinds[event->kind].word;
}

bool event_stores(const struct event *event)
{
    return kinds[event->kind].apply == store_record;
}

bool event_samples(const struct event *event)
{
    return kinds[event->kind].apply == sample;
}

const char *event_refusal(const struct event *event, unsigned outcome)
{
    if (event_samples(event))
        return "that number is no mean";
    if (!event_stores(event))
        return "that number is not equipped, or is of another kind";
    switch (outcome) {
    case OSTURDAM_FILE_FULL: return "the file is full and drops none: nothing was stored";
    case OSTURDAM_NO_FILE: return "that file is not equipped";
    default: return "records of that file have another number of values";
    }
}

void events_help(void)
{
    printf("Event lines, with numbers as in the configuration:\n"
           "  word INPUT WORD               a word of simple status or an analog is now this, e.g. word 30h 8001h\n"
           "  contact NUMBER STATE          a contact, 0 to 255, is now open (0) or closed (1), e.g. contact 21 1: the sixth of the\n"
           "                                group that is input 02h\n"
           "  pulse INPUT COUNT             so many pulses were counted, 0 to 65535, e.g. pulse 40h 12\n"
           "  value CALCULATION PATTERN     a value of 32 bits, of a calculation that is no mean, e.g. value 05h\n"
           "                                3F800000h\n"
           "  sample CALCULATION            the analog of a mean is sampled, e.g. sample 07h\n"
           "  record FILE TYPE VALUE...     a record of 1 to %d values, each 0 to FFFFh, is stored under the unit's clock;\n"
           "                                the type is 0 to FFh, e.g. record 2 17 1234h 5678h\n",
           OSTURDAM_VALUES);
}
