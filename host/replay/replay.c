/* Replays recorded runs of the comparison (host/compare, record.rs) on the machine that it is compiled for, from C99 or C++: every answer,
 * every reply and every character of memory must be as the recording has it. Nothing but the header's calls is used. */
#include "machine.h"
#include "osturdam.h"

#include <stddef.h>

enum { UNIT = OSTURDAM_UNIT, BLOCK = OSTURDAM_BLOCK + 88, RECORDS = OSTURDAM_LENT + 64, BUFFER = OSTURDAM_REPLY + 80 };
enum { LONGEST = 100000, MANY = 300, DEPTH = 1024, PAINT = 0x5A5A5A5A };
enum line { END, BEGIN, POKE, LENT, VALID, FRESH, STRETCH, ELAPSED, WORD, PULSES, VALUE, STORE, CONTACT, SAMPLE };

/* A part of what a unit is lent, and what must stand there. Both begin as far behind a word, another one in each run. */
struct region {
    uint8_t *is, *should;
    uint32_t length;
};

static uint8_t unit_is[UNIT + 4], unit_should[UNIT + 4], block_is[BLOCK + 4], block_should[BLOCK + 4];
static uint8_t records_is[RECORDS + 4], records_should[RECORDS + 4];
static uint8_t buffer[BUFFER + 4], heard_chars[LONGEST + 4], reply[BUFFER];
static uint16_t values[MANY];
static struct region regions[3];
static struct osturdam_config config;
static struct osturdam_lent lent;
static struct osturdam_heard heard;
static struct osturdam_turned turned;
static struct osturdam_sampled sampled;
static uint32_t calls, runs, shift, deepest, deepest_valid;

/* ---- telling */

static void tell(const char *text)
{
    uint32_t many = 0;
    while (text[many] != 0)
        many++;
    machine_tell(text, many);
}

static void tell_number(uint32_t number)
{
    char digits[10];
    uint32_t first = sizeof digits;
    do
        digits[--first] = (char)('0' + number % 10);
    while ((number /= 10) > 0);
    machine_tell(digits + first, (uint32_t)sizeof digits - first);
}

static int failed(const char *what, uint32_t at)
{
    tell("replay: call ");
    tell_number(calls);
    tell(" of run ");
    tell_number(runs);
    tell(": ");
    tell(what);
    tell_number(at);
    tell("\n");
    return 1;
}

/* ---- reading */

static uint8_t got[4096];
static uint32_t got_many, got_next;

/* Behind the recording's end, 0: an end that comes too early is told by its count of calls. */
static uint8_t character(void)
{
    if (got_next == got_many) {
        got_many = machine_read(got, sizeof got);
        got_next = 0;
    }
    return got_next < got_many ? got[got_next++] : (uint8_t)0;
}

static void characters(uint8_t *to, uint32_t many)
{
    while (many-- > 0)
        *to++ = character();
}

static uint16_t word(void)
{
    uint8_t two[2];
    characters(two, 2);
    return osturdam_word_at(two);
}

static uint32_t value(void)
{
    uint8_t four[4];
    characters(four, 4);
    return osturdam_value_at(four);
}

/* ---- memory */

static void begin(void)
{
    uint8_t fill = character();
    runs++;
    shift = runs % 4;
    regions[0].is = unit_is + shift, regions[0].should = unit_should + shift, regions[0].length = UNIT;
    regions[1].is = block_is + shift, regions[1].should = block_should + shift, regions[1].length = BLOCK;
    regions[2].is = records_is + shift, regions[2].should = records_should + shift, regions[2].length = RECORDS;
    for (int r = 0; r < 3; r++)
        for (uint32_t i = 0; i < regions[r].length; i++)
            regions[r].is[i] = regions[r].should[i] = fill;
}

/* Changes that were made: by what happened between calls in both, by a call in what should stand there. */
static int changes(int both)
{
    for (uint8_t r = character(); r != 255; r = character()) {
        uint32_t at = word(), many = word();
        if (r > 2 || at + many > regions[r].length)
            return failed("the recording is not one of this program; it changes region ", r);
        for (; many > 0; at++, many--) {
            regions[r].should[at] = character();
            if (both)
                regions[r].is[at] = regions[r].should[at];
        }
    }
    return 0;
}

/* Where two parts that lie alike differ, or their length: by words where they lie on words. */
static uint32_t differs(const uint8_t *a, const uint8_t *b, uint32_t many)
{
    uint32_t i = 0;
    while ((uintptr_t)(a + i) % 4 != 0 && a[i] == b[i])
        i++;
    if ((uintptr_t)(a + i) % 4 == 0) {
        const uint32_t *p = (const uint32_t *)(const void *)(a + i), *q = (const uint32_t *)(const void *)(b + i);
        for (; i + 4 <= many && *p == *q; i += 4, p++, q++)
            ;
    }
    while (i < many && a[i] == b[i])
        i++;
    return i;
}

static int compared(void)
{
    static const char *const names[3] = {"another character in the unit at ", "another character in the block at ",
                                         "another character in the records at "};
    for (int r = 0; r < 3; r++) {
        uint32_t at = differs(regions[r].is, regions[r].should, regions[r].length);
        if (at < regions[r].length)
            return failed(names[r], at);
    }
    return 0;
}

/* ---- calls */

static void lend(void)
{
    lent.unit = (struct osturdam_unit *)(void *)regions[0].is;
    lent.length = word();
    lent.block = lent.length > 0 ? regions[1].is : NULL;
    lent.room = word();
    lent.records = lent.room > 0 ? regions[2].is : NULL;
}

static void hear(void)
{
    heard.room = word();
    heard.buffer = heard.room > 0 ? buffer + shift : NULL;
    heard.lag = value();
    heard.count = value();
    heard.chars = heard.count > 0 ? heard_chars + shift : NULL;
    if (heard.count <= LONGEST)
        characters(heard_chars + shift, (uint32_t)heard.count);
    for (uint32_t i = 0; i < BUFFER; i++)
        buffer[shift + i] = (uint8_t)(i * 7 + 3);
}

/* What a call is given besides what is lent. */
static uint8_t number, event_number;
static uint16_t given_word;
static uint32_t given_value;

static void given(enum line line)
{
    switch (line) {
    case STRETCH: hear(); break;
    case ELAPSED: given_value = value(); break;
    case WORD:
    case PULSES: number = character(), given_word = word(); break;
    case CONTACT: number = character(), given_word = character(); break;
    case VALUE: number = character(), given_value = value(); break;
    case SAMPLE: number = character(); break;
    case STORE:
        number = character(), event_number = character(), given_word = word();
        for (uint16_t i = 0; i < given_word; i++)
            values[i < MANY ? i : 0] = word();
        break;
    default: characters((uint8_t *)&config, sizeof config); break;
    }
}

static __attribute__((noinline)) int called(enum line line)
{
    switch (line) {
    case STRETCH: return (int)osturdam_hear(&lent, &heard, &turned);
    case ELAPSED: return (int)osturdam_wait(&lent, given_value);
    case WORD: return (int)osturdam_take_word(&lent, number, given_word);
    case PULSES: return (int)osturdam_take_pulses(&lent, number, given_word);
    case CONTACT: return (int)osturdam_take_contact(&lent, number, (uint8_t)given_word);
    case VALUE: return (int)osturdam_take_value(&lent, number, given_value);
    case SAMPLE: return (int)osturdam_take_sample(&lent, number, &sampled);
    case STORE: return (int)osturdam_take_record(&lent, number, event_number, given_word > 0 ? values : NULL, given_word);
    case VALID: return osturdam_is_valid(&config);
    default: osturdam_begin(&lent, &config); return 0;
    }
}

/* A call, and how far below this function the stack was written for it, in words of four characters: arguments and what the header's call
 * needs are among it. */
static __attribute__((noinline)) int measured(enum line line)
{
#ifdef STACK_POINTER
    volatile uint32_t *top;
    __asm__ volatile(STACK_POINTER : "=r"(top));
    for (uint32_t i = 1; i <= DEPTH; i++)
        top[-(ptrdiff_t)i] = PAINT;
    int answer = called(line);
    uint32_t depth = DEPTH, *most = line == VALID ? &deepest_valid : &deepest;
    while (depth > *most && top[-(ptrdiff_t)depth] == PAINT)
        depth--;
    if (depth > *most)
        *most = depth;
    return answer;
#else
    return called(line);
#endif
}

/* What a stretch does and sends, and that nothing is written behind it. */
static int stretched(void)
{
    uint8_t action = character(), output = character();
    uint16_t sent = word();
    if (sent > BUFFER)
        return failed("the recording is not one of this program; it sends ", sent);
    characters(reply, sent);
    if (turned.sent != sent)
        return failed("another length of reply: ", turned.sent);
    if ((uint8_t)turned.action != action || turned.output != output)
        return failed("another action: ", (uint32_t)turned.action);
    for (uint32_t i = 0; i < BUFFER; i++)
        if (buffer[shift + i] != (i < sent ? reply[i] : (uint8_t)(i * 7 + 3)))
            return failed("another character in the buffer at ", i);
    return 0;
}

/* What a sample comes to. */
static int mean_told(void)
{
    uint16_t missing = word();
    uint32_t mean = value();
    if (sampled.missing != missing)
        return failed("another number of samples missing: ", sampled.missing);
    if (sampled.mean != mean)
        return failed("another mean: ", sampled.mean);
    return 0;
}

static int call(enum line line)
{
    calls++;
    given(line);
    int answer = measured(line);
    if (line != FRESH && answer != character())
        return failed("another answer: ", (uint32_t)answer);
    if (line == VALID && osturdam_room_of(&config) != value())
        return failed("another room: ", (uint32_t)osturdam_room_of(&config));
    if ((line == STRETCH && stretched() != 0) || (line == SAMPLE && mean_told() != 0))
        return 1;
    if (line != VALID && changes(0) != 0)
        return 1;
    return compared();
}

/* ---- the whole */

static int opened(void)
{
    static const char mark[] = "osturdam recording 5\n";
    for (const char *p = mark; *p != 0; p++)
        if (character() != (uint8_t)*p)
            return failed("no recording of this kind; it differs at ", (uint32_t)(p - mark));
    if (word() != UNIT || word() != BLOCK || word() != RECORDS || word() != BUFFER)
        return failed("a recording of other sizes, ", 0);
    uint16_t layout = word();
    if (layout != OSTURDAM_LAYOUT || osturdam_layout() != layout)
        return failed("another layout: ", osturdam_layout());
    return 0;
}

static int ended(void)
{
    if (value() != calls || calls == 0)
        return failed("the recording ends too early; calls were ", calls);
    tell("replay: ");
    tell_number(calls);
    tell(" calls in ");
    tell_number(runs);
    tell(" runs are as recorded; most stack ");
    tell_number(4 * deepest);
    tell(", of osturdam_valid ");
    tell_number(4 * deepest_valid);
    tell("\n");
    return 0;
}

int replay(void)
{
    int wrong = opened();
    while (wrong == 0) {
        enum line line = (enum line)character();
        switch (line) {
        case END: return ended();
        case BEGIN: begin(); break;
        case POKE: wrong = changes(1); break;
        case LENT: lend(); break;
        default: wrong = line > SAMPLE ? failed("the recording is not one of this program; it has line ", line) : call(line); break;
        }
    }
    return wrong;
}
