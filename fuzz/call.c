#include "call.h"

#include "judge.h"
#include "lent.h"
#include "line.h"
#include "osturdam.h"
#include "sampled.h"

#include <stdio.h>
#include <stdlib.h>

enum { SHORTEST_REPLY = 9 };

/* The regions of a unit's memory, of which each kind of event may change some. */
enum region { LAYOUT, CONFIGURATION, NUMBERS, WORDS, RESULTS, FIXED, COUNTS, DROPPED, CHANGED, TAKEN, PLANS, REGIONS };
static const struct {
    const char *name;
    size_t from, to;
} regions[REGIONS] = {
    [LAYOUT] = {"number of the layout", OSTURDAM_AT_LAYOUT, OSTURDAM_AT_NUMBER},
    [CONFIGURATION] = {"configuration in the unit", OSTURDAM_AT_NUMBER, OSTURDAM_AT_NUMBERS},
    [NUMBERS] = {"kept numbers", OSTURDAM_AT_NUMBERS, OSTURDAM_AT_WORDS},
    [WORDS] = {"words", OSTURDAM_AT_WORDS, OSTURDAM_AT_RESULTS},
    [RESULTS] = {"results", OSTURDAM_AT_RESULTS, OSTURDAM_AT_FIXED},
    [FIXED] = {"fixed", OSTURDAM_AT_FIXED, OSTURDAM_AT_COUNTS},
    [COUNTS] = {"counts", OSTURDAM_AT_COUNTS, OSTURDAM_AT_DROPPED},
    [DROPPED] = {"numbers dropped", OSTURDAM_AT_DROPPED, OSTURDAM_AT_CHANGED},
    [CHANGED] = {"contacts that changed", OSTURDAM_AT_CHANGED, OSTURDAM_AT_TAKEN},
    [TAKEN] = {"samples in", OSTURDAM_AT_TAKEN, OSTURDAM_AT_PLANS},
    [PLANS] = {"scan plans", OSTURDAM_AT_PLANS, OSTURDAM_UNIT},
};

/* What each kind of event may change, as bits of parts and of regions. */
static const struct {
    unsigned parts, regions;
} changes[] = {
    [BEGIN] = {1u << BLOCK, (1u << REGIONS) - 1},
    [HEAR] = {1u << BLOCK | 1u << RECORDS | 1u << BUFFER,
              1u << NUMBERS | 1u << WORDS | 1u << FIXED | 1u << COUNTS | 1u << CHANGED | 1u << PLANS},
    [ELAPSE] = {0, 1u << NUMBERS},
    [SET_WORD] = {0, 1u << WORDS},
    [PULSE] = {0, 1u << WORDS},
    [SET_VALUE] = {0, 1u << RESULTS},
    [STORE] = {1u << RECORDS, 1u << NUMBERS | 1u << COUNTS | 1u << DROPPED},
    [CONTACT] = {0, 1u << WORDS | 1u << CHANGED},
    [SAMPLE] = {1u << RECORDS, 1u << RESULTS | 1u << TAKEN},
};

static struct picture *before, *after;
static unsigned long calls;
static bool seen[OSTURDAM_BUFFER_SHORT + 1];

unsigned long call_count(void)
{
    return calls;
}

int call_outcomes(void)
{
    int many = 0;
    for (int outcome = 0; outcome <= OSTURDAM_BUFFER_SHORT; outcome++)
        many += seen[outcome] ? 1 : 0;
    return many;
}

static void hold(bool true_of_it, const struct call *c, const char *what, const char *where)
{
    if (true_of_it)
        return;
    fprintf(stderr, "fuzz: event of kind %d: %s %s\n", (int)c->kind, what, where);
    abort();
}

static uint8_t *place(const struct call *c, enum part part)
{
    return c->nulls && lent[part].length == 0 ? NULL : lent[part].at;
}

/* How a call ended; but for a stretch and a sample it is the outcome alone. */
struct answer {
    uint8_t outcome;
    uint16_t sent;
    uint8_t action, output;
    uint8_t sampled[CALL_SAMPLED];
};

/* How each call of the library begins: unit, parameter block. */
#define OWN lent[UNIT].at, place(c, BLOCK), lent[BLOCK].length
#define LENT OWN, place(c, RECORDS), lent[RECORDS].length

static struct answer heard(const struct call *c)
{
    const uint8_t *turned = lent[TURNED].at;
    struct answer a = {0, 0, 0, 0, {0}};
    a.outcome =
        osturdam_stretch(LENT, place(c, BUFFER), lent[BUFFER].length, place(c, STRETCH), lent[STRETCH].length, c->value, lent[TURNED].at);
    a.sent = osturdam_word_at(turned);
    a.action = turned[2];
    a.output = turned[3];
    return a;
}

static struct answer sampled(const struct call *c)
{
    struct answer a = {0, 0, 0, 0, {0}};
    a.outcome = osturdam_sample(LENT, c->number, lent[TURNED].at);
    memcpy(a.sampled, lent[TURNED].at, CALL_SAMPLED);
    return a;
}

static uint8_t local(const struct call *c)
{
    switch (c->kind) {
    case ELAPSE: return osturdam_elapsed(LENT, c->value);
    case SET_WORD: return osturdam_set_word(LENT, c->number, (uint16_t)c->value);
    case CONTACT: return osturdam_contact(LENT, c->number, (uint8_t)c->value);
    case PULSE: return osturdam_pulses(LENT, c->number, (uint16_t)c->value);
    case SET_VALUE: return osturdam_set_value(LENT, c->number, c->value);
    case STORE:
        return osturdam_store_record(LENT, c->number, c->event, (const uint16_t *)place(c, GIVEN), lent[GIVEN].length / sizeof(uint16_t));
    default: osturdam_fresh(OWN, lent[CONFIG].at); return OSTURDAM_DONE;
    }
}

static struct answer made(const struct call *c)
{
    struct answer a = {0, 0, 0, 0, {0}};
    if (c->kind == HEAR)
        return heard(c);
    if (c->kind == SAMPLE)
        return sampled(c);
    a.outcome = local(c);
    return a;
}

static struct osturdam_unit unit_in(const struct picture *p)
{
    struct osturdam_unit u;
    memcpy(&u, picture_part(p, UNIT), OSTURDAM_UNIT);
    return u;
}

static bool fits(const struct picture *p)
{
    struct osturdam_unit u = unit_in(p);
    return judge(&u, lent[BLOCK].length, lent[RECORDS].length);
}

/* The part is as it was, from one character on and up to another. */
static bool as_before(enum part part, size_t from, size_t to)
{
    return memcmp(picture_part(before, part) + from, lent[part].at + from, to - from) == 0;
}

/* What a turned away call leaves, and what any call leaves. */
static void check_memory(const struct call *c, bool away)
{
    unsigned may = away ? 0 : changes[c->kind].parts, within = away ? 0 : changes[c->kind].regions;
    enum part part = lent_overwritten();
    hold(part == PARTS, c, "something was written before", part == PARTS ? "" : lent_name(part));
    for (part = 0; part < PARTS; part++)
        if (part != UNIT && part != TURNED && (may >> part & 1) == 0)
            hold(as_before(part, 0, lent[part].length), c, "changed:", lent_name(part));
    for (enum region r = 0; r < REGIONS; r++)
        if ((within >> r & 1) == 0)
            hold(as_before(UNIT, regions[r].from, regions[r].to), c, "changed:", regions[r].name);
    struct osturdam_unit u = unit_in(before);
    if (lent[RECORDS].length > asked(&u.config))
        hold(as_before(RECORDS, asked(&u.config), lent[RECORDS].length), c, "changed behind the", "records");
}

static bool zeros(const uint8_t *chars, size_t many)
{
    size_t i = 0;
    while (i < many && chars[i] == 0)
        i++;
    return i == many;
}

static void check_fresh(const struct call *c)
{
    struct osturdam_unit u = unit_in(after);
    hold(osturdam_word_at(u.layout) == OSTURDAM_LAYOUT, c, "another layout was laid", "");
    hold(memcmp(&u.config, lent[CONFIG].at, OSTURDAM_CONFIG) == 0, c, "another configuration was laid", "");
    hold(zeros(lent[UNIT].at + OSTURDAM_AT_WORDS, OSTURDAM_AT_PLANS - OSTURDAM_AT_WORDS), c, "left in a fresh", "unit");
    hold(zeros(lent[BLOCK].at, lent[BLOCK].length), c, "left in a fresh", "block");
    for (int which = 0; which < OSTURDAM_KEPT; which++) {
        uint16_t wanted = which == OSTURDAM_DAY || which == OSTURDAM_STATUS_CONFIGURE ? 1 : 0;
        hold(osturdam_kept_of(&u, (enum osturdam_kept)which) == wanted, c, "left in the fresh", "numbers");
    }
    hold(osturdam_room(lent[CONFIG].at) == asked(&u.config), c, "another room is asked for", "");
    bool valid = judge(&u, osturdam_length_of(&u.config), asked(&u.config));
    hold(osturdam_valid(lent[CONFIG].at) == (valid ? 1 : 0), c,
         valid ? "a configuration in range is not valid" : "one out of range is valid", "");
}

static void check_reply(const struct call *c, const struct answer *t)
{
    static const unsigned unanswered = 1u << OSTURDAM_NOT_WHOLE | 1u << OSTURDAM_CHECK_WRONG | 1u << OSTURDAM_OTHER_UNIT |
                                       1u << OSTURDAM_BROADCAST_DONE | 1u << OSTURDAM_WRITE_TAKEN | 1u << OSTURDAM_BROADCAST_REFUSED |
                                       1u << OSTURDAM_NOT_CONFIGURED | 1u << OSTURDAM_BUFFER_SHORT;
    size_t room = lent[BUFFER].length, sent = t->sent;
    hold(t->outcome <= OSTURDAM_BUFFER_SHORT, c, "no such outcome", "");
    hold((t->outcome == OSTURDAM_BUFFER_SHORT) == (room < OSTURDAM_REPLY), c, "18 is not for short buffers alone", "");
    hold((sent == 0) == ((unanswered >> t->outcome & 1) == 1), c, "answered, or not, against the outcome", "");
    hold(sent == 0 || (sent >= SHORTEST_REPLY && sent <= OSTURDAM_REPLY), c, "no length of a reply", "");
    hold(line_check(lent[BUFFER].at, sent) == 0, c, "the reply's check is wrong", "");
    hold(as_before(BUFFER, sent, room), c, "written behind the reply", "");
    hold(t->action <= OSTURDAM_CLOSE, c, "no such action", "");
    hold(t->action != OSTURDAM_REST || t->output == 0, c, "an output without an action", "");
    bool equipped = lent[UNIT].at[OSTURDAM_AT_OUTPUTS + t->output] != 0;
    hold(t->action == OSTURDAM_REST || (t->outcome == OSTURDAM_DONE && equipped), c, "no such operation", "");
}

/* Whether a stretch is a Set Time, as far as its head says. */
static bool sets_time(void)
{
    const uint8_t *s = lent[STRETCH].at;
    return lent[STRETCH].length > 3 && s[2] == 0x20 && s[3] == 0x38;
}

static void check_lag(const struct call *c, uint8_t outcome)
{
    bool done = outcome == OSTURDAM_DONE || outcome == OSTURDAM_BROADCAST_DONE;
    hold(!done || !sets_time() || c->value <= OSTURDAM_LAG_MS, c, "the time was set with a lag that is too long", "");
}

/* The same call once more, but with another lag where no Set Time was heard: that must change nothing. */
static struct answer made_again(const struct call *c)
{
    struct call again = *c;
    if (c->kind == HEAR && !sets_time())
        again.value = ~c->value;
    return made(&again);
}

/* Any stretch has the check of a plain loop, and that of its two parts in turn, wherever it is cut and whatever the start. */
static void check_parts(const struct call *c)
{
    const uint8_t *s = lent[STRETCH].at;
    size_t n = lent[STRETCH].length;
    uint16_t start = line_check(s, n);
    size_t cut = start % (n + 1);
    uint16_t in_turn = osturdam_check(osturdam_check(start, s, cut), s + cut, n - cut);
    hold(osturdam_check(0, s, n) == start, c, "another check of", "the stretch");
    hold(in_turn == osturdam_check(start, s, n), c, "another check of", "two parts");
}

/* How many records of a file the remembered reply carried. */
static uint16_t spared(const struct osturdam_unit *u, uint8_t file)
{
    bool own = osturdam_kept_of(u, OSTURDAM_MEMORY) == OSTURDAM_REMEMBERED && osturdam_kept_of(u, OSTURDAM_MEMORY_FILE) == file;
    return own ? osturdam_kept_of(u, OSTURDAM_MEMORY_QUANTITY) : (uint16_t)0;
}

/* A full file that may drop a record takes one and counts the other, and those of the remembered reply stay. */
static void check_stored(const struct call *c, uint8_t outcome)
{
    struct osturdam_unit u = unit_in(before), left = unit_in(after);
    uint8_t file = c->number;
    uint16_t was = osturdam_dropped_of(&u, file), kept = spared(&u, file);
    bool full = osturdam_count_of(&u, file) == OSTURDAM_ROOM, drops = full && outcome == OSTURDAM_STORED;
    bool may = !osturdam_keeps_oldest(&u.config, file) && kept < OSTURDAM_ROOM;
    size_t from = (size_t)osturdam_record_place(&u.config, file, 0), many = (size_t)kept * osturdam_record_length(&u.config, file);
    hold(outcome <= OSTURDAM_WRONG_VALUES, c, "no such answer", "");
    hold(!drops || may, c, "a record was dropped that stays", "");
    hold(outcome != OSTURDAM_FILE_FULL || (full && !may), c, "a record was refused that is taken", "");
    hold(osturdam_dropped_of(&left, file) == (drops && was < OSTURDAM_DROPPED ? was + 1 : was), c, "counted wrong:", "numbers dropped");
    hold(as_before(RECORDS, from, from + many), c, "changed in the remembered", "records");
}

/* A contact that changes is marked where it has changed before; no other contact is touched. */
static void check_contact(const struct call *c, uint8_t outcome)
{
    struct osturdam_unit u = unit_in(before), left = unit_in(after);
    uint8_t group = c->number / 8, bit = (uint8_t)(1u << c->number % 8);
    uint16_t word = osturdam_word_of(&u, group);
    bool taken = osturdam_has_input(&u.config, group) && c->value < 2, changes = taken && ((word & bit) != 0) != (c->value == 1);
    if (changes)
        word = (uint16_t)((word ^ bit) | (u.changed[group] & bit) << 8);
    hold((outcome == OSTURDAM_DONE) == taken, c, "a contact was taken, or not, against", "the configuration");
    hold(osturdam_word_of(&left, group) == word, c, "another word of", "the group");
    hold(left.changed[group] == (changes ? u.changed[group] | bit : u.changed[group]), c, "another tally of", "the group");
}

/* What a group has to tell after a stretch: nothing where a normal reply carried it, else all that it had. */
static void check_group(const struct call *c, uint8_t group, bool scan, bool all)
{
    struct osturdam_unit u = unit_in(before), left = unit_in(after);
    uint16_t was = osturdam_word_of(&u, group), is = osturdam_word_of(&left, group);
    bool kept = is == was && left.changed[group] == u.changed[group], cleared = is == (was & 0xFF) && left.changed[group] == 0;
    bool equipped = osturdam_has_input(&u.config, group);
    hold(kept || (scan && equipped && cleared), c, "cleared without", "a reply that carried it");
    hold(!all || !equipped || cleared, c, "kept after", "a reply that carried it");
}

static void check_told(const struct call *c, uint8_t outcome)
{
    const uint8_t *s = lent[STRETCH].at;
    bool done = outcome == OSTURDAM_DONE && lent[STRETCH].length > 3, kinds = done && s[2] == 0x00;
    for (uint8_t group = 0; group < OSTURDAM_GROUPS; group++)
        check_group(c, group, (kinds && s[3] & 4) || (done && s[2] == 0x0A), kinds && s[3] & 4);
}

static void check_sampled(const struct call *c, const struct answer *t)
{
    struct osturdam_unit u = unit_in(before), left = unit_in(after);
    const uint8_t *records = picture_part(before, RECORDS);
    const char *wrong = sample_wrong(&u, &left, records, lent[RECORDS].at, c->number, t->outcome, t->sampled);
    hold(wrong == NULL, c, "of a sample:", wrong == NULL ? "" : wrong);
}

static void check_local(const struct call *c, const struct answer *t)
{
    uint8_t outcome = t->outcome;
    if (c->kind == STORE)
        check_stored(c, outcome);
    else if (c->kind == SAMPLE)
        check_sampled(c, t);
    else if (c->kind == CONTACT)
        check_contact(c, outcome);
    else
        hold(outcome == OSTURDAM_DONE || (outcome == OSTURDAM_NOT_VALID && c->kind != ELAPSE), c, "no such answer", "");
}

static void check_answer(const struct call *c, const struct answer *t)
{
    bool fit = fits(before), refused = t->outcome == OSTURDAM_NOT_CONFIGURED;
    bool is_short = c->kind == HEAR && lent[BUFFER].length < OSTURDAM_REPLY;
    hold(is_short || refused == !fit, c, fit ? "a unit in range was refused" : "a unit out of range was taken", "");
    check_memory(c, refused || is_short);
    if (c->kind == HEAR) {
        check_parts(c);
        check_reply(c, t);
        check_lag(c, t->outcome);
        check_told(c, t->outcome);
    } else if (!refused) {
        check_local(c, t);
    }
    struct osturdam_unit u = unit_in(before);
    const uint8_t *records = picture_part(before, RECORDS);
    hold(!fit || c->kind == SAMPLE || samples_kept(&u.config, records, lent[RECORDS].at, OSTURDAM_MEANS), c, "changed:", "samples");
    hold(t->outcome == OSTURDAM_DONE || zeros(t->sampled, sizeof t->sampled), c, "a refusal told", "a mean");
    hold(!fit || fits(after), c, "a unit in range was left out of it", "");
}

static struct osturdam_unit replanned(struct osturdam_unit u)
{
    osturdam_replan((uint8_t *)&u);
    return u;
}

/* Plans made anew change nothing else, and nothing where they are those of the tables: so a call leaves them that found them so. */
static void check_plans(const struct call *c)
{
    struct osturdam_unit was = unit_in(before), is = unit_in(after), found = replanned(was), left = replanned(is), again = replanned(left);
    bool held = c->kind == BEGIN || memcmp(&found, &was, sizeof was) == 0;
    hold(memcmp(&left, &is, OSTURDAM_AT_PLANS) == 0, c, "changed by plans made anew:", "unit");
    hold(memcmp(&again, &left, sizeof left) == 0, c, "other plans the second time", "");
    hold(!held || memcmp(&left, &is, sizeof is) == 0, c, "plans that are not those of", "the tables");
}

static bool same(const struct answer *a, const struct answer *b)
{
    return a->sent == b->sent && a->outcome == b->outcome && a->action == b->action && a->output == b->output &&
           memcmp(a->sampled, b->sampled, sizeof a->sampled) == 0;
}

void call_checked(const struct call *c)
{
    if (before == NULL) {
        before = picture_new();
        after = picture_new();
    }
    lent_place(TURNED, c->kind == SAMPLE ? CALL_SAMPLED : CALL_TURNED);
    picture_take(before);
    struct answer first = made(c);
    picture_take(after);
    if (c->kind == BEGIN) {
        check_memory(c, false);
        check_fresh(c);
    } else {
        check_answer(c, &first);
    }
    check_plans(c);
    picture_restore(before);
    struct answer again = made_again(c);
    enum part part = picture_differs(after);
    hold(same(&first, &again), c, "another answer the second time", "");
    hold(part == PARTS, c, "another memory the second time:", part == PARTS ? "" : lent_name(part));
    calls++;
    if (c->kind == HEAR)
        seen[first.outcome] = true;
}
