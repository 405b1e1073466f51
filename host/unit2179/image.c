#include "image.h"

#include <stdarg.h>
#include <stdbool.h>
#include <stdio.h>
#include <string.h>

#include "older.h"

/* Each part's name, and where it lies; the unit's regions first. */
/* clang-format off */
#define PARTS(PART)                                                                                                     \
    PART(layout, all.unit.layout) PART(config.number, all.unit.config.number)                                           \
    PART(config.length, all.unit.config.length) PART(config.inputs, all.unit.config.inputs)                             \
    PART(config.outputs, all.unit.config.outputs) PART(config.calculations, all.unit.config.calculations)               \
    PART(config.files, all.unit.config.files) PART(config.values, all.unit.config.values)                               \
    PART(config.oldest, all.unit.config.oldest) PART(config.means, all.unit.config.means)                               \
    PART(config.sampled, all.unit.config.sampled) PART(config.windows, all.unit.config.windows)                         \
    PART(numbers, all.unit.numbers) PART(words, all.unit.words) PART(results, all.unit.results)                         \
    PART(fixed, all.unit.fixed) PART(counts, all.unit.counts) PART(dropped, all.unit.dropped)                           \
    PART(changed, all.unit.changed) PART(taken, all.unit.taken) PART(plans, all.unit.plans) PART(block, all.block)       \
    PART(records, all.records)                                                                                          \
    PART(journal.history, history) PART(journal.entry, entry)
/* clang-format on */

#define LENGTH(path) sizeof(((struct kept *)0)->path)
#define ROW(name, path) {#name, offsetof(struct kept, path), LENGTH(path)},
#define PLUS_LENGTH(name, path) +LENGTH(path)
#define AND_NAMED(name, path) &&sizeof #name <= IMAGE_NAME

static const struct region parts[] = {PARTS(ROW)};

_Static_assert(sizeof parts / sizeof *parts == IMAGE_PARTS, "the image has room for each part");
_Static_assert(0 PARTS(PLUS_LENGTH) == IMAGE_CHARS && sizeof(struct kept) == IMAGE_CHARS, "the parts are all that is kept");
_Static_assert(1 PARTS(AND_NAMED), "a name and a 0 behind it fit");

static struct kept whole; /* 50 KB, which a small stack may not have */

uint64_t number_at(const uint8_t *chars, size_t width)
{
    uint64_t number = 0;
    for (size_t i = 0; i < width; i++)
        number |= (uint64_t)chars[i] << 8 * i;
    return number;
}

uint8_t *put_number(uint8_t *chars, uint64_t number, size_t width)
{
    for (size_t i = 0; i < width; i++)
        chars[i] = (uint8_t)(number >> 8 * i);
    return chars + width;
}

/* FNV-1a of 64 bits. */
uint64_t check_of(uint64_t begun, const uint8_t *chars, size_t many)
{
    uint64_t check = 0xCBF29CE484222325u ^ begun;
    for (size_t i = 0; i < many; i++)
        check = (check ^ chars[i]) * 0x100000001B3u;
    return check;
}

static bool is_records(const struct region *part)
{
    return part->at == offsetof(struct kept, all.records);
}

void image_order(struct image_order *order, const struct osturdam_config *config)
{
    *order = (struct image_order){.many = IMAGE_PARTS, .version = IMAGE_VERSION};
    memcpy(order->parts, parts, sizeof parts);
    for (struct region *p = order->parts; p < order->parts + IMAGE_PARTS; p++) {
        if (is_records(p))
            p->many = (size_t)osturdam_room_of(config);
    }
}

static const char title[8] = {'u', 'n', 'i', 't', '2', '1', '7', '9'};

size_t image_write(uint8_t image[IMAGE], const struct kept *kept)
{
    struct image_order order;
    image_order(&order, &kept->all.unit.config);
    memset(image, 0, IMAGE);
    memcpy(image, title, sizeof title);
    uint8_t *at = put_number(image + sizeof title, IMAGE_VERSION, 2) + 4; /* the length comes last */
    for (const struct region *p = order.parts; p < order.parts + order.many; p++) {
        memcpy(at, p->name, strlen(p->name));
        at = put_number(at + IMAGE_NAME, p->many, 4);
        memcpy(at, (const uint8_t *)kept + p->at, p->many);
        at += p->many;
    }
    size_t checked = (size_t)(at - image);
    put_number(image + IMAGE_TITLE - 4, checked + IMAGE_CHECK, 4);
    put_number(at, check_of(0, image, checked), IMAGE_CHECK);
    return checked + IMAGE_CHECK;
}

struct reading {
    const uint8_t *at, *end;
    bool taken[IMAGE_PARTS];
    struct image_order *order;
};

/* What is wrong, until the next. */
static const char *told(const char *format, ...)
{
    static char text[96];
    va_list given;
    va_start(given, format);
    vsnprintf(text, sizeof text, format, given);
    va_end(given);
    return text;
}

/* How much of a name is text. */
static int text_in(const char *name)
{
    int many = 0;
    while (many < IMAGE_NAME && name[many] >= ' ' && name[many] <= '~')
        many++;
    return many;
}

/* The next characters are those of a part. */
static const char *take(struct reading *r, const char *name, size_t many)
{
    size_t i = 0;
    while (i < IMAGE_PARTS && strncmp(name, parts[i].name, IMAGE_NAME) != 0)
        i++;
    if (i == IMAGE_PARTS)
        return told("it has a part that no unit has, '%.*s'", text_in(name), name);
    if (r->taken[i])
        return told("it has the part '%s' twice", parts[i].name);
    bool slots = r->order->version <= OLDER_SLOTS;
    bool fewer = is_records(&parts[i]) && !slots; /* how many there are to be is known with the configuration */
    size_t most = is_records(&parts[i]) && slots ? (size_t)OLDER_RECORDS : parts[i].many;
    if ((fewer ? many > most : many != most) || many > (size_t)(r->end - r->at))
        return told("its part '%s' has not %zu characters", parts[i].name, most);
    memcpy((uint8_t *)&whole + parts[i].at, r->at, many);
    r->taken[i] = true;
    r->order->parts[r->order->many++] = (struct region){parts[i].name, parts[i].at, many};
    r->at += many;
    return NULL;
}

static const char *take_parts(struct reading *r)
{
    const char *wrong = NULL;
    while (!wrong && r->at < r->end) {
        const char *name = (const char *)r->at;
        if (r->end - r->at < IMAGE_HEAD)
            return "it has half a part";
        r->at += IMAGE_HEAD;
        wrong = take(r, name, number_at(r->at - 4, 4));
    }
    return wrong;
}

/* The file of version 1 has no names: these parts in this order, and nothing between them. */
static const char *take_version_1(struct reading *r)
{
    static const struct {
        const char *name;
        size_t many;
    } old[] = {{"config.number", 2},
               {"config.length", 2},
               {"config.inputs", 256},
               {"config.outputs", 256},
               {"config.calculations", 256},
               {"config.files", 32},
               {"config.values", 32},
               {"numbers", 52},
               {"words", 512},
               {"results", 512},
               {"fixed", 528},
               {"block", 512},
               {"records", OLDER_RECORDS},
               {"counts", 32}};
    const char *wrong = NULL;
    for (size_t i = 0; !wrong && i < sizeof old / sizeof *old; i++)
        wrong = take(r, old[i].name, old[i].many);
    return wrong || r->at == r->end ? wrong : "it has more than its version";
}

/* What is wrong with a file as a whole, whatever its version. */
static const char *damage(const uint8_t *image, size_t many)
{
    if (many < IMAGE_TITLE + IMAGE_CHECK)
        return "it is not whole";
    if (memcmp(image, title, sizeof title) != 0)
        return "it is no state file";
    if (number_at(image + sizeof title + 2, 4) != many)
        return "it is not whole";
    if (number_at(image + many - IMAGE_CHECK, IMAGE_CHECK) != check_of(0, image, many - IMAGE_CHECK))
        return "it is damaged: its check does not fit";
    return NULL;
}

/* Whether a configuration is another one: which files keep the oldest does not make it so. */
static bool is_another(const struct osturdam_config *is, const struct osturdam_config *expected)
{
    struct osturdam_config marked = *is;
    memcpy(marked.oldest, expected->oldest, sizeof marked.oldest);
    return memcmp(&marked, expected, sizeof marked) != 0;
}

/* What is wrong with the unit that was read, where another was expected. */
static const char *misfit(const struct image_order *order, const struct osturdam_unit *expected)
{
    const struct osturdam_unit *is = &whole.all.unit;
    size_t asked = (size_t)osturdam_room_of(&expected->config);
    if (osturdam_word_at(is->layout) != older_layout(order->version))
        return told("it is of a unit with the layout %u", osturdam_word_at(is->layout));
    if (is_another(&is->config, &expected->config))
        return "it is of a unit with another configuration";
    for (const struct region *p = order->parts; p < order->parts + order->many; p++) {
        if (is_records(p) && order->version > OLDER_SLOTS && p->many != asked)
            return told("its part '%s' has not %zu characters", p->name, asked);
    }
    return NULL;
}

const char *image_read(const uint8_t *image, size_t many, struct kept *kept, struct image_order *order)
{
    const char *wrong = damage(image, many);
    if (wrong)
        return wrong;
    uint64_t version = number_at(image + sizeof title, 2);
    if (version < 1 || version > IMAGE_VERSION)
        return told("it is of version %u", (unsigned)version);
    struct reading r = {.at = image + IMAGE_TITLE, .end = image + many - IMAGE_CHECK, .order = order};
    *order = (struct image_order){.version = (unsigned)version};
    whole = *kept;
    memset(&whole.all.unit.config, 0, sizeof whole.all.unit.config);
    memset(whole.all.unit.config.oldest, 1, sizeof whole.all.unit.config.oldest); /* as every file did that does not say */
    osturdam_word_to(whole.all.unit.layout, older_layout(order->version));
    wrong = version == 1 ? take_version_1(&r) : take_parts(&r);
    if (!wrong)
        wrong = misfit(order, &kept->all.unit);
    if (!wrong)
        *kept = whole;
    return wrong;
}
