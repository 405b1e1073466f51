#include <math.h>
#include <stdio.h>

#include "daytime.h"
#include "record.h"
#include "show.h"

/* A list of numbers of so many characters each. */
static void list(const char *name, const uint8_t *data, size_t many, size_t step)
{
    printf(",\"%s\":[", name);
    for (size_t i = 0; i + step <= many; i += step)
        printf("%s%u", i > 0 ? "," : "", (unsigned)(step == 1 ? data[i] : osturdam_word_at(data + i)));
    putchar(']');
}

/* A number that JSON cannot have, as NaN, is null; the pattern tells it. */
static void value(const uint8_t *at)
{
    printf("\"pattern\":%u,\"value\":", (unsigned)osturdam_value_at(at));
    if (isfinite(value_at(at)))
        printf("%.9g}", value_at(at));
    else
        printf("null}");
}

static void values(const uint8_t *data, size_t many, bool numbered)
{
    size_t step = numbered ? 5 : 4;
    fputs(",\"values\":[", stdout);
    for (size_t i = 0; i + step <= many; i += step) {
        printf("%s{", i > 0 ? "," : "");
        if (numbered)
            printf("\"number\":%u,", data[i]);
        value(data + i + step - 4);
    }
    putchar(']');
}

static void records(const struct exchange *x)
{
    static const struct record_form form = {"{\"file\":%u,\"event\":%u,\"day\":%u,\"time\":\"%02u:%02u:%02u\",\"values\":[", ",", "]}"};
    char text[RECORD_TEXT];
    printf(",\"more\":%s,\"records\":[", data_of(x)[0] & 0x80 ? "true" : "false");
    for (size_t i = 0; i < x->kept[0]; i++) {
        record_text(text, &form, exchange_file(x), x->records + i * x->kept[1], x->kept[1]);
        printf("%s%s", i > 0 ? "," : "", text);
    }
    putchar(']');
}

static void normal(const struct command *c, const struct exchange *x)
{
    const uint8_t *data = data_of(x);
    size_t many = many_of(x);
    struct day_time t;
    switch (c->kind) {
    case SCAN:
    case TABLE: list("words", data, many, 2); break;
    case VALUES: values(data, many, c->count > 0); break;
    case HISTORY: records(x); break;
    case TIME:
        t = time_at(data, false);
        printf(",\"day\":%u,\"time\":\"%02u:%02u:%02u.%03u\"", t.day, t.hour, t.minute, t.second, t.ms);
        break;
    case READ: list("characters", data, many, 1); break;
    case SELECT:
    case RESET_COUNT: printf(",\"number\":%u", data[0]); break;
    default: break;
    }
}

static const char *answer_of(const struct exchange *x, enum ended ended)
{
    if (ended == SILENT)
        return x->heard == 0 ? "none" : "doubted";
    if (x->heard == 0)
        return "broadcast";
    return x->read == OSTURDAM_READ_NOP ? "nop" : x->read == OSTURDAM_READ_RST ? "rst" : "normal";
}

void show_json(const struct command *c, const struct exchange *x, enum ended ended)
{
    bool answered = ended == ANSWERED && x->heard > 0;
    printf("{\"answer\":\"%s\"", answer_of(x, ended));
    if (ended == SILENT && x->heard > 0)
        printf(",\"refusal\":%d", (int)x->read);
    if (answered)
        printf(",\"status\":%u,\"port\":%u", x->reply[3], x->reply[4]);
    if (c->kind == HISTORY)
        printf(",\"file\":%u,\"dump\":%s,\"repeat\":%s", exchange_file(x), exchange_dumps(x) ? "true" : "false",
               exchange_repeats(x) ? "true" : "false");
    if (answered && x->read == OSTURDAM_READ_NORMAL)
        normal(c, x);
    else if (answered && x->read == OSTURDAM_READ_NOP && c->kind == VALUES)
        list("missing", data_of(x), many_of(x), 1);
    puts("}");
}
