/* The reader of configurations without the live unit: a text on standard input, and what came of it. */
#include <stdio.h>

#include "config.h"

enum { ROOM = 4 };

int main(void)
{
    static char text[65536];
    static struct osturdam_config config;
    struct config_note faults[ROOM], notices[ROOM];
    struct config_notes wrong = {faults, ROOM, 0}, unsaid = {notices, ROOM, 0};
    bool good = config_read(text, fread(text, 1, sizeof text, stdin), &config, &wrong, &unsaid);
    const struct config_notes *notes = good ? &unsaid : &wrong;
    printf("%zu\n", wrong.many);
    for (size_t i = 0; i < notes->many && i < notes->room; i++)
        printf("%u %s\n", notes->notes[i].line, notes->notes[i].what);
    for (size_t i = 0; good && i < sizeof config; i++)
        printf("%02X", ((const uint8_t *)&config)[i]);
    return 0;
}
