// The bytes of a unit and of its configuration, as lines of a table.
#include "setting.h"

#include <stdio.h>

static void line(const char *what, size_t library, size_t plain, size_t rust)
{
    printf("| %s | %zu | %zu | %zu | %.2f |\n", what, library, plain, rust, (double)library / rust);
}

int main(void)
{
    size_t config;
    equip(POINTS);
    size_t none = rust_bytes(u.rust, &config);
    for (int file = 0; file < OSTURDAM_FILES; file++)
        store(file, OSTURDAM_ROOM);
    size_t all = rust_bytes(u.rust, &config);
    line("a unit with its configuration, what is to be set aside for it", sizeof u.library, sizeof u.plain + sizeof u.plain_config,
         all + config);
    line("its configuration", sizeof u.config, sizeof u.plain_config, config);
    printf("\nThe independent program's unit grows to that from %zu bytes, with no record.\n", none + config);
    return 0;
}
