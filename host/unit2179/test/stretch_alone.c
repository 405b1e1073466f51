/* Stretches without a line: how long a character and a bit take and until when the lag counts, then when characters were seen, all in
 * nanoseconds, and how many; the lag in milliseconds comes out. */
#include <stdio.h>
#include <stdlib.h>

#include "stretch.h"

int main(int many, char **words)
{
    static const uint8_t chars[1024];
    static struct stretch stretch;
    struct pace pace = {strtoll(words[1], NULL, 10), strtoll(words[2], NULL, 10)};
    for (int i = 4; i + 1 < many; i += 2)
        stretch_take(&stretch, chars, strtoul(words[i + 1], NULL, 10), strtoll(words[i], NULL, 10), &pace);
    printf("%lu\n", (unsigned long)stretch_lag(&stretch, strtoll(words[3], NULL, 10)));
    return 0;
}
