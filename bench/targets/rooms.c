// How many characters of records and samples four units ask for: with no files, with those of the day of traffic, with those of the rows, and
// with as many means as a unit may have besides.
#include "osturdam.h"

#include <stdio.h>

int main(void)
{
    static struct osturdam_config c;
    printf("%d\n", (int)osturdam_room_of(&c));
    for (int f = 0; f < 8; f++)
        osturdam_equip_file(&c, f, 2 * f + 2);
    printf("%d\n", (int)osturdam_room_of(&c));
    for (int f = 0; f < OSTURDAM_FILES; f++)
        osturdam_equip_file(&c, f, OSTURDAM_VALUES);
    printf("%d\n", (int)osturdam_room_of(&c));
    for (int place = 0; place < OSTURDAM_MEANS; place++)
        osturdam_equip_mean(&c, place, place, 0x80, OSTURDAM_SAMPLES);
    printf("%d\n", (int)osturdam_room_of(&c));
    return 0;
}
