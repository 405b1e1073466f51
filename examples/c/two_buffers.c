/* Head and data of a frame lie in two buffers: the check of the data goes on from that of the head, and is the check of the two joined. */
#include "osturdam.h"

#include <stdio.h>
#include <string.h>

int main(void)
{
    static const uint8_t head[] = {0xD2, 0x0C, 0x28, 0x41, 0x09, 0x00};
    static const uint8_t data[] = {'1', '2', '3', '4', '5', '6', '7', '8', '9'};
    uint16_t check = osturdam_check(osturdam_check(0, head, sizeof head), data, sizeof data);
    printf("head, then data: %04X\n", check);

    uint8_t joined[sizeof head + sizeof data];
    memcpy(joined, head, sizeof head);
    memcpy(joined + sizeof head, data, sizeof data);
    uint16_t whole = osturdam_check(0, joined, sizeof joined);
    printf("head and data joined: %04X\n", whole);

    /* low character first, as they are sent */
    uint8_t behind[2];
    osturdam_word_to(behind, check);
    printf("with the check characters: %04X\n", osturdam_check(check, behind, sizeof behind));
    return check == whole ? 0 : 1;
}
