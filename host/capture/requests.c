/* Builds every request of document 01 by the library of a master, by its name, and prints each for checks/capture:
 *   W <TAB> the request: address, function, command and data as they are meant
 *   M <TAB> the frame <TAB> 0 */
#include <stdio.h>

#include "osturdam_poll.h"

static struct osturdam_poll poll;
static uint8_t frame[OSTURDAM_POLL_FRAME];

static void request(const char *meant, uint64_t many)
{
    printf("W\t%s\nM\t", meant);
    for (uint64_t i = 0; i < many; i++)
        printf("%02X", frame[i]);
    printf("\t0\n");
}

static void fresh(void)
{
    osturdam_poll_begin(poll.chars, osturdam_poll_address(31, 1234));
}

static void scans(void)
{
    static const uint8_t numbers[4] = {0x7F, 0x00, 0x40, 0x7F};
    request("no kind: D2FC0000", osturdam_poll_scan(&poll, 0x00, frame));
    request("simple status: D2FC0001", osturdam_poll_scan(&poll, 0x01, frame));
    request("two-bit status: D2FC0004", osturdam_poll_scan(&poll, 0x04, frame));
    request("analogs: D2FC0008", osturdam_poll_scan(&poll, 0x08, frame));
    request("accumulators: D2FC0040", osturdam_poll_scan(&poll, 0x40, frame));
    request("all kinds: D2FC004D", osturdam_poll_scan(&poll, 0x4D, frame));
    request("table 1: D2FC0A41", osturdam_poll_table(&poll, 1, frame));
    request("table 2: D2FC0A42", osturdam_poll_table(&poll, 2, frame));
    request("table 3: D2FC0A43", osturdam_poll_table(&poll, 3, frame));
    request("all values: D2FC0380", osturdam_poll_values(&poll, NULL, 0, frame));
    request("some values: D2FC03007F00407F", osturdam_poll_values(&poll, numbers, sizeof numbers, frame));
}

static void history(void)
{
    fresh();
    request("a record: D2FC0440", osturdam_poll_history(&poll, OSTURDAM_POLL_ROOM, 0, 0, frame));
    request("its repeat: D2FC0400", osturdam_poll_history(&poll, OSTURDAM_POLL_ROOM, 3, 1, frame));
    fresh();
    request("a dump: D2FC0463", osturdam_poll_history(&poll, OSTURDAM_POLL_ROOM, 3, 1, frame));
    request("its repeat: D2FC0423", osturdam_poll_history(&poll, OSTURDAM_POLL_ROOM, 0, 0, frame));
}

static void control(void)
{
    request("select to open: D2FC1010FF", osturdam_poll_select(&poll, 0xFF, 0, frame));
    request("select to close: D2FC101105", osturdam_poll_select(&poll, 5, 1, frame));
    request("operate: D2FC1020", osturdam_poll_operate(&poll, frame));
    request("cancel: D2FC1021", osturdam_poll_cancel(&poll, frame));
}

static void internal(void)
{
    static const uint8_t time[7] = {0x03, 0x66, 0x23, 0x59, 0x58, 0x03, 0xE7}, chars[3] = {0xDE, 0xAD, 0x00};
    request("initialise: D2FC2000", osturdam_poll_initialise(&poll, frame));
    request("reset count: D2FC201141", osturdam_poll_reset_count(&poll, 0x41, 0, frame));
    request("reset counts of all units: FFFF201141", osturdam_poll_reset_count(&poll, 0x41, 1, frame));
    request("WRITE: D2FC2030200106", osturdam_poll_write(&poll, 0x0120, 6, frame));
    request("EXECUTE: D2FC2031DEAD00", osturdam_poll_execute(&poll, chars, sizeof chars, frame));
    request("set time: D2FC2038036623595803E7", osturdam_poll_set_time(&poll, time, 0, frame));
    request("set time of all units: FFFF2038036623595803E7", osturdam_poll_set_time(&poll, time, 1, frame));
    request("read: D2FC28301E01060E", osturdam_poll_block(&poll, 0x011E, 6, 14, frame));
    request("read time: D2FC2831", osturdam_poll_time(&poll, frame));
}

int main(void)
{
    fresh();
    scans();
    history();
    control();
    internal();
    return 0;
}
