/* What is heard and sent, as a capture that Wireshark opens (pcapng, link type RTAC serial, as samples/exchange.pcap has it). */
#ifndef UNIT2179_CAPTURE_H
#define UNIT2179_CAPTURE_H

#include <stdbool.h>
#include <stddef.h>
#include <stdint.h>

/* Begins a section at the end of a file, or captures nothing (NULL). false: told on standard error. */
bool capture_open(const char *path);

/* A stretch of a master, or a reply. Where that cannot be written, it is told and nothing more is captured: half a block would make all
 * behind it unreadable. */
void capture_heard(const uint8_t *chars, size_t many);
void capture_sent(const uint8_t *chars, size_t many);

#endif
