/* What the unit does, told line by line.
 *
 * Output actions go to standard output. The log, if there is one, has every event in its order, its fields parted by tabs:
 *   T  milliseconds that passed
 *   R  stretch heard, outcome, reply or a dash
 *   S  milliseconds from the sync point of the Set Time in the R before it until it was heard
 *   L  why the reply of the R before it was not sent
 *   A  output, open or close
 *   E  kind of local event, its figures, outcome
 *   M  samples still missing for the mean of the E before it, and the mean or a dash
 *   D  file that dropped a record for the one of the E before it, how many it has dropped (65535: or more)
 * and last, on each line, when it was written (ISO 8601, in UTC). The first two fields of its T and R lines are lines of the bench
 * program, but that a Set Time there has no such milliseconds. A log that cannot be written is told once, and never stops the unit. */
#ifndef UNIT2179_LOG_H
#define UNIT2179_LOG_H

#include <stdbool.h>

#include "events.h"
#include "osturdam.h"

/* Tells into a file, `-` for standard output, or nowhere (NULL). false: told on standard error. */
bool log_open(const char *path);

/* Opens the file again by its name, since someone may have moved it away. */
void log_reopen(void);

void log_time(uint32_t ms);
void log_stretch(const uint8_t *stretch, size_t heard, const struct osturdam_turned *turned, const uint8_t *reply);
void log_sync(uint32_t lag);
void log_unsent(const char *why);
void log_event(const struct event *event, unsigned outcome);
void log_sample(const struct osturdam_sampled *sampled);
void log_drop(uint8_t file, uint16_t dropped);

/* Tells an output action. false: nobody can be told on standard output, and errno says why. */
bool log_action(const struct osturdam_turned *turned);

#endif
