/* A turn of the unit: it is told of an event, its state is kept, and then the event is told as done, acted on and answered. */
#ifndef UNIT2179_TURN_H
#define UNIT2179_TURN_H

#include "serve.h"

/* The time that has passed is told to the unit; or some that nobody measured. */
void turn_pass_time(struct server *server);
void turn_pass(struct server *server, uint32_t ms);

/* The stretch that a channel has marked. */
enum served turn_hear(struct server *server, struct channel *channel);

/* A local event. */
enum served turn_take(struct server *server, const struct event *event);

/* The time is kept, so that the kept clock is never far behind. */
void turn_keep_time(struct server *server);

/* What waited is kept. */
enum served turn_end(struct server *server);

#endif
