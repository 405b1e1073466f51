/* Connections to a TCP port: who may come, who has to go, and which has which master's number. */
#ifndef UNIT2179_GUESTS_H
#define UNIT2179_GUESTS_H

#include "serve.h"

/* Ends a channel, whatever waits for it. */
void guests_forget(struct server *server, struct channel *channel);

/* Takes a new connection. Where there is no room, the one that was quiet for longest goes, or the new one if none was quiet. */
void guests_accept(struct server *server, int64_t now);

/* Ends connections that have been quiet for too long. */
void guests_look(struct server *server, int64_t now);

/* When a quiet connection has to go. */
int64_t guests_due(const struct server *server, const struct channel *channel);

/* Whether a stretch comes from a master whose number another connection has: then its connection is ended. */
bool guests_refused(struct server *server, struct channel *channel);

/* A master was heard: its number is this connection's. */
void guests_heard(struct server *server, const struct answer *answer);

#endif
