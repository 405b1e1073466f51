/* Addresses from which a connection may come. */
#ifndef UNIT2179_PEERS_H
#define UNIT2179_PEERS_H

#include <stdbool.h>
#include <stddef.h>
#include <stdint.h>

enum { PEERS = 32 };

struct sockaddr;

/* Addresses are those of IPv6, in which those of IPv4 have a place. */
struct peers {
    size_t many; /* 0: all may come */
    struct {
        uint8_t address[16];
        unsigned bits; /* that must be the same */
    } list[PEERS];
};

/* Adds ADDRESS or ADDRESS/BITS. false: it is none, or there are too many. */
bool peers_add(struct peers *peers, const char *text);

bool peers_allow(const struct peers *peers, const struct sockaddr *from);

#endif
