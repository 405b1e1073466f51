#include "peers.h"

#include <arpa/inet.h>
#include <netinet/in.h>
#include <stdio.h>
#include <string.h>
#include <sys/socket.h>

#include "text.h"

static const uint8_t mapped[12] = {0, 0, 0, 0, 0, 0, 0, 0, 0, 0, 0xFF, 0xFF}; /* what stands before an address of IPv4 */

bool peers_add(struct peers *p, const char *text)
{
    char address[64];
    const char *slash = strchr(text, '/');
    size_t length = slash ? (size_t)(slash - text) : strlen(text);
    if (p->many == PEERS || length >= sizeof address)
        return false;
    memcpy(address, text, length);
    address[length] = '\0';
    uint8_t *to = p->list[p->many].address;
    bool four = inet_pton(AF_INET, address, to + sizeof mapped) == 1;
    if (four)
        memcpy(to, mapped, sizeof mapped);
    else if (inet_pton(AF_INET6, address, to) != 1)
        return false;
    uint32_t bits = four ? 32 : 128;
    if (slash && !number_of(slash + 1, bits, &bits))
        return false;
    p->list[p->many++].bits = bits + (four ? 96 : 0);
    return true;
}

static bool same_front(const uint8_t *a, const uint8_t *b, unsigned bits)
{
    unsigned rest = bits % 8;
    uint8_t front = (uint8_t)(0xFF00u >> rest);
    return memcmp(a, b, bits / 8) == 0 && (rest == 0 || ((a[bits / 8] ^ b[bits / 8]) & front) == 0);
}

bool peers_allow(const struct peers *p, const struct sockaddr *from)
{
    uint8_t address[16];
    bool allowed = p->many == 0;
    if (from->sa_family == AF_INET6) {
        memcpy(address, &((const struct sockaddr_in6 *)from)->sin6_addr, sizeof address);
    } else {
        memcpy(address, mapped, sizeof mapped);
        memcpy(address + sizeof mapped, &((const struct sockaddr_in *)from)->sin_addr, 4);
    }
    for (size_t i = 0; i < p->many && !allowed; i++)
        allowed = same_front(p->list[i].address, address, p->list[i].bits);
    return allowed;
}
