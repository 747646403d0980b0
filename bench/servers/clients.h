/* Clients of a server on loopback, which compare every byte that comes. */
#ifndef CLIENTS_H
#define CLIENTS_H
#include "protocol.h"

/* How many requests of a client may be under way. */
#define UNDER_WAY 4096

/* Latencies, by 32 steps of each power of two of nanoseconds. */
struct times {
    uint64_t seen[64 * 32];
    uint64_t all;
};

/* What came. */
struct tally {
    uint64_t bytes, responses, wrong;
    struct times times;
};

struct client {
    int socket;
    uint32_t base, asked, done; /* requests base, base + 1 ..: how many were asked, and were answered whole */
    uint32_t size, count;       /* of a request */
    uint32_t index, place;      /* the response under way, and how much of it came */
    uint8_t head[HEAD];
    uint64_t since[UNDER_WAY];
    uint64_t put, got; /* of an echo: bytes that went, and came back */
    uint64_t next;     /* of a slow client: when it reads again */
};

/* Makes the pool of bytes: first of all. */
void clients_prepare(void);

uint64_t now(void);
_Noreturn void die(const char *what);
double time_at(const struct times *times, double part);

/* Has clients come from an address of loopback for this one of many, since one has some 28,000 ports, and with segments as of
 * Ethernet, by which the system takes as little for a socket as on a network. */
void clients_come_from(unsigned number);

/* A client that is connected, with a receive buffer of this size if that is not 0. */
struct client *client_connected(int port, int receive_room, uint32_t base);

/* Asks `n` times for what `size` and `count` say. */
void client_ask(struct client *client, unsigned n);

/* Sends one request and waits for no answer. */
void client_send(const struct client *client, struct request request);

/* Of an echo: sends `n` times `size` bytes. The byte at a place is that of the pool, around and around. */
void client_say(struct client *client, unsigned n);

/* Reads once what has come, at most so many bytes, and compares it. Returns how many requests were answered whole, or -1 if
 * the bytes are others or the server is gone; then the tally counts it as wrong. */
int client_hear(struct client *client, size_t most, bool is_echo, struct tally *tally);

/* The numbers of a server, by OP_STATS or OP_RESET. */
struct stats client_stats(const struct client *client, uint32_t op);
#endif
