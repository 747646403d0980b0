#define _GNU_SOURCE
#include "clients.h"

#include <arpa/inet.h>
#include <errno.h>
#include <netinet/in.h>
#include <netinet/tcp.h>
#include <stdio.h>
#include <sys/socket.h>
#include <time.h>

static __thread uint8_t room[1 << 18];

void clients_prepare(void)
{
    pool_make();
}

uint64_t now(void)
{
    struct timespec time;
    clock_gettime(CLOCK_MONOTONIC, &time);
    return (uint64_t)time.tv_sec * 1000000000u + (uint64_t)time.tv_nsec;
}

void die(const char *what)
{
    perror(what);
    exit(2);
}

static void note_time(struct times *times, uint64_t ns)
{
    if (ns < 32)
        ns = 32;
    unsigned power = 63u - (unsigned)__builtin_clzll(ns);
    times->seen[power * 32 + ((ns >> (power - 5)) & 31)]++;
    times->all++;
}

/* In microseconds, what this part of all were below. */
double time_at(const struct times *times, double part)
{
    uint64_t wanted = (uint64_t)(part * (double)times->all), seen = 0;
    for (unsigned at = 0; at < 64 * 32; at++) {
        seen += times->seen[at];
        if (seen > wanted)
            return (double)((uint64_t)(32 + at % 32) << (at / 32 - 5)) / 1000;
    }
    return 0;
}

static in_addr_t source;
static const int segment = 1448;

void clients_come_from(unsigned number)
{
    source = INADDR_LOOPBACK + 1 + number / 20000;
}

struct client *client_connected(int port, int receive_room, uint32_t base)
{
    struct sockaddr_in address = {
        .sin_family = AF_INET, .sin_port = htons((uint16_t)port), .sin_addr.s_addr = htonl(INADDR_LOOPBACK)};
    struct client *client = calloc(1, sizeof *client);
    if (!client)
        die("calloc");
    client->socket = socket(AF_INET, SOCK_STREAM, 0);
    client->base = base;
    int one = 1;
    setsockopt(client->socket, IPPROTO_TCP, TCP_NODELAY, &one, sizeof one);
    if (receive_room)
        setsockopt(client->socket, SOL_SOCKET, SO_RCVBUF, &receive_room, sizeof receive_room);
    struct linger at_once = {1, 0}; /* else thousands of ports would wait */
    setsockopt(client->socket, SOL_SOCKET, SO_LINGER, &at_once, sizeof at_once);
    struct sockaddr_in own = {.sin_family = AF_INET, .sin_addr.s_addr = htonl(source)};
    setsockopt(client->socket, IPPROTO_IP, IP_BIND_ADDRESS_NO_PORT, &one, sizeof one);
    if (source
        && (setsockopt(client->socket, IPPROTO_TCP, TCP_MAXSEG, &segment, sizeof segment)
            || bind(client->socket, (struct sockaddr *)&own, sizeof own)))
        die("bind");
    if (connect(client->socket, (struct sockaddr *)&address, sizeof address))
        die("connect");
    return client;
}

static void send_all(int socket, const void *bytes, size_t length)
{
    for (size_t sent = 0; sent < length;) {
        ssize_t count = send(socket, (const uint8_t *)bytes + sent, length - sent, MSG_NOSIGNAL);
        if (count < 0 && errno != EINTR)
            die("send");
        sent += count > 0 ? (size_t)count : 0;
    }
}

void client_send(const struct client *client, struct request request)
{
    send_all(client->socket, &request, sizeof request);
}

void client_ask(struct client *client, unsigned n)
{
    static __thread struct request requests[UNDER_WAY];
    uint64_t at = now();
    for (unsigned one = 0; one < n; one++) {
        client->since[client->asked % UNDER_WAY] = at;
        requests[one] = (struct request){OP_GET, client->size, client->count, client->base + client->asked++};
    }
    send_all(client->socket, requests, n * sizeof *requests);
}

void client_say(struct client *client, unsigned n)
{
    uint64_t at = now();
    for (unsigned one = 0; one < n; one++)
        client->since[client->asked++ % UNDER_WAY] = at;
    for (size_t left = (size_t)n * client->size; left > 0;) {
        size_t from = client->put & (WINDOW - 1), part = WINDOW - from < left ? WINDOW - from : left;
        send_all(client->socket, pool + from, part);
        client->put += part, left -= part;
    }
}

static void note_done(struct client *client, struct tally *tally)
{
    note_time(&tally->times, now() - client->since[client->done % UNDER_WAY]);
    client->done++;
}

static int compare_echo(struct client *client, const uint8_t *bytes, size_t count, struct tally *tally)
{
    int done = 0;
    while (count > 0) {
        size_t from = client->got & (WINDOW - 1), part = WINDOW - from < count ? WINDOW - from : count;
        if (client->got + part > client->put || memcmp(pool + from, bytes, part))
            return -1;
        client->got += part, bytes += part, count -= part;
    }
    for (; client->got / client->size > client->done; done++) {
        note_done(client, tally);
        tally->responses++;
    }
    return done;
}

/* Whether the head that came is that of the response that is due. */
static bool is_due(const struct client *client)
{
    struct head head;
    memcpy(&head, client->head, HEAD);
    return client->done < client->asked && head.id == client->base + client->done && head.index == client->index
           && head.size == client->size && head.magic == MAGIC;
}

/* Counts a response that came whole. Returns whether its request is answered. */
static bool finish(struct client *client, struct tally *tally)
{
    client->place = 0;
    tally->responses++;
    if (++client->index < client->count)
        return false;
    client->index = 0;
    note_done(client, tally);
    return true;
}

static int compare(struct client *client, const uint8_t *bytes, size_t count, struct tally *tally)
{
    int done = 0;
    while (count > 0) {
        if (client->place < HEAD) {
            size_t part = HEAD - client->place < count ? HEAD - client->place : count;
            memcpy(client->head + client->place, bytes, part);
            client->place += (uint32_t)part, bytes += part, count -= part;
            if (client->place < HEAD)
                break;
            if (!is_due(client))
                return -1;
        }
        size_t left = client->size - client->place, part = left < count ? left : count;
        if (memcmp(bytes, pool_at(client->base + client->done, client->index) + (client->place - HEAD), part))
            return -1;
        client->place += (uint32_t)part, bytes += part, count -= part;
        if (client->place == client->size)
            done += finish(client, tally);
    }
    return done;
}

int client_hear(struct client *client, size_t most, bool is_echo, struct tally *tally)
{
    ssize_t count = recv(client->socket, room, most < sizeof room ? most : sizeof room, MSG_DONTWAIT);
    if (count < 0 && (errno == EAGAIN || errno == EINTR))
        return 0;
    int done = count <= 0 ? -1 : (is_echo ? compare_echo : compare)(client, room, (size_t)count, tally);
    if (done < 0)
        tally->wrong++;
    else
        tally->bytes += (uint64_t)count;
    return done;
}

struct stats client_stats(const struct client *client, uint32_t op)
{
    struct {
        struct head head;
        struct stats stats;
    } told;
    client_send(client, (struct request){op, 0, 0, 77});
    for (size_t at = 0; at < sizeof told;) {
        ssize_t count = recv(client->socket, (uint8_t *)&told + at, sizeof told - at, 0);
        if (count <= 0)
            die("recv");
        at += (size_t)count;
    }
    return told.stats;
}
