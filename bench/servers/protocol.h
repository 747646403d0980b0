/*
 * What the servers and the load share: requests, responses, and the pool of bytes that responses are made of. No queue and no
 * loop of a server stands here.
 *
 * A request is 16 bytes, little-endian: op, size, count, id.
 *
 *   GET    `count` responses of `size` bytes, 16 to 1 MiB
 *   JOIN   this connection is to hear what is published
 *   PUBLISH `count` messages of `size` bytes to each that joined, one more when none of them is above its high mark
 *   STATS  one response of 64 bytes: the head, then the numbers of `struct stats`
 *   RESET  the same, and the numbers begin anew
 *   QUIT   the server ends
 *
 * A response has a head of 16 bytes (id, index, size, MAGIC), and then size - 16 bytes of the pool, from a place that id and
 * index give.
 */
#ifndef PROTOCOL_H
#define PROTOCOL_H
#include <stdbool.h>
#include <stddef.h>
#include <stdint.h>
#include <stdlib.h>
#include <string.h>

enum op { OP_GET = 1, OP_STATS = 2, OP_RESET = 3, OP_QUIT = 4, OP_JOIN = 5, OP_PUBLISH = 6 };
#define MAGIC 0x6c6b6b6cu
#define HEAD 16u
#define MOST (1u << 20)
#define WINDOW (1u << 16)
#define STATS_SIZE 64u

/* Netty's water marks, in each server. */
#define LOW 32768u
#define HIGH 65536u

struct request {
    uint32_t op, size, count, id;
};
struct head {
    uint32_t id, index, size, magic;
};
/* Since RESET: the most bytes pending of one connection, as this server counts them; how often one became unwritable; how
 * many are open; how many responses were made. And now: the bytes that are pending of all, which the C servers and Netty tell,
 * and what all hold of a budget. */
struct stats {
    uint64_t peak, stops, open, responses, pending, held;
};
_Static_assert(HEAD + sizeof(struct stats) == STATS_SIZE, "a response of STATS");

static uint8_t pool[WINDOW + MOST];

static inline void pool_make(void)
{
    uint64_t state = 0x9e3779b97f4a7c15u;
    for (size_t at = 0; at < sizeof pool; at += 8) {
        state ^= state << 13, state ^= state >> 7, state ^= state << 17;
        memcpy(pool + at, &state, 8);
    }
}

static inline const uint8_t *pool_at(uint32_t id, uint32_t index)
{
    return pool + ((id * 2654435761u + index * 40503u) & (WINDOW - 1));
}

static inline void response_make(uint8_t *to, uint32_t id, uint32_t index, uint32_t size)
{
    struct head head = {id, index, size, MAGIC};
    memcpy(to, &head, HEAD);
    memcpy(to + HEAD, pool_at(id, index), size - HEAD);
}

static inline uint32_t stats_make(uint8_t *to, uint32_t id, const struct stats *stats)
{
    struct head head = {id, 0, STATS_SIZE, MAGIC};
    memcpy(to, &head, HEAD);
    memcpy(to + HEAD, stats, sizeof *stats);
    return STATS_SIZE;
}

/* What a connection still has to answer: its requests in order, of which the first is under way. An idle one takes no memory
 * but this struct. */
struct work {
    struct request *list;
    uint32_t from, to, room;
    uint32_t index; /* the next response of the first */
    uint8_t partial[sizeof(struct request)];
    uint32_t held; /* how many bytes of a request came so far */
};

static inline bool work_any(const struct work *work)
{
    return work->from < work->to;
}

static inline bool work_is_publishing(const struct work *work)
{
    return work_any(work) && work->list[work->from].op == OP_PUBLISH;
}

static inline void work_push(struct work *work, struct request request)
{
    if (work->from == work->to)
        work->from = work->to = 0;
    if (work->to == work->room) {
        work->room = work->room ? work->room * 2 : 4;
        work->list = realloc(work->list, work->room * sizeof *work->list);
        if (!work->list)
            abort();
    }
    work->list[work->to++] = request;
}

static inline bool is_request(const struct request *request)
{
    if (request->op < OP_GET || request->op > OP_PUBLISH)
        return false;
    bool asks = request->op == OP_GET || request->op == OP_PUBLISH;
    return !asks || (request->size >= HEAD && request->size <= MOST && request->count > 0);
}

/* Bytes that came: whole requests become work. False if they are none. */
static inline bool work_feed(struct work *work, const uint8_t *bytes, size_t count)
{
    while (count > 0) {
        struct request request;
        size_t part = sizeof request - work->held < count ? sizeof request - work->held : count;
        memcpy(work->partial + work->held, bytes, part);
        work->held += (uint32_t)part, bytes += part, count -= part;
        if (work->held < sizeof request)
            break;
        work->held = 0;
        memcpy(&request, work->partial, sizeof request);
        if (!is_request(&request))
            return false;
        work_push(work, request);
    }
    return true;
}

static inline void work_rest(struct work *work)
{
    if (work_any(work))
        return;
    free(work->list);
    work->list = NULL;
    work->from = work->to = work->room = 0;
}

/* Takes the next response off the work, and tells of which request it is, and which of its responses. */
static inline bool work_next(struct work *work, struct request *request, uint32_t *index)
{
    if (!work_any(work))
        return false;
    *request = work->list[work->from];
    *index = work->index;
    bool asks = request->op == OP_GET || request->op == OP_PUBLISH;
    if (!asks || ++work->index == request->count) {
        work->index = 0;
        work->from++;
    }
    return true;
}

/* Puts the response of this index, which was taken off last, back. */
static inline void work_undo(struct work *work, uint32_t index)
{
    if (work->index == 0)
        work->from--;
    work->index = index;
}
#endif
