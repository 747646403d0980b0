/* What epoll_server.c wants of a queue of bytes to send: queue_limekeel.c, with JOINED queue_joined.c, with BUDGETED
 * queue_budgeted.c, or with BY_HAND queue_by_hand.c. */
#ifndef QUEUE_H
#define QUEUE_H
#include <stdbool.h>
#include <stddef.h>
#include <stdint.h>

#ifdef BY_HAND
struct chunk;
struct queue {
    struct chunk *first, *last;
    size_t pending;
    bool writable, broken;
};
#else
#include <limekeel.h>
struct queue {
#ifdef BUDGETED
    struct limekeel_budgeted connection;
#else
    struct limekeel_connection connection;
#endif
    bool writable, broken;
#ifdef BUDGETED
    uint64_t since, took; /* what its socket took since then, in milliseconds and bytes, while pressure stood */
    bool fast;            /* whether it took much in the time before */
#endif
    struct limekeel_rooms rooms;
#ifdef JOINED
    uint8_t *at;         /* where the next message is made */
    size_t filled, room; /* how long it is, and may be */
#endif
};
#endif

/* NO_ROOM: the budget has none for it now, and nothing has changed. */
enum written { WRITTEN, NO_ROOM, NOT_WRITTEN };
enum sent { SENT_ALL, SENT_BLOCKED, SENT_SOME, SENT_BROKEN };

void queue_open(struct queue *queue, uint32_t low, uint32_t high);
void queue_free(struct queue *queue);

/* Where the next message, of this size, is to be made: WRITTEN if it may be. And writes what was made there, before any other call
 * for this queue. */
enum written queue_room(struct queue *queue, uint32_t size, uint8_t **at);
enum written queue_made(struct queue *queue, uint32_t size);

/* Writes a copy of these bytes. */
enum written queue_write(struct queue *queue, const uint8_t *bytes, uint32_t size);

/* One message to many: `begin` makes it, each queue gets it, `end` lets it go. */
bool queue_shared_begin(const uint8_t *bytes, uint32_t size);
enum written queue_shared_write(struct queue *queue);
void queue_shared_end(void);

/* Sends until nothing is left, the socket has no room, or `turns` turns were made. */
enum sent queue_send(struct queue *queue, int socket, uint32_t turns);

/* How many bytes are pending, as the queue counts them. */
uint64_t queue_pending(const struct queue *queue);

/* How often a queue became unwritable. */
extern uint64_t queue_stops;

#ifdef BUDGETED
/* Opens the budget of all queues, once and first of all: its room, above one response, where pressure begins, and what a queue
 * takes of it at once. */
void queue_share(uint64_t room, uint64_t high, uint64_t quantum);

/* Whether pressure stands, as the last change said; and so whether a response may be made now: the queue is writable and, under
 * pressure, its client takes much, or nothing in it waits. */
extern bool queue_pressed;
bool queue_is_fast(const struct queue *queue);
static inline bool queue_may_write(const struct queue *queue)
{
    return queue->writable && (!queue_pressed || queue_is_fast(queue) || queue_pending(queue) == 0);
}

/* What all queues hold of the budget, and whether it has room for a message of this size now. */
uint64_t queue_held(void);
bool queue_has_room(uint64_t held, uint32_t size);

/* Nothing waits in it, and nothing is to be written now. */
void queue_rest(struct queue *queue);
#else
static inline void queue_share(uint64_t room, uint64_t high, uint64_t quantum)
{
    (void)room, (void)high, (void)quantum;
}

static inline bool queue_may_write(const struct queue *queue)
{
    return queue->writable;
}

static inline uint64_t queue_held(void)
{
    return 0;
}

static inline bool queue_has_room(uint64_t held, uint32_t size)
{
    (void)held, (void)size;
    return true;
}

static inline void queue_rest(struct queue *queue)
{
    (void)queue;
}
#endif
#endif
