/*
 * The queue of a connection by Limekeel, for a server that makes no message of each response: what it answers in a turn is one
 * message, which is made in place. So it has a promise a turn, as the queue by hand has none. The bytes that no message has yet
 * are few.
 */
#include "queue_ours.h"

#include <string.h>

#define FEW 2048u  /* up to so many bytes are copied: more that many clients hear share a block */
#define MUCH 8192u /* with so many bytes a message is ended, so that the marks know of it */
#define OVERHEAD 0 /* the marks go by the bytes alone, as those of the queue by hand */

void queue_open(struct queue *queue, uint32_t low, uint32_t high)
{
    *queue = (struct queue){.connection = LIMEKEEL_CONNECTION, .writable = true, .rooms = LIMEKEEL_ROOMS};
    queue->broken = limekeel_open(&queue->connection, low, high, OVERHEAD, 8) != LIMEKEEL_OK;
}

void queue_free(struct queue *queue)
{
    limekeel_free(&queue->connection);
    limekeel_let_go(&queue->rooms, UINT64_MAX);
}

static bool was_written(struct queue *queue, struct limekeel_written written)
{
    note(queue, written.change);
    return written.status == LIMEKEEL_OK;
}

/* Makes one message of what was answered since the last one. */
static bool end_message(struct queue *queue)
{
    size_t filled = queue->filled;
    queue->filled = queue->room = 0;
    return filled == 0 || was_written(queue, limekeel_write_reserved(&queue->rooms, &queue->connection, filled));
}

static bool begin_message(struct queue *queue, uint32_t size)
{
    if (!end_message(queue))
        return false;
    queue->at = limekeel_reserve(&queue->rooms, size > FEW ? size : FEW);
    if (!queue->at)
        return false;
    queue->room = limekeel_left(&queue->rooms);
    return true;
}

enum written queue_room(struct queue *queue, uint32_t size, uint8_t **at)
{
    if (queue->room - queue->filled < size && !begin_message(queue, size))
        return NOT_WRITTEN;
    *at = queue->at + queue->filled;
    return WRITTEN;
}

enum written queue_made(struct queue *queue, uint32_t size)
{
    queue->filled += size;
    return queue->filled < MUCH || end_message(queue) ? WRITTEN : NOT_WRITTEN;
}

enum written queue_write(struct queue *queue, const uint8_t *bytes, uint32_t size)
{
    uint8_t *at;
    if (queue_room(queue, size, &at) != WRITTEN)
        return NOT_WRITTEN;
    memcpy(at, bytes, size);
    return queue_made(queue, size);
}

static struct limekeel_block block = LIMEKEEL_BLOCK;
static const uint8_t *shared;
static uint32_t shared_size;

bool queue_shared_begin(const uint8_t *bytes, uint32_t size)
{
    shared = bytes, shared_size = size;
    return size <= FEW || limekeel_block_new(&block, bytes, size) == LIMEKEEL_OK;
}

enum written queue_shared_write(struct queue *queue)
{
    if (shared_size <= FEW)
        return queue_write(queue, shared, shared_size);
    bool written = end_message(queue) && was_written(queue, limekeel_write_block(&queue->connection, &block));
    return written ? WRITTEN : NOT_WRITTEN;
}

void queue_shared_end(void)
{
    if (shared_size > FEW)
        limekeel_block_free(&block);
}

enum sent queue_send(struct queue *queue, int socket, uint32_t turns)
{
    if (!end_message(queue))
        return SENT_BROKEN;
    note(queue, limekeel_flush(&queue->connection).change);
    struct limekeel_sent sent = limekeel_send(&queue->connection, socket, turns);
    note(queue, sent.taken.change);
    limekeel_let_go(&queue->rooms, sent.taken.to);
    return how_it_ended(sent);
}

uint64_t queue_pending(const struct queue *queue)
{
    return limekeel_look(&queue->connection).total + queue->filled;
}
