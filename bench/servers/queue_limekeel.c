/*
 * The queue of a connection by Limekeel: each response is a message of its own, with its promise, and made in place. The marks go by
 * the bytes alone, as those of the queue by hand.
 */
#include "queue_ours.h"

#include <string.h>

#define FEW 2048u /* up to so many bytes are copied: more that many clients hear share a block */
#ifndef OVERHEAD
#define OVERHEAD 0
#endif

void queue_open(struct queue *queue, uint32_t low, uint32_t high)
{
    *queue = (struct queue){.connection = LIMEKEEL_CONNECTION, .writable = true, .rooms = LIMEKEEL_ROOMS};
    queue->broken = limekeel_open(&queue->connection, low, high, OVERHEAD, 8) != LIMEKEEL_OK;
}

void queue_free(struct queue *queue)
{
    limekeel_free(&queue->connection);
    limekeel_let_go(&queue->rooms, UINT64_MAX);
}

static enum written was_written(struct queue *queue, struct limekeel_written written)
{
    note(queue, written.change);
    return written.status == LIMEKEEL_OK ? WRITTEN : NOT_WRITTEN;
}

enum written queue_room(struct queue *queue, uint32_t size, uint8_t **at)
{
    *at = limekeel_reserve(&queue->rooms, size);
    return *at ? WRITTEN : NOT_WRITTEN;
}

enum written queue_made(struct queue *queue, uint32_t size)
{
    return was_written(queue, limekeel_write_reserved(&queue->rooms, &queue->connection, size));
}

/* A copy of few bytes lies where responses are made. */
enum written queue_write(struct queue *queue, const uint8_t *bytes, uint32_t size)
{
    if (size > FEW)
        return was_written(queue, limekeel_write(&queue->connection, bytes, size));
    uint8_t *at;
    if (queue_room(queue, size, &at) != WRITTEN)
        return NOT_WRITTEN;
    memcpy(at, bytes, size);
    return queue_made(queue, size);
}

static struct limekeel_block block = LIMEKEEL_BLOCK;
static const uint8_t *shared;
static uint32_t shared_size;

bool queue_shared_begin(const uint8_t *bytes, uint32_t size)
{
    shared = bytes, shared_size = size;
    return size <= FEW || limekeel_block_new(&block, bytes, size) == LIMEKEEL_OK;
}

/* The next message comes when the other clients had this one. */
enum written queue_shared_write(struct queue *queue)
{
    enum written written = shared_size <= FEW
                               ? queue_write(queue, shared, shared_size)
                               : was_written(queue, limekeel_write_block(&queue->connection, &block));
    limekeel_ask_ahead(&queue->connection);
    return written;
}

void queue_shared_end(void)
{
    if (shared_size > FEW)
        limekeel_block_free(&block);
}

enum sent queue_send(struct queue *queue, int socket, uint32_t turns)
{
    note(queue, limekeel_flush(&queue->connection).change);
    struct limekeel_sent sent = limekeel_send(&queue->connection, socket, turns);
    note(queue, sent.taken.change);
    limekeel_let_go(&queue->rooms, sent.taken.to);
    return how_it_ended(sent);
}

uint64_t queue_pending(const struct queue *queue)
{
    return limekeel_look(&queue->connection).total;
}
