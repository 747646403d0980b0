/*
 * A queue by hand, as a server in C has it: a list of chunks of 16 KB, in which responses are made one behind the other. A
 * response that is larger has a chunk of its own. Water marks over the bytes that wait; no promises, no regions.
 */
#include "queue.h"

#include <errno.h>
#include <stdlib.h>
#include <string.h>
#include <sys/socket.h>
#include <sys/uio.h>

#define CHUNK (16384u - 32u)
#define PIECES 64

struct chunk {
    struct chunk *next;
    uint32_t used, sent, room;
    uint8_t bytes[];
};

uint64_t queue_stops;
static uint32_t low_mark, high_mark;

void queue_open(struct queue *queue, uint32_t low, uint32_t high)
{
    low_mark = low, high_mark = high;
    *queue = (struct queue){.writable = true};
}

void queue_free(struct queue *queue)
{
    while (queue->first) {
        struct chunk *gone = queue->first;
        queue->first = gone->next;
        free(gone);
    }
}

static struct chunk *with_room(struct queue *queue, uint32_t size)
{
    struct chunk *last = queue->last;
    if (last && last->room - last->used >= size)
        return last;
    uint32_t room = size > CHUNK ? size : CHUNK;
    struct chunk *chunk = malloc(sizeof *chunk + room);
    if (!chunk)
        return NULL;
    *chunk = (struct chunk){.room = room};
    if (last)
        last->next = chunk;
    else
        queue->first = chunk;
    queue->last = chunk;
    return chunk;
}

enum written queue_room(struct queue *queue, uint32_t size, uint8_t **at)
{
    struct chunk *chunk = with_room(queue, size);
    if (!chunk)
        return NOT_WRITTEN;
    *at = chunk->bytes + chunk->used;
    return WRITTEN;
}

enum written queue_made(struct queue *queue, uint32_t size)
{
    queue->last->used += size;
    /* as limekeel.h does: the next response comes when others had theirs */
    __builtin_prefetch(queue->last->bytes + queue->last->used + 64, 1);
    queue->pending += size;
    if (queue->writable && queue->pending > high_mark)
        queue->writable = false, queue_stops++;
    return WRITTEN;
}

enum written queue_write(struct queue *queue, const uint8_t *bytes, uint32_t size)
{
    uint8_t *at;
    if (queue_room(queue, size, &at) != WRITTEN)
        return NOT_WRITTEN;
    memcpy(at, bytes, size);
    return queue_made(queue, size);
}

/* Each queue has a copy, as of servers that append to a client's buffer. */
static const uint8_t *shared;
static uint32_t shared_size;

bool queue_shared_begin(const uint8_t *bytes, uint32_t size)
{
    shared = bytes, shared_size = size;
    return true;
}

enum written queue_shared_write(struct queue *queue)
{
    return queue_write(queue, shared, shared_size);
}

void queue_shared_end(void)
{
}

static void take(struct queue *queue, size_t sent)
{
    queue->pending -= sent;
    while (queue->first && sent >= queue->first->used - queue->first->sent) {
        struct chunk *gone = queue->first;
        sent -= gone->used - gone->sent;
        queue->first = gone->next;
        free(gone);
    }
    if (queue->first)
        queue->first->sent += (uint32_t)sent;
    else
        queue->last = NULL;
    if (!queue->writable && queue->pending < low_mark)
        queue->writable = true;
}

enum sent queue_send(struct queue *queue, int socket, uint32_t turns)
{
    for (; turns > 0 && queue->first; turns--) {
        struct iovec pieces[PIECES];
        size_t count = 0, bytes = 0;
        for (struct chunk *chunk = queue->first; chunk && count < PIECES; chunk = chunk->next) {
            pieces[count++] = (struct iovec){chunk->bytes + chunk->sent, chunk->used - chunk->sent};
            bytes += chunk->used - chunk->sent;
        }
        struct msghdr message = {.msg_iov = pieces, .msg_iovlen = count};
        ssize_t sent = sendmsg(socket, &message, MSG_NOSIGNAL);
        if (sent < 0)
            return errno == EAGAIN || errno == EINTR ? SENT_BLOCKED : SENT_BROKEN;
        take(queue, (size_t)sent);
        if ((size_t)sent < bytes)
            return SENT_BLOCKED;
    }
    return queue->first ? SENT_SOME : SENT_ALL;
}

uint64_t queue_pending(const struct queue *queue)
{
    return queue->pending;
}
