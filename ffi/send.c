/*
 * limekeel_send, limekeel_managed_send and limekeel_budgeted_send, over sendmsg. limekeel.h says what they do.
 *
 * They are made of calls of the archive, and not themselves proved. liblimekeel.a has this file too.
 */
#define _POSIX_C_SOURCE 200809L
#include <errno.h>
#include <sys/socket.h>

#include "limekeel.h"

/* Each of the three sendings gets code of its own, which knows what it sends from: little of it is run, and that lies together. */
#ifdef __GNUC__
#define IN_EACH static inline __attribute__((always_inline))
#else
#define IN_EACH static inline
#endif

/* How many blocks are gathered for one call at most: many small ones lie together, and are one slice then. */
#define GATHERED (2 * LIMEKEEL_PIECES)

static const uint8_t *end_of(const struct iovec *slice)
{
    return (const uint8_t *)slice->iov_base + slice->iov_len;
}

/* Makes one slice of those that lie together in memory, and returns how many are left; there is one at least. The end of the
 * last is kept at hand: else each that joins it waits for the length that the one before wrote. */
static size_t joined(struct iovec *slices, size_t count)
{
    struct iovec *last = slices;
    const uint8_t *end = end_of(last);
    const struct iovec *next = slices + 1, *behind = slices + count;
    /* those before the first that joins another stay as they are */
    for (; next < behind && next->iov_base != end; next++)
        end = end_of(++last);
    for (; next < behind; next++) {
        if (next->iov_base != end) {
            last->iov_len = (size_t)(end - (const uint8_t *)last->iov_base);
            end = next->iov_base;
            (++last)->iov_base = next->iov_base;
        }
        end += next->iov_len;
    }
    last->iov_len = (size_t)(end - (const uint8_t *)last->iov_base);
    return (size_t)(last - slices) + 1;
}

static size_t bytes_in(const struct iovec *slices, size_t count)
{
    size_t bytes = 0;
    for (size_t at = 0; at < count; at++)
        bytes += slices[at].iov_len;
    return bytes;
}

/* Offers a socket these slices, and tells how many bytes it took. Returns how the sending ends by that, or
 * LIMEKEEL_ENDED_DRAINED if the socket took all that it was offered. */
static uint32_t offer(int socket, struct iovec *slices, size_t count, uint64_t *took, int *error)
{
    struct msghdr message = {.msg_iov = slices, .msg_iovlen = count};
    for (;;) {
        ssize_t sent = sendmsg(socket, &message, MSG_NOSIGNAL | MSG_DONTWAIT);
        if (sent >= 0) {
            *took = (uint64_t)sent;
            return *took == bytes_in(slices, message.msg_iovlen) ? LIMEKEEL_ENDED_DRAINED : LIMEKEEL_ENDED_BLOCKED;
        }
        if (errno == EAGAIN || errno == EWOULDBLOCK)
            return LIMEKEEL_ENDED_BLOCKED;
        if (errno == EMSGSIZE && message.msg_iovlen > 1) {
            message.msg_iovlen /= 2;
        } else if (errno != EINTR) {
            *error = errno;
            return LIMEKEEL_ENDED_BROKEN;
        }
    }
}

/* What is sent from: a connection, or else a managed one, or else one that a budget covers. */
struct source {
    struct limekeel_connection *connection;
    struct limekeel_managed *managed;
    struct limekeel_budgeted *budgeted;
};

/* What a removal told, and what a sending tells: of a managed connection the end, of one that a budget covers pressure. */
struct told {
    struct limekeel_sent sent;
    bool finished;
    uint32_t pressure;
};

IN_EACH size_t gather_each(struct source source, struct iovec *slices, size_t most)
{
    struct limekeel_piece *pieces = (struct limekeel_piece *)slices;
    if (source.managed)
        return limekeel_managed_gather_pieces(source.managed, pieces, most, UINT32_MAX).count;
    if (source.budgeted)
        return limekeel_budgeted_gather_pieces(source.budgeted, pieces, most, UINT32_MAX).count;
    return limekeel_gather_pieces(source.connection, pieces, most, UINT32_MAX).count;
}

/* Fills slices with at most this many blocks in front, and returns how many slices they are: those that lie together are one. */
IN_EACH size_t gather(struct source source, struct iovec *slices, size_t most)
{
    size_t count = gather_each(source, slices, most);
    return count > 0 ? joined(slices, count) : 0;
}

IN_EACH bool is_empty(struct source source)
{
    if (source.budgeted)
        return limekeel_budgeted_state(source.budgeted).empty;
    return source.managed ? limekeel_managed_state(source.managed).empty : limekeel_is_empty(source.connection).holds;
}

IN_EACH struct limekeel_taken take_sent(struct source source, uint64_t bytes, struct told *told)
{
    if (source.managed) {
        struct limekeel_told_taken taken = limekeel_managed_take_sent(source.managed, bytes);
        told->finished = told->finished || taken.finished;
        return taken.taken;
    }
    if (source.budgeted) {
        struct limekeel_pressed_taken taken = limekeel_budgeted_take_sent(source.budgeted, bytes);
        if (taken.pressure != LIMEKEEL_PRESSURE_UNCHANGED)
            told->pressure = taken.pressure;
        return taken.taken;
    }
    return limekeel_take_sent(source.connection, bytes);
}

/* Takes away what was sent, along with what went before. */
IN_EACH void take(struct source source, uint64_t bytes, struct told *told)
{
    struct limekeel_taken taken = take_sent(source, bytes, told);
    struct limekeel_sent *sent = &told->sent;
    if (sent->taken.outcome == LIMEKEEL_SUCCESS) {
        /* the promises follow those before, and writability changed by one of them at most */
        taken.from = sent->taken.from;
        taken.count += sent->taken.count;
        if (taken.change == LIMEKEEL_UNCHANGED)
            taken.change = sent->taken.change;
    }
    sent->taken = taken;
    sent->status = taken.status;
    sent->bytes += bytes;
}

IN_EACH struct told send_from(struct source source, int socket, uint32_t max_turns)
{
    struct told told = {0};
    struct limekeel_sent *sent = &told.sent;
    size_t most = GATHERED;
    for (uint32_t turn = 1;; turn++) {
        struct iovec slices[GATHERED];
        size_t count = gather(source, slices, most);
        if (count > LIMEKEEL_PIECES)
            count = most = LIMEKEEL_PIECES; /* they lie apart: no more of them go in the next turns */
        uint64_t took = 0;
        if (count > 0)
            sent->ending = offer(socket, slices, count, &took, &sent->error);
        take(source, took, &told);
        if (sent->ending != LIMEKEEL_ENDED_DRAINED || sent->status != LIMEKEEL_OK || is_empty(source))
            return told;
        if (count == 0 || turn >= max_turns) {
            sent->ending = count == 0 ? LIMEKEEL_ENDED_OTHER : LIMEKEEL_ENDED_BY_TURNS;
            return told;
        }
    }
}

struct limekeel_sent limekeel_send(struct limekeel_connection *connection, int socket, uint32_t max_turns)
{
    struct source source = {.connection = connection};
    return send_from(source, socket, max_turns).sent;
}

struct limekeel_told_sent limekeel_managed_send(struct limekeel_managed *managed, int socket, uint32_t max_turns)
{
    struct source source = {.managed = managed};
    struct told told = send_from(source, socket, max_turns);
    struct limekeel_told_sent sent = {told.sent, told.finished};
    return sent;
}

struct limekeel_pressed_sent limekeel_budgeted_send(struct limekeel_budgeted *budgeted, int socket, uint32_t max_turns)
{
    struct source source = {.budgeted = budgeted};
    struct told told = send_from(source, socket, max_turns);
    struct limekeel_pressed_sent sent = {told.sent, told.pressure};
    return sent;
}
