/*
 * The queue of a connection by Limekeel, under one budget for all. While pressure stands a client has
 * one response at a time, unless it takes more in a while than the system keeps for one that reads nothing. A write that finds
 * no room has changed nothing, and epoll_server.c makes it again once there is room.
 */
#include "queue_ours.h"

#include <stdio.h>
#include <stdlib.h>
#include <time.h>

#define OVERHEAD 96
#define WHILE 100           /* milliseconds */
#define MUCH (UINT64_C(1) << 20) /* bytes in that time */

static struct limekeel_budget budget = LIMEKEEL_BUDGET;
static uint64_t budget_room;
bool queue_pressed;

void queue_share(uint64_t room, uint64_t high, uint64_t quantum)
{
    budget_room = room;
    uint32_t status = limekeel_budget_open(&budget, room, high / 2, high, quantum);
    if (status != LIMEKEEL_OK) {
        fprintf(stderr, "the budget: %s\n", limekeel_strstatus(status));
        exit(2);
    }
}

/* Each change of pressure is told once, to whichever queue made it. */
static void note_pressure(uint32_t pressure)
{
    if (pressure != LIMEKEEL_PRESSURE_UNCHANGED)
        queue_pressed = pressure == LIMEKEEL_PRESSURE_BEGAN;
}

void queue_open(struct queue *queue, uint32_t low, uint32_t high)
{
    *queue = (struct queue){.connection = LIMEKEEL_BUDGETED, .writable = true, .rooms = LIMEKEEL_ROOMS};
    queue->broken = limekeel_open_within(&queue->connection, low, high, OVERHEAD, 8, &budget) != LIMEKEEL_OK;
}

void queue_free(struct queue *queue)
{
    struct limekeel_pressed_done done;
    do {
        done = limekeel_budgeted_free(&queue->connection);
        note_pressure(done.pressure);
    } while (done.status == LIMEKEEL_BUSY);
    limekeel_let_go(&queue->rooms, UINT64_MAX);
}

uint64_t queue_held(void)
{
    return limekeel_budget_look(&budget).total;
}

bool queue_has_room(uint64_t held, uint32_t size)
{
    return held + size + OVERHEAD <= budget_room;
}

void queue_rest(struct queue *queue)
{
    note_pressure(limekeel_budgeted_rest(&queue->connection).pressure);
}

static enum written what_came(uint32_t status, uint32_t pressure)
{
    note_pressure(pressure);
    switch (status) {
    case LIMEKEEL_OK: return WRITTEN;
    case LIMEKEEL_OVER_BUDGET:
    case LIMEKEEL_BUSY: return NO_ROOM;
    default: return NOT_WRITTEN;
    }
}

static enum written was_written(struct queue *queue, struct limekeel_pressed_written told)
{
    note(queue, told.change);
    return what_came(told.status, told.pressure);
}

/* The budget is asked before the response is made, and so none is made in vain. Behind it the processor would let all its bytes go
 * to memory first. */
enum written queue_room(struct queue *queue, uint32_t size, uint8_t **at)
{
    struct limekeel_pressed_done told = limekeel_budgeted_cover(&queue->connection, size + OVERHEAD);
    enum written came = what_came(told.status, told.pressure);
    if (came != WRITTEN)
        return came;
    *at = limekeel_reserve(&queue->rooms, size);
    return *at ? WRITTEN : NOT_WRITTEN;
}

enum written queue_made(struct queue *queue, uint32_t size)
{
    return was_written(queue, limekeel_budgeted_write_reserved(&queue->rooms, &queue->connection, size));
}

enum written queue_write(struct queue *queue, const uint8_t *bytes, uint32_t size)
{
    return was_written(queue, limekeel_budgeted_write(&queue->connection, bytes, size));
}

static struct limekeel_block block = LIMEKEEL_BLOCK;

bool queue_shared_begin(const uint8_t *bytes, uint32_t size)
{
    return limekeel_block_new(&block, bytes, size) == LIMEKEEL_OK;
}

enum written queue_shared_write(struct queue *queue)
{
    enum written written = was_written(queue, limekeel_budgeted_write_block(&queue->connection, &block));
    limekeel_budgeted_ask_ahead(&queue->connection);
    return written;
}

void queue_shared_end(void)
{
    limekeel_block_free(&block);
}

/* Milliseconds; the coarse clock is a load from memory, and told each few milliseconds. */
static uint64_t now(void)
{
    struct timespec time;
    clock_gettime(CLOCK_MONOTONIC_COARSE, &time);
    return (uint64_t)time.tv_sec * 1000 + (uint64_t)time.tv_nsec / 1000000;
}

/* When the last sending under pressure was: each response asks for it. */
static uint64_t last_sent;

bool queue_is_fast(const struct queue *queue)
{
    return queue->fast && last_sent - queue->since < 2 * WHILE;
}

/* Who took much in less than a while is fast at once, and stays so unless it takes less in the next. */
static void note_taken(struct queue *queue, uint64_t bytes)
{
    uint64_t time = last_sent = now(), passed = time - queue->since;
    queue->took = passed < 2 * WHILE ? queue->took + bytes : bytes;
    if (queue->took < MUCH && passed < WHILE)
        return;
    queue->fast = queue->took >= MUCH;
    queue->since = time;
    queue->took = 0;
}

enum sent queue_send(struct queue *queue, int socket, uint32_t turns)
{
    struct limekeel_pressed_flushed flushed = limekeel_budgeted_flush(&queue->connection);
    note(queue, flushed.change);
    note_pressure(flushed.pressure);
    struct limekeel_pressed_sent told = limekeel_budgeted_send(&queue->connection, socket, turns);
    note(queue, told.sent.taken.change);
    note_pressure(told.pressure);
    limekeel_let_go(&queue->rooms, told.sent.taken.to);
    if (queue_pressed)
        note_taken(queue, told.sent.bytes);
    return how_it_ended(told.sent);
}

uint64_t queue_pending(const struct queue *queue)
{
    return limekeel_budgeted_look(&queue->connection).total;
}
