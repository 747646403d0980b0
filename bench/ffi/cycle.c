/* Times what src/main.rs times, through C. */
#define _POSIX_C_SOURCE 200809L
#include <stdio.h>
#include <stdlib.h>
#include <time.h>

#include "limekeel.h"

/* So many messages are timed at once, so often, and the least time counts. */
#define MESSAGES 480
#define TIMES 1000
#define BATCH 16
#define SIZE 64

static uint8_t bytes[SIZE];

static void must(uint32_t status)
{
    if (status != LIMEKEEL_OK)
        exit(1);
}

static double now(void)
{
    struct timespec time;
    clock_gettime(CLOCK_MONOTONIC, &time);
    return (double)time.tv_sec * 1e9 + (double)time.tv_nsec;
}

/* Each message is copied, or shares a block. */
static struct limekeel_block shared = LIMEKEEL_BLOCK;

static void put(struct limekeel_connection *connection, bool copied)
{
    if (copied)
        must(limekeel_write(connection, bytes, SIZE).status);
    else
        must(limekeel_write_block(connection, &shared).status);
}

static void cycles(void *queue, bool copied)
{
    struct limekeel_connection *connection = queue;
    for (int at = 0; at < MESSAGES; at++) {
        put(connection, copied);
        must(limekeel_flush(connection).status);
        must(limekeel_remove(connection).status);
    }
}

static void batches(void *queue, bool copied)
{
    struct limekeel_connection *connection = queue;
    for (int at = 0; at < MESSAGES / BATCH; at++) {
        for (int message = 0; message < BATCH; message++)
            put(connection, copied);
        must(limekeel_flush(connection).status);
        struct limekeel_piece pieces[BATCH];
        struct limekeel_gathered front = limekeel_gather(connection, pieces, BATCH, UINT32_MAX);
        must(front.count == BATCH ? front.status : 1);
        must(limekeel_take_sent(connection, BATCH * SIZE).status);
    }
}

/* The same within a budget that has room, from which a connection takes for some messages at once. */
static struct limekeel_budget budget = LIMEKEEL_BUDGET;

static void put_within(struct limekeel_budgeted *connection, bool copied)
{
    if (copied)
        must(limekeel_budgeted_write(connection, bytes, SIZE).status);
    else
        must(limekeel_budgeted_write_block(connection, &shared).status);
}

static void cycles_within(void *queue, bool copied)
{
    struct limekeel_budgeted *connection = queue;
    for (int at = 0; at < MESSAGES; at++) {
        put_within(connection, copied);
        must(limekeel_budgeted_flush(connection).status);
        must(limekeel_budgeted_remove(connection).removed.status);
    }
}

static void batches_within(void *queue, bool copied)
{
    struct limekeel_budgeted *connection = queue;
    for (int at = 0; at < MESSAGES / BATCH; at++) {
        for (int message = 0; message < BATCH; message++)
            put_within(connection, copied);
        must(limekeel_budgeted_flush(connection).status);
        struct limekeel_piece pieces[BATCH];
        struct limekeel_gathered front = limekeel_budgeted_gather(connection, pieces, BATCH, UINT32_MAX);
        must(front.count == BATCH ? front.status : 1);
        must(limekeel_budgeted_take_sent(connection, BATCH * SIZE).taken.status);
    }
}

/* The nanoseconds of a message. */
static double least(void *queue, bool copied, void (*turns)(void *, bool))
{
    double best = 1e18;
    for (int time = 0; time < TIMES; time++) {
        double start = now();
        turns(queue, copied);
        double spent = now() - start;
        best = spent < best ? spent : best;
    }
    return best / MESSAGES;
}

static void tell(const char *name, int depth, double cycle, double batch)
{
    printf("%s %d %.1f %.1f\n", name, depth, cycle, batch);
}

static void time_at(int depth, bool copied)
{
    struct limekeel_connection connection = LIMEKEEL_CONNECTION;
    must(limekeel_open(&connection, 32768, 65536, 96, 8));
    for (int at = 0; at < depth; at++)
        put(&connection, true);
    must(limekeel_flush(&connection).status);
    double cycle = least(&connection, copied, cycles);
    tell(copied ? "c" : "c-shared", depth, cycle, least(&connection, copied, batches));
    must(limekeel_free(&connection));
}

static void time_within(int depth, bool copied)
{
    struct limekeel_budgeted connection = LIMEKEEL_BUDGETED;
    must(limekeel_open_within(&connection, 32768, 65536, 96, 8, &budget));
    for (int at = 0; at < depth; at++)
        put_within(&connection, true);
    must(limekeel_budgeted_flush(&connection).status);
    double cycle = least(&connection, copied, cycles_within);
    tell(copied ? "c-within" : "c-shared-within", depth, cycle, least(&connection, copied, batches_within));
    must(limekeel_budgeted_free(&connection).status);
}

int main(void)
{
    static const int depths[] = {1, 16, 1000, 100000};
    must(limekeel_block_new(&shared, bytes, SIZE));
    must(limekeel_budget_open(&budget, UINT64_C(1) << 40, UINT64_C(1) << 38, UINT64_C(1) << 39, 4096));
    for (int copied = 1; copied >= 0; copied--)
        for (int at = 0; at < 4; at++) {
            time_at(depths[at], copied);
            time_within(depths[at], copied);
        }
    must(limekeel_budget_free(&budget));
    must(limekeel_block_free(&shared));
    return 0;
}
