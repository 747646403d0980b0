/*
 * What the life of a connection costs a message: the same calls of a connection and of a managed one, by turns.
 *
 *     cc -std=c11 -O2 -Iffi -o managed bench/ffi/managed.c ffi/limekeel.s ffi/heap.c && ./managed [ROUNDS]
 *
 * A batch is 16 writes of 64 bytes, a flush, a gathering and the removal of their bytes; a cycle is a write, a flush and a
 * removal of one. Each number is nanoseconds a message, the least of so many rounds.
 */
#define _POSIX_C_SOURCE 200809L
#include <stdio.h>
#include <stdlib.h>
#include <time.h>

#include "limekeel.h"

#define MESSAGES 4800
#define SIZE 64

static uint8_t bytes[SIZE];
static struct limekeel_connection plain = LIMEKEEL_CONNECTION;
static struct limekeel_managed managed = LIMEKEEL_MANAGED;

static void must(uint32_t status)
{
    if (status != LIMEKEEL_OK)
        exit(1);
}

static void of_plain(int batch)
{
    struct limekeel_piece pieces[16];
    for (int at = 0; at < MESSAGES / batch; at++) {
        for (int one = 0; one < batch; one++)
            must(limekeel_write(&plain, bytes, SIZE).status);
        must(limekeel_flush(&plain).status);
        must(limekeel_gather(&plain, pieces, 16, UINT32_MAX).status);
        must(limekeel_take_sent(&plain, (uint64_t)(SIZE * batch)).status);
    }
}

static void of_managed(int batch)
{
    struct limekeel_piece pieces[16];
    for (int at = 0; at < MESSAGES / batch; at++) {
        for (int one = 0; one < batch; one++)
            must(limekeel_managed_write(&managed, bytes, SIZE).status);
        must(limekeel_managed_flush(&managed).flushed.status);
        must(limekeel_managed_gather(&managed, pieces, 16, UINT32_MAX).status);
        must(limekeel_managed_take_sent(&managed, (uint64_t)(SIZE * batch)).taken.status);
    }
}

static double timed(void (*calls)(int), int batch)
{
    struct timespec from, to;
    clock_gettime(CLOCK_MONOTONIC, &from);
    calls(batch);
    clock_gettime(CLOCK_MONOTONIC, &to);
    return ((double)(to.tv_sec - from.tv_sec) * 1e9 + (double)(to.tv_nsec - from.tv_nsec)) / MESSAGES;
}

int main(int count, char **words)
{
    long rounds = count > 1 ? strtol(words[1], NULL, 10) : 2000;
    struct limekeel_limits limits = {1u << 30, 1000, 1};
    must(limekeel_open(&plain, 32768, 65536, 96, 8));
    must(limekeel_managed_open(&managed, 32768, 65536, 96, 8, limits, 0));
    const int batches[] = {16, 1};
    for (int at = 0; at < 2; at++) {
        double least[2] = {1e9, 1e9};
        for (long round = 0; round < rounds; round++) {
            double one = timed(of_plain, batches[at]), other = timed(of_managed, batches[at]);
            least[0] = one < least[0] ? one : least[0];
            least[1] = other < least[1] ? other : least[1];
        }
        printf("batches of %d: a connection %.1f, managed %.1f, more by %.1f\n", batches[at], least[0], least[1],
               least[1] - least[0]);
    }
    must(limekeel_free(&plain));
    must(limekeel_managed_free(&managed));
    return 0;
}
