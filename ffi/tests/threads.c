/*
 * Blocks and connections under two threads at once. Each thread has a second block of the same bytes, writes it to a
 * connection of its own, and lets it go. Then both write one block, as Rust's `&Block` in two threads does; the header asks
 * C for a block each. Run it under helgrind too.
 */
#include <pthread.h>
#include <stdio.h>
#include <stdlib.h>
#include <string.h>

#include "limekeel.h"

#define THREADS 4
#define MESSAGES 32

static int rounds = 2000;
static struct limekeel_block shared = LIMEKEEL_BLOCK;

static void expect(const char *what, bool holds)
{
    if (!holds) {
        fprintf(stderr, "%s\n", what);
        exit(1);
    }
}

static void round_of(const struct limekeel_block *block)
{
    struct limekeel_connection connection = LIMEKEEL_CONNECTION;
    expect("open", limekeel_open(&connection, 100, 200, 96, 8) == LIMEKEEL_OK);
    for (uint64_t id = 0; id < MESSAGES; id++)
        expect("write", limekeel_write_block(&connection, block).id == id);
    expect("flush", limekeel_flush(&connection).count == MESSAGES);
    struct limekeel_piece pieces[MESSAGES];
    expect("gather", limekeel_gather(&connection, pieces, MESSAGES, UINT32_MAX).count == MESSAGES);
    for (size_t at = 0; at < MESSAGES; at++)
        expect("the bytes", pieces[at].length == 6 && memcmp(pieces[at].at, "to all", 6) == 0);
    expect("some are sent", limekeel_take_sent(&connection, 6 * (MESSAGES / 2)).count == MESSAGES / 2);
    expect("free", limekeel_free(&connection) == LIMEKEEL_OK);
}

static void *own_block(void *given)
{
    struct limekeel_block *block = given;
    for (int round = 0; round < rounds; round++)
        round_of(block);
    expect("free", limekeel_block_free(block) == LIMEKEEL_OK);
    return NULL;
}

static void *one_block(void *given)
{
    for (int round = 0; round < rounds; round++) {
        struct limekeel_block second = LIMEKEEL_BLOCK;
        struct limekeel_piece piece;
        round_of(given);
        expect("share", limekeel_block_share(given, &second) == LIMEKEEL_OK);
        expect("piece", limekeel_block_piece(&second, &piece) == LIMEKEEL_OK && memcmp(piece.at, "to all", 6) == 0);
        expect("free", limekeel_block_free(&second) == LIMEKEEL_OK);
    }
    return NULL;
}

static void all(void *(*run)(void *), void *const *given)
{
    pthread_t threads[THREADS];
    for (int at = 0; at < THREADS; at++)
        expect("a thread", pthread_create(&threads[at], NULL, run, given[at]) == 0);
    for (int at = 0; at < THREADS; at++)
        expect("its end", pthread_join(threads[at], NULL) == 0);
}

int main(int count, char **words)
{
    if (count > 1)
        rounds = atoi(words[1]);
    expect("block", limekeel_block_new(&shared, "to all", 6) == LIMEKEEL_OK);
    struct limekeel_block blocks[THREADS];
    void *own[THREADS], *one[THREADS];
    for (int at = 0; at < THREADS; at++) {
        blocks[at] = (struct limekeel_block)LIMEKEEL_BLOCK;
        expect("share", limekeel_block_share(&shared, &blocks[at]) == LIMEKEEL_OK);
        own[at] = &blocks[at];
        one[at] = &shared;
    }
    all(own_block, own);
    all(one_block, one);
    expect("free", limekeel_block_free(&shared) == LIMEKEEL_OK);
    printf("%d threads, %d rounds each\n", THREADS, 2 * rounds);
    return 0;
}
