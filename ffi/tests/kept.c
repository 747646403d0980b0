/*
 * What a connection keeps: memory follows what waits. The heap here counts the bytes that are given and not freed, and
 * how often memory was asked for, in place of that of heap.c.
 */
#include <inttypes.h>
#include <stdio.h>
#include <stdlib.h>
#include <string.h>

#include "limekeel.h"

#define SMALL 4    /* entries for which a ring keeps room */
#define ENTRY 64   /* bytes of an entry, at most */
#define COPY 64    /* bytes of a copy's own memory beside its bytes, at most */
#define CHUNK 20000 /* bytes of a chunk that small copies share, with what it takes beside its own, at most */
#define OPENED 208 /* bytes of a connection where nothing waits and nothing ever did, at most */
#define MANY 100000

static uint8_t nowhere;
static size_t live; /* bytes that were given and not freed */
static long asked;  /* times that memory was asked for */

/* The size of a block stands before it, in a cell as long as malloc aligns. */
union cell {
    size_t size;
    max_align_t aligned;
};

static struct limekeel_memory told(union cell *cell, size_t size)
{
    struct limekeel_memory memory = {cell != NULL, cell ? (uint8_t *)(cell + 1) : &nowhere};
    asked++;
    if (cell) {
        cell->size = size;
        live += size;
    }
    return memory;
}

struct limekeel_memory limekeel_alloc(size_t size, size_t align)
{
    (void)align;
    return told(malloc(sizeof(union cell) + size), size);
}

struct limekeel_memory limekeel_realloc(uint8_t *at, size_t kept, size_t size, size_t align)
{
    union cell *cell = (union cell *)(void *)at - 1;
    size_t before = cell->size;
    (void)kept;
    (void)align;
    union cell *moved = realloc(cell, sizeof(union cell) + size);
    if (moved)
        live -= before;
    return told(moved, size);
}

void limekeel_dealloc(uint8_t *at)
{
    union cell *cell = (union cell *)(void *)at - 1;
    live -= cell->size;
    free(cell);
}

static void expect(const char *what, bool holds)
{
    if (!holds) {
        fprintf(stderr, "%s: %zu bytes are live, memory was asked for %ld times\n", what, live, asked);
        exit(1);
    }
}

static void write_bytes(struct limekeel_connection *connection, int count)
{
    for (int written = 0; written < count; written++)
        expect("a byte is written", limekeel_write(connection, "b", 1).status == LIMEKEEL_OK);
}

/* Of a burst that is gone a connection keeps room for few entries, and none once it is shrunk. */
static void a_burst(struct limekeel_connection *connection, size_t opened, int count)
{
    write_bytes(connection, count);
    expect("what waits takes what it counts for: two entries, and a copy's own memory",
           live <= opened + (size_t)count * (2 * ENTRY + COPY + 1) + SMALL * ENTRY);
    expect("small copies share memory", live <= opened + (size_t)count * (2 * ENTRY + 2) + 2 * CHUNK);
    long before = asked;
    expect("all is flushed", limekeel_flush(connection).count == (uint64_t)count);
    expect("all is sent", limekeel_take_sent(connection, (uint64_t)count).count == (uint64_t)count);
    expect("what is gone takes room for few entries, and no chunk", live <= opened + SMALL * ENTRY);
    expect("a connection is shrunk", limekeel_shrink_to_fit(connection) == LIMEKEEL_OK);
    expect("and takes what it took when it was opened", live == opened);
    /* a ring that gets smaller asks for the smaller one, and for no list of what it takes away */
    expect("memory is asked for once each time that the ring is halved", asked - before <= 32);
}

/* What waits is not listed: nothing but a write and a ring that is given back asks for memory. */
static void no_list(struct limekeel_connection *connection)
{
    struct limekeel_piece pieces[LIMEKEEL_PIECES];
    write_bytes(connection, MANY);
    long before = asked;
    uint64_t last = 3 * MANY + 2000 + 200 - 1; /* promises count from 0, and so many were written before */
    expect("the last message is cancelled", limekeel_cancel(connection, last).in_time);
    expect("all is flushed", limekeel_flush(connection).count == MANY);
    expect("some are gathered", limekeel_gather(connection, pieces, LIMEKEEL_PIECES, UINT32_MAX).count == LIMEKEEL_PIECES);
    expect("ten are sent", limekeel_take_sent(connection, 10).count == 10);
    expect("one is removed", limekeel_remove(connection).any && limekeel_remove_with(connection, 3).any);
    expect("marks are set", limekeel_set_marks(connection, 10, 20) == LIMEKEEL_OK);
    expect("a bit is set", limekeel_user_bit(connection, 3, false).status == LIMEKEEL_OK);
    expect("no memory was asked for", asked == before);
}

/* However many small copies went before, the last that waits keeps no more than the chunk that it lies in. */
static void a_chunk_is_let_go(struct limekeel_connection *connection, size_t opened)
{
    static const uint8_t bytes[1000];
    for (int written = 0; written < 2000; written++)
        expect("a small message is written", limekeel_write(connection, bytes, sizeof bytes).status == LIMEKEEL_OK);
    expect("all is flushed", limekeel_flush(connection).count == 2000);
    expect("all but one is sent", limekeel_take_sent(connection, 1999 * sizeof bytes).count == 1999);
    expect("one message keeps one chunk", live <= opened + SMALL * ENTRY + CHUNK);
    expect("it is sent", limekeel_take_sent(connection, sizeof bytes).count == 1);
    expect("and keeps none", live <= opened + SMALL * ENTRY);
}

/* A shared block is not copied, and is let go with the last message that has it. */
static void a_block_is_shared(struct limekeel_connection *connection)
{
    static uint8_t bytes[1 << 20];
    struct limekeel_block block = LIMEKEEL_BLOCK;
    size_t before = live;
    expect("a block is made", limekeel_block_of_bytes(&block, bytes, sizeof bytes) == LIMEKEEL_OK);
    for (int count = 0; count < 10; count++)
        expect("and written", limekeel_write_block(connection, &block).status == LIMEKEEL_OK);
    expect("ten messages share its bytes", live <= before + sizeof bytes + SMALL * ENTRY + 4096);
    expect("the block is freed", limekeel_block_free(&block) == LIMEKEEL_OK);
    expect("the messages have its bytes still", live >= before + sizeof bytes);
    expect("all is given up", limekeel_give_up(connection, 4).count == MANY - 12 + 10);
    expect("and its bytes are gone", live <= before);
}

int main(void)
{
    struct limekeel_connection connection = LIMEKEEL_CONNECTION;
    expect("open", limekeel_open(&connection, 32768, 65536, 96, 8) == LIMEKEEL_OK);
    size_t opened = live;
    expect("an open connection is small", opened <= OPENED);
    a_burst(&connection, opened, 100);
    a_burst(&connection, opened, 100);
    a_burst(&connection, opened, MANY);
    a_burst(&connection, opened, MANY);
    a_chunk_is_let_go(&connection, opened);
    no_list(&connection);
    a_block_is_shared(&connection);
    expect("free", limekeel_free(&connection) == LIMEKEEL_OK);
    expect("and keeps nothing", live == 0);
    puts("memory follows what waits");
    return 0;
}
