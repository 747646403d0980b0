/*
 * What calls allocate and keep, by a heap that counts: bytes that are live, and bytes that were asked for. The numbers are
 * those of docs/server.md and docs/ffi.md.
 */
#include <stdio.h>
#include <stdlib.h>
#include <string.h>
#include <time.h>

#include "limekeel.h"

#define OVER 16 /* before each block stands how long it is */
#define IDLE 208
#define BURST (IDLE + 4 * 64) /* with the ring of 4 entries that is kept after a burst */
#define MANY 100000

static uint8_t nowhere;
static size_t live, asked, calls;

static struct limekeel_memory memory_at(uint8_t *block, size_t size)
{
    struct limekeel_memory memory = {block != NULL, &nowhere};
    calls++;
    if (block) {
        memcpy(block, &size, sizeof size);
        live += size;
        asked += size;
        memory.at = block + OVER;
    }
    return memory;
}

static size_t size_of(const uint8_t *at)
{
    size_t size;
    memcpy(&size, at - OVER, sizeof size);
    return size;
}

struct limekeel_memory limekeel_alloc(size_t size, size_t align)
{
    (void)align;
    return memory_at(malloc(size + OVER), size);
}

struct limekeel_memory limekeel_realloc(uint8_t *at, size_t kept, size_t size, size_t align)
{
    (void)kept;
    (void)align;
    size_t before = size_of(at);
    uint8_t *block = realloc(at - OVER, size + OVER);
    if (block)
        live -= before;
    return memory_at(block, size);
}

void limekeel_dealloc(uint8_t *at)
{
    live -= size_of(at);
    free(at - OVER);
}

static void expect(const char *what, bool holds)
{
    if (!holds) {
        fprintf(stderr, "%s: %zu live, %zu asked in %zu calls\n", what, live, asked, calls);
        exit(1);
    }
}

static void writes(struct limekeel_connection *connection, size_t count)
{
    for (size_t at = 0; at < count; at++)
        expect("write", limekeel_write(connection, "fifty", 5).status == LIMEKEEL_OK);
}

/* What a connection keeps of a burst, of a long life and of a great line. */
static void keeps(struct limekeel_connection *connection)
{
    expect("an open connection is small", live <= IDLE);
    writes(connection, 64);
    expect("flush", limekeel_flush(connection).count == 64);
    expect("send", limekeel_take_sent(connection, 64 * 5).count == 64);
    expect("a burst leaves a ring", live <= BURST);
    for (int cycle = 0; cycle < MANY; cycle++) {
        writes(connection, 1);
        limekeel_flush(connection);
        expect("one goes", limekeel_take_sent(connection, 5).count == 1);
    }
    expect("a long life leaves no more", live <= BURST);
    writes(connection, MANY);
    expect("what waits is held", live >= MANY * 5);
    expect("flush", limekeel_flush(connection).count == MANY);
    size_t before = calls;
    expect("send", limekeel_take_sent(connection, MANY * 5).count == MANY);
    expect("a great line leaves no more", live <= BURST);
    expect("and is given back without much asking", calls - before < 64);
    expect("shrink", limekeel_shrink_to_fit(connection) == LIMEKEEL_OK);
    expect("an idle connection is small again", live <= IDLE);
}

/* Shares copy no byte. */
static void shares(struct limekeel_connection *connection)
{
    static uint8_t bytes[1 << 20];
    struct limekeel_block block = LIMEKEEL_BLOCK, second = LIMEKEEL_BLOCK;
    expect("block", limekeel_block_new(&block, bytes, sizeof bytes) == LIMEKEEL_OK);
    size_t before = asked;
    expect("share", limekeel_block_share(&block, &second) == LIMEKEEL_OK);
    for (int at = 0; at < 8; at++)
        expect("write", limekeel_write_block(connection, at % 2 ? &block : &second).status == LIMEKEEL_OK);
    expect("a share copies nothing", asked - before < 4096);
    expect("free", limekeel_block_free(&block) == LIMEKEEL_OK && limekeel_block_free(&second) == LIMEKEEL_OK);
    expect("messages keep the bytes", live >= sizeof bytes);
    expect("give up", limekeel_fail_flushed(connection, 1, true).status == LIMEKEEL_OK);
    expect("flush", limekeel_flush(connection).count == 8);
    expect("send", limekeel_take_sent(connection, 8 * sizeof bytes).count == 8);
    expect("and let them go", live <= BURST);
}

/* With a great line no call that takes away, cancels or looks allocates, nor goes through the line. */
static void is_frugal(struct limekeel_connection *connection)
{
    writes(connection, MANY);
    uint64_t first = limekeel_write(connection, "", 0).id - MANY;
    clock_t start = clock();
    size_t before = calls;
    for (uint64_t at = 0; at < MANY / 2; at++)
        expect("cancel", limekeel_cancel(connection, first + 2 * at).in_time);
    expect("flush", limekeel_flush(connection).count == MANY + 1);
    for (int at = 0; at < MANY / 4; at++) {
        struct limekeel_piece pieces[LIMEKEEL_PIECES];
        expect("look", limekeel_look(connection).size > 0 && limekeel_front(connection).any);
        expect("promise", limekeel_promise(connection, first + (uint64_t)at).status == LIMEKEEL_OK);
        expect("gather", limekeel_gather(connection, pieces, 2, UINT32_MAX).count == 2);
        expect("send", limekeel_take_sent(connection, 5).count >= 1);
        expect("remove", limekeel_remove(connection).any);
    }
    expect("in little time", clock() - start < 5 * CLOCKS_PER_SEC);
    expect("all without memory, but to give some back", calls - before < 64);
    before = calls;
    expect("give up", limekeel_give_up(connection, 1).status == LIMEKEEL_OK);
    expect("and so is the end", calls - before < 4);
}

int main(void)
{
    struct limekeel_connection connection = LIMEKEEL_CONNECTION;
    expect("open", limekeel_open(&connection, 32768, 65536, 96, 8) == LIMEKEEL_OK);
    keeps(&connection);
    shares(&connection);
    is_frugal(&connection);
    expect("free", limekeel_free(&connection) == LIMEKEEL_OK);
    expect("nothing is kept", live == 0);
    printf("%zu bytes asked for in %zu calls, none kept\n", asked, calls);
    return 0;
}
