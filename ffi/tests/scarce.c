/*
 * Each growth of memory refused, in turn: the call that asked for it says LIMEKEEL_NO_MEMORY and changes nothing, and
 * when it is made again all goes on as if nothing had been refused. The heap here refuses, in place of that of heap.c.
 */
#include <stdio.h>
#include <stdlib.h>
#include <string.h>

#include "limekeel.h"

static uint8_t nowhere;
static int asked, refused_at;
static int held; /* blocks that were given and not freed */

static struct limekeel_memory answer(bool may, void *at)
{
    struct limekeel_memory memory = {may, may ? at : &nowhere};
    return memory;
}

static bool may_have(void)
{
    return ++asked != refused_at;
}

struct limekeel_memory limekeel_alloc(size_t size, size_t align)
{
    (void)align;
    if (!may_have())
        return answer(false, NULL);
    held++;
    return answer(true, malloc(size > 0 ? size : 1));
}

struct limekeel_memory limekeel_realloc(uint8_t *at, size_t kept, size_t size, size_t align)
{
    (void)kept;
    (void)align;
    return may_have() ? answer(true, realloc(at, size > 0 ? size : 1)) : answer(false, NULL);
}

void limekeel_dealloc(uint8_t *at)
{
    held--;
    free(at);
}

static void expect(const char *what, bool holds)
{
    if (!holds) {
        fprintf(stderr, "growth %d refused: %s\n", refused_at, what);
        exit(1);
    }
}

static bool same(struct limekeel_look_told one, struct limekeel_look_told other)
{
    return one.status == other.status && one.total == other.total && one.word == other.word && one.size == other.size &&
           one.before_unwritable == other.before_unwritable && one.before_writable == other.before_writable &&
           one.current_progress == other.current_progress;
}

static int wanted;

/* A write, made again if memory was refused. */
static struct limekeel_written written(struct limekeel_connection *connection, struct limekeel_block *block,
                                       const char *text)
{
    struct limekeel_look_told before = limekeel_look(connection);
    for (;;) {
        struct limekeel_written told = text ? limekeel_write(connection, text, strlen(text))
                                            : limekeel_write_block(connection, block);
        if (told.status != LIMEKEEL_NO_MEMORY)
            return told;
        wanted++;
        expect("a refused write changes nothing", same(before, limekeel_look(connection)) && told.id == 0);
    }
}

/* A life of a connection. Returns how often memory was refused. */
static int life(void)
{
    struct limekeel_connection connection = LIMEKEEL_CONNECTION;
    struct limekeel_block block = LIMEKEEL_BLOCK;
    asked = wanted = 0;
    while (limekeel_open(&connection, 1000, 2000, 96, 8) == LIMEKEEL_NO_MEMORY)
        wanted++;
    while (limekeel_block_new(&block, "shared", 6) == LIMEKEEL_NO_MEMORY)
        wanted++;
    for (uint64_t id = 0; id < 40; id++) {
        struct limekeel_written told = written(&connection, &block, id % 3 == 0 ? NULL : "copied");
        expect("ids rise by one", told.status == LIMEKEEL_OK && told.id == id);
    }
    expect("40 messages are flushed", limekeel_flush(&connection).count == 40);
    struct limekeel_piece pieces[LIMEKEEL_PIECES];
    struct limekeel_gathered front = limekeel_gather(&connection, pieces, LIMEKEEL_PIECES, UINT32_MAX);
    expect("and gathered", front.count == 40);
    for (size_t at = 0; at < front.count; at++)
        expect("each as it was written", pieces[at].length == 6 &&
                                             memcmp(pieces[at].at, at % 3 == 0 ? "shared" : "copied", 6) == 0);
    struct limekeel_taken taken = limekeel_take_sent(&connection, 39 * 6 + 3);
    expect("39 are gone", taken.status == LIMEKEEL_OK && taken.from == 0 && taken.to == 39);
    front = limekeel_gather(&connection, pieces, 1, UINT32_MAX);
    expect("and half of one is left", front.count == 1 && pieces[0].length == 3 && memcmp(pieces[0].at, "red", 3) == 0);
    expect("it fails", limekeel_fail_flushed(&connection, 4, true).count == 1);
    int before = held;
    expect("shrink", limekeel_shrink_to_fit(&connection) == LIMEKEEL_OK);
    expect("an idle connection gives its ring back", held == before - 1);
    expect("free", limekeel_free(&connection) == LIMEKEEL_OK && limekeel_block_free(&block) == LIMEKEEL_OK);
    expect("and keeps nothing", held == 0);
    return wanted;
}

#define LARGE (1u << 26)

/* Whether a write says this, and asks for no memory. */
static bool says(struct limekeel_connection *connection, struct limekeel_block *block, const void *bytes,
                 uint32_t status)
{
    int before = asked;
    refused_at = asked + 1;
    struct limekeel_written told = block ? limekeel_write_block(connection, block)
                                         : limekeel_write(connection, bytes, LARGE);
    return told.status == status && asked == before;
}

/* What is refused anyhow is refused before a byte is copied. */
static void refusals_come_first(void)
{
    struct limekeel_connection connection = LIMEKEEL_CONNECTION;
    struct limekeel_block block = LIMEKEEL_BLOCK;
    void *bytes = calloc(LARGE, 1);
    refused_at = 0;
    expect("open", bytes && limekeel_open(&connection, 1000, 2000, 96, 8) == LIMEKEEL_OK);
    expect("block", limekeel_block_new(&block, bytes, LARGE) == LIMEKEEL_OK);
    /* 63 times 67108864 + 96 bytes are 4227864480, and one more are too many */
    for (int count = 0; count < 63; count++)
        expect("write", limekeel_write_block(&connection, &block).status == LIMEKEEL_OK);
    expect("4227864480 bytes", limekeel_look(&connection).total == 4227864480u);
    expect("a copy is too much", says(&connection, NULL, bytes, LIMEKEEL_TOO_MUCH));
    expect("a block is too much", says(&connection, &block, NULL, LIMEKEEL_TOO_MUCH));
    refused_at = 0;
    expect("give up", limekeel_give_up(&connection, 1).count == 63);
    expect("a copy is after the close", says(&connection, NULL, bytes, LIMEKEEL_CLOSED));
    expect("a block is after the close", says(&connection, &block, NULL, LIMEKEEL_CLOSED));
    expect("free", limekeel_free(&connection) == LIMEKEEL_OK && limekeel_block_free(&block) == LIMEKEEL_OK);
    free(bytes);
}

int main(void)
{
    expect("nothing is wanted of a heap that gives", life() == 0);
    int growths = asked;
    int told = 0;
    for (refused_at = 1; refused_at <= growths; refused_at++)
        told += life();
    refusals_come_first();
    printf("%d growths refused in turn, %d told\n", growths, told);
    return told == 0;
}
