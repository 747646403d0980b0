/*
 * The looks write neither the handle nor what is behind it, and a write of a block does not write the block: all that lies in
 * memory that cannot be written while they run. The heap here has pages of its own, in place of that of heap.c.
 */
#define _DEFAULT_SOURCE
#include <stdio.h>
#include <stdlib.h>
#include <string.h>
#include <sys/mman.h>

#include "limekeel.h"

#define ROOM (1u << 20)

/* Memory that is given out from its start and never reused. */
struct pages {
    uint8_t *at;
    size_t used;
};

static struct pages heap, handles;
static uint8_t nowhere;

static void expect(const char *what, bool holds)
{
    if (!holds) {
        fprintf(stderr, "%s\n", what);
        exit(1);
    }
}

static struct pages pages(void)
{
    struct pages pages = {mmap(NULL, ROOM, PROT_READ | PROT_WRITE, MAP_PRIVATE | MAP_ANONYMOUS, -1, 0), 0};
    expect("mmap", pages.at != MAP_FAILED);
    return pages;
}

static void *given(struct pages *pages, size_t size)
{
    void *at = pages->at + pages->used;
    pages->used += (size + 15) / 16 * 16;
    return pages->used <= ROOM ? at : NULL;
}

struct limekeel_memory limekeel_alloc(size_t size, size_t align)
{
    (void)align;
    void *at = given(&heap, size);
    struct limekeel_memory memory = {at != NULL, at != NULL ? at : &nowhere};
    return memory;
}

struct limekeel_memory limekeel_realloc(uint8_t *at, size_t kept, size_t size, size_t align)
{
    struct limekeel_memory memory = limekeel_alloc(size, align);
    if (memory.given)
        memcpy(memory.at, at, kept < size ? kept : size);
    return memory;
}

void limekeel_dealloc(uint8_t *at)
{
    (void)at;
}

static void may_be_written(const struct pages *pages, bool may)
{
    expect("mprotect", mprotect(pages->at, ROOM, may ? PROT_READ | PROT_WRITE : PROT_READ) == 0);
}

static void look_at(const struct limekeel_connection *connection, uint64_t size, uint32_t kind)
{
    struct limekeel_piece pieces[4];
    expect("look", limekeel_look(connection).size == size);
    expect("is_writable", limekeel_is_writable(connection).status == LIMEKEEL_OK);
    expect("is_closed", !limekeel_is_closed(connection).holds);
    expect("is_empty", limekeel_is_empty(connection).holds == (size == 0));
    expect("counts", limekeel_counts(connection).waiting >= size);
    expect("settings", limekeel_settings(connection).high == 200);
    expect("promise", limekeel_promise(connection, 0).status == LIMEKEEL_OK);
    expect("front", limekeel_front(connection).any == (size > 0));
    expect("current", limekeel_current(connection).kind == kind);
    expect("gather", limekeel_gather(connection, pieces, 4, UINT32_MAX).status == LIMEKEEL_OK);
}

static void look_at_budgeted(const struct limekeel_budgeted *budgeted)
{
    struct limekeel_piece pieces[4];
    expect("state", limekeel_budgeted_state(budgeted).held == 102);
    expect("look", limekeel_budgeted_look(budgeted).total == 102);
    expect("promise", limekeel_budgeted_promise(budgeted, 0).state == LIMEKEEL_FIXED);
    expect("front", limekeel_budgeted_front(budgeted).any);
    expect("current", limekeel_budgeted_current(budgeted).number == 6);
    expect("gather", limekeel_budgeted_gather(budgeted, pieces, 4, UINT32_MAX).count == 1);
}

/* The same of a connection that a budget covers. */
static void looks_within(struct limekeel_block *block)
{
    struct limekeel_budget *budget = given(&handles, sizeof *budget);
    struct limekeel_budgeted *budgeted = given(&handles, sizeof *budgeted);
    expect("budget", limekeel_budget_open(budget, 1000, 100, 200, 0) == LIMEKEEL_OK);
    expect("open", limekeel_open_within(budgeted, 100, 200, 96, 8, budget) == LIMEKEEL_OK);
    may_be_written(&handles, false);
    expect("write", limekeel_budgeted_write_block(budgeted, block).status == LIMEKEEL_OK);
    expect("flush", limekeel_budgeted_flush(budgeted).count == 1);
    may_be_written(&heap, false);
    look_at_budgeted(budgeted);
    may_be_written(&heap, true);
    expect("remove", limekeel_budgeted_remove(budgeted).removed.any);
}

int main(void)
{
    heap = pages();
    handles = pages();
    struct limekeel_connection *connection = given(&handles, sizeof *connection);
    struct limekeel_connection *other = given(&handles, sizeof *other);
    struct limekeel_block *block = given(&handles, sizeof *block);
    expect("open", limekeel_open(connection, 100, 200, 96, 8) == LIMEKEEL_OK);
    expect("open", limekeel_open(other, 100, 200, 96, 8) == LIMEKEEL_OK);
    expect("block", limekeel_block_new(block, "shared", 6) == LIMEKEEL_OK);
    for (int message = 0; message < 4; message++) {
        uint32_t kind = message == 0   ? LIMEKEEL_CURRENT_NOTHING
                        : message == 2 ? LIMEKEEL_CURRENT_REGION
                        : message == 3 ? LIMEKEEL_CURRENT_OTHER
                                       : LIMEKEEL_CURRENT_BLOCK;
        may_be_written(&heap, false);
        may_be_written(&handles, false);
        look_at(connection, message > 0, kind);
        may_be_written(&heap, true);
        if (message > 0)
            expect("remove", limekeel_remove(connection).any);
        if (message == 0)
            expect("write", limekeel_write_block(connection, block).status == LIMEKEEL_OK);
        if (message == 1)
            expect("region", limekeel_write_region(connection, 7).status == LIMEKEEL_OK);
        if (message == 2)
            expect("other", limekeel_write_other(connection, 7).status == LIMEKEEL_OK);
        expect("flush", limekeel_flush(connection).status == LIMEKEEL_OK);
    }
    /* the handles still cannot be written */
    expect("a block", limekeel_write_block(other, block).status == LIMEKEEL_OK);
    may_be_written(&handles, true);
    looks_within(block);
    puts("no look writes");
    return 0;
}
