/*
 * The heap of heap.c, also where malloc refuses: no other test asks it for what there is not.
 */
#include <stdio.h>
#include <stdlib.h>
#include <string.h>

#include "limekeel.h"

#define TOO_MUCH ((size_t)1 << 60)

/* The address sanitizer would end the program at such a size. */
const char *__asan_default_options(void);
const char *__asan_default_options(void)
{
    return "allocator_may_return_null=1";
}

static void expect(const char *what, bool holds)
{
    if (!holds) {
        fprintf(stderr, "%s\n", what);
        exit(1);
    }
}

int main(void)
{
    struct limekeel_memory block = limekeel_alloc(100, 8);
    expect("a block is given", block.given && (uintptr_t)block.at % 4 == 0);
    memset(block.at, 7, 100);
    struct limekeel_memory more = limekeel_realloc(block.at, 100, 100000, 8);
    expect("it grows, and its bytes stay", more.given && more.at[0] == 7 && more.at[99] == 7);
    struct limekeel_memory none = limekeel_realloc(more.at, 100000, TOO_MUCH, 8);
    expect("it is not grown to what there is not", !none.given && none.at != NULL);
    expect("and stays as it was", more.at[0] == 7 && more.at[99] == 7);
    limekeel_dealloc(more.at);
    none = limekeel_alloc(TOO_MUCH, 1);
    expect("nor is that given", !none.given && none.at != NULL);
    block = limekeel_alloc(0, 1);
    expect("a block of nothing is a block", block.given);
    limekeel_dealloc(block.at);
    struct limekeel_block refused = LIMEKEEL_BLOCK;
    uint8_t byte = 1;
    expect("a refused block is told", limekeel_block_new(&refused, &byte, TOO_MUCH) == LIMEKEEL_NO_MEMORY);
    expect("and owns nothing", limekeel_block_free(&refused) == LIMEKEEL_NOT_OPEN);
    puts("the heap gives and refuses");
    return 0;
}
