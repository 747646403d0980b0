/*
 * The three functions through which Limekeel allocates, over malloc. limekeel.h says what they are to do.
 *
 * They are weak, so that a program that defines all three has its own. liblimekeel.a has this file too.
 */
#include <stdlib.h>

#include "limekeel.h"

#define WEAK __attribute__((weak))

static uint8_t nowhere;

static struct limekeel_memory memory_at(void *at)
{
    struct limekeel_memory memory = {at != NULL, at != NULL ? (uint8_t *)at : &nowhere};
    return memory;
}

WEAK struct limekeel_memory limekeel_alloc(size_t size, size_t align)
{
    (void)align;
    return memory_at(malloc(size > 0 ? size : 1));
}

WEAK struct limekeel_memory limekeel_realloc(uint8_t *at, size_t kept, size_t size, size_t align)
{
    (void)kept;
    (void)align;
    return memory_at(realloc(at, size > 0 ? size : 1));
}

WEAK void limekeel_dealloc(uint8_t *at)
{
    free(at);
}
