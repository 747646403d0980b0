/*
 * The memory of messages that are made in place. limekeel.h says what each call does, and has those that are quick.
 *
 * It is made of calls of the heap, and not itself proved. liblimekeel.a has this file too.
 */
#include "limekeel.h"

/* How large the second of some chunks is at least, and each at most that was not asked for larger: about as in the archive. With
 * what stands before its bytes the second takes 1 KiB, of which glibc keeps some at hand. */
#define SMALL (1024u - (uint32_t)sizeof(struct limekeel_chunk))
#define LARGE 16384u

/* Memory in which messages lie, one behind the other. */
struct limekeel_chunk {
    struct limekeel_chunk *next;
    size_t size;
    uint64_t end;    /* above the promise of the last message in it, if it is not the last chunk; 0: there is none */
    uint64_t before; /* how many bytes the chunks before it had since there was none */
    uint8_t bytes[];
};

_Static_assert(sizeof(struct limekeel_chunk) % 16 == 0, "the bytes of a chunk follow it");

static size_t at_most_large(size_t size)
{
    return size > LARGE ? LARGE : size;
}

/* A message alone takes what it asks for, and more that wait share. After some that waited together the first takes what they did
 * and an eighth, since as many are likely to come again, and one may be shorter than it asks for; but one that is more than half of
 * that is alone. */
static size_t next_size(const struct limekeel_rooms *rooms, size_t most)
{
    if (!rooms->last) {
        size_t burst = (size_t)rooms->end;
        size_t again = at_most_large(burst + burst / 8);
        return most > burst / 2 || most > again ? most : again;
    }
    size_t twice = 2 * rooms->last->size;
    size_t shared = twice < SMALL ? SMALL : at_most_large(twice);
    return most > shared ? most : shared;
}

/* How many bytes the chunks had since there was none. */
static size_t burst_of(const struct limekeel_rooms *rooms)
{
    return at_most_large((size_t)rooms->last->before + (rooms->last->size - rooms->left));
}

uint8_t *limekeel_reserve_chunk(struct limekeel_rooms *rooms, size_t most)
{
    size_t size = next_size(rooms, most);
    if (size > SIZE_MAX / 2)
        return NULL;
    size = (size + 15) / 16 * 16; /* a heap aligns by the size */
    struct limekeel_memory memory = limekeel_alloc(sizeof(struct limekeel_chunk) + size, 8);
    if (!memory.given)
        return NULL;
    struct limekeel_chunk *chunk = (struct limekeel_chunk *)(void *)memory.at;
    *chunk = (struct limekeel_chunk){.size = size};
    if (rooms->last) {
        chunk->before = burst_of(rooms);
        rooms->last->end = rooms->end;
        rooms->last->next = chunk;
    } else {
        rooms->first = chunk;
    }
    rooms->last = chunk;
    rooms->at = chunk->bytes;
    rooms->left = size;
    rooms->end = 0;
    return rooms->at;
}

static void let_go_of_first(struct limekeel_rooms *rooms)
{
    struct limekeel_chunk *first = rooms->first;
    if (first == rooms->last)
        *rooms = (struct limekeel_rooms){.end = burst_of(rooms)};
    else
        rooms->first = first->next;
    limekeel_dealloc((uint8_t *)first);
}

void limekeel_let_go(struct limekeel_rooms *rooms, uint64_t end)
{
    while (rooms->first && (rooms->first == rooms->last ? rooms->end : rooms->first->end) <= end)
        let_go_of_first(rooms);
}
