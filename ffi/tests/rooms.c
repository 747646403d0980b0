/*
 * Messages that are made in place, beside copies: each byte comes in order, small ones lie together in memory, and memory goes
 * with the messages in it. The heap here counts what is live, and may refuse.
 */
#include <stdio.h>
#include <stdlib.h>
#include <string.h>

#include "limekeel.h"

#define MANY 600
#define LONGEST 40
#define MOST 16384 /* how large a chunk is at most that was not asked for larger */

static uint8_t nowhere;
static size_t live; /* blocks that were given and not freed */
static bool refuses;

struct limekeel_memory limekeel_alloc(size_t size, size_t align)
{
    (void)align;
    void *at = refuses ? NULL : malloc(size > 0 ? size : 1);
    struct limekeel_memory memory = {at != NULL, at ? at : &nowhere};
    live += at != NULL;
    return memory;
}

struct limekeel_memory limekeel_realloc(uint8_t *at, size_t kept, size_t size, size_t align)
{
    (void)kept;
    (void)align;
    void *moved = refuses ? NULL : realloc(at, size > 0 ? size : 1);
    struct limekeel_memory memory = {moved != NULL, moved ? moved : &nowhere};
    return memory;
}

void limekeel_dealloc(uint8_t *at)
{
    live--;
    free(at);
}

static void expect(const char *what, bool holds)
{
    if (!holds) {
        fprintf(stderr, "not so: %s\n", what);
        exit(1);
    }
}

static struct limekeel_connection connection = LIMEKEEL_CONNECTION;
static struct limekeel_rooms rooms = LIMEKEEL_ROOMS;

/* Message n, as text. */
static size_t text_of(size_t message, uint8_t *at, size_t most)
{
    int length = snprintf((char *)at, most, "message %zu%s", message, message % 3 == 0 ? " is long" : "");
    expect("it has room", length > 0 && (size_t)length < most);
    return (size_t)length;
}

static size_t made(size_t message, size_t most)
{
    uint8_t *room = limekeel_reserve(&rooms, most);
    expect("there is room", room != NULL);
    size_t length = text_of(message, room, most);
    expect("it is written", limekeel_write_reserved(&rooms, &connection, length).id == message);
    return length;
}

/* Made and copied in turn, and taken away a few at a time. */
static void come_in_order(void)
{
    static uint8_t wanted[MANY * LONGEST], came[MANY * LONGEST];
    size_t total = 0, taken = 0;
    for (size_t message = 0; message < MANY; message++) {
        size_t length = text_of(message, wanted + total, LONGEST);
        if (message % 7 == 0)
            expect("a copy", limekeel_write(&connection, wanted + total, length).id == message);
        else
            expect("as long as it should be", made(message, LONGEST) == length);
        total += length;
    }
    expect("flush", limekeel_flush(&connection).count == MANY);
    for (size_t step = 1; taken < total; step = step % 90 + 7) {
        struct limekeel_piece pieces[8];
        struct limekeel_gathered front = limekeel_gather(&connection, pieces, 8, UINT32_MAX);
        size_t left = step;
        for (size_t at = 0; at < front.count && left > 0; at++) {
            size_t part = pieces[at].length < left ? pieces[at].length : left;
            memcpy(came + taken, pieces[at].at, part);
            taken += part;
            left -= part;
        }
        struct limekeel_taken gone = limekeel_take_sent(&connection, step - left);
        expect("take_sent", gone.status == LIMEKEEL_OK);
        limekeel_let_go(&rooms, gone.to);
    }
    expect("as it was made", memcmp(came, wanted, total) == 0);
    expect("nothing is kept", rooms.first == NULL && rooms.last == NULL);
}

/* Many, from this promise on, in so many pieces at most. */
static void lie_together(size_t first, size_t most)
{
    struct limekeel_piece pieces[MANY];
    size_t parts = 1;
    for (size_t message = first; message < first + MANY; message++)
        made(message, LONGEST);
    expect("flush", limekeel_flush(&connection).count == MANY);
    expect("gather", limekeel_gather(&connection, pieces, MANY, UINT32_MAX).count == MANY);
    for (size_t at = 1; at < MANY; at++)
        parts += pieces[at].at != pieces[at - 1].at + pieces[at - 1].length;
    expect("in few pieces", parts <= most);
    struct limekeel_taken gone = limekeel_fail_flushed(&connection, 1, true);
    limekeel_let_go(&rooms, gone.to - 1);
    expect("the last keeps its chunk alone", rooms.first != NULL && rooms.first == rooms.last);
    limekeel_let_go(&rooms, gone.to);
    expect("and lets it go", rooms.first == NULL);
}

/* As many, each gone before the next is made: it takes what it asks for. */
static void come_one_by_one(size_t first)
{
    for (size_t message = first; message < first + MANY; message++) {
        made(message, LONGEST);
        if (message > first)
            expect("no more than that is taken", rooms.left < LONGEST);
        expect("flush", limekeel_flush(&connection).count == 1);
        limekeel_let_go(&rooms, limekeel_fail_flushed(&connection, 1, true).to);
        expect("it is gone", rooms.first == NULL);
    }
}

/* Four, each gone before the next is made, that fill what they asked for: these are no burst. Returns the next promise. */
static size_t come_full(size_t first)
{
    enum { LONG = 1008 };
    for (size_t message = first; message < first + 4; message++) {
        uint8_t *room = limekeel_reserve(&rooms, LONG);
        expect("there is room", room != NULL);
        if (message > first)
            expect("and no more", limekeel_left(&rooms) == LONG);
        memset(room, 'x', LONG);
        expect("it is written", limekeel_write_reserved(&rooms, &connection, LONG).id == message);
        expect("flush", limekeel_flush(&connection).count == 1);
        limekeel_let_go(&rooms, limekeel_take_sent(&connection, LONG).to);
        expect("it is gone", rooms.first == NULL);
    }
    return first + 4;
}

/* Several answers as one message, up to the last byte that there is room for. Returns the next promise. */
static size_t one_of_several(size_t first)
{
    static uint8_t wanted[MOST];
    expect("nothing is left in none", limekeel_left(&rooms) == 0);
    uint8_t *room = limekeel_reserve(&rooms, 4 * LONGEST);
    size_t left = limekeel_left(&rooms), filled = 0;
    expect("as many as were reserved", room != NULL && left >= 4 * LONGEST && left <= sizeof wanted);
    while (left - filled > 2 * LONGEST)
        filled += text_of(filled, room + filled, LONGEST);
    memset(room + filled, 'x', left - filled);
    memcpy(wanted, room, left);
    expect("it is written", limekeel_write_reserved(&rooms, &connection, left).id == first);
    expect("nothing is left of it", limekeel_left(&rooms) == 0);
    made(first + 1, LONGEST);
    expect("flush", limekeel_flush(&connection).count == 2);
    struct limekeel_piece pieces[2];
    expect("two messages", limekeel_gather(&connection, pieces, 2, UINT32_MAX).count == 2);
    expect("as it was made", pieces[0].length == left && memcmp(pieces[0].at, wanted, left) == 0);
    struct limekeel_taken gone = limekeel_take_sent(&connection, left);
    expect("one promise", gone.count == 1 && gone.to == first + 1);
    limekeel_let_go(&rooms, gone.to);
    expect("the other stays", rooms.first != NULL && rooms.first == rooms.last);
    limekeel_let_go(&rooms, limekeel_fail_flushed(&connection, 1, true).to);
    expect("and goes", rooms.first == NULL);
    return first + 2;
}

/* A write that is refused memory, behind others in the chunk: they stay, and it can be made again. Returns the next promise. */
static size_t a_refused_write(size_t first)
{
    size_t message = first;
    struct limekeel_written told = {0};
    expect("there is room", limekeel_reserve(&rooms, 100 * LONGEST) != NULL);
    refuses = true;
    while (told.status == LIMEKEEL_OK && message < first + 100) {
        size_t length = text_of(message, limekeel_reserve(&rooms, LONGEST), LONGEST);
        told = limekeel_write_reserved(&rooms, &connection, length);
        message += told.status == LIMEKEEL_OK;
    }
    refuses = false;
    expect("memory is refused once some wait", told.status == LIMEKEEL_NO_MEMORY && message > first);
    limekeel_let_go(&rooms, first);
    made(message++, LONGEST);
    expect("flush", limekeel_flush(&connection).count == message - first);
    struct limekeel_piece pieces[100];
    size_t count = limekeel_gather(&connection, pieces, 100, UINT32_MAX).count;
    expect("all wait", count == message - first);
    for (size_t at = 0; at < count; at++) {
        uint8_t wanted[LONGEST];
        size_t length = text_of(first + at, wanted, LONGEST);
        expect("as they were made", pieces[at].length == length && memcmp(pieces[at].at, wanted, length) == 0);
    }
    limekeel_let_go(&rooms, limekeel_fail_flushed(&connection, 1, true).to);
    expect("with what they lay in", rooms.first == NULL);
    return message;
}

static void refusals(size_t first)
{
    refuses = true;
    expect("memory is refused", limekeel_reserve(&rooms, 10) == NULL);
    refuses = false;
    expect("so is more than there is", limekeel_reserve(&rooms, SIZE_MAX) == NULL && limekeel_reserve(&rooms, SIZE_MAX - 9) == NULL);
    made(first, LONGEST);
    refuses = true;
    size_t more = limekeel_left(&rooms) + 500;
    expect("and the next chunk", limekeel_reserve(&rooms, more) == NULL);
    refuses = false;
    /* what is reserved and not written comes to nothing */
    uint8_t *room = limekeel_reserve(&rooms, more);
    expect("there is room", room != NULL);
    memset(room, 'x', more);
    expect("the same again", limekeel_reserve(&rooms, more) == room);
    expect("no byte", limekeel_write_reserved(&rooms, &connection, 0).id == first + 1);
    expect("flush", limekeel_flush(&connection).count == 2);
    struct limekeel_taken gone = limekeel_give_up(&connection, 1);
    expect("both are gone", gone.to == first + 2);
    limekeel_let_go(&rooms, gone.to);
    expect("with what they lay in", rooms.first == NULL);
    expect("there is room", limekeel_reserve(&rooms, 5) != NULL);
    expect("a closed one refuses", limekeel_write_reserved(&rooms, &connection, 5).status == LIMEKEEL_CLOSED);
    expect("free", limekeel_free(&connection) == LIMEKEEL_OK);
    limekeel_let_go(&rooms, UINT64_MAX);
    expect("nothing is live", live == 0 && rooms.first == NULL);
}

/* What two messages of these texts are, taken away by their bytes. */
static void came(struct limekeel_piece *pieces, uint32_t count, const char *first, const char *second)
{
    expect("two messages", count == 2);
    expect("as the first was made", pieces[0].length == strlen(first) && memcmp(pieces[0].at, first, pieces[0].length) == 0);
    expect("as the second was made", pieces[1].length == strlen(second) && memcmp(pieces[1].at, second, pieces[1].length) == 0);
}

static size_t made_of(struct limekeel_rooms *of, const char *text)
{
    uint8_t *room = limekeel_reserve(of, strlen(text));
    expect("there is room", room != NULL);
    memcpy(room, text, strlen(text));
    return strlen(text);
}

static void of_a_managed_one(void)
{
    struct limekeel_managed managed = LIMEKEEL_MANAGED;
    struct limekeel_rooms own = LIMEKEEL_ROOMS;
    struct limekeel_limits limits = {.most_pending = 250, .window = 10, .least_bytes = 1};
    struct limekeel_piece pieces[2] = {{NULL, 0}, {NULL, 0}};
    expect("open", limekeel_managed_open(&managed, 32768, 65536, 96, 8, limits, 0) == LIMEKEEL_OK);
    expect("first", limekeel_managed_write_reserved(&own, &managed, made_of(&own, "one")).id == 0);
    expect("second", limekeel_managed_write_reserved(&own, &managed, made_of(&own, "and two")).id == 1);
    expect("above its limit", limekeel_managed_write_reserved(&own, &managed, made_of(&own, "three")).status != LIMEKEEL_OK);
    expect("flush", limekeel_managed_flush(&managed).flushed.count == 2);
    came(pieces, (uint32_t)limekeel_managed_gather(&managed, pieces, 2, UINT32_MAX).count, "one", "and two");
    limekeel_let_go(&own, limekeel_managed_take_sent(&managed, 10).taken.to);
    expect("nothing is kept", own.first == NULL);
    expect("free", limekeel_managed_free(&managed) == LIMEKEEL_OK);
}

static void of_one_within_a_budget(void)
{
    struct limekeel_budget budget = LIMEKEEL_BUDGET;
    struct limekeel_budgeted budgeted = LIMEKEEL_BUDGETED;
    struct limekeel_rooms own = LIMEKEEL_ROOMS;
    struct limekeel_piece pieces[2] = {{NULL, 0}, {NULL, 0}};
    expect("a budget", limekeel_budget_open(&budget, 300, 100, 150, 0) == LIMEKEEL_OK);
    expect("open", limekeel_open_within(&budgeted, 32768, 65536, 96, 8, &budget) == LIMEKEEL_OK);
    struct limekeel_pressed_written told = limekeel_budgeted_write_reserved(&own, &budgeted, made_of(&own, "one"));
    expect("first", told.id == 0 && told.pressure == LIMEKEEL_PRESSURE_UNCHANGED);
    told = limekeel_budgeted_write_reserved(&own, &budgeted, made_of(&own, "and two"));
    expect("second", told.id == 1 && told.pressure == LIMEKEEL_PRESSURE_BEGAN);
    told = limekeel_budgeted_write_reserved(&own, &budgeted, made_of(&own, "three"));
    expect("over the budget", told.status == LIMEKEEL_OVER_BUDGET);
    expect("flush", limekeel_budgeted_flush(&budgeted).count == 2);
    came(pieces, (uint32_t)limekeel_budgeted_gather(&budgeted, pieces, 2, UINT32_MAX).count, "one", "and two");
    struct limekeel_pressed_taken gone = limekeel_budgeted_take_sent(&budgeted, 10);
    expect("pressure ends", gone.pressure == LIMEKEEL_PRESSURE_ENDED);
    limekeel_let_go(&own, gone.taken.to);
    expect("nothing is kept", own.first == NULL);
    expect("free", limekeel_budgeted_free(&budgeted).status == LIMEKEEL_OK && limekeel_budget_free(&budget) == LIMEKEEL_OK);
}

int main(void)
{
    expect("open", limekeel_open(&connection, 32768, 65536, 96, 8) == LIMEKEEL_OK);
    come_in_order();
    /* 10 KB, in a chunk for what came before and in another */
    lie_together(MANY, 2);
    come_one_by_one(2 * MANY);
    /* in what one asks for and in chunks of 1, 2, 4 and 8 KiB; and in one for as many again */
    lie_together(3 * MANY, 5);
    lie_together(4 * MANY, 1);
    refusals(a_refused_write(one_of_several(come_full(5 * MANY))));
    of_a_managed_one();
    of_one_within_a_budget();
    expect("nothing is live", live == 0);
    puts("what is made in place comes in order, and goes");
    return 0;
}
