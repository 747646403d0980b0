/*
 * Random calls over several connections and blocks, beside the model: each member of each answer, each look after each call,
 * and the bytes behind each piece. The heap refuses by chance, and in a call that is not to allocate it refuses always. Numbers
 * are those round the limits.
 *
 *     fuzz SECONDS [SEED [CASES]]    by chance, from a seed that is told; with at least so many cases each answer has to come
 *     fuzz FILE..                    the choices of these files, as AFL or libFuzzer find them
 *
 * With -DLIBFUZZER and clang's -fsanitize=fuzzer it has no main. At a difference it says which call, and aborts.
 */
#define _DEFAULT_SOURCE
#include "model.h"

#include <inttypes.h>
#include <stdio.h>
#include <stdlib.h>
#include <string.h>
#include <sys/mman.h>
#include <time.h>

#define CONNECTIONS 3
#define BLOCKS 3
#define CALLS 300 /* the most of one case */
#define LARGE (48u << 20)
#define SPACE (1ull << 32) /* memory that can be read and costs nothing: a write of more than may be is refused before it reads */

/* What a case chooses by: a file's bytes, or if there is none a seed. */
static const uint8_t *input;
static size_t input_left;
static uint64_t seed;
static const uint8_t *space;

static uint8_t chosen_byte(void)
{
    if (input) {
        input_left -= input_left > 0;
        return input_left > 0 ? *input++ : 0;
    }
    seed ^= seed << 13;
    seed ^= seed >> 7;
    seed ^= seed << 17;
    return (uint8_t)(seed >> 32);
}

static uint32_t below(uint32_t limit)
{
    uint32_t number = chosen_byte();
    if (limit > 256)
        number = number << 8 | chosen_byte();
    return number % limit;
}

static bool chance(uint32_t of)
{
    return below(of) == 0;
}

/* The heap. */
static bool refuses_all, refused;
static uint32_t refuses_one_of;
static uint64_t allocated;
static uint8_t nowhere;

static struct limekeel_memory memory_at(void *at)
{
    struct limekeel_memory memory = {at != NULL, at ? at : &nowhere};
    allocated += at != NULL;
    return memory;
}

static bool may(void)
{
    bool no = refuses_all || (refuses_one_of > 0 && chance(refuses_one_of));
    refused = refused || no;
    return !no;
}

struct limekeel_memory limekeel_alloc(size_t size, size_t align)
{
    (void)align;
    return memory_at(may() ? malloc(size > 0 ? size : 1) : NULL);
}

struct limekeel_memory limekeel_realloc(uint8_t *at, size_t kept, size_t size, size_t align)
{
    (void)kept;
    (void)align;
    return memory_at(may() ? realloc(at, size > 0 ? size : 1) : NULL);
}

void limekeel_dealloc(uint8_t *at)
{
    free(at);
}

/* What was seen, so that a run shows what it tried. */
static uint64_t calls_made, cases_made, statuses[32], fronts[8], changes[4], kinds[4], states[8];

static const char *call_now;

static void differs(const char *what, uint64_t told, uint64_t wanted)
{
    fprintf(stderr, "case %" PRIu64 ", call %" PRIu64 ", %s: %s is %" PRIu64 " and should be %" PRIu64 "\n", cases_made, calls_made,
            call_now, what, told, wanted);
    abort();
}

static void same(const char *what, uint64_t told, uint64_t wanted)
{
    if (told != wanted)
        differs(what, told, wanted);
}

#define SAME(member) same(#member, told.member, wanted.member)

static void same_status(uint32_t told, uint32_t wanted)
{
    same("status", told, wanted);
    statuses[told % 32]++;
}

static void same_change(uint32_t told, uint32_t wanted)
{
    same("change", told, wanted);
    changes[told % 4]++;
}

/* A connection or a block with what it is to be. A block's bytes are the archive's own, where it says that they lie. */
struct side {
    struct limekeel_connection connection;
    struct limekeel_rooms rooms; /* what is made in place, let go as rows go */
    struct model model;
};

struct bytes {
    struct limekeel_block block;
    bool open;
    struct limekeel_piece piece;
};

static struct side sides[CONNECTIONS];
static struct bytes blocks[BLOCKS];

/* Whether this case has blocks of which 90 are more than may be pending. */
static bool is_large;

/* Before a call that may allocate, and one that may not. */
static void allocating(const char *name)
{
    call_now = name;
    calls_made++;
    refused = false;
}

static void frugal(const char *name)
{
    allocating(name);
    refuses_all = true;
}

static uint64_t number(void)
{
    static const uint64_t hard[] = {0,         1,          2,          95,         96,         97,           2147483551, 2147483647,
                                    2147483648, 4294967199, 4294967295, 4294967296, INT64_MAX, 1ull << 63, UINT64_MAX};
    return chance(3) ? hard[below(sizeof hard / sizeof *hard)] : below(700);
}

static uint32_t mark(void)
{
    return chance(8) ? (uint32_t)number() : below(2000);
}

static uint32_t estimate(void)
{
    static const uint32_t some[] = {0, 0, 1, 8, 96, 96, 300, 65535, 65536, UINT32_MAX};
    return some[below(chance(6) ? 10 : 8)];
}

static void taken(struct limekeel_taken told, struct limekeel_taken wanted)
{
    refuses_all = false;
    same_status(told.status, wanted.status);
    same_change(told.change, wanted.change);
    SAME(outcome);
    SAME(cause);
    SAME(count);
    SAME(from);
    SAME(to);
}

static void written(struct side *side, struct limekeel_written told, struct row row)
{
    struct limekeel_written wanted = model_write(&side->model, row, refused);
    same_status(told.status, wanted.status);
    same_change(told.change, wanted.change);
    SAME(id);
}

static void removed(struct side *side, struct limekeel_removed told, uint32_t outcome, uint32_t cause)
{
    refuses_all = false;
    struct limekeel_removed wanted = model_remove(&side->model, outcome, cause);
    same_status(told.status, wanted.status);
    same_change(told.change, wanted.change);
    SAME(any);
    SAME(settled);
    SAME(outcome);
    SAME(cause);
    SAME(id);
}

static void opens(struct side *side)
{
    uint32_t settings[4] = {mark(), mark(), estimate(), estimate()};
    if (settings[0] > settings[1] && !chance(4)) {
        uint32_t low = settings[0];
        settings[0] = settings[1];
        settings[1] = low;
    }
    bool other = chance(40);
    allocating("open");
    uint32_t told = limekeel_open_for(&side->connection, LIMEKEEL_EDGE + other, settings[0], settings[1], settings[2], settings[3]);
    same_status(told, model_open(&side->model, settings, other, refused));
}

static void frees(struct side *side)
{
    frugal("free");
    uint32_t told = limekeel_free(&side->connection);
    refuses_all = false;
    same_status(told, model_free(&side->model));
    limekeel_let_go(&side->rooms, UINT64_MAX);
}

/* Writes these bytes in parts, which are cut anywhere. */
static struct limekeel_written in_parts(struct side *side, const uint8_t *bytes, size_t length)
{
    struct limekeel_piece parts[40];
    size_t count = below(40) + 1, from = 0;
    for (size_t at = 0; at < count; at++) {
        size_t left = length - from, part = at + 1 == count ? left : below(left / 2 + 1);
        parts[at] = (struct limekeel_piece){bytes + from, part};
        from += part;
    }
    return limekeel_write_parts(&side->connection, parts, count);
}

/* Writes bytes that are made in place, in room for them and some more. */
static void makes_bytes(struct side *side, struct row row)
{
    allocating("reserve");
    size_t most = row.number + below(60);
    uint8_t *room = limekeel_reserve(&side->rooms, most);
    if (!room) {
        same("a refused reservation", refused, true);
        free((void *)(uintptr_t)row.bytes);
        return;
    }
    same("as many as were reserved", limekeel_left(&side->rooms) >= most, true);
    memcpy(room, row.bytes, row.number);
    allocating("write_reserved");
    written(side, limekeel_write_reserved(&side->rooms, &side->connection, row.number), row);
}

/* Bytes of one's own, copied, lent or made in place, or so many that they are refused before one is read. */
static void writes_bytes(struct side *side)
{
    static uint8_t bytes[4096];
    struct row row = {.kind = LIMEKEEL_CURRENT_BLOCK, .number = chance(4) ? number() : below(400)};
    if (row.number > sizeof bytes && (row.number > SPACE || model_refusal(&side->model, &row) == LIMEKEEL_OK))
        row.number = below(sizeof bytes);
    uint8_t first = chosen_byte();
    if (row.number <= sizeof bytes) {
        uint8_t *copy = malloc(row.number + 1);
        for (size_t at = 0; at < row.number; at++)
            bytes[at] = copy[at] = (uint8_t)(first + at * 7);
        row.bytes = copy;
        row.is_own = true;
    }
    if (row.is_own && chance(4)) {
        makes_bytes(side, row);
        return;
    }
    bool none = row.number == 0 && chance(2), lends = chance(4);
    allocating(lends ? "write_lent" : "write");
    const uint8_t *from = none ? NULL : row.is_own ? bytes : space;
    /* what is lent is the model's own, which frees it as its row goes */
    struct limekeel_written told = lends ? limekeel_write_lent(&side->connection, row.is_own && !none ? row.bytes : from, row.number)
                                   : from && chance(3) ? in_parts(side, from, row.number)
                                                       : limekeel_write(&side->connection, from, row.number);
    /* what was handed in is the caller's again */
    memset(bytes, 0xee, row.is_own ? row.number : 0);
    written(side, told, row);
}

static void writes_this_block(struct side *side, struct bytes *block)
{
    struct row row = {.kind = LIMEKEEL_CURRENT_BLOCK, .number = block->piece.length, .bytes = block->piece.at};
    allocating("write_block");
    struct limekeel_written told = limekeel_write_block(&side->connection, &block->block);
    if (side->model.open && !block->open) {
        same_status(told.status, LIMEKEEL_NO_BLOCK);
        same("change and id", told.change + told.id, 0);
        return;
    }
    written(side, told, row);
}

static void writes_block(struct side *side)
{
    struct bytes *block = &blocks[below(BLOCKS)];
    for (int at = is_large && chance(8) ? 95 : 1; at > 0; at--)
        writes_this_block(side, block);
}

static void writes_number(struct side *side, bool region)
{
    struct row row = {.kind = region ? LIMEKEEL_CURRENT_REGION : LIMEKEEL_CURRENT_OTHER, .number = number()};
    if (!region)
        row.number &= UINT32_MAX;
    allocating(region ? "write_region" : "write_other");
    written(side,
            region ? limekeel_write_region(&side->connection, row.number)
                   : limekeel_write_other(&side->connection, (uint32_t)row.number),
            row);
}

static void flushes(struct side *side)
{
    frugal("flush");
    struct limekeel_flushed told = limekeel_flush(&side->connection);
    refuses_all = false;
    struct limekeel_flushed wanted = model_flush(&side->model);
    same_status(told.status, wanted.status);
    same_change(told.change, wanted.change);
    SAME(count);
}

static void removes(struct side *side)
{
    uint32_t cause = (uint32_t)number();
    if (chance(2)) {
        frugal("remove");
        removed(side, limekeel_remove(&side->connection), LIMEKEEL_SUCCESS, 0);
    } else {
        frugal("remove_with");
        removed(side, limekeel_remove_with(&side->connection, cause), LIMEKEEL_FAILED, cause);
    }
}

static void takes_away(struct side *side)
{
    uint64_t n = chance(3) ? number() : below(1500);
    frugal("take_sent");
    taken(limekeel_take_sent(&side->connection, n), model_take_sent(&side->model, n));
}

static void progresses(struct side *side)
{
    uint64_t n = number();
    frugal("progress");
    uint32_t told = limekeel_progress(&side->connection, n);
    refuses_all = false;
    same_status(told, model_progress(&side->model, n));
}

/* A promise that may be any, round those that wait. */
static uint64_t some_id(const struct side *side)
{
    return chance(5) ? number() : side->model.gone + below((uint32_t)side->model.count + 3) - below(2);
}

static void cancels(struct side *side)
{
    uint64_t id = some_id(side);
    frugal("cancel");
    struct limekeel_cancelled told = limekeel_cancel(&side->connection, id);
    refuses_all = false;
    struct limekeel_cancelled wanted = model_cancel(&side->model, id);
    same_status(told.status, wanted.status);
    SAME(in_time);
}

static void ends(struct side *side)
{
    uint32_t cause = (uint32_t)number();
    bool notify = chance(2);
    switch (below(6)) {
    case 0:
        frugal("close");
        taken(limekeel_close(&side->connection, cause), model_close(&side->model, cause));
        break;
    case 1:
        frugal("give_up");
        taken(limekeel_give_up(&side->connection, cause), model_give_up(&side->model, cause));
        break;
    default:
        frugal("fail_flushed");
        taken(limekeel_fail_flushed(&side->connection, cause, notify), model_fail_flushed(&side->model, cause, notify));
    }
}

static void turns(struct side *side)
{
    uint32_t index = chance(6) ? (uint32_t)number() : below(33);
    bool writable = chance(2);
    frugal("user_bit");
    struct limekeel_changed told = limekeel_user_bit(&side->connection, index, writable);
    refuses_all = false;
    struct limekeel_changed wanted = model_user_bit(&side->model, index, writable);
    same_status(told.status, wanted.status);
    same_change(told.change, wanted.change);
}

static void sets_marks(struct side *side)
{
    uint32_t one = mark(), other = mark();
    uint32_t low = one < other || chance(6) ? one : other, high = one < other || low == one ? other : one;
    frugal("set_marks");
    uint32_t told = limekeel_set_marks(&side->connection, low, high);
    refuses_all = false;
    same_status(told, model_set_marks(&side->model, low, high));
}

/* The struct may be moved, and the memory given back: a refusal of that is no fault. */
static void shrinks(struct side *side)
{
    struct limekeel_connection moved = side->connection;
    struct limekeel_connection none = LIMEKEEL_CONNECTION;
    side->connection = none;
    allocating("shrink_to_fit");
    same_status(limekeel_shrink_to_fit(&moved), side->model.open ? LIMEKEEL_OK : LIMEKEEL_NOT_OPEN);
    side->connection = moved;
}

static void same_bytes(const struct bytes *block)
{
    struct limekeel_piece told = {&nowhere, 7}, wanted = block->open ? block->piece : told;
    same_status(limekeel_block_piece(&block->block, &told), block->open ? LIMEKEEL_OK : LIMEKEEL_NOT_OPEN);
    same("where a block lies", (uintptr_t)told.at, (uintptr_t)wanted.at);
    SAME(length);
}

/* A block that was filled, or not: what its bytes are, and from then on where they lie. */
static void filled(struct bytes *block, uint32_t told, const uint8_t *bytes, size_t length)
{
    same_status(told, block->open ? LIMEKEEL_ALREADY_OPEN : refused ? LIMEKEEL_NO_MEMORY : LIMEKEEL_OK);
    if (told != LIMEKEEL_OK)
        return;
    block->open = true;
    same("piece", limekeel_block_piece(&block->block, &block->piece), LIMEKEEL_OK);
    same("length", block->piece.length, length);
    same("bytes", (uint64_t)memcmp(block->piece.at, bytes, length), 0);
}

static void makes_a_block(struct bytes *block)
{
    static uint8_t bytes[LARGE];
    size_t length = is_large && chance(2) ? LARGE : below(900);
    uint8_t first = chosen_byte();
    memset(bytes, first, length < 1000 ? length : 1000);
    allocating("block_new");
    filled(block, limekeel_block_new(&block->block, length > 0 ? bytes : NULL, length), bytes, length);
}

static void shares_a_block(struct bytes *block)
{
    struct bytes *second = block == &blocks[0] ? &blocks[1] : &blocks[0];
    allocating("block_share");
    uint32_t told = limekeel_block_share(&block->block, &second->block);
    if (block->open)
        filled(second, told, block->piece.at, block->piece.length);
    else
        same_status(told, LIMEKEEL_NOT_OPEN);
    if (block->open && second->open && told == LIMEKEEL_OK)
        same("the same bytes", (uintptr_t)second->piece.at, (uintptr_t)block->piece.at);
}

static void works_on_a_block(void)
{
    struct bytes *block = &blocks[below(BLOCKS)], none = {.block = LIMEKEEL_BLOCK};
    uint32_t told;
    switch (below(4)) {
    case 0:
    case 1:
        makes_a_block(block);
        break;
    case 2:
        shares_a_block(block);
        break;
    default:
        frugal("block_free");
        told = limekeel_block_free(&block->block);
        refuses_all = false;
        same_status(told, block->open ? LIMEKEEL_OK : LIMEKEEL_NOT_OPEN);
        *block = none;
    }
    same_bytes(block);
}

static void looks_at_pieces(const struct side *side)
{
    struct limekeel_piece pieces[80], places[80];
    size_t length = chance(3) ? below(80) : 80;
    uint32_t max_bytes = chance(2) ? UINT32_MAX : (uint32_t)number();
    memset(pieces, 0x5a, sizeof pieces);
    struct limekeel_gathered told = limekeel_gather(&side->connection, length > 0 ? pieces : NULL, length, max_bytes);
    struct limekeel_gathered wanted = model_gather(&side->model, places, length, max_bytes);
    same_status(told.status, wanted.status);
    SAME(front);
    SAME(count);
    fronts[told.front % 8]++;
    for (size_t at = 0; at < told.count; at++) {
        same("a piece's length", pieces[at].length, places[at].length);
        if (pieces[at].at != places[at].at)
            same("a piece's bytes", (uint64_t)memcmp(pieces[at].at, places[at].at, pieces[at].length), 0);
    }
    for (size_t at = told.count; at < 80; at++)
        same("a piece that was not filled", (uintptr_t)pieces[at].at & 0xff, 0x5a);
}

static void looks_at_a_promise(const struct side *side)
{
    uint64_t id = some_id(side);
    struct limekeel_promise_told told = limekeel_promise(&side->connection, id), wanted = model_promise(&side->model, id);
    same_status(told.status, wanted.status);
    SAME(state);
    SAME(outcome);
    SAME(cause);
    states[told.state % 8]++;
}

static void looks_at_the_front(const struct side *side)
{
    struct limekeel_front_told told = limekeel_front(&side->connection), wanted = model_front(&side->model);
    same_status(told.status, wanted.status);
    SAME(any);
    SAME(id);
    struct limekeel_current_told current = limekeel_current(&side->connection), left = model_current(&side->model);
    same_status(current.status, left.status);
    same("kind", current.kind, left.kind);
    same("number", current.number, left.number);
    kinds[current.kind % 4]++;
}

static void looks_at_counts(const struct side *side)
{
    const struct model *model = &side->model;
    uint64_t unflushed = 0;
    for (size_t at = 0; at < model->count; at++)
        unflushed += !model->rows[at].flushed;
    struct limekeel_counts_told counts = limekeel_counts(&side->connection);
    same_status(counts.status, model->open ? LIMEKEEL_OK : LIMEKEEL_NOT_OPEN);
    same("unflushed", counts.unflushed, model->open ? unflushed : 0);
    same("waiting", counts.waiting, model->open ? model->count : 0);
    struct limekeel_settings_told settings = limekeel_settings(&side->connection);
    same_status(settings.status, counts.status);
    same("low", settings.low, model->open ? model->low : 0);
    same("high", settings.high, model->open ? model->high : 0);
    same("overhead", settings.overhead, model->open ? model->overhead : 0);
    same("unknown", settings.unknown, model->open ? model->unknown : 0);
}

static void truth(const char *what, struct limekeel_truth told, const struct model *model, bool holds)
{
    same_status(told.status, model->open ? LIMEKEEL_OK : LIMEKEEL_NOT_OPEN);
    same(what, told.holds, model->open && holds);
}

/* All looks, with no memory to be had. */
static void looks(const struct side *side)
{
    refuses_all = true;
    const struct model *model = &side->model;
    struct limekeel_look_told told = limekeel_look(&side->connection), wanted = model_look(model);
    same_status(told.status, wanted.status);
    SAME(total);
    SAME(word);
    SAME(before_unwritable);
    SAME(before_writable);
    SAME(size);
    SAME(current_progress);
    truth("is_writable", limekeel_is_writable(&side->connection), model, model->word == 0);
    truth("is_closed", limekeel_is_closed(&side->connection), model, model->closed);
    truth("is_empty", limekeel_is_empty(&side->connection), model, wanted.size == 0);
    looks_at_counts(side);
    looks_at_the_front(side);
    looks_at_a_promise(side);
    looks_at_pieces(side);
    refuses_all = false;
}

static void one_call(void)
{
    struct side *side = &sides[below(CONNECTIONS)];
    if (!side->model.open && !chance(4))
        opens(side);
    static void (*const calls[])(struct side *) = {writes_bytes, writes_bytes, writes_bytes, writes_block, writes_block, flushes,
                                                   flushes,      removes,      takes_away,   takes_away,   takes_away,   progresses,
                                                   cancels,      cancels,      turns,        sets_marks};
    uint32_t which = below(96);
    if (which < 80)
        calls[which % 16](side);
    else if (which < 83)
        writes_number(side, true);
    else if (which < 86)
        writes_number(side, false);
    else if (which < 88)
        ends(side);
    else if (which < 89)
        frees(side);
    else if (which < 91)
        shrinks(side);
    else if (which < 93)
        opens(side);
    else
        works_on_a_block();
    if (side->model.open)
        limekeel_let_go(&side->rooms, side->model.gone);
    looks(side);
}

/* From nothing to nothing. */
static void one_case(void)
{
    cases_made++;
    static const uint32_t often[] = {0, 0, 40, 5};
    refuses_one_of = often[below(4)];
    is_large = chance(40);
    for (size_t at = 0; at < CONNECTIONS; at++)
        opens(&sides[at]);
    uint32_t count = below(CALLS);
    for (uint32_t at = 0; at < count && (!input || input_left > 0); at++)
        one_call();
    for (size_t at = 0; at < CONNECTIONS; at++)
        frees(&sides[at]);
    for (size_t at = 0; at < BLOCKS; at++) {
        struct bytes none = {.block = LIMEKEEL_BLOCK};
        same("freed", limekeel_block_free(&blocks[at].block), blocks[at].open ? LIMEKEEL_OK : LIMEKEEL_NOT_OPEN);
        blocks[at] = none;
    }
}

static void begin(void)
{
    if (space)
        return;
    void *at = mmap(NULL, SPACE, PROT_READ, MAP_PRIVATE | MAP_ANONYMOUS | MAP_NORESERVE, -1, 0);
    if (at == MAP_FAILED)
        abort();
    space = at;
}

int LLVMFuzzerTestOneInput(const uint8_t *data, size_t size);

int LLVMFuzzerTestOneInput(const uint8_t *data, size_t size)
{
    begin();
    input = data;
    input_left = size;
    one_case();
    return 0;
}

#ifndef LIBFUZZER
static void told(const char *what, const uint64_t *counts, size_t length, const char *(*name)(uint32_t))
{
    printf("%s:", what);
    for (size_t at = 0; at < length; at++)
        if (counts[at] > 0 && name)
            printf("\n  %" PRIu64 " %s", counts[at], name((uint32_t)at));
        else if (counts[at] > 0)
            printf(" %zu: %" PRIu64, at, counts[at]);
    puts("");
}

/* Whether each of the first `length` came at least once; of the statuses 11 is none. */
static bool all_came(const uint64_t *counts, size_t length)
{
    for (size_t at = 0; at < length; at++)
        if (counts[at] == 0 && !(counts == statuses && at == 11))
            return false;
    return true;
}

static int by_chance(double seconds, uint64_t from, uint64_t least)
{
    struct timespec start, now;
    clock_gettime(CLOCK_MONOTONIC, &start);
    printf("seed %" PRIu64 "\n", from);
    fflush(stdout);
    do {
        seed = from++ * 0x9e3779b97f4a7c15ull | 1;
        one_case();
        clock_gettime(CLOCK_MONOTONIC, &now);
    } while (cases_made < least ||
             (double)(now.tv_sec - start.tv_sec) + (double)(now.tv_nsec - start.tv_nsec) / 1e9 < seconds);
    told("statuses", statuses, 32, limekeel_strstatus);
    told("changes", changes, 4, NULL);
    told("fronts", fronts, 8, NULL);
    told("kinds", kinds, 4, NULL);
    told("states", states, 8, NULL);
    bool came = all_came(statuses, LIMEKEEL_OTHER_VERSION + 1) && all_came(changes, 3) && all_came(fronts, 5) &&
                all_came(kinds, 4) && all_came(states, 5);
    printf("%" PRIu64 " cases, %" PRIu64 " calls, %" PRIu64 " growths, no difference%s\n", cases_made, calls_made, allocated,
           came ? "" : "; but not every answer came");
    return came || least == 0 ? 0 : 1;
}

int main(int count, char **words)
{
    begin();
    char *end = NULL;
    double seconds = count > 1 ? strtod(words[1], &end) : 10;
    if (count < 2 || *end == 0)
        return by_chance(seconds, count > 2 ? strtoull(words[2], NULL, 10) : (uint64_t)time(NULL),
                         count > 3 ? strtoull(words[3], NULL, 10) : 0);
    for (int at = 1; at < count; at++) {
        static uint8_t bytes[1 << 20];
        FILE *file = fopen(words[at], "rb");
        if (!file)
            return 2;
        LLVMFuzzerTestOneInput(bytes, fread(bytes, 1, sizeof bytes, file));
        fclose(file);
    }
    printf("%" PRIu64 " cases, %" PRIu64 " calls, no difference\n", cases_made, calls_made);
    return 0;
}
#endif
