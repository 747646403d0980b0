/*
 * A budget and the connections that it covers: pressure that is told once as it begins and as it ends, the room that no write
 * passes, and four threads at one room.
 */
#define _POSIX_C_SOURCE 200809L
#include <inttypes.h>
#include <pthread.h>
#include <sched.h>
#include <stdatomic.h>
#include <stdio.h>
#include <stdlib.h>
#include <string.h>
#include <sys/socket.h>
#include <unistd.h>

#include "limekeel.h"

#define OVERHEAD 96

static void expect(const char *what, bool holds)
{
    if (!holds) {
        fprintf(stderr, "%s\n", what);
        exit(1);
    }
}

static struct limekeel_budget budget_of(uint64_t room, uint64_t low, uint64_t high, uint64_t quantum)
{
    struct limekeel_budget budget = LIMEKEEL_BUDGET;
    expect("it opens", limekeel_budget_open(&budget, room, low, high, quantum) == LIMEKEEL_OK);
    expect("but once", limekeel_budget_open(&budget, room, low, high, quantum) == LIMEKEEL_ALREADY_OPEN);
    return budget;
}

static struct limekeel_budgeted within(struct limekeel_budget *budget)
{
    struct limekeel_budgeted budgeted = LIMEKEEL_BUDGETED;
    expect("a connection", limekeel_open_within(&budgeted, 5000, 9000, OVERHEAD, 8, budget) == LIMEKEEL_OK);
    expect("once", limekeel_open_within(&budgeted, 5000, 9000, OVERHEAD, 8, budget) == LIMEKEEL_ALREADY_OPEN);
    return budgeted;
}

/* Whether all connections hold as many bytes, and pressure stands so, as each of both looks tells. */
static bool stands(struct limekeel_budget *budget, struct limekeel_budgeted *budgeted, uint64_t total, bool is_pressed)
{
    struct limekeel_budget_told told = limekeel_budget_look(budget);
    struct limekeel_budget_told by = limekeel_budgeted_look_at_budget(budgeted);
    return told.status == LIMEKEEL_OK && told.total == total && told.is_pressed == is_pressed && by.status == LIMEKEEL_OK &&
           by.total == total && by.is_pressed == is_pressed;
}

static bool was(struct limekeel_pressed_written told, uint32_t status, uint32_t pressure)
{
    return told.status == status && told.pressure == pressure;
}

/* Whether it is gone for good, and by which change of pressure. */
static bool frees(struct limekeel_budgeted *budgeted, uint32_t pressure)
{
    struct limekeel_pressed_done told = limekeel_budgeted_free(budgeted);
    return told.status == LIMEKEEL_OK && told.pressure == pressure && limekeel_budgeted_free(budgeted).status == LIMEKEEL_NOT_OPEN;
}

static bool gave(struct limekeel_pressed_done told, uint32_t status, uint32_t pressure)
{
    return told.status == status && told.pressure == pressure;
}

/* A struct that holds nothing is told so by each call. */
static void holds_nothing(void)
{
    struct limekeel_budget no_budget = LIMEKEEL_BUDGET, second = LIMEKEEL_BUDGET;
    struct limekeel_budgeted none = LIMEKEEL_BUDGETED;
    struct limekeel_block block = LIMEKEEL_BLOCK;
    struct limekeel_piece piece = {NULL, 7};
    uint32_t statuses[] = {
        limekeel_budget_look(&no_budget).status,
        limekeel_budget_share(&no_budget, &second),
        limekeel_budget_free(&no_budget),
        limekeel_open_within(&none, 1, 2, 3, 4, &no_budget),
        limekeel_budgeted_free(&none).status,
        limekeel_budgeted_rest(&none).status,
        limekeel_budgeted_cover(&none, 1).status,
        limekeel_budgeted_look_at_budget(&none).status,
        limekeel_budgeted_write(&none, "x", 1).status,
        limekeel_budgeted_write_lent(&none, "x", 1).status,
        limekeel_budgeted_write_block(&none, &block).status,
        limekeel_budgeted_write_region(&none, 1).status,
        limekeel_budgeted_write_other(&none, 1).status,
        limekeel_budgeted_flush(&none).status,
        limekeel_budgeted_progress(&none, 1).status,
        limekeel_budgeted_cancel(&none, 0).cancelled.status,
        limekeel_budgeted_user_bit(&none, 1, false).changed.status,
        limekeel_budgeted_set_marks(&none, 1, 2).status,
        limekeel_budgeted_remove(&none).removed.status,
        limekeel_budgeted_remove_with(&none, 1).removed.status,
        limekeel_budgeted_take_sent(&none, 1).taken.status,
        limekeel_budgeted_fail_flushed(&none, 1, true).taken.status,
        limekeel_budgeted_close(&none, 1).taken.status,
        limekeel_budgeted_give_up(&none, 1).taken.status,
        limekeel_budgeted_state(&none).status,
        limekeel_budgeted_look(&none).status,
        limekeel_budgeted_promise(&none, 0).status,
        limekeel_budgeted_front(&none).status,
        limekeel_budgeted_current(&none).status,
        limekeel_budgeted_gather(&none, &piece, 1, 1).status,
        limekeel_budgeted_send(&none, -1, 1).sent.status,
    };
    for (size_t at = 0; at < sizeof(statuses) / sizeof(statuses[0]); at++)
        if (statuses[at] != LIMEKEEL_NOT_OPEN)
            fprintf(stderr, "call %zu: %" PRIu32 "\n", at, statuses[at]), exit(1);
    expect("and a piece stays as it was", piece.length == 7);
    expect("another edge", limekeel_budget_open_for(&no_budget, LIMEKEEL_EDGE + 1, 1, 2, 3, 4) == LIMEKEEL_OTHER_VERSION);
    expect("marks that cross", limekeel_budget_open(&no_budget, 1000, 3, 2, 0) == LIMEKEEL_BAD_BOUNDS);
    expect("too much room", limekeel_budget_open(&no_budget, (uint64_t)1 << 62, 2, 3, 0) == LIMEKEEL_BAD_BOUNDS);
    struct limekeel_budget budget = budget_of(((uint64_t)1 << 62) - 1, 2, 3, 0);
    expect("of a connection too", limekeel_open_within_for(&none, LIMEKEEL_EDGE + 1, 1, 2, 3, 4, &budget) == LIMEKEEL_OTHER_VERSION);
    expect("bad marks", limekeel_open_within(&none, 3, 2, 0, 0, &budget) == LIMEKEEL_BAD_MARKS);
    expect("a bad estimate", limekeel_open_within(&none, 1, 2, 65536, 0, &budget) == LIMEKEEL_BAD_ESTIMATE);
    expect("texts", strcmp(limekeel_strstatus(LIMEKEEL_OVER_BUDGET), "the budget has no room for the message") == 0);
    expect("freed", limekeel_budget_free(&budget) == LIMEKEEL_OK && limekeel_budget_free(&budget) == LIMEKEEL_NOT_OPEN);
}

/* The room of 1000 is full with ten messages of 100; pressure begins above 800 and ends below 200. */
static void keeps_within(void)
{
    struct limekeel_budget budget = budget_of(1000, 200, 800, 0);
    struct limekeel_budgeted slow = within(&budget), fast = within(&budget);
    struct limekeel_block block = LIMEKEEL_BLOCK;
    expect("a block", limekeel_block_new(&block, "four", 4) == LIMEKEEL_OK);
    for (uint32_t count = 1; count <= 10; count++) {
        uint32_t pressure = count == 9 ? LIMEKEEL_PRESSURE_BEGAN : LIMEKEEL_PRESSURE_UNCHANGED;
        struct limekeel_pressed_written told = count % 2 ? limekeel_budgeted_write(&slow, "four", 4) :
                                                           limekeel_budgeted_write_block(&slow, &block);
        expect("it is written", was(told, LIMEKEEL_OK, pressure) && told.id == count - 1);
        expect("and counted", stands(&budget, &fast, count * 100, count >= 9));
    }
    expect("no room for a copy", was(limekeel_budgeted_write(&fast, "four", 4), LIMEKEEL_OVER_BUDGET, 0));
    expect("for a block", was(limekeel_budgeted_write_block(&fast, &block), LIMEKEEL_OVER_BUDGET, 0));
    expect("for lent bytes", was(limekeel_budgeted_write_lent(&fast, "four", 4), LIMEKEEL_OVER_BUDGET, 0));
    expect("for a region", was(limekeel_budgeted_write_region(&fast, 7), LIMEKEEL_OVER_BUDGET, 0));
    expect("for another", was(limekeel_budgeted_write_other(&fast, 7), LIMEKEEL_OVER_BUDGET, 0));
    expect("nothing is pending", limekeel_budgeted_look(&fast).total == 0 && limekeel_budgeted_state(&fast).held == 0);
    expect("flushed", limekeel_budgeted_flush(&slow).count == 10);
    struct limekeel_pressed_taken taken = limekeel_budgeted_take_sent(&slow, 30);
    expect("seven are gone", taken.taken.count == 7 && taken.pressure == 0 && stands(&budget, &fast, 300, true));
    struct limekeel_pressed_removed removed = limekeel_budgeted_remove(&slow);
    expect("not yet", removed.removed.any && removed.pressure == 0 && stands(&budget, &fast, 200, true));
    removed = limekeel_budgeted_remove_with(&slow, 5);
    expect("it ends", removed.removed.cause == 5 && removed.pressure == LIMEKEEL_PRESSURE_ENDED && stands(&budget, &slow, 100, false));
    for (int count = 0; count < 8; count++)
        expect("the other has room", limekeel_budgeted_write(&fast, "four", 4).status == LIMEKEEL_OK);
    struct limekeel_pressed_taken left = limekeel_budgeted_give_up(&fast, 9);
    expect("all is given up", left.taken.count == 8 && left.taken.cause == 9 && left.pressure == LIMEKEEL_PRESSURE_ENDED);
    expect("closed", was(limekeel_budgeted_write(&fast, "x", 1), LIMEKEEL_CLOSED, 0) && limekeel_budgeted_state(&fast).closed);
    expect("freed", frees(&fast, 0) && frees(&slow, 0) && limekeel_budget_look(&budget).total == 0);
    expect("and the rest", limekeel_block_free(&block) == LIMEKEEL_OK && limekeel_budget_free(&budget) == LIMEKEEL_OK);
}

/* Cover that is asked for before a message is made: it is there for the write, and what is not used goes back. */
static void covers_ahead(void)
{
    struct limekeel_budget budget = budget_of(1000, 200, 800, 0);
    struct limekeel_budgeted one = within(&budget), other = within(&budget);
    expect("a message of 100", gave(limekeel_budgeted_cover(&one, 100), LIMEKEEL_OK, 0) && stands(&budget, &one, 100, false));
    expect("is written by that", was(limekeel_budgeted_write(&one, "four", 4), LIMEKEEL_OK, 0) && stands(&budget, &one, 100, false));
    expect("beside what is pending", gave(limekeel_budgeted_cover(&one, 800), LIMEKEEL_OK, LIMEKEEL_PRESSURE_BEGAN));
    expect("which is held", stands(&budget, &one, 900, true) && limekeel_budgeted_state(&one).held == 900);
    expect("once alone", gave(limekeel_budgeted_cover(&one, 800), LIMEKEEL_OK, 0) && stands(&budget, &one, 900, true));
    expect("not more than there is", gave(limekeel_budgeted_cover(&other, 101), LIMEKEEL_OVER_BUDGET, 0) && stands(&budget, &one, 900, true));
    struct limekeel_pressed_flushed flushed = limekeel_budgeted_flush(&one);
    expect("a flush gives back", flushed.pressure == LIMEKEEL_PRESSURE_ENDED && stands(&budget, &one, 100, false));
    expect("freed", frees(&one, 0) && frees(&other, 0) && limekeel_budget_free(&budget) == LIMEKEEL_OK);
}

/* What a connection takes at once, keeps and gives back; and that a free gives all back, and tells the end of pressure. */
static void keeps_quanta(void)
{
    struct limekeel_budget budget = budget_of(1000, 200, 400, 250);
    struct limekeel_budgeted one = within(&budget);
    uint64_t held[] = {250, 250, 500, 500, 500};
    for (size_t at = 0; at < 5; at++) {
        uint32_t pressure = at == 2 ? LIMEKEEL_PRESSURE_BEGAN : LIMEKEEL_PRESSURE_UNCHANGED;
        expect("it is written", was(limekeel_budgeted_write(&one, "four", 4), LIMEKEEL_OK, pressure));
        expect("by quanta", limekeel_budgeted_state(&one).held == held[at]);
    }
    expect("flushed", limekeel_budgeted_flush(&one).count == 5);
    expect("sent", limekeel_budgeted_take_sent(&one, 20).taken.count == 5 && stands(&budget, &one, 500, true));
    struct limekeel_pressed_done rest = limekeel_budgeted_rest(&one);
    expect("a rest", rest.status == LIMEKEEL_OK && rest.pressure == LIMEKEEL_PRESSURE_ENDED && stands(&budget, &one, 0, false));
    static uint8_t large[500];
    expect("once more", was(limekeel_budgeted_write(&one, large, 500), LIMEKEEL_OK, LIMEKEEL_PRESSURE_BEGAN));
    expect("a handle goes before it", limekeel_budget_free(&budget) == LIMEKEEL_OK);
    expect("freed with what waits", frees(&one, LIMEKEEL_PRESSURE_ENDED));
}

/* Each command and look returns what that of a connection does. */
static void is_a_connection(void)
{
    struct limekeel_budget budget = budget_of(100000, 200, 50000, 0);
    struct limekeel_budgeted one = within(&budget);
    expect("a region", limekeel_budgeted_write_region(&one, 50).id == 0);
    expect("another", limekeel_budgeted_write_other(&one, 5).id == 1);
    expect("lent", limekeel_budgeted_write_lent(&one, "lent", 4).id == 2);
    expect("copied", limekeel_budgeted_write(&one, "last", 4).id == 3);
    struct limekeel_pressed_cancelled cancelled = limekeel_budgeted_cancel(&one, 2);
    expect("in time", cancelled.cancelled.in_time && cancelled.pressure == 0);
    expect("settled", limekeel_budgeted_promise(&one, 2).state == LIMEKEEL_SETTLED);
    expect("flushed", limekeel_budgeted_flush(&one).count == 4 && limekeel_budgeted_front(&one).id == 0);
    struct limekeel_pressed_done done = limekeel_budgeted_progress(&one, 20);
    expect("30 are left", done.status == LIMEKEEL_OK && limekeel_budgeted_current(&one).number == 30);
    expect("the region is sent", limekeel_budgeted_remove(&one).removed.id == 0);
    expect("the other is in front", limekeel_budgeted_current(&one).kind == LIMEKEEL_CURRENT_OTHER);
    expect("and done", limekeel_budgeted_remove(&one).removed.id == 1);
    struct limekeel_piece pieces[4];
    struct limekeel_gathered gathered = limekeel_budgeted_gather(&one, pieces, 4, UINT32_MAX);
    expect("a piece", gathered.count == 1 && pieces[0].length == 4 && memcmp(pieces[0].at, "last", 4) == 0);
    struct limekeel_pressed_changed bit = limekeel_budgeted_user_bit(&one, 3, false);
    expect("a user bit", bit.changed.change == LIMEKEEL_UNWRITABLE && limekeel_budgeted_look(&one).word == 8);
    expect("is seen", !limekeel_budgeted_state(&one).writable && !limekeel_budgeted_state(&one).empty);
    expect("marks", limekeel_budgeted_set_marks(&one, 5, 4).status == LIMEKEEL_BAD_MARKS &&
                        limekeel_budgeted_set_marks(&one, 1, 2).status == LIMEKEEL_OK);
    expect("flushed ones are left", limekeel_budgeted_close(&one, 4).taken.status == LIMEKEEL_FLUSHED_LEFT);
    struct limekeel_pressed_taken failed = limekeel_budgeted_fail_flushed(&one, 3, true);
    expect("they fail", failed.taken.count == 2 && failed.taken.cause == 3 && limekeel_budgeted_state(&one).empty);
    expect("closed", limekeel_budgeted_close(&one, 4).taken.status == LIMEKEEL_OK && limekeel_budgeted_state(&one).closed);
    expect("freed", frees(&one, 0) && limekeel_budget_free(&budget) == LIMEKEEL_OK);
}

/* A socket takes it all, and the room is there again. */
static void sends(void)
{
    struct limekeel_budget budget = budget_of(2u << 20, 1000, 2u << 19, 16384);
    struct limekeel_budgeted one = within(&budget);
    int pair[2];
    expect("a pair of sockets", socketpair(AF_UNIX, SOCK_STREAM, 0, pair) == 0);
    static uint8_t bytes[1 << 20], back[1 << 20];
    for (size_t at = 0; at < sizeof(bytes); at++)
        bytes[at] = (uint8_t)(at * 7 + at / 251);
    expect("written", was(limekeel_budgeted_write(&one, bytes, sizeof(bytes)), LIMEKEEL_OK, LIMEKEEL_PRESSURE_BEGAN));
    expect("flushed", limekeel_budgeted_flush(&one).count == 1);
    uint32_t ended = 0;
    for (size_t came = 0; came < sizeof(bytes);) {
        struct limekeel_pressed_sent told = limekeel_budgeted_send(&one, pair[0], 16);
        expect("it is sent", told.sent.status == LIMEKEEL_OK && told.sent.ending != LIMEKEEL_ENDED_BROKEN);
        ended += told.pressure == LIMEKEEL_PRESSURE_ENDED;
        ssize_t got = read(pair[1], back + came, sizeof(back) - came);
        expect("it comes", got > 0);
        came += (size_t)got;
    }
    expect("each byte", memcmp(bytes, back, sizeof(bytes)) == 0);
    ended += limekeel_budgeted_rest(&one).pressure == LIMEKEEL_PRESSURE_ENDED;
    expect("pressure ended once", ended == 1 && stands(&budget, &one, 0, false));
    expect("freed", frees(&one, 0) && limekeel_budget_free(&budget) == LIMEKEEL_OK && close(pair[0]) == 0 && close(pair[1]) == 0);
}

#define THREADS 4
#define ROOM 1000

/* How many messages each thread writes. */
static int rounds = 20000;

/* One thread: its handle, and what it counted. */
struct worker {
    pthread_t thread;
    struct limekeel_budget budget;
    uint64_t began, ended, refused, written;
};

/* How many threads have opened their connection: each waits for all, so that they cross. */
static atomic_int ready;

static void counts(struct worker *worker, uint32_t pressure)
{
    worker->began += pressure == LIMEKEEL_PRESSURE_BEGAN;
    worker->ended += pressure == LIMEKEEL_PRESSURE_ENDED;
}

static void *works(void *at)
{
    struct worker *worker = at;
    struct limekeel_budgeted one = within(&worker->budget);
    atomic_fetch_add(&ready, 1);
    while (atomic_load(&ready) < THREADS)
        ;
    for (int round = 0; round < rounds; round++) {
        struct limekeel_pressed_written told = limekeel_budgeted_write(&one, "four", 4);
        counts(worker, told.pressure);
        bool refused = told.status == LIMEKEEL_OVER_BUDGET || told.status == LIMEKEEL_BUSY;
        expect("it is written, or finds no room", refused || told.status == LIMEKEEL_OK);
        worker->refused += refused;
        worker->written += !refused;
        struct limekeel_budget_told look = limekeel_budget_look(&worker->budget);
        struct limekeel_standing standing = limekeel_budgeted_state(&one);
        expect("never more than the room", look.total <= ROOM && standing.held <= ROOM);
        expect("no less than is pending", standing.held >= limekeel_budgeted_look(&one).total);
        if (refused || round % 9 == 8) {
            counts(worker, limekeel_budgeted_flush(&one).pressure);
            struct limekeel_pressed_taken taken = limekeel_budgeted_fail_flushed(&one, 1, true);
            expect("they are gone", taken.taken.status == LIMEKEEL_OK);
            counts(worker, taken.pressure);
        }
    }
    struct limekeel_pressed_done freed = limekeel_budgeted_free(&one);
    for (; freed.status == LIMEKEEL_BUSY; freed = limekeel_budgeted_free(&one))
        counts(worker, freed.pressure);
    counts(worker, freed.pressure);
    expect("freed", limekeel_budget_free(&worker->budget) == LIMEKEEL_OK);
    return NULL;
}

/* Four threads at one room: no more is ever held, and what was told of pressure adds up. */
static void is_shared(void)
{
    struct limekeel_budget budget = budget_of(ROOM, 300, 700, 0);
    static struct worker workers[THREADS];
    for (size_t at = 0; at < THREADS; at++) {
        expect("shared", limekeel_budget_share(&budget, &workers[at].budget) == LIMEKEEL_OK);
        expect("once", limekeel_budget_share(&budget, &workers[at].budget) == LIMEKEEL_ALREADY_OPEN);
    }
    for (size_t at = 0; at < THREADS; at++)
        expect("a thread", pthread_create(&workers[at].thread, NULL, works, &workers[at]) == 0);
    uint64_t began = 0, ended = 0, refused = 0, written = 0;
    for (size_t at = 0; at < THREADS; at++) {
        expect("it ends", pthread_join(workers[at].thread, NULL) == 0);
        began += workers[at].began, ended += workers[at].ended;
        refused += workers[at].refused, written += workers[at].written;
    }
    struct limekeel_budget_told told = limekeel_budget_look(&budget);
    expect("nothing is held", told.total == 0 && !told.is_pressed);
    expect("as often begun as ended", began == ended && began > 0);
    expect("each call was answered", refused + written == (uint64_t)THREADS * (uint64_t)rounds && written > 0);
    expect("freed", limekeel_budget_free(&budget) == LIMEKEEL_OK);
}

/* Whether all connections hold as many bytes. */
static bool holds(struct limekeel_budget *budget, uint64_t total)
{
    struct limekeel_budget_told told = limekeel_budget_look(budget);
    return told.status == LIMEKEEL_OK && told.total == total;
}

/* Whether this connection does. */
static bool has(struct limekeel_shared *shared, uint64_t held)
{
    struct limekeel_seat_told told = limekeel_shared_held(shared);
    return told.status == LIMEKEEL_OK && told.is_within && told.held == held;
}

/* A connection with two handles within a budget that has no room beyond ten messages of 100 bytes. */
static void shares_a_connection(void)
{
    struct limekeel_budget budget = budget_of(1000, 200, 800, 0);
    struct limekeel_transport transport = LIMEKEEL_TRANSPORT;
    struct limekeel_shared shared = LIMEKEEL_SHARED;
    struct limekeel_block block = LIMEKEEL_BLOCK;
    expect("nothing is open", was(limekeel_shared_write_within(&shared, "four", 4), LIMEKEEL_NOT_OPEN, 0) &&
                                  gave(limekeel_shared_rest(&shared), LIMEKEEL_NOT_OPEN, 0) &&
                                  gave(limekeel_transport_settle(&transport), LIMEKEEL_NOT_OPEN, 0) &&
                                  limekeel_shared_held(&shared).status == LIMEKEEL_NOT_OPEN);
    expect("it opens", limekeel_shared_open_within(&transport, 5000, 9000, OVERHEAD, 8, &budget) == LIMEKEEL_OK);
    expect("but once", limekeel_shared_open_within(&transport, 5000, 9000, OVERHEAD, 8, &budget) == LIMEKEEL_ALREADY_OPEN);
    expect("a handle", limekeel_transport_another(&transport, &shared) == LIMEKEEL_OK);
    expect("a block", limekeel_block_new(&block, "four", 4) == LIMEKEEL_OK);
    expect("no other call takes of the budget",
           limekeel_shared_write(&shared, "four", 4).status == LIMEKEEL_OVER_BUDGET && holds(&budget, 0) && has(&shared, 0));
    expect("bytes", was(limekeel_shared_write_within(&shared, "four", 4), LIMEKEEL_OK, LIMEKEEL_PRESSURE_UNCHANGED));
    expect("a block's", was(limekeel_shared_write_block_within(&shared, &block), LIMEKEEL_OK, 0));
    expect("lent ones", was(limekeel_shared_write_lent_within(&shared, "four", 4), LIMEKEEL_OK, 0));
    expect("a region", was(limekeel_shared_write_region_within(&shared, 5), LIMEKEEL_OK, 0));
    expect("any other", was(limekeel_shared_write_other_within(&shared, 7), LIMEKEEL_OK, 0) && holds(&budget, 500));
    expect("which it holds", has(&shared, 500));
    struct limekeel_pressed_written_and_flushed both = limekeel_shared_write_and_flush_block_within(&shared, &block);
    expect("with a flush", both.done.status == LIMEKEEL_OK && both.done.count == 6 && both.pressure == 0);
    both = limekeel_shared_write_and_flush_within(&shared, "four hundred more", 17);
    expect("and of bytes", both.done.status == LIMEKEEL_OK && both.done.count == 1 && holds(&budget, 713));
    expect("pressure begins", was(limekeel_shared_write_within(&shared, "four", 4), LIMEKEEL_OK, LIMEKEEL_PRESSURE_BEGAN));
    expect("no room", was(limekeel_shared_write_within(&shared, (uint8_t[200]){0}, 200), LIMEKEEL_OVER_BUDGET, 0));
    expect("removals keep the seat", limekeel_transport_fail_flushed(&transport, 1, true).status == LIMEKEEL_OK &&
                                         holds(&budget, 813) && has(&shared, 813));
    expect("it settles", gave(limekeel_transport_settle(&transport), LIMEKEEL_OK, LIMEKEEL_PRESSURE_ENDED) && holds(&budget, 100));
    expect("once", gave(limekeel_shared_settle(&shared), LIMEKEEL_OK, 0) && gave(limekeel_shared_rest(&shared), LIMEKEEL_OK, 0) &&
                       gave(limekeel_transport_rest(&transport), LIMEKEEL_OK, 0) && holds(&budget, 100));
    expect("the handle goes", limekeel_shared_free(&shared) == LIMEKEEL_OK && holds(&budget, 100));
    expect("the last gives all back", limekeel_transport_free(&transport) == LIMEKEEL_OK && holds(&budget, 0));
    expect("none is left", limekeel_block_free(&block) == LIMEKEEL_OK && limekeel_budget_free(&budget) == LIMEKEEL_OK);
}

/* Three threads of one connection in a room of ten messages: two that write, and one that takes away what they flushed. One
 * after the other they would not end: what the first writes fills the room, and none of the others makes any. */
struct crossing {
    struct limekeel_shared shared;
    struct limekeel_budget budget;
    uint64_t began, ended;
};
static struct limekeel_transport sends_for_all = LIMEKEEL_TRANSPORT;
static atomic_int crossing_ready;

static void turned(struct crossing *crossing, uint32_t pressure)
{
    crossing->began += pressure == LIMEKEEL_PRESSURE_BEGAN;
    crossing->ended += pressure == LIMEKEEL_PRESSURE_ENDED;
}

static void *writes_for_all(void *at)
{
    struct crossing *crossing = at;
    atomic_fetch_add(&crossing_ready, 1);
    while (atomic_load(&crossing_ready) < 3)
        sched_yield();
    for (int left = rounds; left > 0;) {
        struct limekeel_pressed_written_and_flushed told =
            limekeel_shared_write_and_flush_within(&crossing->shared, "four", 4);
        turned(crossing, told.pressure);
        expect("it is written, or later", told.done.status == LIMEKEEL_OK || told.done.status == LIMEKEEL_BUSY ||
                                              told.done.status == LIMEKEEL_OVER_BUDGET);
        expect("within the room", limekeel_budget_look(&crossing->budget).total <= 1000);
        if (told.done.status == LIMEKEEL_OK)
            left--;
        else
            sched_yield();
    }
    return NULL;
}

static void *takes_for_all(void *at)
{
    struct crossing *crossing = at;
    atomic_fetch_add(&crossing_ready, 1);
    for (int left = 2 * rounds; left > 0;) {
        struct limekeel_removed removed = limekeel_transport_remove(&sends_for_all);
        left -= removed.status == LIMEKEEL_OK && removed.any;
        struct limekeel_pressed_done gave_back = limekeel_transport_settle(&sends_for_all);
        turned(crossing, gave_back.pressure);
        if (!removed.any)
            sched_yield();
    }
    return NULL;
}

static void crosses(void)
{
    struct limekeel_budget budget = budget_of(1000, 200, 800, 0);
    struct crossing all[3] = {0};
    pthread_t threads[3];
    expect("it opens", limekeel_shared_open_within(&sends_for_all, 5000, 9000, OVERHEAD, 8, &budget) == LIMEKEEL_OK);
    for (int at = 0; at < 3; at++) {
        expect("a handle", limekeel_transport_another(&sends_for_all, &all[at].shared) == LIMEKEEL_OK);
        expect("of the budget too", limekeel_budget_share(&budget, &all[at].budget) == LIMEKEEL_OK);
    }
    alarm(120);
    for (int at = 0; at < 3; at++)
        expect("a thread", pthread_create(&threads[at], NULL, at < 2 ? writes_for_all : takes_for_all, &all[at]) == 0);
    uint64_t began = 0, ended = 0;
    for (int at = 0; at < 3; at++) {
        expect("it ends", pthread_join(threads[at], NULL) == 0);
        began += all[at].began;
        ended += all[at].ended;
    }
    alarm(0);
    struct limekeel_pressed_done last = limekeel_transport_rest(&sends_for_all);
    ended += last.pressure == LIMEKEEL_PRESSURE_ENDED;
    expect("each turn is told once", last.status == LIMEKEEL_OK && began == ended && holds(&budget, 0));
    for (int at = 0; at < 3; at++)
        expect("it goes", limekeel_shared_free(&all[at].shared) == LIMEKEEL_OK &&
                              limekeel_budget_free(&all[at].budget) == LIMEKEEL_OK);
    expect("and the last", limekeel_transport_free(&sends_for_all) == LIMEKEEL_OK && limekeel_budget_free(&budget) == LIMEKEEL_OK);
}

int main(int count, char **words)
{
    if (count > 1)
        rounds = atoi(words[1]);
    holds_nothing();
    keeps_within();
    covers_ahead();
    keeps_quanta();
    is_a_connection();
    sends();
    is_shared();
    shares_a_connection();
    crosses();
    puts("a budget: pressure once each way, no more than the room, four threads");
    return 0;
}
