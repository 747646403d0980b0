/*
 * A managed connection: the end that is told once, the limit, a peer that stalls, and numbers that add up; and what each call of it
 * returns beside that of a connection.
 */
#define _POSIX_C_SOURCE 200809L
#include <inttypes.h>
#include <stdio.h>
#include <stdlib.h>
#include <string.h>
#include <sys/socket.h>
#include <unistd.h>

#include "limekeel.h"

#define OVERHEAD 96

static void expect(const char *what, bool holds)
{
    if (!holds) {
        fprintf(stderr, "%s\n", what);
        exit(1);
    }
}

static struct limekeel_managed opened(uint32_t most_pending, uint64_t window, uint64_t least_bytes, uint64_t now)
{
    struct limekeel_managed managed = LIMEKEEL_MANAGED;
    struct limekeel_limits limits = {most_pending, window, least_bytes};
    expect("it opens", limekeel_managed_open(&managed, 200, 400, OVERHEAD, 8, limits, now) == LIMEKEEL_OK);
    expect("but once", limekeel_managed_open(&managed, 200, 400, OVERHEAD, 8, limits, now) == LIMEKEEL_ALREADY_OPEN);
    return managed;
}

static void is_written(struct limekeel_written written, uint64_t id)
{
    expect("it is accepted", written.status == LIMEKEEL_OK && written.id == id);
}

static bool same(struct limekeel_count count, uint64_t messages, uint64_t bytes)
{
    return count.messages == messages && count.bytes == bytes;
}

/* What was accepted is what became of it. */
static void adds_up(const struct limekeel_managed *managed)
{
    struct limekeel_numbers n = limekeel_managed_numbers(managed);
    expect("numbers", n.status == LIMEKEEL_OK);
    expect("messages add up", n.accepted.messages ==
                                  n.sent.messages + n.failed.messages + n.cancelled.messages + n.pending.messages);
    expect("bytes add up", n.accepted.bytes == n.sent.bytes + n.failed.bytes + n.cancelled.bytes + n.pending.bytes);
    expect("the peak is no less than what is pending", n.peak >= n.pending.bytes);
}

/* A struct that holds nothing is told so by each call. */
static void holds_nothing(void)
{
    struct limekeel_managed none = LIMEKEEL_MANAGED;
    struct limekeel_block block = LIMEKEEL_BLOCK;
    struct limekeel_piece piece = {NULL, 7};
    uint32_t statuses[] = {
        limekeel_managed_free(&none),
        limekeel_managed_shrink_to_fit(&none),
        limekeel_managed_finish(&none).status,
        limekeel_managed_tick(&none, 1).status,
        limekeel_managed_write(&none, "x", 1).status,
        limekeel_managed_write_lent(&none, "x", 1).status,
        limekeel_managed_write_block(&none, &block).status,
        limekeel_managed_write_region(&none, 1).status,
        limekeel_managed_write_other(&none, 1).status,
        limekeel_managed_flush(&none).flushed.status,
        limekeel_managed_progress(&none, 1).status,
        limekeel_managed_cancel(&none, 0).cancelled.status,
        limekeel_managed_user_bit(&none, 1, false).changed.status,
        limekeel_managed_set_marks(&none, 1, 2).status,
        limekeel_managed_remove(&none).removed.status,
        limekeel_managed_remove_with(&none, 1).removed.status,
        limekeel_managed_take_sent(&none, 1).taken.status,
        limekeel_managed_fail_flushed(&none, 1, true).taken.status,
        limekeel_managed_close(&none, 1).taken.status,
        limekeel_managed_give_up(&none, 1).taken.status,
        limekeel_managed_state(&none).status,
        limekeel_managed_numbers(&none).status,
        limekeel_managed_look(&none).status,
        limekeel_managed_promise(&none, 0).status,
        limekeel_managed_front(&none).status,
        limekeel_managed_current(&none).status,
        limekeel_managed_gather(&none, &piece, 1, 1).status,
        limekeel_managed_send(&none, -1, 1).sent.status,
    };
    for (size_t at = 0; at < sizeof(statuses) / sizeof(statuses[0]); at++)
        if (statuses[at] != LIMEKEEL_NOT_OPEN)
            fprintf(stderr, "call %zu: %" PRIu32 "\n", at, statuses[at]), exit(1);
    expect("and a piece stays as it was", piece.length == 7);
    expect("another edge is refused", limekeel_managed_open_for(&none, LIMEKEEL_EDGE + 1, 1, 2, 3, 4, 5, 6, 7, 8) ==
                                          LIMEKEEL_OTHER_VERSION);
    struct limekeel_limits limits = {1, 1, 1};
    expect("bad marks", limekeel_managed_open(&none, 3, 2, 0, 0, limits, 0) == LIMEKEEL_BAD_MARKS);
    expect("a bad estimate", limekeel_managed_open(&none, 1, 2, 65536, 0, limits, 0) == LIMEKEEL_BAD_ESTIMATE);
}

/* The end is told by the call that takes the last byte, and by no other. */
static void ends_in_order(void)
{
    struct limekeel_managed managed = opened(10000, 10, 1, 0);
    is_written(limekeel_managed_write(&managed, "abc", 3), 0);
    is_written(limekeel_managed_write_other(&managed, 5), 1);
    expect("two are flushed", limekeel_managed_flush(&managed).flushed.count == 2);
    struct limekeel_truth asked = limekeel_managed_finish(&managed);
    expect("something is left", asked.status == LIMEKEEL_OK && !asked.holds);
    expect("no write from now on", limekeel_managed_write(&managed, "d", 1).status == LIMEKEEL_FINISHING);
    expect("of none", limekeel_managed_write_region(&managed, 1).status == LIMEKEEL_FINISHING);
    struct limekeel_told_taken taken = limekeel_managed_take_sent(&managed, 2);
    expect("two bytes", taken.taken.status == LIMEKEEL_OK && taken.taken.count == 0 && !taken.finished);
    taken = limekeel_managed_take_sent(&managed, 1);
    expect("the block is gone, and another message left", taken.taken.count == 1 && !taken.finished);
    expect("it is in front", limekeel_managed_current(&managed).kind == LIMEKEEL_CURRENT_OTHER &&
                                 limekeel_managed_front(&managed).id == 1);
    struct limekeel_state state = limekeel_managed_state(&managed);
    expect("it ends", state.finishing && !state.finished && !state.empty && !state.closed && state.writable);
    struct limekeel_told_removed removed = limekeel_managed_remove(&managed);
    expect("the last", removed.removed.any && removed.removed.settled && removed.removed.id == 1 && removed.finished);
    expect("told once", !limekeel_managed_finish(&managed).holds && !limekeel_managed_take_sent(&managed, 0).finished);
    expect("it gives memory back", limekeel_managed_shrink_to_fit(&managed) == LIMEKEEL_OK);
    state = limekeel_managed_state(&managed);
    expect("and it is seen", state.finished && state.empty);
    expect("closing tells no end again", !limekeel_managed_close(&managed, 1).finished && limekeel_managed_state(&managed).closed);
    adds_up(&managed);
    expect("it is freed", limekeel_managed_free(&managed) == LIMEKEEL_OK);
    managed = opened(100, 10, 1, 0);
    expect("with nothing left at once", limekeel_managed_finish(&managed).holds);
    expect("freed", limekeel_managed_free(&managed) == LIMEKEEL_OK);
}

/* A write past the limit is refused before it changes anything. */
static void is_full(void)
{
    struct limekeel_managed managed = opened(250, 10, 1, 0);
    struct limekeel_block block = LIMEKEEL_BLOCK;
    char bytes[30] = {0};
    expect("a block", limekeel_block_new(&block, bytes, 30) == LIMEKEEL_OK);
    is_written(limekeel_managed_write(&managed, bytes, 29), 0);
    expect("one byte too many", limekeel_managed_write(&managed, bytes, 30).status == LIMEKEEL_FULL);
    expect("of a block", limekeel_managed_write_block(&managed, &block).status == LIMEKEEL_FULL);
    expect("lent", limekeel_managed_write_lent(&managed, bytes, 30).status == LIMEKEEL_FULL);
    is_written(limekeel_managed_write(&managed, bytes, 29), 1);
    expect("250 are pending", limekeel_managed_look(&managed).total == 250);
    expect("a region counts its overhead", limekeel_managed_write_region(&managed, 1).status == LIMEKEEL_FULL);
    expect("the promises wait", limekeel_managed_promise(&managed, 1).state == LIMEKEEL_WAITING &&
                                    limekeel_managed_promise(&managed, 2).state == LIMEKEEL_UNKNOWN);
    expect("texts", strcmp(limekeel_strstatus(LIMEKEEL_FULL), "more would be pending than the connection may hold") == 0 &&
                        strcmp(limekeel_strstatus(LIMEKEEL_FINISHING), "the connection is finishing") == 0);
    adds_up(&managed);
    struct limekeel_numbers numbers = limekeel_managed_numbers(&managed);
    expect("the peak", numbers.peak == 250);
    expect("four were past the limit", numbers.refusals.full == 4 && numbers.refusals.no_memory == 0);
    expect("freed", limekeel_managed_free(&managed) == LIMEKEEL_OK && limekeel_block_free(&block) == LIMEKEEL_OK);
}

/* A peer that takes fewer bytes than it has to in a window is named, once. */
static void stalls(void)
{
    struct limekeel_managed managed = opened(10000, 30, 10, 100);
    is_written(limekeel_managed_write(&managed, "thirty bytes, thirty bytes, 30", 30), 0);
    expect("nothing is flushed", !limekeel_managed_tick(&managed, 200).holds && !limekeel_managed_tick(&managed, 300).holds);
    expect("now it is", limekeel_managed_flush(&managed).flushed.status == LIMEKEEL_OK);
    expect("a window opens", !limekeel_managed_tick(&managed, 300).holds);
    expect("it took nine", limekeel_managed_take_sent(&managed, 9).taken.status == LIMEKEEL_OK);
    expect("not yet", !limekeel_managed_tick(&managed, 329).holds);
    expect("named", limekeel_managed_tick(&managed, 330).holds);
    expect("once", !limekeel_managed_tick(&managed, 400).holds);
    expect("it took one more", limekeel_managed_take_sent(&managed, 1).taken.status == LIMEKEEL_OK);
    expect("a window opens anew", !limekeel_managed_tick(&managed, 401).holds && !limekeel_managed_tick(&managed, 430).holds);
    expect("named again", limekeel_managed_tick(&managed, 431).holds);
    struct limekeel_told_taken left = limekeel_managed_give_up(&managed, 7);
    expect("what is left fails", left.taken.count == 1 && left.taken.outcome == LIMEKEEL_FAILED && left.taken.cause == 7);
    expect("its end was not asked for", !left.finished);
    struct limekeel_numbers numbers = limekeel_managed_numbers(&managed);
    expect("one failed", same(numbers.accepted, 1, 126) && same(numbers.failed, 1, 126) && same(numbers.sent, 0, 0));
    expect("freed", limekeel_managed_free(&managed) == LIMEKEEL_OK);
}

/* How often writers were stopped, for how long by the clock, and why calls were refused. */
static void stops(void)
{
    struct limekeel_managed managed = opened(10000, 30, 0, 100);
    static const uint8_t bytes[400];
    is_written(limekeel_managed_write(&managed, bytes, sizeof(bytes)), 0);
    expect("flushed", limekeel_managed_flush(&managed).flushed.change == LIMEKEEL_UNCHANGED);
    expect("it is named by no tick", !limekeel_managed_tick(&managed, 110).holds && !limekeel_managed_tick(&managed, 125).holds);
    expect("sent", limekeel_managed_take_sent(&managed, sizeof(bytes)).taken.change == LIMEKEEL_WRITABLE);
    expect("writers go on", !limekeel_managed_tick(&managed, 900).holds);
    expect("too many", limekeel_managed_take_sent(&managed, 1).taken.status == LIMEKEEL_TOO_MANY_BYTES);
    expect("nothing is flushed", limekeel_managed_progress(&managed, 1).status == LIMEKEEL_NOTHING_FLUSHED);
    expect("no such bit", limekeel_managed_user_bit(&managed, 0, true).changed.status == LIMEKEEL_BAD_INDEX);
    expect("no such promise", limekeel_managed_cancel(&managed, 1).cancelled.status == LIMEKEEL_UNKNOWN_PROMISE);
    expect("closed", limekeel_managed_close(&managed, 1).taken.status == LIMEKEEL_OK);
    expect("twice", limekeel_managed_flush(&managed).flushed.status == LIMEKEEL_CLOSED);
    struct limekeel_numbers n = limekeel_managed_numbers(&managed);
    expect("stopped once, for 25", n.stops == 1 && n.stopped == 25);
    expect("each refusal", n.refusals.too_many_bytes == 1 && n.refusals.nothing_flushed == 1 && n.refusals.bad_index == 1 &&
                               n.refusals.unknown_promise == 1 && n.refusals.closed == 1);
    expect("and no other", n.refusals.finishing == 0 && n.refusals.oversize == 0 && n.refusals.full == 0 &&
                               n.refusals.too_much == 0 && n.refusals.no_memory == 0 && n.refusals.too_far == 0 &&
                               n.refusals.flushed_left == 0);
    expect("freed", limekeel_managed_free(&managed) == LIMEKEEL_OK);
}

/* One of each end, and a deadline. */
static void counts(void)
{
    struct limekeel_managed managed = opened(10000, 10, 1, 0);
    struct limekeel_block block = LIMEKEEL_BLOCK;
    expect("a block", limekeel_block_new(&block, "four", 4) == LIMEKEEL_OK);
    is_written(limekeel_managed_write_block(&managed, &block), 0);
    is_written(limekeel_managed_write_lent(&managed, "four", 4), 1);
    is_written(limekeel_managed_write_region(&managed, 50), 2);
    struct limekeel_told_cancelled cancelled = limekeel_managed_cancel(&managed, 1);
    expect("in time", cancelled.cancelled.in_time && !cancelled.finished);
    expect("flushed", limekeel_managed_flush(&managed).flushed.count == 3);
    expect("sent", limekeel_managed_take_sent(&managed, 4).taken.count == 2);
    expect("progress of the region", limekeel_managed_progress(&managed, 20).status == LIMEKEEL_OK);
    expect("30 are left", limekeel_managed_current(&managed).number == 30);
    struct limekeel_told_removed failed = limekeel_managed_remove_with(&managed, 9);
    expect("it fails", failed.removed.outcome == LIMEKEEL_FAILED && failed.removed.cause == 9);
    struct limekeel_told_changed bit = limekeel_managed_user_bit(&managed, 3, false);
    expect("a user bit", bit.changed.change == LIMEKEEL_UNWRITABLE && limekeel_managed_look(&managed).word == 8);
    expect("marks", limekeel_managed_set_marks(&managed, 5, 4).status == LIMEKEEL_BAD_MARKS &&
                        limekeel_managed_set_marks(&managed, 1, 2).status == LIMEKEEL_OK);
    is_written(limekeel_managed_write(&managed, "last", 4), 3);
    expect("flushed too", limekeel_managed_flush(&managed).flushed.status == LIMEKEEL_OK);
    is_written(limekeel_managed_write(&managed, "not flushed", 11), 4);
    adds_up(&managed);
    expect("asked", !limekeel_managed_finish(&managed).holds);
    struct limekeel_told_taken flushed = limekeel_managed_fail_flushed(&managed, 3, false);
    expect("the flushed one fails", flushed.taken.count == 1 && !flushed.finished);
    struct limekeel_told_taken left = limekeel_managed_give_up(&managed, 3);
    expect("at the deadline the last", left.taken.count == 1 && left.taken.from == 4 && left.finished);
    expect("closed", limekeel_managed_give_up(&managed, 3).taken.status == LIMEKEEL_CLOSED &&
                         limekeel_managed_write(&managed, "x", 1).status == LIMEKEEL_CLOSED);
    struct limekeel_numbers n = limekeel_managed_numbers(&managed);
    expect("each number", same(n.accepted, 5, 5 * OVERHEAD + 4 + 4 + 4 + 11) && same(n.sent, 1, OVERHEAD + 4) &&
                              same(n.cancelled, 1, OVERHEAD + 4) && same(n.failed, 3, 3 * OVERHEAD + 15) && same(n.pending, 0, 0));
    expect("freed", limekeel_managed_free(&managed) == LIMEKEEL_OK && limekeel_block_free(&block) == LIMEKEEL_OK);
}

/* A socket takes it all, and the last sending tells the end. */
static void sends(void)
{
    struct limekeel_managed managed = opened(1u << 30, 10, 1, 0);
    int pair[2];
    expect("a pair of sockets", socketpair(AF_UNIX, SOCK_STREAM, 0, pair) == 0);
    static uint8_t bytes[1 << 20], back[1 << 20];
    for (size_t at = 0; at < sizeof(bytes); at++)
        bytes[at] = (uint8_t)(at * 7 + at / 251);
    is_written(limekeel_managed_write(&managed, bytes, sizeof(bytes)), 0);
    expect("flushed", limekeel_managed_flush(&managed).flushed.count == 1);
    expect("asked", !limekeel_managed_finish(&managed).holds);
    size_t came = 0, sent = 0;
    for (bool finished = false; came < sizeof(bytes);) {
        struct limekeel_told_sent told = limekeel_managed_send(&managed, pair[0], 16);
        expect("it is sent", told.sent.status == LIMEKEEL_OK && told.sent.ending != LIMEKEEL_ENDED_BROKEN);
        sent += told.sent.bytes;
        expect("the end is told with the last byte, once", told.finished == (!finished && sent == sizeof(bytes)));
        finished = finished || told.finished;
        ssize_t got = read(pair[1], back + came, sizeof(back) - came);
        expect("it comes", got > 0);
        came += (size_t)got;
    }
    expect("each byte", memcmp(bytes, back, sizeof(bytes)) == 0);
    is_written((struct limekeel_written){LIMEKEEL_OK, 0, 0}, 0);
    expect("a peer that is gone", close(pair[1]) == 0);
    adds_up(&managed);
    expect("freed", limekeel_managed_free(&managed) == LIMEKEEL_OK && close(pair[0]) == 0);
    managed = opened(1u << 20, 10, 1, 0);
    expect("another pair", socketpair(AF_UNIX, SOCK_STREAM, 0, pair) == 0 && close(pair[1]) == 0);
    is_written(limekeel_managed_write(&managed, "x", 1), 0);
    expect("flushed", limekeel_managed_flush(&managed).flushed.count == 1);
    struct limekeel_told_sent told = limekeel_managed_send(&managed, pair[0], 1);
    expect("is told as broken", told.sent.ending == LIMEKEEL_ENDED_BROKEN && told.sent.error != 0 && !told.finished);
    expect("freed too", limekeel_managed_free(&managed) == LIMEKEEL_OK && close(pair[0]) == 0);
}

int main(void)
{
    holds_nothing();
    ends_in_order();
    is_full();
    stalls();
    stops();
    counts();
    sends();
    puts("a managed connection: the end once, the limit, a stall, and numbers that add up");
    return 0;
}
