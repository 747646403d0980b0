/*
 * A connection that four threads write to and one sends from. Each writer has a handle of its own, writes copies and blocks
 * of many lengths, takes some promises back, and stops while the connection is unwritable; the transport offers what is
 * flushed to one end of a socket pair. From the other end main reads all, and compares every byte: of each writer the
 * messages come in order, each once and whole, but for those that were cancelled in time. First each status is asked for,
 * LIMEKEEL_BUSY from within the allocation of a list, which is made under the lock.
 */
#include <errno.h>
#include <pthread.h>
#include <sched.h>
#include <stdio.h>
#include <stdlib.h>
#include <string.h>
#include <sys/socket.h>
#include <sys/uio.h>
#include <unistd.h>

#include "limekeel.h"

#define WRITERS 4
#define MOST 4000
#define HEAD 8

static uint64_t messages = 3000;
static struct limekeel_transport transport = LIMEKEEL_TRANSPORT;

static void expect(const char *what, bool holds)
{
    if (!holds) {
        fprintf(stderr, "%s\n", what);
        exit(1);
    }
}

/* A heap that makes one call of another handle from within an allocation. */
static _Thread_local struct limekeel_shared *meanwhile;
static _Thread_local uint32_t told;
static _Thread_local struct limekeel_look_told told_of_a_look;
static _Thread_local struct limekeel_promise_told told_of_a_promise;
static _Thread_local struct limekeel_written_and_flushed told_of_both;
static _Thread_local uint32_t told_of_marks;
static uint8_t nowhere;

struct limekeel_memory limekeel_alloc(size_t size, size_t align)
{
    (void)align;
    if (meanwhile != NULL) {
        struct limekeel_shared *shared = meanwhile;
        meanwhile = NULL;
        told = limekeel_shared_flush(shared).status;
        told_of_a_look = limekeel_shared_look(shared);
        told_of_a_promise = limekeel_shared_promise(shared, 0);
        told_of_both = limekeel_shared_write_and_flush(shared, "lost", 4);
        told_of_marks = limekeel_shared_set_marks(shared, 1, 2);
    }
    uint8_t *at = malloc(size > 0 ? size : 1);
    return (struct limekeel_memory){at != NULL, at != NULL ? at : &nowhere};
}

struct limekeel_memory limekeel_realloc(uint8_t *at, size_t kept, size_t size, size_t align)
{
    (void)kept;
    (void)align;
    uint8_t *moved = realloc(at, size > 0 ? size : 1);
    return (struct limekeel_memory){moved != NULL, moved != NULL ? moved : at};
}

void limekeel_dealloc(uint8_t *at)
{
    free(at);
}

static const uint8_t many[3000] = {1, 2, 3};

/* The statuses of handles that own nothing, and of those that do. */
static void statuses(void)
{
    struct limekeel_shared none = LIMEKEEL_SHARED, one = LIMEKEEL_SHARED, two = LIMEKEEL_SHARED;
    struct limekeel_transport alone = LIMEKEEL_TRANSPORT;
    struct limekeel_block block = LIMEKEEL_BLOCK;
    struct limekeel_piece piece = {(const uint8_t *)"", 77};
    expect("another of none", limekeel_shared_another(&none, &one) == LIMEKEEL_NOT_OPEN);
    expect("another of no transport", limekeel_transport_another(&alone, &one) == LIMEKEEL_NOT_OPEN);
    expect("free of none", limekeel_shared_free(&none) == LIMEKEEL_NOT_OPEN);
    expect("free of no transport", limekeel_transport_free(&alone) == LIMEKEEL_NOT_OPEN);
    expect("write to none", limekeel_shared_write(&none, "", 0).status == LIMEKEEL_NOT_OPEN);
    expect("block to none", limekeel_shared_write_block(&none, &block).status == LIMEKEEL_NOT_OPEN);
    expect("flush of none", limekeel_shared_flush(&none).status == LIMEKEEL_NOT_OPEN);
    expect("cancel of none", limekeel_shared_cancel(&none, 0).status == LIMEKEEL_NOT_OPEN);
    expect("close of none", limekeel_shared_close(&none, 1).status == LIMEKEEL_NOT_OPEN);
    expect("lent to none", limekeel_shared_write_lent(&none, "", 0).status == LIMEKEEL_NOT_OPEN);
    expect("look at none", limekeel_shared_look(&none).status == LIMEKEEL_NOT_OPEN);
    expect("promise of none", limekeel_shared_promise(&none, 0).status == LIMEKEEL_NOT_OPEN);
    expect("glance at none", limekeel_shared_glance(&none).status == LIMEKEEL_NOT_OPEN);
    expect("both to none", limekeel_shared_write_and_flush(&none, "", 0).status == LIMEKEEL_NOT_OPEN);
    expect("many to none", limekeel_shared_write_and_flush(&none, many, sizeof many).status == LIMEKEEL_NOT_OPEN);
    expect("many to none", limekeel_shared_write(&none, many, sizeof many).status == LIMEKEEL_NOT_OPEN);
    expect("both of a block", limekeel_shared_write_and_flush_block(&none, &block).status == LIMEKEEL_NOT_OPEN);
    expect("region to none", limekeel_shared_write_region(&none, 1).status == LIMEKEEL_NOT_OPEN);
    expect("other to none", limekeel_shared_write_other(&none, 1).status == LIMEKEEL_NOT_OPEN);
    expect("bit of none", limekeel_shared_user_bit(&none, 1, true).status == LIMEKEEL_NOT_OPEN);
    expect("marks of none", limekeel_shared_set_marks(&none, 2, 1) == LIMEKEEL_NOT_OPEN);
    expect("remove from none", limekeel_transport_remove(&alone).status == LIMEKEEL_NOT_OPEN);
    expect("fail of none", limekeel_transport_remove_with(&alone, 1).status == LIMEKEEL_NOT_OPEN);
    expect("progress of none", limekeel_transport_progress(&alone, 1) == LIMEKEEL_NOT_OPEN);
    expect("current of none", limekeel_transport_current(&alone).status == LIMEKEEL_NOT_OPEN);
    expect("fail all of none", limekeel_transport_fail_flushed(&alone, 1, true).status == LIMEKEEL_NOT_OPEN);
    struct limekeel_truth writable = limekeel_shared_is_writable(&none);
    expect("none is not writable", writable.status == LIMEKEEL_NOT_OPEN && !writable.holds);
    expect("gather of none", limekeel_transport_gather_pieces(&alone, &piece, 1, 9).status == LIMEKEEL_NOT_OPEN);
    expect("take of none", limekeel_transport_take_sent(&alone, 0).status == LIMEKEEL_NOT_OPEN);
    expect("give up of none", limekeel_transport_give_up(&alone, 1).status == LIMEKEEL_NOT_OPEN);
    expect("an unknown size", limekeel_shared_open(&alone, 1, 2, 0, 65536) == LIMEKEEL_BAD_ESTIMATE);
    expect("marks", limekeel_shared_open(&alone, 2, 1, 0, 0) == LIMEKEEL_BAD_MARKS);
    expect("another edge", limekeel_shared_open_for(&alone, LIMEKEEL_EDGE + 1, 1, 2, 0, 0) == LIMEKEEL_OTHER_VERSION);
    expect("open", limekeel_shared_open(&alone, 100, 200, 96, 8) == LIMEKEEL_OK);
    expect("open twice", limekeel_shared_open(&alone, 100, 200, 96, 8) == LIMEKEEL_ALREADY_OPEN);
    expect("another", limekeel_transport_another(&alone, &one) == LIMEKEEL_OK);
    expect("another twice", limekeel_transport_another(&alone, &one) == LIMEKEEL_ALREADY_OPEN);
    expect("a third", limekeel_shared_another(&one, &two) == LIMEKEEL_OK);
    expect("no block", limekeel_shared_write_block(&one, &block).status == LIMEKEEL_NO_BLOCK);
    expect("no block", limekeel_shared_write_and_flush_block(&one, &block).status == LIMEKEEL_NO_BLOCK);
    expect("write", limekeel_shared_write(&one, "first", 5).id == 0);
    expect("it changes writability", limekeel_shared_write(&two, "second", 6).change == LIMEKEEL_UNWRITABLE);
    expect("glance", limekeel_shared_glance(&one).total == 203 && limekeel_shared_glance(&one).word == 1);
    struct limekeel_look_told look = limekeel_shared_look(&one);
    expect("look", look.status == LIMEKEEL_OK && look.total == 203 && look.word == 1 && look.size == 0);
    expect("before it is writable", look.before_unwritable == 0 && look.before_writable == 104 && look.current_progress == 0);
    struct limekeel_seat_told seat = limekeel_shared_held(&two);
    expect("within no budget", seat.status == LIMEKEEL_OK && !seat.is_within && seat.held == 0);
    expect("not writable", !limekeel_shared_is_writable(&two).holds);
    expect("cancel", limekeel_shared_cancel(&one, 0).in_time && !limekeel_shared_cancel(&two, 0).in_time);
    expect("no promise", limekeel_shared_cancel(&one, 2).status == LIMEKEEL_UNKNOWN_PROMISE);
    expect("nothing is flushed", limekeel_transport_gather_pieces(&alone, &piece, 1, 9).count == 0 && piece.length == 77);
    expect("flush", limekeel_shared_flush(&two).count == 2);
    expect("two are flushed", limekeel_shared_look(&one).size == 2);
    meanwhile = &two;
    expect("gather", limekeel_transport_gather_pieces(&alone, &piece, 1, 9).count == 1);
    expect("the lock is had meanwhile", told == LIMEKEEL_BUSY);
    expect("and for a look", told_of_a_look.status == LIMEKEEL_BUSY && told_of_a_look.total == 0 && told_of_a_look.size == 0);
    expect("and for a promise", told_of_a_promise.status == LIMEKEEL_BUSY && told_of_a_promise.state == LIMEKEEL_UNKNOWN);
    expect("and for both", told_of_both.status == LIMEKEEL_BUSY && told_of_both.id == 0 && told_of_both.count == 0);
    expect("and for marks", told_of_marks == LIMEKEEL_BUSY);
    expect("the bytes", piece.length == 6 && memcmp(piece.at, "second", 6) == 0);
    expect("too many", limekeel_transport_take_sent(&alone, 7).status == LIMEKEEL_TOO_MANY_BYTES);
    expect("flushed is left", limekeel_shared_close(&one, 5).status == LIMEKEEL_FLUSHED_LEFT);
    struct limekeel_taken taken = limekeel_transport_take_sent(&alone, 6);
    expect("take", taken.count == 2 && taken.outcome == LIMEKEEL_SUCCESS && taken.change == LIMEKEEL_WRITABLE);
    static const char lent[] = "lent";
    expect("writable", limekeel_shared_is_writable(&two).status == LIMEKEEL_OK && limekeel_shared_is_writable(&two).holds);
    expect("lend", limekeel_shared_write_lent(&one, lent, 4).id == 2 && limekeel_shared_flush(&one).count == 1);
    expect("gather", limekeel_transport_gather_pieces(&alone, &piece, 1, 9).count == 1);
    expect("where it lies", piece.at == (const uint8_t *)lent && piece.length == 4);
    expect("take", limekeel_transport_take_sent(&alone, 4).count == 1);
    expect("write", limekeel_shared_write(&one, "fourth", 6).id == 3);
    taken = limekeel_shared_close(&one, 5);
    expect("close", taken.count == 1 && taken.outcome == LIMEKEEL_FAILED && taken.cause == 5 && taken.from == 3);
    expect("closed", limekeel_transport_give_up(&alone, 6).status == LIMEKEEL_CLOSED);
    expect("free", limekeel_transport_free(&alone) == LIMEKEEL_OK && limekeel_shared_free(&two) == LIMEKEEL_OK);
    expect("the last", limekeel_shared_glance(&one).total == 0 && limekeel_shared_free(&one) == LIMEKEEL_OK);
}

/* What is pending is given up. */
static void giving_up(void)
{
    struct limekeel_transport alone = LIMEKEEL_TRANSPORT;
    struct limekeel_shared one = LIMEKEEL_SHARED;
    expect("open", limekeel_shared_open(&alone, 100, 200, 96, 8) == LIMEKEEL_OK);
    expect("another", limekeel_transport_another(&alone, &one) == LIMEKEEL_OK);
    for (uint64_t id = 0; id < 3; id++)
        expect("write", limekeel_shared_write(&one, "lost", 4).id == id && (id > 1 || limekeel_shared_flush(&one).count == 1));
    struct limekeel_taken taken = limekeel_transport_give_up(&alone, 9);
    expect("give up", taken.count == 3 && taken.outcome == LIMEKEEL_FAILED && taken.cause == 9 && taken.to == 3);
    expect("closed", limekeel_shared_write(&one, "late", 4).status == LIMEKEEL_CLOSED);
    expect("free", limekeel_shared_free(&one) == LIMEKEEL_OK && limekeel_transport_free(&alone) == LIMEKEEL_OK);
}

/* Each write with the flush behind it: few bytes, many, and a block. */
static void both_at_once(void)
{
    struct limekeel_transport alone = LIMEKEEL_TRANSPORT;
    struct limekeel_shared one = LIMEKEEL_SHARED;
    struct limekeel_block block = LIMEKEEL_BLOCK;
    struct limekeel_piece pieces[4];
    expect("open", limekeel_shared_open(&alone, 3000, 3300, 96, 8) == LIMEKEEL_OK);
    expect("another", limekeel_transport_another(&alone, &one) == LIMEKEEL_OK);
    expect("write", limekeel_shared_write(&one, many, sizeof many).id == 0);
    struct limekeel_written_and_flushed both = limekeel_shared_write_and_flush(&one, "few", 3);
    expect("both are flushed", both.status == LIMEKEEL_OK && both.id == 1 && both.count == 2);
    expect("nothing changed", both.change == LIMEKEEL_UNCHANGED && both.flush_change == LIMEKEEL_UNCHANGED);
    expect("taken back", limekeel_shared_write(&one, "gone", 4).change == LIMEKEEL_UNCHANGED && limekeel_shared_cancel(&one, 2).in_time);
    both = limekeel_shared_write_and_flush(&one, many, sizeof many);
    expect("the write changes it", both.change == LIMEKEEL_UNWRITABLE && both.id == 3 && both.count == 2);
    expect("a block", limekeel_block_new(&block, "block", 5) == LIMEKEEL_OK);
    both = limekeel_shared_write_and_flush_block(&one, &block);
    expect("of a block", both.status == LIMEKEEL_OK && both.id == 4 && both.count == 1 && both.change == LIMEKEEL_UNCHANGED);
    expect("gather", limekeel_transport_gather_pieces(&alone, pieces, 4, UINT32_MAX).count == 4);
    expect("many", pieces[0].length == sizeof many && memcmp(pieces[0].at, many, sizeof many) == 0);
    expect("few", pieces[1].length == 3 && memcmp(pieces[1].at, "few", 3) == 0);
    expect("many", pieces[2].length == sizeof many && memcmp(pieces[2].at, many, sizeof many) == 0);
    expect("a block", pieces[3].length == 5 && memcmp(pieces[3].at, "block", 5) == 0);
    expect("take", limekeel_transport_take_sent(&alone, 2 * sizeof many + 8).count == 5);
    expect("write", limekeel_shared_write(&one, many, sizeof many).change == LIMEKEEL_UNCHANGED);
    expect("taken back", limekeel_shared_cancel(&one, 5).in_time);
    both = limekeel_shared_write_and_flush(&one, many, 300);
    expect("the flush turns it back", both.change == LIMEKEEL_UNWRITABLE && both.flush_change == LIMEKEEL_WRITABLE && both.count == 2);
    expect("give up", limekeel_transport_give_up(&alone, 1).count == 2);
    both = limekeel_shared_write_and_flush(&one, "late", 4);
    expect("closed", both.status == LIMEKEEL_CLOSED && both.id == 0 && both.count == 0);
    expect("closed", limekeel_shared_write_and_flush(&one, many, sizeof many).status == LIMEKEEL_CLOSED);
    expect("closed", limekeel_shared_write_and_flush_block(&one, &block).status == LIMEKEEL_CLOSED);
    expect("free", limekeel_block_free(&block) == LIMEKEEL_OK);
    expect("free", limekeel_transport_free(&alone) == LIMEKEEL_OK && limekeel_shared_free(&one) == LIMEKEEL_OK);
}

/* Regions and other messages, bits, marks and promises. */
static void other_commands(void)
{
    struct limekeel_transport alone = LIMEKEEL_TRANSPORT;
    struct limekeel_shared one = LIMEKEEL_SHARED;
    expect("open", limekeel_shared_open(&alone, 100, 200, 96, 8) == LIMEKEEL_OK);
    expect("another", limekeel_transport_another(&alone, &one) == LIMEKEEL_OK);
    expect("nothing in front", limekeel_transport_current(&alone).kind == LIMEKEEL_CURRENT_NOTHING);
    expect("no progress", limekeel_transport_progress(&alone, 1) == LIMEKEEL_NOTHING_FLUSHED);
    expect("nothing to remove", !limekeel_transport_remove(&alone).any);
    expect("a bit", limekeel_shared_user_bit(&one, 3, false).change == LIMEKEEL_UNWRITABLE);
    expect("the word", limekeel_shared_glance(&one).word == 8);
    expect("the bit again", limekeel_shared_user_bit(&one, 3, true).change == LIMEKEEL_WRITABLE);
    expect("no bit", limekeel_shared_user_bit(&one, 32, true).status == LIMEKEEL_BAD_INDEX);
    expect("bad marks", limekeel_shared_set_marks(&one, 2, 1) == LIMEKEEL_BAD_MARKS);
    expect("marks", limekeel_shared_set_marks(&one, 400, 500) == LIMEKEEL_OK);
    expect("a region", limekeel_shared_write_region(&one, 1000).id == 0);
    expect("another", limekeel_shared_write_other(&one, 77).id == 1);
    expect("too long", limekeel_shared_write_region(&one, UINT64_MAX).status == LIMEKEEL_OVERSIZE);
    expect("they count", limekeel_shared_glance(&one).total == 2 * 96 + 8);
    struct limekeel_promise_told promise = limekeel_shared_promise(&one, 1);
    expect("it waits", promise.status == LIMEKEEL_OK && promise.state == LIMEKEEL_WAITING);
    expect("none", limekeel_shared_promise(&one, 2).state == LIMEKEEL_UNKNOWN);
    expect("and a third", limekeel_shared_write_and_flush(&one, "third", 5).change == LIMEKEEL_UNCHANGED);
    expect("it is fixed", limekeel_shared_promise(&one, 1).state == LIMEKEEL_FIXED);
    struct limekeel_current_told current = limekeel_transport_current(&alone);
    expect("a region", current.kind == LIMEKEEL_CURRENT_REGION && current.number == 1000);
    expect("progress", limekeel_transport_progress(&alone, 400) == LIMEKEEL_OK);
    expect("what is left", limekeel_transport_current(&alone).number == 600);
    struct limekeel_removed removed = limekeel_transport_remove(&alone);
    expect("removed", removed.any && removed.settled && removed.id == 0 && removed.outcome == LIMEKEEL_SUCCESS);
    current = limekeel_transport_current(&alone);
    expect("another", current.kind == LIMEKEEL_CURRENT_OTHER && current.number == 77);
    removed = limekeel_transport_remove_with(&alone, 9);
    expect("failed", removed.any && removed.id == 1 && removed.outcome == LIMEKEEL_FAILED && removed.cause == 9);
    expect("a block", limekeel_transport_current(&alone).kind == LIMEKEEL_CURRENT_BLOCK);
    expect("gone", limekeel_shared_promise(&one, 0).state == LIMEKEEL_SETTLED_BEFORE);
    struct limekeel_taken failed = limekeel_transport_fail_flushed(&alone, 4, false);
    expect("failed", failed.count == 1 && failed.outcome == LIMEKEEL_FAILED && failed.cause == 4 && failed.to == 3);
    expect("free", limekeel_transport_free(&alone) == LIMEKEEL_OK && limekeel_shared_free(&one) == LIMEKEEL_OK);
}

struct writer {
    struct limekeel_shared shared;
    uint8_t number;
    bool *cancelled;
    uint64_t busy;
};

/* The length of a message, its head included. */
static size_t length_of(uint8_t writer, uint64_t at)
{
    return HEAD + (size_t)((at * 2654435761u + writer * 97u) % (at % 50 == 0 ? MOST : 60));
}

/* A message: who wrote it, which one it is, how long it is, and bytes that tell where they stand. */
static size_t message_of(uint8_t writer, uint64_t at, uint8_t *bytes)
{
    size_t length = length_of(writer, at);
    bytes[0] = writer;
    bytes[1] = (uint8_t)(length & 255);
    bytes[2] = (uint8_t)(length >> 8);
    for (int place = 3; place < HEAD; place++)
        bytes[place] = (uint8_t)(at >> (8 * (place - 3)));
    for (size_t place = HEAD; place < length; place++)
        bytes[place] = (uint8_t)(writer * 31 + at * 7 + place);
    return length;
}

/* Writes and flushes, and returns the promise. */
static uint64_t written_and_flushed(struct writer *writer, const uint8_t *bytes, size_t length)
{
    struct limekeel_written_and_flushed answer;
    while ((answer = limekeel_shared_write_and_flush(&writer->shared, bytes, length)).status == LIMEKEEL_BUSY) {
        writer->busy++;
        sched_yield();
    }
    expect("write and flush", answer.status == LIMEKEEL_OK && answer.count > 0);
    return answer.id;
}

static uint64_t written(struct writer *writer, const uint8_t *bytes, size_t length, bool as_block)
{
    struct limekeel_block block = LIMEKEEL_BLOCK;
    struct limekeel_written answer;
    if (as_block)
        expect("a block", limekeel_block_new(&block, bytes, length) == LIMEKEEL_OK);
    for (;;) {
        answer = as_block ? limekeel_shared_write_block(&writer->shared, &block)
                          : limekeel_shared_write(&writer->shared, bytes, length);
        if (answer.status != LIMEKEEL_BUSY)
            break;
        writer->busy++;
        sched_yield();
    }
    if (as_block)
        expect("its end", limekeel_block_free(&block) == LIMEKEEL_OK);
    expect("write", answer.status == LIMEKEEL_OK);
    return answer.id;
}

static void flushed(struct writer *writer)
{
    struct limekeel_flushed answer;
    while ((answer = limekeel_shared_flush(&writer->shared)).status == LIMEKEEL_BUSY) {
        writer->busy++;
        sched_yield();
    }
    expect("flush", answer.status == LIMEKEEL_OK);
}

static bool cancelled(struct writer *writer, uint64_t id)
{
    struct limekeel_cancelled answer;
    while ((answer = limekeel_shared_cancel(&writer->shared, id)).status == LIMEKEEL_BUSY) {
        writer->busy++;
        sched_yield();
    }
    expect("cancel", answer.status == LIMEKEEL_OK);
    return answer.in_time;
}

static void *write_all(void *given)
{
    struct writer *writer = given;
    uint8_t bytes[MOST + HEAD];
    for (uint64_t at = 0; at < messages; at++) {
        size_t length = message_of(writer->number, at, bytes);
        uint64_t id = at % 5 == 1 ? written_and_flushed(writer, bytes, length) : written(writer, bytes, length, at % 3 == 0);
        writer->cancelled[at] = at % 7 == 0 && cancelled(writer, id);
        expect("what is flushed is not taken back", at % 5 != 1 || !writer->cancelled[at]);
        if (at % 4 == 0 || at + 1 == messages)
            flushed(writer);
        while (limekeel_shared_glance(&writer->shared).word != 0) {
            flushed(writer);
            sched_yield();
        }
    }
    expect("free", limekeel_shared_free(&writer->shared) == LIMEKEEL_OK);
    return NULL;
}

static int ends[2];
static uint64_t gone, turns_of_the_transport;

static void *send_all(void *given)
{
    (void)given;
    struct limekeel_piece pieces[16];
    while (gone < WRITERS * messages) {
        struct limekeel_laid laid = limekeel_transport_gather_pieces(&transport, pieces, 16, 20000);
        if (laid.status == LIMEKEEL_BUSY) {
            sched_yield();
            continue;
        }
        expect("gather", laid.status == LIMEKEEL_OK && laid.count <= 16);
        ssize_t count = 0;
        if (laid.count > 0)
            count = writev(ends[0], (struct iovec *)pieces, (int)laid.count);
        expect("the socket", count >= 0);
        struct limekeel_taken taken;
        while ((taken = limekeel_transport_take_sent(&transport, (uint64_t)count)).status == LIMEKEEL_BUSY)
            sched_yield();
        expect("what was gathered stays", taken.status == LIMEKEEL_OK && taken.from == gone);
        gone = taken.to;
        turns_of_the_transport++;
        if (laid.count == 0)
            sched_yield();
    }
    close(ends[0]);
    return NULL;
}

/* All that comes, up to the end. */
static uint8_t *read_all(size_t *length)
{
    size_t room = 1 << 16;
    uint8_t *bytes = malloc(room);
    *length = 0;
    for (;;) {
        expect("room", bytes != NULL);
        ssize_t count = read(ends[1], bytes + *length, room - *length);
        expect("read", count >= 0);
        if (count == 0)
            return bytes;
        *length += (size_t)count;
        expect("no more than was written", *length <= WRITERS * messages * (MOST + HEAD));
        if (*length == room) {
            uint8_t *longer = realloc(bytes, room *= 2);
            expect("room", longer != NULL);
            bytes = longer;
        }
    }
}

/* Of each writer the messages come in order, but for those that were cancelled. */
static uint64_t compared(const uint8_t *bytes, size_t length, struct writer *writers)
{
    uint64_t next[WRITERS] = {0}, came = 0;
    uint8_t wanted[MOST + HEAD];
    for (size_t place = 0; place < length; came++) {
        uint8_t by = bytes[place];
        expect("a writer", by < WRITERS);
        while (next[by] < messages && writers[by].cancelled[next[by]])
            next[by]++;
        expect("a message more", next[by] < messages);
        size_t size = message_of(by, next[by]++, wanted);
        expect("every byte", size <= length - place && memcmp(bytes + place, wanted, size) == 0);
        place += size;
    }
    for (int by = 0; by < WRITERS; by++) {
        while (next[by] < messages && writers[by].cancelled[next[by]])
            next[by]++;
        expect("all messages", next[by] == messages);
    }
    return came;
}

int main(int count, char **words)
{
    if (count > 1)
        messages = strtoull(words[1], NULL, 10);
    statuses();
    giving_up();
    both_at_once();
    other_commands();
    static struct writer writers[WRITERS];
    pthread_t threads[WRITERS], sender;
    expect("a pair", socketpair(AF_UNIX, SOCK_STREAM, 0, ends) == 0);
    expect("open", limekeel_shared_open(&transport, 4000, 8000, 96, 8) == LIMEKEEL_OK);
    for (int at = 0; at < WRITERS; at++) {
        writers[at].number = (uint8_t)at;
        writers[at].cancelled = calloc(messages, sizeof(bool));
        expect("another", (at == 0 ? limekeel_transport_another(&transport, &writers[0].shared)
                                   : limekeel_shared_another(&writers[at - 1].shared, &writers[at].shared)) == LIMEKEEL_OK);
    }
    for (int at = 0; at < WRITERS; at++)
        expect("a thread", pthread_create(&threads[at], NULL, write_all, &writers[at]) == 0);
    expect("a thread", pthread_create(&sender, NULL, send_all, NULL) == 0);
    size_t length;
    uint8_t *bytes = read_all(&length);
    uint64_t busy = 0;
    for (int at = 0; at < WRITERS; at++) {
        expect("its end", pthread_join(threads[at], NULL) == 0);
        busy += writers[at].busy;
    }
    expect("its end", pthread_join(sender, NULL) == 0);
    uint64_t came = compared(bytes, length, writers);
    printf("%llu messages, %zu bytes, %llu cancelled, %llu turns, %llu times busy\n", (unsigned long long)came, length,
           (unsigned long long)(WRITERS * messages - came), (unsigned long long)turns_of_the_transport,
           (unsigned long long)busy);
    for (int at = 0; at < WRITERS; at++)
        free(writers[at].cancelled);
    free(bytes);
    expect("free", limekeel_transport_free(&transport) == LIMEKEEL_OK);
    close(ends[1]);
    return 0;
}
