/*
 * Memory that is lent: no call of the archive reads it, it is offered where it lies, and it may go as soon as a call has told
 * that its message is gone. Each message lies in pages of its own, which nobody can touch while calls run, and which are given
 * back at once.
 */
#define _GNU_SOURCE
#include <stdio.h>
#include <stdlib.h>
#include <string.h>
#include <sys/mman.h>
#include <sys/socket.h>
#include <unistd.h>

#include "limekeel.h"

#define LONG 10000u
#define MESSAGES 12
#define MOST 16

static uint8_t *pages[MOST]; /* of the message with this promise */
static size_t asked;         /* bytes that were asked of the heap */

static struct limekeel_memory memory_at(void *at, size_t size)
{
    struct limekeel_memory memory = {true, at};
    asked += size;
    if (!at)
        abort();
    return memory;
}

struct limekeel_memory limekeel_alloc(size_t size, size_t align)
{
    (void)align;
    return memory_at(malloc(size), size);
}

struct limekeel_memory limekeel_realloc(uint8_t *at, size_t kept, size_t size, size_t align)
{
    (void)kept;
    (void)align;
    return memory_at(realloc(at, size), size);
}

void limekeel_dealloc(uint8_t *at)
{
    free(at);
}

static void expect(const char *what, bool holds)
{
    if (!holds) {
        fprintf(stderr, "not so: %s\n", what);
        exit(1);
    }
}

static uint8_t byte_of(uint64_t id, size_t at)
{
    return (uint8_t)(id * 37 + at % 251);
}

static void may_be_read(uint64_t id, bool may)
{
    expect("mprotect", mprotect(pages[id], LONG, may ? PROT_READ : PROT_NONE) == 0);
}

/* Lends the pages of the next message, which nobody can touch from then on. */
static void lend(struct limekeel_connection *connection, uint64_t id)
{
    pages[id] = mmap(NULL, LONG, PROT_READ | PROT_WRITE, MAP_PRIVATE | MAP_ANONYMOUS, -1, 0);
    expect("mmap", pages[id] != MAP_FAILED);
    for (size_t at = 0; at < LONG; at++)
        pages[id][at] = byte_of(id, at);
    may_be_read(id, false);
    struct limekeel_written written = limekeel_write_lent(connection, pages[id], LONG);
    expect("a lent message is accepted", written.status == LIMEKEEL_OK && written.id == id);
}

/* These messages are gone, and their pages with them. */
static void gone(uint64_t from, uint64_t to)
{
    for (; from < to; from++)
        expect("munmap", munmap(pages[from], LONG) == 0);
}

static void are_gone(struct limekeel_taken taken, uint64_t from, uint64_t to)
{
    expect("these are told as gone", taken.status == LIMEKEEL_OK && taken.from == from && taken.to == to);
    gone(from, to);
}

static void opened(struct limekeel_connection *connection)
{
    *connection = (struct limekeel_connection)LIMEKEEL_CONNECTION;
    expect("open", limekeel_open(connection, 32768, 65536, 96, 8) == LIMEKEEL_OK);
}

/* Each call that takes messages away, while no page can be touched. The sixth message is cancelled. */
static void untouched(void)
{
    struct limekeel_connection connection;
    struct limekeel_piece pieces[MESSAGES];
    opened(&connection);
    asked = 0;
    for (uint64_t id = 0; id < MESSAGES; id++)
        lend(&connection, id);
    expect("nothing is copied", asked < LONG);
    expect("each counts its bytes", limekeel_look(&connection).total == MESSAGES * (LONG + 96));
    expect("cancel", limekeel_cancel(&connection, 5).in_time);
    expect("flush", limekeel_flush(&connection).count == MESSAGES);
    expect("gather", limekeel_gather(&connection, pieces, MESSAGES, UINT32_MAX).count == MESSAGES - 1);
    for (size_t at = 0; at < MESSAGES - 1; at++)
        expect("each lies where it was lent", pieces[at].at == pages[at < 5 ? at : at + 1] && pieces[at].length == LONG);
    are_gone(limekeel_take_sent(&connection, LONG + 10), 0, 1);
    expect("gather", limekeel_gather(&connection, pieces, 1, UINT32_MAX).count == 1);
    expect("a part is sent", pieces[0].at == pages[1] + 10 && pieces[0].length == LONG - 10);
    struct limekeel_removed removed = limekeel_remove(&connection);
    expect("remove", removed.any && removed.id == 1);
    gone(1, 2);
    removed = limekeel_remove_with(&connection, 3);
    expect("remove_with", removed.any && removed.id == 2);
    gone(2, 3);
    are_gone(limekeel_take_sent(&connection, 2 * LONG), 3, 6); /* with the one that was cancelled */
    expect("shrink", limekeel_shrink_to_fit(&connection) == LIMEKEEL_OK);
    expect("gather", limekeel_gather(&connection, pieces, MESSAGES, UINT32_MAX).count == MESSAGES - 6);
    expect("the next is in front", pieces[0].at == pages[6]);
    are_gone(limekeel_fail_flushed(&connection, 7, true), 6, MESSAGES);
    expect("nothing is gathered", limekeel_gather(&connection, pieces, MESSAGES, UINT32_MAX).count == 0);
    lend(&connection, MESSAGES);
    lend(&connection, MESSAGES + 1);
    are_gone(limekeel_close(&connection, 1), MESSAGES, MESSAGES + 2);
    expect("a closed one borrows nothing", limekeel_write_lent(&connection, "b", 1).status == LIMEKEEL_CLOSED);
    expect("free", limekeel_free(&connection) == LIMEKEEL_OK);
    expect("nor does one that is none", limekeel_write_lent(&connection, "b", 1).status == LIMEKEEL_NOT_OPEN);
}

/* A connection that is given up or freed lets go of all. */
static void ends(void)
{
    struct limekeel_connection connection;
    opened(&connection);
    lend(&connection, 0);
    expect("flush", limekeel_flush(&connection).count == 1);
    lend(&connection, 1);
    are_gone(limekeel_give_up(&connection, 1), 0, 2);
    expect("free", limekeel_free(&connection) == LIMEKEEL_OK);
    opened(&connection);
    lend(&connection, 0);
    expect("flush", limekeel_flush(&connection).count == 1);
    lend(&connection, 1);
    expect("free", limekeel_free(&connection) == LIMEKEEL_OK);
    gone(0, 2);
}

/* What may not be written is refused by its length alone; no byte may lie anywhere. */
static void lengths(void)
{
    struct limekeel_connection connection;
    opened(&connection);
    lend(&connection, 0);
    expect("more than a message may be", limekeel_write_lent(&connection, pages[0], 1u << 31).status == LIMEKEEL_OVERSIZE);
    expect("nothing at NULL", limekeel_write_lent(&connection, NULL, 0).id == 1);
    expect("flush", limekeel_flush(&connection).count == 2);
    struct limekeel_taken taken = limekeel_take_sent(&connection, LONG);
    expect("the empty one goes along", taken.from == 0 && taken.to == 2);
    gone(0, 1);
    expect("free", limekeel_free(&connection) == LIMEKEEL_OK);
}

/* Over a socket, between copies: each byte comes, and what is told as gone may go though the reader has not read. */
static void sent(void)
{
    int ends[2];
    static uint8_t came[3 * LONG + 6];
    expect("a pair", socketpair(AF_UNIX, SOCK_STREAM, 0, ends) == 0);
    struct limekeel_connection connection;
    opened(&connection);
    lend(&connection, 0);
    expect("a copy", limekeel_write(&connection, "copied", 6).id == 1);
    lend(&connection, 2);
    lend(&connection, 3);
    expect("flush", limekeel_flush(&connection).count == 4);
    for (uint64_t id = 0; id < 4; id++)
        if (id != 1)
            may_be_read(id, true);
    size_t read_so_far = 0;
    for (uint64_t left = 0; limekeel_look(&connection).size > 0;) {
        struct limekeel_sent told = limekeel_send(&connection, ends[0], 8);
        expect("send", told.status == LIMEKEEL_OK && told.ending != LIMEKEEL_ENDED_BROKEN && told.taken.from == left);
        for (; left < told.taken.to; left++)
            if (left != 1)
                gone(left, left + 1);
        for (uint64_t bytes = told.bytes; bytes > 0;) {
            ssize_t count = read(ends[1], came + read_so_far, bytes);
            expect("read", count > 0);
            read_so_far += (size_t)count;
            bytes -= (uint64_t)count;
        }
    }
    expect("as many bytes", read_so_far == sizeof came);
    for (size_t at = 0; at < sizeof came; at++) {
        size_t place = at < LONG ? at : at - LONG - 6;
        uint8_t wanted = at < LONG       ? byte_of(0, place)
                         : at < LONG + 6 ? (uint8_t)"copied"[at - LONG]
                         : place < LONG  ? byte_of(2, place)
                                         : byte_of(3, place - LONG);
        expect("each byte comes", came[at] == wanted);
    }
    expect("free", limekeel_free(&connection) == LIMEKEEL_OK);
    close(ends[0]);
    close(ends[1]);
}

int main(void)
{
    untouched();
    ends();
    lengths();
    sent();
    puts("what is lent is offered where it lies, and let go");
    return 0;
}
