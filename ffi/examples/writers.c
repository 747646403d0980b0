/*
 * Two threads write to one connection and a third sends: a handle for each, and an eventfd for each that sleeps.
 *
 * A writer that is told to stop sleeps until there is room; the sender sleeps until something is flushed, or its socket has
 * room. Main reads slowly at the other end. At the end each byte of each writer has come, in order. Exits 0 if so.
 */
#define _GNU_SOURCE
#include <errno.h>
#include <fcntl.h>
#include <poll.h>
#include <pthread.h>
#include <sched.h>
#include <stdio.h>
#include <stdlib.h>
#include <sys/eventfd.h>
#include <sys/socket.h>
#include <sys/uio.h>
#include <unistd.h>

#include "limekeel.h"

#define WRITERS 2
#define MESSAGES 20000u
#define LENGTH 64 /* the number of the writer, and then bytes that tell where they stand */

struct writer {
    struct limekeel_shared handle;
    uint8_t number;
    int room; /* an eventfd that the sender rings when there is room */
};

static struct writer writers[WRITERS];
static struct limekeel_transport transport = LIMEKEEL_TRANSPORT;
static int ends[2], work; /* a pair of sockets, and an eventfd that writers ring when they have flushed */

static void expect(const char *what, bool holds)
{
    if (!holds) {
        perror(what);
        exit(1);
    }
}

static void ring(int bell)
{
    uint64_t one = 1;
    expect("ring", write(bell, &one, sizeof one) == sizeof one);
}

/* Sleeps until a bell was rung since it was heard last. */
static void hear(int bell)
{
    uint64_t count;
    ssize_t got;
    while ((got = read(bell, &count, sizeof count)) < 0 && errno == EINTR)
        ;
    expect("hear", got == sizeof count);
}

static uint8_t byte_at(uint8_t writer, uint64_t place)
{
    return (uint8_t)(place * 131 + (place >> 8) + writer);
}

static void flush(struct limekeel_shared *handle)
{
    struct limekeel_flushed flushed;
    /* another thread has the lock, for less than a microsecond most often */
    while ((flushed = limekeel_shared_flush(handle)).status == LIMEKEEL_BUSY)
        sched_yield();
    expect("flush", flushed.status == LIMEKEEL_OK);
    if (flushed.count > 0)
        ring(work);
}

static void write_one(struct limekeel_shared *handle, const uint8_t *bytes)
{
    struct limekeel_written written;
    while ((written = limekeel_shared_write(handle, bytes, LENGTH)).status == LIMEKEEL_BUSY)
        sched_yield();
    expect("write", written.status == LIMEKEEL_OK);
}

/* The same with the flush behind it: one lock, and no message of the other writer between the two. */
static void write_and_flush(struct limekeel_shared *handle, const uint8_t *bytes)
{
    struct limekeel_written_and_flushed done;
    while ((done = limekeel_shared_write_and_flush(handle, bytes, LENGTH)).status == LIMEKEEL_BUSY)
        sched_yield();
    expect("write and flush", done.status == LIMEKEEL_OK);
    ring(work);
}

static void *write_all(void *given)
{
    struct writer *writer = given;
    uint8_t bytes[LENGTH] = {writer->number};
    uint64_t place = 0;
    for (uint32_t at = 0; at < MESSAGES; at++) {
        for (size_t each = 1; each < LENGTH; each++)
            bytes[each] = byte_at(writer->number, place++);
        /* a glance may be old, but not older than a ring that was heard */
        while (!limekeel_shared_is_writable(&writer->handle).holds) {
            flush(&writer->handle);
            hear(writer->room);
        }
        if (at % 8 == 7)
            write_and_flush(&writer->handle, bytes);
        else
            write_one(&writer->handle, bytes);
    }
    expect("free", limekeel_shared_free(&writer->handle) == LIMEKEEL_OK);
    return NULL;
}

/* Takes away what the socket took, and rings the writers if that made room. */
static uint64_t take(uint64_t count)
{
    struct limekeel_taken taken;
    while ((taken = limekeel_transport_take_sent(&transport, count)).status == LIMEKEEL_BUSY)
        sched_yield();
    expect("take", taken.status == LIMEKEEL_OK);
    for (int at = 0; taken.change == LIMEKEEL_WRITABLE && at < WRITERS; at++)
        ring(writers[at].room);
    return taken.count;
}

static void *send_all(void *nothing)
{
    struct limekeel_piece pieces[64];
    bool blocked = false;
    for (uint64_t sent = 0; sent < WRITERS * MESSAGES;) {
        struct limekeel_laid laid;
        while ((laid = limekeel_transport_gather_pieces(&transport, pieces, 64, UINT32_MAX)).status == LIMEKEEL_BUSY)
            sched_yield();
        expect("gather", laid.status == LIMEKEEL_OK);
        if (laid.count == 0 || blocked) {
            struct pollfd wait[2] = {{work, POLLIN, 0}, {ends[0], POLLOUT, 0}};
            expect("poll", poll(wait, laid.count > 0 ? 2 : 1, -1) >= 0 || errno == EINTR);
            if (wait[0].revents & POLLIN)
                hear(work);
        }
        blocked = false;
        if (laid.count > 0) {
            /* no lock is held meanwhile, and what was gathered stays where it is */
            ssize_t count = writev(ends[0], (struct iovec *)pieces, (int)laid.count);
            expect("writev", count >= 0 || errno == EAGAIN || errno == EINTR);
            blocked = count < 0 && errno == EAGAIN;
            sent += take(count > 0 ? (uint64_t)count : 0);
        }
    }
    close(ends[0]);
    return nothing;
}

/* Reads all, and compares it. */
static void read_all(void)
{
    uint64_t places[WRITERS] = {0};
    size_t at = 0;
    uint8_t bytes[4096], by = 0;
    for (ssize_t count; (count = read(ends[1], bytes, sizeof bytes)) != 0;) {
        expect("read", count > 0 || errno == EINTR);
        for (ssize_t each = 0; each < count; each++, at++) {
            if (at % LENGTH == 0)
                expect("a writer", (by = bytes[each]) < WRITERS);
            else
                expect("every byte", bytes[each] == byte_at(by, places[by]++));
        }
    }
    for (int number = 0; number < WRITERS; number++)
        expect("all of it", places[number] == (uint64_t)MESSAGES * (LENGTH - 1));
}

int main(void)
{
    pthread_t threads[WRITERS + 1];
    int size = 4096; /* so that the socket is full at times */
    expect("a pair", socketpair(AF_UNIX, SOCK_STREAM, 0, ends) == 0);
    expect("its size", setsockopt(ends[0], SOL_SOCKET, SO_SNDBUF, &size, sizeof size) == 0);
    expect("it never blocks", fcntl(ends[0], F_SETFL, O_NONBLOCK) == 0);
    expect("a bell", (work = eventfd(0, 0)) >= 0);
    expect("open", limekeel_shared_open(&transport, 4096, 8192, 96, 8) == LIMEKEEL_OK);
    for (uint8_t at = 0; at < WRITERS; at++) {
        writers[at].number = at;
        expect("a bell", (writers[at].room = eventfd(0, 0)) >= 0);
        expect("a handle", limekeel_transport_another(&transport, &writers[at].handle) == LIMEKEEL_OK);
    }
    for (int at = 0; at < WRITERS; at++)
        expect("a thread", pthread_create(&threads[at], NULL, write_all, &writers[at]) == 0);
    expect("a thread", pthread_create(&threads[WRITERS], NULL, send_all, NULL) == 0);
    read_all();
    for (int at = 0; at <= WRITERS; at++)
        expect("its end", pthread_join(threads[at], NULL) == 0);
    expect("free", limekeel_transport_free(&transport) == LIMEKEEL_OK);
    puts("each byte of each writer has come");
    return 0;
}
