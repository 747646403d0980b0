/*
 * A sender and a reader over a pair of sockets, in one thread: sendmsg and poll.
 *
 * The sender writes messages as fast as the connection lets it, stops when it is told to, and goes on
 * when it is told to. The reader reads slowly. At the end each byte has come, in order, and each
 * promise was settled once. Exits 0 if so.
 */
#define _GNU_SOURCE
#include <errno.h>
#include <fcntl.h>
#include <inttypes.h>
#include <poll.h>
#include <stdio.h>
#include <stdlib.h>
#include <string.h>
#include <sys/socket.h>
#include <sys/uio.h>
#include <unistd.h>

#include "limekeel.h"

#define MESSAGES 20000u
#define LONGEST 3000u

struct sender {
    struct limekeel_connection connection;
    struct limekeel_block shared; /* each tenth message is this block */
    uint32_t written;             /* messages that were accepted */
    uint64_t bytes;               /* and their bytes */
    uint64_t settled;             /* promises that were settled */
    bool may_write;
    uint32_t stops;
};

static void fail(const char *what, uint32_t status)
{
    fprintf(stderr, "%s: %" PRIu32 "\n", what, status);
    exit(1);
}

static void expect(const char *what, bool holds)
{
    if (!holds)
        fail(what, 0);
}

static uint8_t byte_at(uint64_t place)
{
    return (uint8_t)(place * 131 + (place >> 8));
}

static void note_change(struct sender *sender, uint32_t change)
{
    if (change == LIMEKEEL_UNWRITABLE) {
        sender->may_write = false;
        sender->stops++;
    } else if (change == LIMEKEEL_WRITABLE) {
        sender->may_write = true;
    }
}

/* The bytes of a shared block are all 0x5a, and those of another message go by their place. */
static bool is_shared(uint32_t message)
{
    return message % 10 == 9;
}

static size_t length_of(uint32_t message)
{
    return is_shared(message) ? 512 : (message * 7919u) % LONGEST;
}

static void write_some(struct sender *sender)
{
    while (sender->may_write && sender->written < MESSAGES) {
        uint32_t message = sender->written;
        size_t length = length_of(message);
        struct limekeel_written written;
        if (is_shared(message)) {
            written = limekeel_write_block(&sender->connection, &sender->shared);
        } else {
            uint8_t bytes[LONGEST];
            for (size_t at = 0; at < length; at++)
                bytes[at] = byte_at(message + at);
            written = limekeel_write(&sender->connection, bytes, length);
        }
        if (written.status != LIMEKEEL_OK)
            fail("write", written.status);
        expect("ids rise by one", written.id == message);
        sender->written++;
        sender->bytes += length;
        note_change(sender, written.change);
    }
    struct limekeel_flushed flushed = limekeel_flush(&sender->connection);
    if (flushed.status != LIMEKEEL_OK)
        fail("flush", flushed.status);
    note_change(sender, flushed.change);
}

/* What the socket takes of the slices, or -1: with EAGAIN if it has no room. A signal in the midst is no answer, so the
 * call is made again; and a peer that is gone is an error here, and no SIGPIPE. */
static ssize_t send_slices(int socket, struct iovec *slices, size_t count)
{
    struct msghdr message = {.msg_iov = slices, .msg_iovlen = count};
    ssize_t sent;
    do
        sent = sendmsg(socket, &message, MSG_NOSIGNAL);
    while (sent < 0 && errno == EINTR);
    return sent;
}

/* Sends what the socket takes. */
static void send_some(struct sender *sender, int socket)
{
    struct limekeel_sent sent = limekeel_send(&sender->connection, socket, 16);
    if (sent.status != LIMEKEEL_OK)
        fail("send", sent.status);
    if (sent.ending == LIMEKEEL_ENDED_BROKEN)
        fail("sendmsg", (uint32_t)sent.error);
    expect("promises are settled in order", sent.taken.from == sender->settled);
    sender->settled = sent.taken.to;
    note_change(sender, sent.taken.change);
}

/* Reads what has come, but little at once, and checks it. */
static bool read_some(int socket, uint32_t *message, size_t *at)
{
    uint8_t bytes[16384];
    ssize_t count = read(socket, bytes, sizeof bytes);
    if (count < 0 && (errno == EAGAIN || errno == EINTR))
        return true;
    if (count <= 0)
        return false;
    for (ssize_t place = 0; place < count; place++) {
        while (*at == length_of(*message)) {
            ++*message;
            *at = 0;
        }
        uint8_t wanted = is_shared(*message) ? 0x5a : byte_at(*message + *at);
        expect("each byte comes, in order", bytes[place] == wanted);
        ++*at;
    }
    return true;
}

static void open_sender(struct sender *sender)
{
    uint32_t status = limekeel_open(&sender->connection, 32768, 65536, 96, 8);
    if (status != LIMEKEEL_OK)
        fail("open", status);
    uint8_t bytes[512];
    memset(bytes, 0x5a, sizeof bytes);
    status = limekeel_block_new(&sender->shared, bytes, sizeof bytes);
    if (status != LIMEKEEL_OK)
        fail("block_new", status);
}

/* Misuse is reported, and does no harm. */
static void misuse(void)
{
    struct limekeel_connection none = LIMEKEEL_CONNECTION;
    struct limekeel_block no_block = LIMEKEEL_BLOCK;
    expect("flush of none", limekeel_flush(&none).status == LIMEKEEL_NOT_OPEN);
    expect("free of none", limekeel_free(&none) == LIMEKEEL_NOT_OPEN);
    expect("bad marks", limekeel_open(&none, 2, 1, 96, 8) == LIMEKEEL_BAD_MARKS);
    expect("bad estimate", limekeel_open(&none, 1, 2, 65536, 8) == LIMEKEEL_BAD_ESTIMATE);
    uint32_t other = limekeel_open_for(&none, LIMEKEEL_EDGE + 1, 1, 2, 96, 8);
    expect("another version", other == LIMEKEEL_OTHER_VERSION && strstr(limekeel_strstatus(other), "version"));
    expect("open", limekeel_open(&none, 100, 200, 96, 8) == LIMEKEEL_OK);
    expect("open again", limekeel_open(&none, 100, 200, 96, 8) == LIMEKEEL_ALREADY_OPEN);
    expect("no block", limekeel_write_block(&none, &no_block).status == LIMEKEEL_NO_BLOCK);
    expect("nothing of NULL", limekeel_write(&none, NULL, 0).status == LIMEKEEL_OK);
    expect("a region", limekeel_write_region(&none, 7).id == 1);
    expect("it waits", limekeel_promise(&none, 1).state == LIMEKEEL_WAITING);
    expect("flush", limekeel_flush(&none).count == 2);
    struct limekeel_gathered front = limekeel_gather(&none, NULL, 0, 1);
    expect("an empty block", front.front == LIMEKEEL_FRONT_EMPTY_BLOCKS && front.count == 0);
    expect("is taken", limekeel_take_sent(&none, 0).count == 1);
    expect("a region stands", limekeel_current(&none).kind == LIMEKEEL_CURRENT_REGION);
    expect("of 7 bytes", limekeel_current(&none).number == 7);
    expect("3 are sent", limekeel_progress(&none, 3) == LIMEKEEL_OK);
    expect("and 4 are left", limekeel_current(&none).number == 4);
    expect("6 more than it has", limekeel_progress(&none, 10) == LIMEKEEL_OK);
    expect("leave none", limekeel_current(&none).number == 0 && limekeel_look(&none).current_progress == 13);
    expect("too many", limekeel_take_sent(&none, 1).status == LIMEKEEL_TOO_MANY_BYTES);
    expect("flushed left", limekeel_close(&none, 5).status == LIMEKEEL_FLUSHED_LEFT);
    struct limekeel_taken failed = limekeel_fail_flushed(&none, 5, true);
    expect("fails it", failed.from == 1 && failed.to == 2 && failed.outcome == LIMEKEEL_FAILED && failed.cause == 5);
    expect("close", limekeel_close(&none, 5).status == LIMEKEEL_OK);
    expect("closed", limekeel_is_closed(&none).holds);
    expect("write", limekeel_write(&none, "x", 1).status == LIMEKEEL_CLOSED);
    expect("free", limekeel_free(&none) == LIMEKEEL_OK);
    expect("freed", limekeel_look(&none).status == LIMEKEEL_NOT_OPEN);
}

/* A broken socket: what is flushed and what is not fail together. */
static void gives_up(void)
{
    struct limekeel_connection connection = LIMEKEEL_CONNECTION;
    expect("give up none", limekeel_give_up(&connection, 7).status == LIMEKEEL_NOT_OPEN);
    expect("shrink none", limekeel_shrink_to_fit(&connection) == LIMEKEEL_NOT_OPEN);
    expect("none is not empty", limekeel_is_empty(&connection).status == LIMEKEEL_NOT_OPEN);
    expect("none has no counts", limekeel_counts(&connection).status == LIMEKEEL_NOT_OPEN);
    expect("none has no marks", limekeel_settings(&connection).status == LIMEKEEL_NOT_OPEN);
    expect("open", limekeel_open(&connection, 100, 200, 96, 8) == LIMEKEEL_OK);
    expect("write", limekeel_write(&connection, "flushed", 7).id == 0);
    expect("no flush has reached it", limekeel_is_empty(&connection).holds);
    expect("flush", limekeel_flush(&connection).count == 1);
    struct limekeel_truth empty = limekeel_is_empty(&connection);
    expect("it is not empty", empty.status == LIMEKEEL_OK && !empty.holds);
    expect("one more", limekeel_write(&connection, "waits", 5).change == LIMEKEEL_UNWRITABLE);
    expect("shrink", limekeel_shrink_to_fit(&connection) == LIMEKEEL_OK);
    struct limekeel_look_told look = limekeel_look(&connection);
    expect("what waits stays", look.size == 1 && look.total == 96 + 7 + 96 + 5);
    struct limekeel_counts_told counts = limekeel_counts(&connection);
    expect("one of two is not flushed", counts.status == LIMEKEEL_OK && counts.unflushed == 1 && counts.waiting == 2);
    expect("other marks", limekeel_set_marks(&connection, 5, 6) == LIMEKEEL_OK);
    struct limekeel_settings_told settings = limekeel_settings(&connection);
    expect("they are in force", settings.status == LIMEKEEL_OK && settings.low == 5 && settings.high == 6);
    expect("with the estimate", settings.overhead == 96 && settings.unknown == 8);
    struct limekeel_taken taken = limekeel_give_up(&connection, 7);
    expect("both fail", taken.status == LIMEKEEL_OK && taken.from == 0 && taken.to == 2 && taken.count == 2);
    expect("for the cause", taken.outcome == LIMEKEEL_FAILED && taken.cause == 7 && taken.change == LIMEKEEL_UNCHANGED);
    expect("it is closed", limekeel_is_closed(&connection).holds && limekeel_is_empty(&connection).holds);
    expect("once", limekeel_give_up(&connection, 7).status == LIMEKEEL_CLOSED);
    expect("free", limekeel_free(&connection) == LIMEKEEL_OK);
}

#define SLICES 64u
#define MANY (SLICES + 6u)

/* By hand, and more messages than one call is given slices: each piece lies where the bytes of its message do, and each byte comes.
 * Message n is n + 1 times the byte n. */
static void many_pieces(const int *ends)
{
    struct limekeel_connection connection = LIMEKEEL_CONNECTION;
    expect("open", limekeel_open(&connection, 32768, 65536, 96, 8) == LIMEKEEL_OK);
    uint8_t wanted[MANY * (MANY + 1) / 2];
    size_t total = 0;
    for (uint32_t message = 0; message < MANY; message++) {
        memset(wanted + total, (int)message, message + 1);
        expect("write", limekeel_write(&connection, wanted + total, message + 1).id == message);
        total += message + 1;
    }
    expect("flush", limekeel_flush(&connection).count == MANY);
    size_t came = 0;
    for (uint32_t first = 0; first < MANY; first += SLICES) {
        struct iovec slices[SLICES];
        struct limekeel_gathered front = limekeel_gather_iovec(&connection, slices, SLICES, UINT32_MAX);
        expect("as many slices as fit", front.count == (first == 0 ? SLICES : 6));
        size_t place = came;
        for (uint32_t at = 0; at < front.count; at++) {
            expect("of the message's length", slices[at].iov_len == first + at + 1);
            expect("and where it lies", memcmp(slices[at].iov_base, wanted + place, slices[at].iov_len) == 0);
            place += slices[at].iov_len;
        }
        expect("the socket takes all", send_slices(ends[0], slices, front.count) == (ssize_t)(place - came));
        uint8_t bytes[sizeof wanted];
        expect("all of it comes", read(ends[1], bytes, sizeof bytes) == (ssize_t)(place - came));
        expect("as it was written", memcmp(bytes, wanted + came, place - came) == 0);
        expect("and is gone", limekeel_take_sent(&connection, place - came).count == front.count);
        came = place;
    }
    expect("free", limekeel_free(&connection) == LIMEKEEL_OK);
}

int main(void)
{
    misuse();
    gives_up();
    int ends[2];
    if (socketpair(AF_UNIX, SOCK_STREAM | SOCK_NONBLOCK, 0, ends) != 0)
        fail("socketpair", (uint32_t)errno);
    many_pieces(ends);
    struct sender sender = {.connection = LIMEKEEL_CONNECTION, .shared = LIMEKEEL_BLOCK, .may_write = true};
    open_sender(&sender);
    uint32_t message = 0;
    size_t at = 0;
    bool done = false;
    while (!done) {
        write_some(&sender);
        send_some(&sender, ends[0]);
        bool waiting = limekeel_look(&sender.connection).size > 0;
        struct pollfd asked[2] = {{ends[0], (short)(waiting ? POLLOUT : 0), 0}, {ends[1], POLLIN, 0}};
        if (poll(asked, 2, 1000) < 0)
            fail("poll", (uint32_t)errno);
        if (asked[1].revents & POLLIN)
            expect("the reader reads", read_some(ends[1], &message, &at));
        done = sender.written == MESSAGES && !waiting && !(asked[1].revents & POLLIN);
    }
    expect("each promise was settled", sender.settled == MESSAGES);
    expect("writers were stopped", sender.stops > 0);
    expect("nothing is pending", limekeel_look(&sender.connection).total == 0);
    expect("free", limekeel_free(&sender.connection) == LIMEKEEL_OK);
    expect("free the block", limekeel_block_free(&sender.shared) == LIMEKEEL_OK);
    close(ends[0]);
    close(ends[1]);
    printf("%" PRIu32 " messages, %" PRIu64 " bytes, %" PRIu32 " stops: each byte came\n", sender.written,
           sender.bytes, sender.stops);
    return 0;
}
