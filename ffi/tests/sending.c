/*
 * What limekeel_send makes of each answer of a socket: over socket pairs, over a connection of TCP that is reset, and by a
 * sendmsg of this program that does what the next step of a script says.
 */
#define _GNU_SOURCE
#include <arpa/inet.h>
#include <errno.h>
#include <stdio.h>
#include <stdlib.h>
#include <string.h>
#include <sys/socket.h>
#include <sys/syscall.h>
#include <unistd.h>

#include "limekeel.h"

static void expect(const char *what, bool holds)
{
    if (!holds) {
        fprintf(stderr, "not so: %s\n", what);
        exit(1);
    }
}

/* What the next calls of sendmsg do: fail with this errno, or take at most `most` bytes; then the system's own is asked. */
struct step {
    int error;
    size_t most;
};
static const struct step *steps;
static size_t steps_left, asked, offered_slices, offered_bytes;
static uint8_t took[65536];
static size_t took_bytes;

ssize_t sendmsg(int socket, const struct msghdr *message, int flags)
{
    asked++;
    offered_slices = message->msg_iovlen;
    offered_bytes = 0;
    for (size_t at = 0; at < message->msg_iovlen; at++)
        offered_bytes += message->msg_iov[at].iov_len;
    expect("no signal is raised, and nothing waits", flags == (MSG_NOSIGNAL | MSG_DONTWAIT));
    if (steps_left == 0)
        return syscall(SYS_sendmsg, socket, message, flags);
    struct step step = *steps++;
    steps_left--;
    if (step.error != 0) {
        errno = step.error;
        return -1;
    }
    size_t count = 0;
    for (size_t at = 0; at < message->msg_iovlen; at++)
        for (size_t place = 0; place < message->msg_iov[at].iov_len && count < step.most; place++, count++)
            took[took_bytes++] = ((const uint8_t *)message->msg_iov[at].iov_base)[place];
    return (ssize_t)count;
}

static void play(const struct step *script, size_t count)
{
    static struct step kept[8];
    expect("a script is short", count <= sizeof kept / sizeof kept[0]);
    memcpy(kept, script, count * sizeof *script);
    steps = kept;
    steps_left = count;
    asked = took_bytes = 0;
}

#define SCRIPT(...) \
    play((const struct step[]){__VA_ARGS__}, sizeof((const struct step[]){__VA_ARGS__}) / sizeof(struct step))

static struct limekeel_connection opened(uint32_t low, uint32_t high)
{
    struct limekeel_connection connection = LIMEKEEL_CONNECTION;
    expect("open", limekeel_open(&connection, low, high, 96, 8) == LIMEKEEL_OK);
    return connection;
}

/* Writes and flushes `count` messages of one byte, which count up. Each is a block of its own, so that no two of them lie
 * together in memory. */
static void write_bytes(struct limekeel_connection *connection, size_t count)
{
    for (size_t at = 0; at < count; at++) {
        uint8_t byte = (uint8_t)at;
        struct limekeel_block block = LIMEKEEL_BLOCK;
        expect("a block", limekeel_block_new(&block, &byte, 1) == LIMEKEEL_OK);
        expect("write", limekeel_write_block(connection, &block).status == LIMEKEEL_OK);
        expect("free", limekeel_block_free(&block) == LIMEKEEL_OK);
    }
    expect("flush", limekeel_flush(connection).status == LIMEKEEL_OK);
}

static void closed(struct limekeel_connection *connection)
{
    expect("free", limekeel_free(connection) == LIMEKEEL_OK);
    expect("the script was played", steps_left == 0);
}

/* A turn offers as many pieces as one call of the system takes, and no more. */
static void as_many_as_the_system_takes(void)
{
    expect("the system's own number", sysconf(_SC_IOV_MAX) == LIMEKEEL_PIECES);
}

/* Each answer of sendmsg, and what is told of it. */
static void answers(void)
{
    struct limekeel_connection connection = opened(300, 400);
    write_bytes(&connection, 5);
    SCRIPT({EINTR, 0}, {EINTR, 0}, {0, 2});
    struct limekeel_sent sent = limekeel_send(&connection, -1, 8);
    expect("an interrupted call is made again", asked == 3);
    expect("what took less than it was offered has no room", sent.ending == LIMEKEEL_ENDED_BLOCKED && sent.bytes == 2);
    expect("what it took is gone", sent.status == LIMEKEEL_OK && sent.taken.from == 0 && sent.taken.to == 2);
    expect("and settled", sent.taken.outcome == LIMEKEEL_SUCCESS && sent.taken.count == 2 && sent.error == 0);
    expect("which makes it writable", sent.taken.change == LIMEKEEL_WRITABLE);
    SCRIPT({EAGAIN, 0});
    sent = limekeel_send(&connection, -1, 8);
    expect("a full socket is blocked", sent.ending == LIMEKEEL_ENDED_BLOCKED && sent.bytes == 0 && sent.error == 0);
    expect("and takes nothing", sent.taken.count == 0 && limekeel_look(&connection).size == 3);
    SCRIPT({ENOBUFS, 0});
    sent = limekeel_send(&connection, -1, 8);
    expect("another error is told", sent.ending == LIMEKEEL_ENDED_BROKEN && sent.error == ENOBUFS);
    expect("and leaves what waits", sent.status == LIMEKEEL_OK && limekeel_look(&connection).size == 3);
    SCRIPT({EMSGSIZE, 0}, {0, 99}, {0, 99});
    sent = limekeel_send(&connection, -1, 8);
    expect("half as many pieces are offered", asked == 3 && took[0] == 2 && took[1] == 3 && took_bytes == 3);
    expect("and then the others", sent.ending == LIMEKEEL_ENDED_DRAINED && sent.bytes == 3 && sent.taken.to == 5);
    write_bytes(&connection, 1);
    SCRIPT({EMSGSIZE, 0});
    sent = limekeel_send(&connection, -1, 8);
    expect("one piece is not halved", sent.ending == LIMEKEEL_ENDED_BROKEN && sent.error == EMSGSIZE && asked == 1);
    closed(&connection);
}

/* More messages than a turn offers, under marks by which one of the turns makes it writable. */
static void turns(uint32_t low, uint32_t high)
{
    struct limekeel_connection connection = opened(low, high);
    write_bytes(&connection, 2 * LIMEKEEL_PIECES + 6);
    SCRIPT({0, 65536}, {0, 65536}, {0, 65536});
    struct limekeel_sent sent = limekeel_send(&connection, -1, 2);
    expect("turns are used up", asked == 2 && sent.ending == LIMEKEEL_ENDED_BY_TURNS);
    expect("and told as one interval", sent.taken.from == 0 && sent.taken.to == 2 * LIMEKEEL_PIECES
                                           && sent.taken.count == 2 * LIMEKEEL_PIECES && sent.bytes == sent.taken.to);
    expect("with the change that one of them made", sent.taken.change == LIMEKEEL_WRITABLE);
    sent = limekeel_send(&connection, -1, 0);
    expect("one turn is made in any case", asked == 3 && sent.ending == LIMEKEEL_ENDED_DRAINED && sent.bytes == 6);
    expect("all came", took_bytes == 2 * LIMEKEEL_PIECES + 6);
    for (size_t at = 0; at < took_bytes; at++)
        expect("in order", took[at] == (uint8_t)at);
    closed(&connection);
}

/* Small copies lie together in memory and go as one slice, one that is long lies elsewhere; and the bytes are those that were
 * written. */
#define SMALL 7u
#define LONG 5000u
#define MANY 40u
static void together_in_memory(void)
{
    struct limekeel_connection connection = opened(32768, 65536);
    static uint8_t wanted[SMALL * MANY + LONG];
    size_t total = 0;
    for (size_t at = 0; at < MANY; at++) {
        size_t size = at == 9 ? LONG : SMALL;
        memset(wanted + total, (int)at + 1, size);
        expect("write", limekeel_write(&connection, wanted + total, size).status == LIMEKEEL_OK);
        total += size;
    }
    expect("flush", limekeel_flush(&connection).count == MANY);
    struct limekeel_piece pieces[LIMEKEEL_PIECES];
    expect("a piece for each", limekeel_gather(&connection, pieces, LIMEKEEL_PIECES, UINT32_MAX).count == MANY);
    struct iovec slices[LIMEKEEL_PIECES];
    expect("three are 21 bytes", limekeel_gather_iovec(&connection, slices, LIMEKEEL_PIECES, 3 * SMALL).count == 3);
    expect("and lie where the pieces do", slices[2].iov_base == pieces[2].at && slices[2].iov_len == SMALL);
    SCRIPT({0, 12}, {0, 65536});
    expect("a part is sent", limekeel_send(&connection, -1, 8).bytes == 12);
    /* the first few that wait have memory of their own */
    expect("in few slices", offered_slices < MANY / 2 && offered_bytes == total);
    struct limekeel_sent sent = limekeel_send(&connection, -1, 8);
    expect("the rest is sent", sent.ending == LIMEKEEL_ENDED_DRAINED && offered_bytes == total - 12);
    expect("message by message", sent.taken.from == 1 && sent.taken.to == MANY);
    expect("as it was written", took_bytes == total && memcmp(took, wanted, total) == 0);
    closed(&connection);
}

/* Of some bytes, one in each message. */
static void many_sent(struct limekeel_connection *connection, size_t many)
{
    for (size_t at = 0; at < many; at++) {
        uint8_t byte = (uint8_t)at;
        expect("write", limekeel_write(connection, &byte, 1).status == LIMEKEEL_OK);
    }
    expect("flush", limekeel_flush(connection).count == many);
    SCRIPT({0, 65536});
    struct limekeel_sent sent = limekeel_send(connection, -1, 8);
    expect("all are sent at once", sent.ending == LIMEKEEL_ENDED_DRAINED && asked == 1 && offered_bytes == many);
    for (size_t at = 0; at < took_bytes; at++)
        expect("in order", took[at] == (uint8_t)at);
}

/* More messages than the system takes slices go in one call, if few of them lie apart; and as many again lie together. */
static void many_together(void)
{
    struct limekeel_connection connection = opened(1 << 20, 2 << 20);
    size_t many = LIMEKEEL_PIECES + LIMEKEEL_PIECES / 2;
    many_sent(&connection, many);
    expect("the first four lie apart, and the others in two chunks", offered_slices <= 6);
    many_sent(&connection, many - 4);
    expect("there is a chunk for as many as shared one", offered_slices == 1);
    closed(&connection);
}

/* Parts are one message, few and many, and none. */
static void parts(void)
{
    struct limekeel_connection connection = opened(32768, 65536);
    static const uint8_t bytes[] = "header, body and the rest of it, which is long enough for many parts";
    struct limekeel_piece pieces[sizeof bytes];
    for (size_t count = 0; count < sizeof bytes; count++) {
        size_t total = 0;
        for (size_t at = 0; at < count; at++) {
            size_t length = at % 3; /* some are empty */
            pieces[at] = (struct limekeel_piece){bytes + total % 40, length};
            total += length;
        }
        struct limekeel_written written = limekeel_write_parts(&connection, count > 0 ? pieces : NULL, count);
        expect("one message", written.status == LIMEKEEL_OK && written.id == count);
        expect("that counts once", limekeel_look(&connection).total == total + 96);
        expect("flush", limekeel_flush(&connection).count == 1);
        SCRIPT({0, 65536});
        expect("all is sent", limekeel_send(&connection, -1, 8).bytes == total);
        size_t place = 0;
        for (size_t at = 0; at < count; at++) {
            expect("part by part", memcmp(took + place, pieces[at].at, pieces[at].length) == 0);
            place += pieces[at].length;
        }
        steps_left = 0; /* with no byte nobody was asked */
    }
    expect("close", limekeel_close(&connection, 1).status == LIMEKEEL_OK);
    expect("a closed one refuses few", limekeel_write_parts(&connection, pieces, 3).status == LIMEKEEL_CLOSED);
    expect("and many", limekeel_write_parts(&connection, pieces, 40).status == LIMEKEEL_CLOSED);
    closed(&connection);
    expect("and so does none", limekeel_write_parts(&connection, pieces, 3).status == LIMEKEEL_NOT_OPEN);
    connection = opened(32768, 65536);
    static uint8_t large[1 << 20];
    static struct limekeel_piece many[2049];
    for (size_t at = 0; at < 2049; at++)
        many[at] = (struct limekeel_piece){large, sizeof large};
    expect("more than a message may be", limekeel_write_parts(&connection, many, 2049).status == LIMEKEEL_OVERSIZE);
    for (size_t at = 0; at < 17; at++)
        many[at].length = SIZE_MAX / 16; /* refused by their lengths, so that nobody reads there */
    expect("and more than there are", limekeel_write_parts(&connection, many, 17).status == LIMEKEEL_OVERSIZE);
    closed(&connection);
}

/* What is no block, and what has no byte. */
static void other_messages(void)
{
    struct limekeel_connection connection = opened(32768, 65536);
    asked = 0;
    struct limekeel_sent sent = limekeel_send(&connection, -1, 8);
    expect("nothing is flushed", sent.ending == LIMEKEEL_ENDED_DRAINED && sent.bytes == 0 && sent.status == LIMEKEEL_OK);
    expect("two empty ones", limekeel_write(&connection, NULL, 0).id == 0 && limekeel_write(&connection, NULL, 0).id == 1);
    expect("a region", limekeel_write_region(&connection, 5).id == 2);
    expect("flush", limekeel_flush(&connection).count == 3);
    sent = limekeel_send(&connection, -1, 8);
    expect("the region is the caller's", sent.ending == LIMEKEEL_ENDED_OTHER && sent.taken.count == 2);
    expect("nobody was asked", asked == 0);
    expect("it is sent", limekeel_remove(&connection).any);
    expect("a block", limekeel_write(&connection, "b", 1).status == LIMEKEEL_OK);
    expect("and a number", limekeel_write_other(&connection, 7).status == LIMEKEEL_OK && limekeel_flush(&connection).count == 2);
    SCRIPT({0, 99});
    sent = limekeel_send(&connection, -1, 8);
    expect("what stands before it is sent", sent.ending == LIMEKEEL_ENDED_OTHER && sent.bytes == 1 && sent.taken.to == 4);
    expect("remove", limekeel_remove(&connection).any && limekeel_close(&connection, 1).status == LIMEKEEL_OK);
    sent = limekeel_send(&connection, -1, 8);
    expect("a closed one sends nothing", sent.status == LIMEKEEL_CLOSED && sent.bytes == 0 && sent.taken.count == 0);
    closed(&connection);
    expect("nor one that is none", limekeel_send(&connection, -1, 8).status == LIMEKEEL_NOT_OPEN && asked == 1);
}

/* Real sockets: one with little room, one whose peer is gone, and one that is reset. */
static void sockets(void)
{
    int ends[2], few = 4096;
    expect("a pair", socketpair(AF_UNIX, SOCK_STREAM, 0, ends) == 0);
    expect("of little room", setsockopt(ends[0], SOL_SOCKET, SO_SNDBUF, &few, sizeof few) == 0);
    struct limekeel_connection connection = opened(32768, 65536);
    static uint8_t message[40000], came[sizeof message];
    for (size_t at = 0; at < sizeof message; at++)
        message[at] = (uint8_t)(at * 31 >> 3);
    expect("write", limekeel_write(&connection, message, sizeof message).status == LIMEKEEL_OK);
    expect("flush", limekeel_flush(&connection).count == 1);
    size_t read_so_far = 0, stops = 0;
    for (uint32_t ending = LIMEKEEL_ENDED_BLOCKED; ending == LIMEKEEL_ENDED_BLOCKED;) {
        struct limekeel_sent sent = limekeel_send(&connection, ends[0], 8);
        ending = sent.ending;
        stops += ending == LIMEKEEL_ENDED_BLOCKED;
        while (sent.bytes > 0) {
            ssize_t count = read(ends[1], came + read_so_far, sizeof came - read_so_far);
            expect("what was sent comes", count > 0 && (uint64_t)count <= sent.bytes);
            read_so_far += (size_t)count;
            sent.bytes -= (uint64_t)count;
        }
    }
    expect("a blocking socket with little room blocked", stops > 0);
    expect("each byte came", read_so_far == sizeof message && memcmp(came, message, sizeof message) == 0);
    close(ends[1]);
    write_bytes(&connection, 2);
    struct limekeel_sent sent = limekeel_send(&connection, ends[0], 8);
    expect("a peer that is gone is told", sent.ending == LIMEKEEL_ENDED_BROKEN && sent.error == EPIPE);
    expect("and what waits stays", limekeel_give_up(&connection, 5).count == 2);
    close(ends[0]);
    closed(&connection);
}

static void reset(void)
{
    struct sockaddr_in address = {.sin_family = AF_INET, .sin_addr = {htonl(INADDR_LOOPBACK)}};
    socklen_t length = sizeof address;
    int server = socket(AF_INET, SOCK_STREAM, 0), client = socket(AF_INET, SOCK_STREAM, 0);
    expect("listen", bind(server, (struct sockaddr *)&address, length) == 0 && listen(server, 1) == 0);
    expect("name", getsockname(server, (struct sockaddr *)&address, &length) == 0);
    expect("connect", connect(client, (struct sockaddr *)&address, length) == 0);
    int peer = accept(server, NULL, NULL);
    struct linger at_once = {1, 0};
    expect("linger", setsockopt(peer, SOL_SOCKET, SO_LINGER, &at_once, sizeof at_once) == 0);
    struct limekeel_connection connection = opened(32768, 65536);
    write_bytes(&connection, 3);
    expect("sent", limekeel_send(&connection, client, 8).ending == LIMEKEEL_ENDED_DRAINED);
    close(peer);
    write_bytes(&connection, 3);
    struct limekeel_sent sent = limekeel_send(&connection, client, 8);
    expect("a reset is told", sent.ending == LIMEKEEL_ENDED_BROKEN && sent.error == ECONNRESET);
    sent = limekeel_send(&connection, client, 8);
    expect("and what follows it", sent.ending == LIMEKEEL_ENDED_BROKEN && sent.error == EPIPE);
    close(client);
    close(server);
    closed(&connection);
}

int main(void)
{
    as_many_as_the_system_takes();
    answers();
    turns(32768, 65536);   /* the second */
    turns(150000, 160000); /* the first */
    together_in_memory();
    many_together();
    parts();
    other_messages();
    sockets();
    reset();
    puts("each answer of a socket is told");
    return 0;
}
