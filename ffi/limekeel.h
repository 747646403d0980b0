/*
 * Limekeel: an outbound buffer that a network server can trust with its memory.
 *
 * What a server has written to one client and the socket has not yet taken: Netty's
 * ChannelOutboundBuffer and WriteBufferWaterMark, without end. Each call returns what a short
 * definition says, whatever was called before; the archive liblimekeel.a was compiled from a
 * proof of that. docs/ffi.md says up to which edge.
 *
 *     struct limekeel_connection connection = LIMEKEEL_CONNECTION;
 *     limekeel_open(&connection, 32768, 65536, 96, 8);
 *     if (limekeel_write(&connection, "hello", 5).change == LIMEKEEL_UNWRITABLE)
 *         stop = true; // read no more from this client
 *     limekeel_flush(&connection);
 *     if (limekeel_send(&connection, socket, 16).taken.change == LIMEKEEL_WRITABLE)
 *         stop = false; // and wait for room if its ending is LIMEKEEL_ENDED_BLOCKED
 *     limekeel_free(&connection);
 *
 * Linking. Compile limekeel.s, heap.c and send.c into the program: `cc server.c limekeel.s heap.c send.c`,
 * with room.c for limekeel_reserve. Or link liblimekeel.a, which has all four: `pkg-config --cflags --libs limekeel` gives the flags. It
 * needs memcpy, memmove, memset and malloc of the C library, and send.c sendmsg and errno; it starts no
 * thread, waits for none, and takes no lock but that of a shared connection, if it is free.
 *
 * Ownership. A connection and a block are made as LIMEKEEL_CONNECTION and LIMEKEEL_BLOCK, which
 * own nothing, and are filled by limekeel_open and limekeel_block_new. Each is let go once, by
 * limekeel_free or limekeel_block_free. The struct may be moved in memory, but not copied and
 * used twice, as a FILE * may not be closed twice; its member is not to be touched. Bytes that
 * are passed in are copied, and stay the caller's; limekeel_write_lent alone copies nothing. What a call takes as const it does not write.
 *
 * Lifetimes. The pieces that limekeel_gather fills point into the connection. They are good until
 * the next call on that connection that is no look: until a write, flush, removal, failing, close
 * or free. Freeing a block does not end the pieces of messages that share it.
 *
 * Threads. One call at a time uses a connection, a block or a handle, from whatever thread; two of them need no lock between
 * them, nor do two handles of one connection (limekeel_shared), or blocks that share their bytes (limekeel_block_share). No call
 * may be made from a signal handler, nor in the child of a fork of a process with threads.
 *
 * Errors. Each call returns a status, alone or as the first member of a struct: LIMEKEEL_OK, or
 * why the call did nothing. A call that did not return LIMEKEEL_OK left everything as it was, and
 * all else in its struct is 0, but for what limekeel_budgeted_free says, and for `pressure`. A handle
 * that owns nothing is LIMEKEEL_NOT_OPEN and no crash. No call reads errno, aborts, or calls back;
 * LIMEKEEL_NO_MEMORY leaves in errno what malloc did.
 * Pointers may not be NULL, but for the bytes, parts and pieces of limekeel_write, limekeel_write_lent,
 * limekeel_write_parts, limekeel_block_new and limekeel_gather if there are none.
 */
#ifndef LIMEKEEL_H
#define LIMEKEEL_H

#include <stdbool.h>
#include <stddef.h>
#include <stdint.h>

/* Whether <sys/uio.h> is there and wanted: LIMEKEEL_NO_IOVEC leaves it out. */
#if defined(__has_include) && !defined(LIMEKEEL_NO_IOVEC)
#if __has_include(<sys/uio.h>)
#include <sys/uio.h>
#define LIMEKEEL_IOVEC 1
#endif
#endif

#ifdef __cplusplus
extern "C" {
#endif

#define LIMEKEEL_VERSION "0.1.0"

/* A number of the structs, functions and numbers of this header. limekeel_open says LIMEKEEL_OTHER_VERSION to an archive of
 * another. Before 1.0 each version may have another. */
#define LIMEKEEL_EDGE 409770010u

/* What may tell a change of writability is not to be dropped. */
#if (defined(__cplusplus) && __cplusplus >= 201703L) || (defined(__STDC_VERSION__) && __STDC_VERSION__ >= 202311L)
#define LIMEKEEL_TOLD [[nodiscard]]
#elif defined(__GNUC__)
#define LIMEKEEL_TOLD __attribute__((warn_unused_result))
#else
#define LIMEKEEL_TOLD
#endif

/* The statuses, whose texts limekeel_strstatus has. */
enum limekeel_status {
    LIMEKEEL_OK = 0,
    LIMEKEEL_OVERSIZE = 1,         /* the message counts more than 2147483647 bytes, or a region is longer than INT64_MAX */
    LIMEKEEL_BAD_MARKS = 2,        /* the low mark is above the high mark, or that above 2147483647 */
    LIMEKEEL_TOO_MUCH = 3,         /* more than 4294967295 bytes would be pending, or 2^64 - 1 writes were accepted */
    LIMEKEEL_CLOSED = 4,           /* the connection is closed; looks still work */
    LIMEKEEL_NOTHING_FLUSHED = 5,  /* progress was to be added, and no message is flushed */
    LIMEKEEL_TOO_FAR = 6,          /* the progress of a message would pass INT64_MAX */
    LIMEKEEL_TOO_MANY_BYTES = 7,   /* the flushed blocks in front hold fewer bytes */
    LIMEKEEL_BAD_INDEX = 8,        /* the index of a user bit is 1 to 31 */
    LIMEKEEL_FLUSHED_LEFT = 9,     /* flushed messages are left: fail or remove them before a close */
    LIMEKEEL_UNKNOWN_PROMISE = 10, /* no write was accepted under this promise */
    LIMEKEEL_NO_MEMORY = 12,       /* malloc refused, or a block has more owners, or a connection or a budget more handles, than can
                                    * be counted */
    LIMEKEEL_NOT_OPEN = 13,        /* the connection, block or budget owns nothing */
    LIMEKEEL_ALREADY_OPEN = 14,    /* it owns something already */
    LIMEKEEL_BAD_ESTIMATE = 15,    /* the overhead or the unknown size is above 65535 */
    LIMEKEEL_NO_BLOCK = 16,        /* the block that is to be written owns nothing */
    LIMEKEEL_OTHER_VERSION = 17,   /* the archive is of another version than this header */
    LIMEKEEL_BUSY = 18,            /* another call has the lock of the shared connection, or others came in between 65536 times at
                                    * the budget: try again */
    LIMEKEEL_FINISHING = 19,       /* the end of the managed connection was asked for */
    LIMEKEEL_FULL = 20,            /* more bytes would be pending than the managed connection may hold */
    LIMEKEEL_OVER_BUDGET = 21,     /* the budget has no room for the message, or the seat of a shared connection does not hold it */
    LIMEKEEL_BAD_BOUNDS = 22       /* the low mark of the budget is above the high mark, or its room above 2^62 - 1 */
};

/* How a call changed writability. Each change is reported once: act on it. */
enum limekeel_change {
    LIMEKEEL_UNCHANGED = 0,
    LIMEKEEL_UNWRITABLE = 1, /* stop writing */
    LIMEKEEL_WRITABLE = 2    /* go on */
};

/* How a call changed pressure at its budget. Each change is told once, to the call that made it, whatever its status is. */
enum limekeel_pressure {
    LIMEKEEL_PRESSURE_UNCHANGED = 0,
    LIMEKEEL_PRESSURE_BEGAN = 1, /* read less and accept fewer */
    LIMEKEEL_PRESSURE_ENDED = 2  /* go on, and wake who waits for that */
};

/* How a promise was settled. */
enum limekeel_outcome {
    LIMEKEEL_NO_OUTCOME = 0,
    LIMEKEEL_SUCCESS = 1,  /* the message was sent */
    LIMEKEEL_FAILED = 2,   /* it was given up, for the cause that is reported */
    LIMEKEEL_CANCELLED = 3 /* it was taken back before a flush */
};

/* What has become of a promise. */
enum limekeel_promise_state {
    LIMEKEEL_UNKNOWN = 0,       /* no write was accepted under it */
    LIMEKEEL_WAITING = 1,       /* it may still be cancelled */
    LIMEKEEL_FIXED = 2,         /* it can no longer be cancelled */
    LIMEKEEL_SETTLED = 3,       /* it was cancelled, and its message still waits */
    LIMEKEEL_SETTLED_BEFORE = 4 /* its message is gone; the call that took it away reported the outcome */
};

/* What stands in front: limekeel_gathered.front. */
enum limekeel_front_kind {
    LIMEKEEL_FRONT_NOTHING = 0,
    LIMEKEEL_FRONT_BLOCKS = 1,
    LIMEKEEL_FRONT_EMPTY_BLOCKS = 2, /* limekeel_take_sent(c, 0) takes them away */
    LIMEKEEL_FRONT_REGION = 3,       /* send it yourself, then limekeel_remove */
    LIMEKEEL_FRONT_OTHER = 4         /* do what it stands for, then limekeel_remove */
};

/* The kind of the first flushed message: limekeel_current_told.kind. */
enum limekeel_current_kind {
    LIMEKEEL_CURRENT_NOTHING = 0,
    LIMEKEEL_CURRENT_BLOCK = 1,
    LIMEKEEL_CURRENT_REGION = 2,
    LIMEKEEL_CURRENT_OTHER = 3
};

/* As many pieces as Linux takes in one sendmsg or writev. */
#define LIMEKEEL_PIECES 1024

/* A connection. Its member is Limekeel's. */
struct limekeel_connection {
    uint8_t *at;
};
#ifdef __cplusplus
#define LIMEKEEL_CONNECTION {nullptr}
#else
#define LIMEKEEL_CONNECTION {0}
#endif

/* A block of bytes that any number of writes share. Its member is Limekeel's. */
struct limekeel_block {
    uint8_t *at;
};
#define LIMEKEEL_BLOCK LIMEKEEL_CONNECTION

/* A piece of memory that is to be sent: struct iovec by another name. */
struct limekeel_piece {
    const uint8_t *at;
    size_t length;
};

/* A handle of a connection that several threads use, and the one of its handles that sends. Their members are Limekeel's. */
struct limekeel_shared {
    uint8_t *at;
};
struct limekeel_transport {
    uint8_t *at;
};
/* A connection with a life: an end in order, a limit on what is pending, a watch over its peer, and numbers. */
struct limekeel_managed {
    uint8_t *at;
};
/* A handle of a budget for the memory of many connections, one for each thread; and a connection that a budget covers. */
struct limekeel_budget {
    uint8_t *at;
};
struct limekeel_budgeted {
    uint8_t *at;
};
#define LIMEKEEL_BUDGET LIMEKEEL_CONNECTION
#define LIMEKEEL_BUDGETED LIMEKEEL_CONNECTION
#define LIMEKEEL_MANAGED LIMEKEEL_CONNECTION
#define LIMEKEEL_SHARED LIMEKEEL_CONNECTION
#define LIMEKEEL_TRANSPORT LIMEKEEL_CONNECTION

struct limekeel_written {
    uint32_t status;
    uint32_t change;
    uint64_t id; /* the promise of the message: 0 for the first write, then 1, and so on */
};

struct limekeel_flushed {
    uint32_t status;
    uint32_t change;
    uint64_t count; /* how many messages the flush reached */
};

struct limekeel_written_and_flushed {
    uint32_t status;
    uint32_t change; /* by the write */
    uint64_t id;     /* the promise of the message */
    uint32_t flush_change; /* by the flush behind it, which leaves out what was taken back */
    uint64_t count;        /* how many messages the flush reached */
};
struct limekeel_removed {
    uint32_t status;
    uint32_t change;
    bool any;         /* whether a message was flushed; if none was, nothing changed */
    bool settled;     /* whether that settled its promise: not if it was cancelled before */
    uint32_t outcome; /* and if so with which outcome, */
    uint32_t cause;   /* for which cause, */
    uint64_t id;      /* and which promise it was */
};

/* Messages that were taken away. Settled by it, in order and with this outcome, is each promise from
 * `from` on and below `to` but for those that were cancelled before. */
struct limekeel_taken {
    uint32_t status;
    uint32_t change;
    uint32_t outcome;
    uint32_t cause;
    uint64_t count; /* to - from */
    uint64_t from;
    uint64_t to;
};

struct limekeel_cancelled {
    uint32_t status;
    bool in_time; /* false: it was fixed or settled, and stays as it was */
};

struct limekeel_changed {
    uint32_t status;
    uint32_t change;
};

struct limekeel_look_told {
    uint32_t status;
    uint32_t total;             /* the pending bytes */
    uint32_t word;              /* bit 0: the mark; bit i: user bit i. 0: writable */
    uint32_t before_unwritable; /* how many more bytes make a writable connection unwritable, else 0 */
    uint32_t before_writable;   /* how many fewer bring an unwritable one below its low mark, else 0 */
    uint64_t size;              /* how many messages are flushed and not removed */
    uint64_t current_progress;  /* the progress of the first of them */
};

struct limekeel_counts_told {
    uint32_t status;
    uint64_t unflushed; /* how many messages no flush has reached */
    uint64_t waiting;   /* how many wait, flushed or not; 0: nothing is left to send */
};

struct limekeel_settings_told {
    uint32_t status;
    uint32_t low;      /* the marks in force, in bytes */
    uint32_t high;
    uint32_t overhead; /* the estimate of the opening, in bytes */
    uint32_t unknown;
};

struct limekeel_truth {
    uint32_t status;
    bool holds;
};

struct limekeel_promise_told {
    uint32_t status;
    uint32_t state;
    uint32_t outcome; /* of LIMEKEEL_SETTLED */
    uint32_t cause;
};

struct limekeel_front_told {
    uint32_t status;
    bool any;    /* whether a message is flushed */
    uint64_t id; /* its promise */
};

struct limekeel_current_told {
    uint32_t status;
    uint32_t kind;
    uint64_t number; /* the bytes that are left of a block or of a region, or the number of another message */
};

struct limekeel_gathered {
    uint32_t status;
    uint32_t front;
    size_t count; /* how many pieces were filled */
};

struct limekeel_glance {
    uint32_t status;
    uint32_t word;  /* 0: writable */
    uint32_t total; /* the pending bytes */
};

struct limekeel_laid {
    uint32_t status;
    size_t count; /* how many pieces were filled */
};

/* What the commands of a managed connection return: the reply of a connection, and whether the end is reached by the call, which
 * is told once. */
struct limekeel_told_done {
    uint32_t status;
    bool finished;
};

struct limekeel_told_flushed {
    struct limekeel_flushed flushed;
    bool finished;
};

struct limekeel_told_removed {
    struct limekeel_removed removed;
    bool finished;
};

struct limekeel_told_taken {
    struct limekeel_taken taken;
    bool finished;
};

struct limekeel_told_cancelled {
    struct limekeel_cancelled cancelled;
    bool finished;
};

struct limekeel_told_changed {
    struct limekeel_changed changed;
    bool finished;
};

struct limekeel_state {
    uint32_t status;
    bool writable;  /* whether writers may go on */
    bool closed;    /* whether a close was accepted */
    bool empty;     /* whether no message is flushed and not yet removed */
    bool finishing; /* whether the end was asked for */
    bool finished;  /* whether the end was reached: a call has told it */
};

/* Messages, and the bytes that they count together, each with the overhead. */
struct limekeel_count {
    uint64_t messages;
    uint64_t bytes;
};

/* How often calls were refused, by the reason: each as the status of its name. */
struct limekeel_refusals {
    uint64_t closed;
    uint64_t finishing;
    uint64_t oversize;
    uint64_t full;
    uint64_t too_much;
    uint64_t no_memory;
    uint64_t nothing_flushed;
    uint64_t too_far;
    uint64_t too_many_bytes;
    uint64_t bad_index;
    uint64_t flushed_left;
    uint64_t unknown_promise;
};

/* What was accepted is what was sent, failed, was cancelled and is pending, at each moment. */
struct limekeel_numbers {
    uint32_t status;
    struct limekeel_count accepted;
    struct limekeel_count sent;
    struct limekeel_count failed;    /* by a close, a giving up or a failing */
    struct limekeel_count cancelled; /* from the flush on that voided it */
    struct limekeel_count pending;
    uint64_t peak;    /* the most bytes that were pending at any moment */
    uint64_t stops;   /* how often it became unwritable */
    uint64_t stopped; /* for how long it was, all together, in the caller's units: time goes on at ticks alone */
    struct limekeel_refusals refusals;
};

/* What a look at a budget returns. */
struct limekeel_budget_told {
    uint32_t status;
    bool is_pressed; /* whether pressure stands */
    uint64_t total;  /* the bytes that all its connections hold */
};

/* What limekeel_shared_held returns. */
struct limekeel_seat_told {
    uint32_t status;
    bool is_within; /* whether the connection was opened within a budget; else `held` is 0 */
    uint64_t held;  /* the bytes that it holds of the budget: at least those that are pending */
};

/* What the calls of a connection that a budget covers return: the reply of a connection, and a limekeel_pressure, which is told
 * once. A write that is refused may have begun pressure too. */
struct limekeel_pressed_done {
    uint32_t status;
    uint32_t pressure;
};

/* The numbers of a limekeel_written, of which the change has two bytes here. */
struct limekeel_pressed_written {
    uint32_t status;
    uint16_t change;
    uint16_t pressure;
    uint64_t id;
};

struct limekeel_pressed_written_and_flushed {
    struct limekeel_written_and_flushed done;
    uint32_t pressure;
};

/* The numbers of a limekeel_flushed, in the same way. */
struct limekeel_pressed_flushed {
    uint32_t status;
    uint16_t change;
    uint16_t pressure;
    uint64_t count;
};

struct limekeel_pressed_removed {
    struct limekeel_removed removed;
    uint32_t pressure;
};

struct limekeel_pressed_taken {
    struct limekeel_taken taken;
    uint32_t pressure;
};

struct limekeel_pressed_cancelled {
    struct limekeel_cancelled cancelled;
    uint32_t pressure;
};

struct limekeel_pressed_changed {
    struct limekeel_changed changed;
    uint32_t pressure;
};

struct limekeel_standing {
    uint32_t status;
    bool writable; /* whether writers may go on */
    bool closed;   /* whether a close was accepted */
    bool empty;    /* whether no message is flushed and not yet removed */
    uint64_t held; /* the bytes that it holds of the budget: at least those that are pending */
};

/* The layout that the archive was compiled with. */
#if defined(__cplusplus)
#define LIMEKEEL_LAYOUT(type, size, last, offset)                                                         \
    static_assert(sizeof(struct type) == (size) && offsetof(struct type, last) == (offset), "the layout of " #type)
#else
#define LIMEKEEL_LAYOUT(type, size, last, offset)                                                         \
    _Static_assert(sizeof(struct type) == (size) && offsetof(struct type, last) == (offset), "the layout of " #type)
#endif
LIMEKEEL_LAYOUT(limekeel_connection, 8, at, 0);
LIMEKEEL_LAYOUT(limekeel_block, 8, at, 0);
LIMEKEEL_LAYOUT(limekeel_piece, 16, length, 8);
LIMEKEEL_LAYOUT(limekeel_written, 16, id, 8);
LIMEKEEL_LAYOUT(limekeel_flushed, 16, count, 8);
LIMEKEEL_LAYOUT(limekeel_written_and_flushed, 32, count, 24);
LIMEKEEL_LAYOUT(limekeel_written_and_flushed, 32, flush_change, 16);
LIMEKEEL_LAYOUT(limekeel_removed, 32, id, 24);
LIMEKEEL_LAYOUT(limekeel_removed, 32, settled, 9);
LIMEKEEL_LAYOUT(limekeel_taken, 40, to, 32);
LIMEKEEL_LAYOUT(limekeel_cancelled, 8, in_time, 4);
LIMEKEEL_LAYOUT(limekeel_changed, 8, change, 4);
LIMEKEEL_LAYOUT(limekeel_look_told, 40, current_progress, 32);
LIMEKEEL_LAYOUT(limekeel_counts_told, 24, waiting, 16);
LIMEKEEL_LAYOUT(limekeel_settings_told, 20, unknown, 16);
LIMEKEEL_LAYOUT(limekeel_truth, 8, holds, 4);
LIMEKEEL_LAYOUT(limekeel_promise_told, 16, cause, 12);
LIMEKEEL_LAYOUT(limekeel_front_told, 16, id, 8);
LIMEKEEL_LAYOUT(limekeel_current_told, 16, number, 8);
LIMEKEEL_LAYOUT(limekeel_gathered, 16, count, 8);
LIMEKEEL_LAYOUT(limekeel_managed, 8, at, 0);
LIMEKEEL_LAYOUT(limekeel_told_done, 8, finished, 4);
LIMEKEEL_LAYOUT(limekeel_told_flushed, 24, finished, 16);
LIMEKEEL_LAYOUT(limekeel_told_removed, 40, finished, 32);
LIMEKEEL_LAYOUT(limekeel_told_taken, 48, finished, 40);
LIMEKEEL_LAYOUT(limekeel_told_cancelled, 12, finished, 8);
LIMEKEEL_LAYOUT(limekeel_told_changed, 12, finished, 8);
LIMEKEEL_LAYOUT(limekeel_state, 12, finished, 8);
LIMEKEEL_LAYOUT(limekeel_count, 16, bytes, 8);
LIMEKEEL_LAYOUT(limekeel_refusals, 96, unknown_promise, 88);
LIMEKEEL_LAYOUT(limekeel_numbers, 208, refusals, 112);
LIMEKEEL_LAYOUT(limekeel_budget, 8, at, 0);
LIMEKEEL_LAYOUT(limekeel_budgeted, 8, at, 0);
LIMEKEEL_LAYOUT(limekeel_budget_told, 16, total, 8);
LIMEKEEL_LAYOUT(limekeel_pressed_done, 8, pressure, 4);
LIMEKEEL_LAYOUT(limekeel_pressed_written, 16, id, 8);
LIMEKEEL_LAYOUT(limekeel_pressed_written, 16, pressure, 6);
LIMEKEEL_LAYOUT(limekeel_pressed_written_and_flushed, 40, pressure, 32);
LIMEKEEL_LAYOUT(limekeel_pressed_flushed, 16, count, 8);
LIMEKEEL_LAYOUT(limekeel_pressed_flushed, 16, pressure, 6);
LIMEKEEL_LAYOUT(limekeel_pressed_removed, 40, pressure, 32);
LIMEKEEL_LAYOUT(limekeel_pressed_taken, 48, pressure, 40);
LIMEKEEL_LAYOUT(limekeel_pressed_cancelled, 12, pressure, 8);
LIMEKEEL_LAYOUT(limekeel_pressed_changed, 12, pressure, 8);
LIMEKEEL_LAYOUT(limekeel_standing, 16, held, 8);
LIMEKEEL_LAYOUT(limekeel_shared, 8, at, 0);
LIMEKEEL_LAYOUT(limekeel_transport, 8, at, 0);
LIMEKEEL_LAYOUT(limekeel_glance, 12, total, 8);
LIMEKEEL_LAYOUT(limekeel_laid, 16, count, 8);

/* Opens a connection with nothing written. It is to stop above `high` pending bytes and to go on
 * below `low`; each message counts `overhead` bytes beside its own, and one that is neither a block
 * nor a region `unknown`. Netty's are 32768, 65536, 96 and 8. With a `low` of 0 a connection that was
 * once unwritable stays so for good, since no total is below 0. Call limekeel_open, which says for
 * which header it was compiled. */
uint32_t limekeel_open_for(struct limekeel_connection *connection, uint32_t edge, uint32_t low, uint32_t high,
                           uint32_t overhead, uint32_t unknown);
static inline uint32_t limekeel_open(struct limekeel_connection *connection, uint32_t low, uint32_t high,
                                     uint32_t overhead, uint32_t unknown)
{
    return limekeel_open_for(connection, LIMEKEEL_EDGE, low, high, overhead, unknown);
}

/* Keeps memory for what waits and for no more: none if nothing waits. For a connection that has sent all and is idle.
 * It changes nothing else, and if a smaller block is refused the connection keeps the one that it has. */
uint32_t limekeel_shrink_to_fit(struct limekeel_connection *connection);

/* Notes in the first word behind the handle where the newest message lies. Call limekeel_ask_ahead, and those of its kind. */
uint32_t limekeel_note_newest(struct limekeel_connection *connection);
uint32_t limekeel_managed_note_newest(struct limekeel_managed *managed);
uint32_t limekeel_budgeted_note_newest(struct limekeel_budgeted *budgeted);

/* Frees a connection with all that waits in it. Promises that wait are not reported. */
uint32_t limekeel_free(struct limekeel_connection *connection);

/* Copies bytes into a block. */
uint32_t limekeel_block_of_bytes(struct limekeel_block *block, const uint8_t *bytes, size_t length);

/* Makes a second block of the bytes of one, which both share: nothing is copied. It is another thread's,
 * since a block is used by one call at a time. */
uint32_t limekeel_block_share(const struct limekeel_block *block, struct limekeel_block *second);

/* Says where the bytes of a block lie: there as long as a block or a message shares them. */
uint32_t limekeel_block_piece(const struct limekeel_block *block, struct limekeel_piece *piece);

/* Lets a block go. The memory is freed with the last block or message that shares it. */
uint32_t limekeel_block_free(struct limekeel_block *block);

/* Writes a copy of these bytes after all else. They wait, and are not sent before a flush. The copy
 * is made once nothing else refuses the write, so LIMEKEEL_NO_MEMORY comes last. Small messages that
 * wait together share memory. */
LIMEKEEL_TOLD struct limekeel_written limekeel_write_bytes(struct limekeel_connection *connection, const uint8_t *bytes,
                                              size_t length);

/* Writes a copy of these parts as one message, one behind the other: a header and a body. No part may be
 * at NULL, not even an empty one. Else it is as limekeel_write_bytes. */
LIMEKEEL_TOLD struct limekeel_written limekeel_write_pieces(struct limekeel_connection *connection,
                                                            const struct limekeel_piece *parts, size_t length);

/* Writes the bytes of a block, which the message then shares: nothing is copied. */
LIMEKEEL_TOLD struct limekeel_written limekeel_write_block(struct limekeel_connection *connection,
                                              const struct limekeel_block *block);

/* Writes bytes where they lie: nothing is copied, and the socket alone reads them. Their memory is lent: they have to stay there,
 * as they are, until a call takes the message away or limekeel_free frees the connection. Messages are taken away in the
 * order of their promises: limekeel_remove and limekeel_remove_with take the first that waits if they say `any`; the calls that
 * return a limekeel_taken, limekeel_send among them, take each from `from` on and below `to`. So a queue of what was lent, each
 * with its promise, is let go from the front. A cancelled message is taken away like any other, after its flush or at the end. */
LIMEKEEL_TOLD struct limekeel_written limekeel_write_lent_bytes(struct limekeel_connection *connection, const uint8_t *bytes,
                                                                size_t length);

/* Writes a region: `length` bytes of something that you send yourself, as of a file by sendfile. It
 * counts the overhead alone. */
LIMEKEEL_TOLD struct limekeel_written limekeel_write_region(struct limekeel_connection *connection, uint64_t length);

/* Writes any other message, by a number that means something to you alone. */
LIMEKEEL_TOLD struct limekeel_written limekeel_write_other(struct limekeel_connection *connection, uint32_t value);

/* Lets the transport have all that was written so far. Those messages can no longer be cancelled;
 * those that were become empty blocks, which take_sent takes away. It changes writability only if
 * some were. */
struct limekeel_flushed limekeel_flush(struct limekeel_connection *connection);

/* Takes the first flushed message away, as sent; or as failed for this cause. */
LIMEKEEL_TOLD struct limekeel_removed limekeel_remove(struct limekeel_connection *connection);
LIMEKEEL_TOLD struct limekeel_removed limekeel_remove_with(struct limekeel_connection *connection, uint32_t cause);

/* Takes n bytes off the flushed blocks in front, as sent: what writev returned. A message that is
 * sent whole is gone, and empty ones with it, so call it with 0 if only empty blocks stand in front. */
LIMEKEEL_TOLD struct limekeel_taken limekeel_take_sent(struct limekeel_connection *connection, uint64_t n);

/* Adds n bytes to the progress of the first flushed message: of a region, as sendfile sent them. */
uint32_t limekeel_progress(struct limekeel_connection *connection, uint64_t n);

/* Takes a promise back, if no flush has fixed it yet. */
struct limekeel_cancelled limekeel_cancel(struct limekeel_connection *connection, uint64_t id);

/* Takes all flushed messages away, as failed for this cause. Without `notify` the word stays as it was. */
LIMEKEEL_TOLD struct limekeel_taken limekeel_fail_flushed(struct limekeel_connection *connection, uint32_t cause, bool notify);

/* Closes for good: takes away what no flush has reached, as failed for this cause. Each command is
 * refused after it. */
struct limekeel_taken limekeel_close(struct limekeel_connection *connection, uint32_t cause);

/* Gives the connection up, as when its socket is broken: what is flushed fails for this cause without
 * notice, and the connection closes for it. One interval of all that was pending is reported, and no
 * change of writability. Nothing but LIMEKEEL_CLOSED and LIMEKEEL_NOT_OPEN is refused. */
struct limekeel_taken limekeel_give_up(struct limekeel_connection *connection, uint32_t cause);

/* Sets the user bit 1 to 31, which makes the connection unwritable, or clears it if `writable` is set. */
LIMEKEEL_TOLD struct limekeel_changed limekeel_user_bit(struct limekeel_connection *connection, uint32_t index, bool writable);

/* Sets other marks. They change nothing by themselves: the next rise or fall goes by them. */
uint32_t limekeel_set_marks(struct limekeel_connection *connection, uint32_t low, uint32_t high);

/* What is pending now; whether writers may go on; whether a close was accepted; whether no message is
 * flushed and not yet removed. */
struct limekeel_look_told limekeel_look(const struct limekeel_connection *connection);
struct limekeel_truth limekeel_is_writable(const struct limekeel_connection *connection);
struct limekeel_truth limekeel_is_closed(const struct limekeel_connection *connection);
struct limekeel_truth limekeel_is_empty(const struct limekeel_connection *connection);

/* How many messages wait; and the marks in force, which limekeel_set_marks sets, with the estimate. */
struct limekeel_counts_told limekeel_counts(const struct limekeel_connection *connection);
struct limekeel_settings_told limekeel_settings(const struct limekeel_connection *connection);

/* What has become of a promise. */
struct limekeel_promise_told limekeel_promise(const struct limekeel_connection *connection, uint64_t id);

/* The promise of the first flushed message; and what is left of that message: of a region its length less
 * the progress that was told, or 0 if that is more, which is what sendfile is still to send. */
struct limekeel_front_told limekeel_front(const struct limekeel_connection *connection);
struct limekeel_current_told limekeel_current(const struct limekeel_connection *connection);

/* Fills pieces with where the flushed blocks in front lie that hold a byte, up to the first message
 * that is no block: at most `length` of them, and at most max_bytes bytes, but the first in any case.
 * The other pieces stay as they were. It does not allocate. */
struct limekeel_gathered limekeel_gather_pieces(const struct limekeel_connection *connection,
                                                struct limekeel_piece *pieces, size_t length, uint32_t max_bytes);

/* A connection with a life. Its calls are those of a connection, by the same words, and besides: it ends in order, refuses what is
 * past a limit, names a peer that stalls, and counts. No call asks a clock: times are numbers of yours, in units of yours.
 *
 * What it is held to: the most bytes that may be pending, past which a write is LIMEKEEL_FULL; and how long a window is in which
 * the peer has to take at least so many bytes, or limekeel_managed_tick names it. With `least_bytes` 0 none is ever named. */
struct limekeel_limits {
    uint32_t most_pending;
    uint64_t window;
    uint64_t least_bytes;
};

/* Opens one, as limekeel_open, at the time `now`. Call limekeel_managed_open. */
uint32_t limekeel_managed_open_for(struct limekeel_managed *managed, uint32_t edge, uint32_t low, uint32_t high, uint32_t overhead,
                                   uint32_t unknown, uint32_t most_pending, uint64_t window, uint64_t least_bytes, uint64_t now);
static inline uint32_t limekeel_managed_open(struct limekeel_managed *managed, uint32_t low, uint32_t high, uint32_t overhead,
                                             uint32_t unknown, struct limekeel_limits limits, uint64_t now)
{
    return limekeel_managed_open_for(managed, LIMEKEEL_EDGE, low, high, overhead, unknown, limits.most_pending, limits.window,
                                     limits.least_bytes, now);
}

/* Frees it with all that waits in it. Promises that wait are not reported: give it up before. */
uint32_t limekeel_managed_free(struct limekeel_managed *managed);

/* Keeps memory for what waits and for no more, as limekeel_shrink_to_fit. */
uint32_t limekeel_managed_shrink_to_fit(struct limekeel_managed *managed);

/* Asks for the end: from now on each write is LIMEKEEL_FINISHING, and all else goes on. It `holds` if the end is reached by that,
 * since nothing is left of what was accepted; else the call that takes the last of it away says `finished`. Either is said once.
 * Flush before it. At a deadline, limekeel_managed_give_up reaches the end. */
LIMEKEEL_TOLD struct limekeel_truth limekeel_managed_finish(struct limekeel_managed *managed);

/* Tells the time, and whether the peer is named: something was flushed since a tick a window ago or more, and the peer took fewer
 * than `least_bytes` since. It is named once, until it took as many, or all. A time behind the last one tells nothing. */
LIMEKEEL_TOLD struct limekeel_truth limekeel_managed_tick(struct limekeel_managed *managed, uint64_t now);

/* The writes. LIMEKEEL_FINISHING comes after LIMEKEEL_CLOSED, and LIMEKEEL_FULL after LIMEKEEL_OVERSIZE, before anything is
 * allocated. */
LIMEKEEL_TOLD struct limekeel_written limekeel_managed_write_bytes(struct limekeel_managed *managed, const uint8_t *bytes,
                                                                   size_t length);
LIMEKEEL_TOLD struct limekeel_written limekeel_managed_write_block(struct limekeel_managed *managed,
                                                                   const struct limekeel_block *block);
LIMEKEEL_TOLD struct limekeel_written limekeel_managed_write_lent_bytes(struct limekeel_managed *managed, const uint8_t *bytes,
                                                                        size_t length);
LIMEKEEL_TOLD struct limekeel_written limekeel_managed_write_region(struct limekeel_managed *managed, uint64_t length);
LIMEKEEL_TOLD struct limekeel_written limekeel_managed_write_other(struct limekeel_managed *managed, uint32_t value);

/* The commands, each as that of a connection. Giving up fails the promise of each message that is left, once. */
LIMEKEEL_TOLD struct limekeel_told_flushed limekeel_managed_flush(struct limekeel_managed *managed);
LIMEKEEL_TOLD struct limekeel_told_done limekeel_managed_progress(struct limekeel_managed *managed, uint64_t n);
LIMEKEEL_TOLD struct limekeel_told_cancelled limekeel_managed_cancel(struct limekeel_managed *managed, uint64_t id);
LIMEKEEL_TOLD struct limekeel_told_changed limekeel_managed_user_bit(struct limekeel_managed *managed, uint32_t index, bool writable);
LIMEKEEL_TOLD struct limekeel_told_done limekeel_managed_set_marks(struct limekeel_managed *managed, uint32_t low, uint32_t high);
LIMEKEEL_TOLD struct limekeel_told_removed limekeel_managed_remove(struct limekeel_managed *managed);
LIMEKEEL_TOLD struct limekeel_told_removed limekeel_managed_remove_with(struct limekeel_managed *managed, uint32_t cause);
LIMEKEEL_TOLD struct limekeel_told_taken limekeel_managed_take_sent(struct limekeel_managed *managed, uint64_t n);
LIMEKEEL_TOLD struct limekeel_told_taken limekeel_managed_fail_flushed(struct limekeel_managed *managed, uint32_t cause, bool notify);
LIMEKEEL_TOLD struct limekeel_told_taken limekeel_managed_close(struct limekeel_managed *managed, uint32_t cause);
LIMEKEEL_TOLD struct limekeel_told_taken limekeel_managed_give_up(struct limekeel_managed *managed, uint32_t cause);

/* The looks. The numbers go over the flushed messages. */
struct limekeel_state limekeel_managed_state(const struct limekeel_managed *managed);
struct limekeel_numbers limekeel_managed_numbers(const struct limekeel_managed *managed);
struct limekeel_look_told limekeel_managed_look(const struct limekeel_managed *managed);
struct limekeel_promise_told limekeel_managed_promise(const struct limekeel_managed *managed, uint64_t id);
struct limekeel_front_told limekeel_managed_front(const struct limekeel_managed *managed);
struct limekeel_current_told limekeel_managed_current(const struct limekeel_managed *managed);
struct limekeel_gathered limekeel_managed_gather_pieces(const struct limekeel_managed *managed, struct limekeel_piece *pieces,
                                                        size_t length, uint32_t max_bytes);

/* A budget for the memory of many connections on whatever threads: all that are opened within it together never hold more than
 * `room` pending bytes, at each moment. Netty has none; Linux has such a one for TCP (tcp_mem). A write that finds no room is
 * LIMEKEEL_OVER_BUDGET, and allocates nothing: answer something smaller, give this connection or the slowest one up, or try
 * later. Pressure begins when more than `high` bytes are held, and ends when fewer than `low` are: the call that makes it begin
 * or end is told so in `pressure`, once. Meanwhile read less and accept fewer.
 *
 * A connection takes at least `quantum` bytes at once while the room has as many, so that most writes touch nothing that threads
 * share, and gives back what is spare above two of them: 4096 to 16384 for many connections. What is held is what is pending and
 * what is spare. With a room of a hundred times two quanta for each connection, less than a hundredth is ever spare.
 *
 * Each thread has a handle of its own, which limekeel_budget_share makes, and no lock around it. A connection needs no handle once
 * it is open, and may move between threads. Handles may be freed before the connections: the last of all frees the budget.
 *
 * Opens a budget of which nothing is held, and gives its first handle. Call limekeel_budget_open. */
uint32_t limekeel_budget_open_for(struct limekeel_budget *budget, uint32_t edge, uint64_t room, uint64_t low, uint64_t high,
                                  uint64_t quantum);
static inline uint32_t limekeel_budget_open(struct limekeel_budget *budget, uint64_t room, uint64_t low, uint64_t high,
                                            uint64_t quantum)
{
    return limekeel_budget_open_for(budget, LIMEKEEL_EDGE, room, low, high, quantum);
}

/* Makes a second handle of the same budget, for another thread. A handle gives a 1024th of the connections that it may open yet,
 * of 2^62 in all, so a thousand may be made of the first one. */
uint32_t limekeel_budget_share(struct limekeel_budget *budget, struct limekeel_budget *second);

/* The bytes that all connections of the budget hold, and whether pressure stands: read in one load, so ask as often as you like.
 * The second asks by a connection of the budget. */
struct limekeel_budget_told limekeel_budget_look(struct limekeel_budget *budget);
struct limekeel_budget_told limekeel_budgeted_look_at_budget(struct limekeel_budgeted *budgeted);

/* Lets a handle go. */
uint32_t limekeel_budget_free(struct limekeel_budget *budget);

/* Opens a connection within a budget, as limekeel_open. It holds nothing before its first write. LIMEKEEL_NOT_OPEN says that the
 * budget owns nothing. Call limekeel_open_within. */
uint32_t limekeel_open_within_for(struct limekeel_budgeted *budgeted, uint32_t edge, uint32_t low, uint32_t high,
                                  uint32_t overhead, uint32_t unknown, struct limekeel_budget *budget);
static inline uint32_t limekeel_open_within(struct limekeel_budgeted *budgeted, uint32_t low, uint32_t high, uint32_t overhead,
                                            uint32_t unknown, struct limekeel_budget *budget)
{
    return limekeel_open_within_for(budgeted, LIMEKEEL_EDGE, low, high, overhead, unknown, budget);
}

/* Frees it with all that waits in it, and gives back what it holds of the budget. Promises that wait are not reported: give it up
 * before. LIMEKEEL_BUSY says that others came in between 65536 times: what waited is gone, and it holds its bytes of the budget
 * still, so free it again. */
LIMEKEEL_TOLD struct limekeel_pressed_done limekeel_budgeted_free(struct limekeel_budgeted *budgeted);

/* Gives back what it holds of the budget above what is pending, unless others come in between 65536 times: for a connection that
 * is idle, as before a thread or task waits with nothing to send. */
LIMEKEEL_TOLD struct limekeel_pressed_done limekeel_budgeted_rest(struct limekeel_budgeted *budgeted);

/* Lets it hold `bytes` beside what is pending: for the next message, by all that this counts, before its bytes are made. Then the
 * budget does not refuse the write, which takes nothing of it. LIMEKEEL_OVER_BUDGET and LIMEKEEL_BUSY come as of a write, and then
 * nothing has changed. What no write used goes back with the next flush or removal, if it is more than two quanta, down to one. */
LIMEKEEL_TOLD struct limekeel_pressed_done limekeel_budgeted_cover(struct limekeel_budgeted *budgeted, uint32_t bytes);

/* The writes, as those of a connection. LIMEKEEL_OVER_BUDGET and LIMEKEEL_BUSY come after LIMEKEEL_CLOSED and LIMEKEEL_OVERSIZE, and
 * before anything is allocated; LIMEKEEL_OVER_BUDGET only if there was no room at one moment while the call ran. */
LIMEKEEL_TOLD struct limekeel_pressed_written limekeel_budgeted_write_bytes(struct limekeel_budgeted *budgeted,
                                                                            const uint8_t *bytes, size_t length);
LIMEKEEL_TOLD struct limekeel_pressed_written limekeel_budgeted_write_block(struct limekeel_budgeted *budgeted,
                                                                            const struct limekeel_block *block);
LIMEKEEL_TOLD struct limekeel_pressed_written limekeel_budgeted_write_lent_bytes(struct limekeel_budgeted *budgeted,
                                                                                 const uint8_t *bytes, size_t length);
LIMEKEEL_TOLD struct limekeel_pressed_written limekeel_budgeted_write_region(struct limekeel_budgeted *budgeted, uint64_t length);
LIMEKEEL_TOLD struct limekeel_pressed_written limekeel_budgeted_write_other(struct limekeel_budgeted *budgeted, uint32_t value);

/* The commands, as those of a connection. Each gives back what is spare above two quanta. */
LIMEKEEL_TOLD struct limekeel_pressed_flushed limekeel_budgeted_flush(struct limekeel_budgeted *budgeted);
LIMEKEEL_TOLD struct limekeel_pressed_done limekeel_budgeted_progress(struct limekeel_budgeted *budgeted, uint64_t n);
LIMEKEEL_TOLD struct limekeel_pressed_cancelled limekeel_budgeted_cancel(struct limekeel_budgeted *budgeted, uint64_t id);
LIMEKEEL_TOLD struct limekeel_pressed_changed limekeel_budgeted_user_bit(struct limekeel_budgeted *budgeted, uint32_t index,
                                                                         bool writable);
LIMEKEEL_TOLD struct limekeel_pressed_done limekeel_budgeted_set_marks(struct limekeel_budgeted *budgeted, uint32_t low,
                                                                       uint32_t high);
LIMEKEEL_TOLD struct limekeel_pressed_removed limekeel_budgeted_remove(struct limekeel_budgeted *budgeted);
LIMEKEEL_TOLD struct limekeel_pressed_removed limekeel_budgeted_remove_with(struct limekeel_budgeted *budgeted, uint32_t cause);
LIMEKEEL_TOLD struct limekeel_pressed_taken limekeel_budgeted_take_sent(struct limekeel_budgeted *budgeted, uint64_t n);
LIMEKEEL_TOLD struct limekeel_pressed_taken limekeel_budgeted_fail_flushed(struct limekeel_budgeted *budgeted, uint32_t cause,
                                                                           bool notify);
LIMEKEEL_TOLD struct limekeel_pressed_taken limekeel_budgeted_close(struct limekeel_budgeted *budgeted, uint32_t cause);
LIMEKEEL_TOLD struct limekeel_pressed_taken limekeel_budgeted_give_up(struct limekeel_budgeted *budgeted, uint32_t cause);

/* How it stands, and the looks of a connection. */
struct limekeel_standing limekeel_budgeted_state(const struct limekeel_budgeted *budgeted);
struct limekeel_look_told limekeel_budgeted_look(const struct limekeel_budgeted *budgeted);
struct limekeel_promise_told limekeel_budgeted_promise(const struct limekeel_budgeted *budgeted, uint64_t id);
struct limekeel_front_told limekeel_budgeted_front(const struct limekeel_budgeted *budgeted);
struct limekeel_current_told limekeel_budgeted_current(const struct limekeel_budgeted *budgeted);
struct limekeel_gathered limekeel_budgeted_gather_pieces(const struct limekeel_budgeted *budgeted,
                                                         struct limekeel_piece *pieces, size_t length, uint32_t max_bytes);

/* A connection that several threads write to, and one sends from. Each thread has a handle of its own, a limekeel_shared or
 * the limekeel_transport, and no lock around it: a handle is used by one call at a time, and handles of one connection by
 * any threads at once. A call takes the lock of the connection if that is free, and else returns LIMEKEEL_BUSY, and nothing
 * changed: try again, at best after something else, since no call waits, sleeps or wakes. Who is to sleep until the
 * connection is writable, or until something is flushed, is woken by the program, as by an eventfd.
 *
 * Opens such a connection, as limekeel_open opens one for one thread, and gives the handle that sends. Call
 * limekeel_shared_open. */
uint32_t limekeel_shared_open_for(struct limekeel_transport *transport, uint32_t edge, uint32_t low, uint32_t high,
                                  uint32_t overhead, uint32_t unknown);
static inline uint32_t limekeel_shared_open(struct limekeel_transport *transport, uint32_t low, uint32_t high,
                                            uint32_t overhead, uint32_t unknown)
{
    return limekeel_shared_open_for(transport, LIMEKEEL_EDGE, low, high, overhead, unknown);
}

/* Makes a second handle of the same connection, for another thread. It takes no lock. */
uint32_t limekeel_transport_another(struct limekeel_transport *transport, struct limekeel_shared *second);
uint32_t limekeel_shared_another(struct limekeel_shared *shared, struct limekeel_shared *second);

/* Lets a handle go. The last handle of a connection frees it with all that waits in it. Once the transport is gone nothing
 * more is sent: give the connection up before that. */
uint32_t limekeel_shared_free(struct limekeel_shared *shared);
uint32_t limekeel_transport_free(struct limekeel_transport *transport);

/* Writes a copy of these bytes; or the bytes of a block, which the message then shares. Up to 2048 bytes are copied under the
 * lock, into memory that small messages share, and nothing is copied if the lock is taken. More are copied before the lock is
 * tried, so that nobody waits for that, and the copy is let go if it is taken: if it is refused that is LIMEKEEL_NO_MEMORY,
 * whoever has the lock. */
LIMEKEEL_TOLD struct limekeel_written limekeel_shared_write_bytes(struct limekeel_shared *shared, const uint8_t *bytes,
                                                                  size_t length);
LIMEKEEL_TOLD struct limekeel_written limekeel_shared_write_block(struct limekeel_shared *shared,
                                                                  const struct limekeel_block *block);

/* The same, with the flush behind it under one lock: no call of another handle comes between the two. A write that is refused
 * is not flushed. Act on both changes, that of the write first. */
LIMEKEEL_TOLD struct limekeel_written_and_flushed limekeel_shared_write_and_flush_bytes(struct limekeel_shared *shared,
                                                                                        const uint8_t *bytes,
                                                                                        size_t length);
LIMEKEEL_TOLD struct limekeel_written_and_flushed limekeel_shared_write_and_flush_block(struct limekeel_shared *shared,
                                                                                        const struct limekeel_block *block);

/* Writes bytes where they lie, as limekeel_write_lent: they have to stay there until a call by whatever handle takes the message
 * away, as its `from` and `to` tell, or the last handle is freed. */
LIMEKEEL_TOLD struct limekeel_written limekeel_shared_write_lent_bytes(struct limekeel_shared *shared, const uint8_t *bytes,
                                                                       size_t length);

/* As limekeel_write_region, limekeel_write_other, limekeel_flush, limekeel_cancel, limekeel_close, limekeel_user_bit and
 * limekeel_set_marks, if the lock is free. */
LIMEKEEL_TOLD struct limekeel_written limekeel_shared_write_region(struct limekeel_shared *shared, uint64_t length);
LIMEKEEL_TOLD struct limekeel_written limekeel_shared_write_other(struct limekeel_shared *shared, uint32_t value);
LIMEKEEL_TOLD struct limekeel_flushed limekeel_shared_flush(struct limekeel_shared *shared);
LIMEKEEL_TOLD struct limekeel_cancelled limekeel_shared_cancel(struct limekeel_shared *shared, uint64_t id);
LIMEKEEL_TOLD struct limekeel_taken limekeel_shared_close(struct limekeel_shared *shared, uint32_t cause);
LIMEKEEL_TOLD struct limekeel_changed limekeel_shared_user_bit(struct limekeel_shared *shared, uint32_t index, bool writable);
LIMEKEEL_TOLD uint32_t limekeel_shared_set_marks(struct limekeel_shared *shared, uint32_t low, uint32_t high);

/* A connection within a budget: at each moment what is pending of it is at most what its seat holds, so all connections of the
 * budget hold its room at most, on whatever threads.
 *
 * Opens one, as limekeel_shared_open. It holds nothing before its first write. LIMEKEEL_NOT_OPEN says that the budget owns
 * nothing. The calls above leave the seat as it is, and a write of them is LIMEKEEL_OVER_BUDGET past what that holds: write by
 * the calls below. Call limekeel_shared_open_within. */
uint32_t limekeel_shared_open_within_for(struct limekeel_transport *transport, uint32_t edge, uint32_t low, uint32_t high,
                                         uint32_t overhead, uint32_t unknown, struct limekeel_budget *budget);
static inline uint32_t limekeel_shared_open_within(struct limekeel_transport *transport, uint32_t low, uint32_t high,
                                                   uint32_t overhead, uint32_t unknown, struct limekeel_budget *budget)
{
    return limekeel_shared_open_within_for(transport, LIMEKEEL_EDGE, low, high, overhead, unknown, budget);
}

/* Each writes as the call without `_within`, once the seat holds what the message counts: the seat takes what it lacks, or the
 * quantum. LIMEKEEL_OVER_BUDGET says that the budget has no room for that, and LIMEKEEL_BUSY also that others came in between
 * 65536 times; nothing changed then. Of a connection that was opened within no budget it is the same call. */
LIMEKEEL_TOLD struct limekeel_pressed_written limekeel_shared_write_bytes_within(struct limekeel_shared *shared,
                                                                                 const uint8_t *bytes, size_t length);
LIMEKEEL_TOLD struct limekeel_pressed_written limekeel_shared_write_block_within(struct limekeel_shared *shared,
                                                                                 const struct limekeel_block *block);
LIMEKEEL_TOLD struct limekeel_pressed_written_and_flushed limekeel_shared_write_and_flush_bytes_within(
    struct limekeel_shared *shared, const uint8_t *bytes, size_t length);
LIMEKEEL_TOLD struct limekeel_pressed_written_and_flushed limekeel_shared_write_and_flush_block_within(
    struct limekeel_shared *shared, const struct limekeel_block *block);
LIMEKEEL_TOLD struct limekeel_pressed_written limekeel_shared_write_lent_bytes_within(struct limekeel_shared *shared,
                                                                                      const uint8_t *bytes, size_t length);
LIMEKEEL_TOLD struct limekeel_pressed_written limekeel_shared_write_region_within(struct limekeel_shared *shared,
                                                                                  uint64_t length);
LIMEKEEL_TOLD struct limekeel_pressed_written limekeel_shared_write_other_within(struct limekeel_shared *shared, uint32_t value);

/* Gives back what the seat holds above two quanta beside what is pending, down to one: after a sending. Or all of it: for a
 * connection that is idle, and before the last handle is freed, which gives all back and tells no change of pressure. */
LIMEKEEL_TOLD struct limekeel_pressed_done limekeel_shared_settle(struct limekeel_shared *shared);
LIMEKEEL_TOLD struct limekeel_pressed_done limekeel_transport_settle(struct limekeel_transport *transport);
LIMEKEEL_TOLD struct limekeel_pressed_done limekeel_shared_rest(struct limekeel_shared *shared);
LIMEKEEL_TOLD struct limekeel_pressed_done limekeel_transport_rest(struct limekeel_transport *transport);

/* The bytes that the connection holds of its budget, as `held` of limekeel_budgeted_state, if the lock is free: what is pending,
 * and what is spare, which a rest gives back. */
struct limekeel_seat_told limekeel_shared_held(struct limekeel_shared *shared);

/* What is pending now, as limekeel_look, and what has become of a promise, as limekeel_promise, if the lock is free. */
struct limekeel_look_told limekeel_shared_look(struct limekeel_shared *shared);
struct limekeel_promise_told limekeel_shared_promise(struct limekeel_shared *shared, uint64_t id);

/* Whether writers may go on, and the pending bytes: never older than the last call of this handle, and perhaps older than
 * another's. It takes no lock, so it is never LIMEKEEL_BUSY. */
struct limekeel_glance limekeel_shared_glance(struct limekeel_shared *shared);

/* Fills pieces with where the flushed blocks in front lie that hold a byte: at most `length` and LIMEKEEL_PIECES of them,
 * and at most max_bytes bytes, but the first in any case. `pieces` is not NULL. The lock is let go by then, and the pieces
 * are good until this transport takes those messages away: writers go on meanwhile. It allocates a list of the blocks. If
 * none is there, limekeel_transport_take_sent(t, 0) takes empty messages in front away. */
LIMEKEEL_TOLD struct limekeel_laid limekeel_transport_gather_pieces(struct limekeel_transport *transport,
                                                                    struct limekeel_piece *pieces, size_t length,
                                                                    uint32_t max_bytes);

/* Takes n bytes off the flushed blocks in front, as sent: what writev took of the pieces. It is refused for no other reason
 * than LIMEKEEL_BUSY if as many were gathered. */
LIMEKEEL_TOLD struct limekeel_taken limekeel_transport_take_sent(struct limekeel_transport *transport, uint64_t n);

/* As limekeel_current, limekeel_progress, limekeel_remove, limekeel_remove_with and limekeel_fail_flushed, if the lock is free:
 * for a region or another message in front. */
struct limekeel_current_told limekeel_transport_current(struct limekeel_transport *transport);
LIMEKEEL_TOLD uint32_t limekeel_transport_progress(struct limekeel_transport *transport, uint64_t n);
LIMEKEEL_TOLD struct limekeel_removed limekeel_transport_remove(struct limekeel_transport *transport);
LIMEKEEL_TOLD struct limekeel_removed limekeel_transport_remove_with(struct limekeel_transport *transport, uint32_t cause);
LIMEKEEL_TOLD struct limekeel_taken limekeel_transport_fail_flushed(struct limekeel_transport *transport, uint32_t cause,
                                                                    bool notify);

/* Gives the connection up, as limekeel_give_up, if the lock is free. */
LIMEKEEL_TOLD struct limekeel_taken limekeel_transport_give_up(struct limekeel_transport *transport, uint32_t cause);

/* How limekeel_send ended. */
enum limekeel_ending {
    LIMEKEEL_ENDED_DRAINED = 0,  /* no flushed message is left */
    LIMEKEEL_ENDED_BLOCKED = 1,  /* the socket has no room now: send again when it is ready */
    LIMEKEEL_ENDED_OTHER = 2,    /* a region or another message is in front, which is yours to send */
    LIMEKEEL_ENDED_BY_TURNS = 3, /* flushed messages are left: send again when the others had their turn */
    LIMEKEEL_ENDED_BROKEN = 4    /* the socket is broken: `error` says why, and nothing more was sent */
};

struct limekeel_sent {
    uint32_t status; /* LIMEKEEL_OK, or why nothing was done */
    uint32_t ending;
    int error;                   /* the errno of a broken socket, else 0 */
    uint64_t bytes;              /* how many bytes the socket took */
    struct limekeel_taken taken; /* which messages are gone by that, and how it changed writability */
};

/* Sends what is flushed to a stream socket, and takes away what the socket took: gather, sendmsg and take_sent,
 * turn by turn, until nothing is left, another message than a block is in front, the socket has no room, or
 * `max_turns` turns were made; one is made in any case. A turn offers blocks that lie together in memory as one
 * piece: at most LIMEKEEL_PIECES pieces, of twice as many blocks. It never waits, and a peer that is gone raises no
 * signal. A socket that took less than it was offered has no room. EINTR asks again, and EMSGSIZE with half as many
 * pieces. Empty messages in front are taken away in each case. It is in send.c, over the archive; it needs 32 KB of
 * stack. */
LIMEKEEL_TOLD struct limekeel_sent limekeel_send(struct limekeel_connection *connection, int socket, uint32_t max_turns);

/* The same of a managed connection, and whether the end is reached by it. */
struct limekeel_told_sent {
    struct limekeel_sent sent;
    bool finished;
};
LIMEKEEL_TOLD struct limekeel_told_sent limekeel_managed_send(struct limekeel_managed *managed, int socket, uint32_t max_turns);

/* The same of a connection that a budget covers. The changes of pressure by its turns are told as one: the last, if any. */
struct limekeel_pressed_sent {
    struct limekeel_sent sent;
    uint32_t pressure;
};
LIMEKEEL_TOLD struct limekeel_pressed_sent limekeel_budgeted_send(struct limekeel_budgeted *budgeted, int socket,
                                                                  uint32_t max_turns);

/* Messages that are made in place, as by a serializer, in memory that small ones share: reserve room, fill it, write it. A server
 * with many small answers makes one message of all that it answers in a turn: that costs a tenth. They are here and in
 * room.c, over limekeel_write_lent. One connection has one of these, which is let go of as messages are taken away. */
struct limekeel_chunk;
struct limekeel_rooms {
    struct limekeel_chunk *first, *last; /* Limekeel's, as what follows */
    uint8_t *at;                         /* where the next message is made; NULL: there is no chunk */
    size_t left;                         /* and how many bytes there is room for there */
    uint64_t end;                        /* above the promise of the last message in that chunk; 0: there is none. Without a
                                            chunk: how many bytes those had that waited together last */
};
#ifdef __cplusplus
#define LIMEKEEL_ROOMS {nullptr, nullptr, nullptr, 0, 0}
#else
#define LIMEKEEL_ROOMS {0}
#endif

/* What limekeel_reserve does if there is too little room: it begins a chunk. */
uint8_t *limekeel_reserve_chunk(struct limekeel_rooms *rooms, size_t most);

/* Where a message of at most `most` bytes may be made, or NULL if memory is refused. It is good until the next reserve, write
 * or let go. */
static inline uint8_t *limekeel_reserve(struct limekeel_rooms *rooms, size_t most)
{
    return rooms->at && rooms->left >= most ? rooms->at : limekeel_reserve_chunk(rooms, most);
}

/* How many bytes there is room for there: at least as many as were reserved, since small messages share memory. */
static inline size_t limekeel_left(const struct limekeel_rooms *rooms)
{
    return rooms->left;
}

/* Writes the first `length` bytes there, at most as many as there is room for, as limekeel_write_lent does. */
LIMEKEEL_TOLD static inline struct limekeel_written limekeel_write_reserved(struct limekeel_rooms *rooms,
                                                                            struct limekeel_connection *connection, size_t length);

/* The same of a managed connection, and of one that a budget covers. */
LIMEKEEL_TOLD static inline struct limekeel_written limekeel_managed_write_reserved(struct limekeel_rooms *rooms,
                                                                                    struct limekeel_managed *managed, size_t length);
LIMEKEEL_TOLD static inline struct limekeel_pressed_written limekeel_budgeted_write_reserved(struct limekeel_rooms *rooms,
                                                                                             struct limekeel_budgeted *budgeted,
                                                                                             size_t length);

/* Frees what only messages below this promise lie in. Call it with the `to` of each limekeel_taken, or after limekeel_remove
 * with one more than its promise; and with UINT64_MAX after limekeel_free, which frees all. */
void limekeel_let_go(struct limekeel_rooms *rooms, uint64_t end);

/* The heap. Limekeel allocates through these three alone. heap.c defines them over malloc, weakly: a
 * program that defines all three itself gets its own. They are of one heap; a block is aligned to each
 * power of two up to 16 that divides its size, and more is never asked for. If memory is refused `given`
 * is false, `at` points anywhere but to NULL, and a block that was to grow stays as it was. Of the block
 * that realloc moves the first `kept` bytes stay. */
struct limekeel_memory {
    bool given;
    uint8_t *at;
};
struct limekeel_memory limekeel_alloc(size_t size, size_t align);
struct limekeel_memory limekeel_realloc(uint8_t *at, size_t kept, size_t size, size_t align);
void limekeel_dealloc(uint8_t *at);

/* The calls that take bytes, parts or pieces, for callers that may have none: NULL is good then. Call these. */
static inline uint32_t limekeel_block_new(struct limekeel_block *block, const void *bytes, size_t length)
{
    return limekeel_block_of_bytes(block, length > 0 ? (const uint8_t *)bytes : (const uint8_t *)"", length);
}

LIMEKEEL_TOLD static inline struct limekeel_written limekeel_write(struct limekeel_connection *connection, const void *bytes,
                                                     size_t length)
{
    return limekeel_write_bytes(connection, length > 0 ? (const uint8_t *)bytes : (const uint8_t *)"", length);
}

LIMEKEEL_TOLD static inline struct limekeel_written limekeel_shared_write(struct limekeel_shared *shared, const void *bytes,
                                                                          size_t length)
{
    return limekeel_shared_write_bytes(shared, length > 0 ? (const uint8_t *)bytes : (const uint8_t *)"", length);
}

LIMEKEEL_TOLD static inline struct limekeel_written_and_flushed limekeel_shared_write_and_flush(struct limekeel_shared *shared,
                                                                                                const void *bytes,
                                                                                                size_t length)
{
    return limekeel_shared_write_and_flush_bytes(shared, length > 0 ? (const uint8_t *)bytes : (const uint8_t *)"", length);
}

LIMEKEEL_TOLD static inline struct limekeel_written limekeel_shared_write_lent(struct limekeel_shared *shared,
                                                                               const void *bytes, size_t length)
{
    return limekeel_shared_write_lent_bytes(shared, length > 0 ? (const uint8_t *)bytes : (const uint8_t *)"", length);
}

LIMEKEEL_TOLD static inline struct limekeel_pressed_written limekeel_shared_write_within(struct limekeel_shared *shared,
                                                                                         const void *bytes, size_t length)
{
    return limekeel_shared_write_bytes_within(shared, length > 0 ? (const uint8_t *)bytes : (const uint8_t *)"", length);
}

LIMEKEEL_TOLD static inline struct limekeel_pressed_written_and_flushed limekeel_shared_write_and_flush_within(
    struct limekeel_shared *shared, const void *bytes, size_t length)
{
    return limekeel_shared_write_and_flush_bytes_within(shared, length > 0 ? (const uint8_t *)bytes : (const uint8_t *)"",
                                                        length);
}

LIMEKEEL_TOLD static inline struct limekeel_pressed_written limekeel_shared_write_lent_within(struct limekeel_shared *shared,
                                                                                              const void *bytes,
                                                                                              size_t length)
{
    return limekeel_shared_write_lent_bytes_within(shared, length > 0 ? (const uint8_t *)bytes : (const uint8_t *)"",
                                                   length);
}

/* Whether writers may go on, as a glance shows: it takes no lock. */
static inline struct limekeel_truth limekeel_shared_is_writable(struct limekeel_shared *shared)
{
    struct limekeel_glance glance = limekeel_shared_glance(shared);
    struct limekeel_truth truth = {glance.status, glance.status == LIMEKEEL_OK && glance.word == 0};
    return truth;
}

LIMEKEEL_TOLD static inline struct limekeel_written limekeel_write_lent(struct limekeel_connection *connection,
                                                                        const void *bytes, size_t length)
{
    return limekeel_write_lent_bytes(connection, length > 0 ? (const uint8_t *)bytes : (const uint8_t *)"", length);
}

LIMEKEEL_TOLD static inline struct limekeel_written limekeel_managed_write(struct limekeel_managed *managed, const void *bytes,
                                                                           size_t length)
{
    return limekeel_managed_write_bytes(managed, length > 0 ? (const uint8_t *)bytes : (const uint8_t *)"", length);
}

LIMEKEEL_TOLD static inline struct limekeel_written limekeel_managed_write_lent(struct limekeel_managed *managed,
                                                                                const void *bytes, size_t length)
{
    return limekeel_managed_write_lent_bytes(managed, length > 0 ? (const uint8_t *)bytes : (const uint8_t *)"", length);
}

LIMEKEEL_TOLD static inline struct limekeel_pressed_written limekeel_budgeted_write(struct limekeel_budgeted *budgeted,
                                                                                   const void *bytes, size_t length)
{
    return limekeel_budgeted_write_bytes(budgeted, length > 0 ? (const uint8_t *)bytes : (const uint8_t *)"", length);
}

LIMEKEEL_TOLD static inline struct limekeel_pressed_written limekeel_budgeted_write_lent(struct limekeel_budgeted *budgeted,
                                                                                        const void *bytes, size_t length)
{
    return limekeel_budgeted_write_lent_bytes(budgeted, length > 0 ? (const uint8_t *)bytes : (const uint8_t *)"", length);
}

/* Asks the processor for what lies behind the newest message. */
static inline void limekeel_ask_behind(const uint8_t *at)
{
#ifdef __GNUC__
    /* an entry has 64 bytes, and the processor brings the one beside it too */
    __builtin_prefetch(*(const uint8_t *const *)(const void *)at + 128, 1);
#else
    (void)at;
#endif
}

/* Asks the processor for the memory in which the next messages of this connection come to lie. Call it after a write if many
 * connections are written to in turn, as when one message goes to many clients: the memory comes while the others have their
 * turn, and else each write waits for it. It changes nothing; without a connection it does nothing. */
static inline void limekeel_ask_ahead(struct limekeel_connection *connection)
{
    if (limekeel_note_newest(connection) == LIMEKEEL_OK)
        limekeel_ask_behind(connection->at);
}
static inline void limekeel_managed_ask_ahead(struct limekeel_managed *managed)
{
    if (limekeel_managed_note_newest(managed) == LIMEKEEL_OK)
        limekeel_ask_behind(managed->at);
}
static inline void limekeel_budgeted_ask_ahead(struct limekeel_budgeted *budgeted)
{
    if (limekeel_budgeted_note_newest(budgeted) == LIMEKEEL_OK)
        limekeel_ask_behind(budgeted->at);
}

/* A message that was written where it was made keeps its bytes there. */
static inline void limekeel_keep_reserved(struct limekeel_rooms *rooms, uint32_t status, uint64_t id, size_t length)
{
    if (status == LIMEKEEL_OK) {
        rooms->at += length;
        rooms->left -= length;
        rooms->end = id + 1;
#ifdef __GNUC__
        /* The next message comes when others had theirs: without this it waits for the memory that it is made in. */
        __builtin_prefetch(rooms->at + 64, 1);
#endif
    }
}

/* If no memory was reserved, there is none to keep: the message is of no bytes. */
LIMEKEEL_TOLD static inline struct limekeel_written limekeel_write_reserved(struct limekeel_rooms *rooms,
                                                                            struct limekeel_connection *connection, size_t length)
{
    if (!rooms->at)
        return limekeel_write_lent(connection, NULL, 0);
    struct limekeel_written written = limekeel_write_lent_bytes(connection, rooms->at, length);
    limekeel_keep_reserved(rooms, written.status, written.id, length);
    return written;
}

LIMEKEEL_TOLD static inline struct limekeel_written limekeel_managed_write_reserved(struct limekeel_rooms *rooms,
                                                                                    struct limekeel_managed *managed, size_t length)
{
    if (!rooms->at)
        return limekeel_managed_write_lent(managed, NULL, 0);
    struct limekeel_written written = limekeel_managed_write_lent_bytes(managed, rooms->at, length);
    limekeel_keep_reserved(rooms, written.status, written.id, length);
    return written;
}

LIMEKEEL_TOLD static inline struct limekeel_pressed_written limekeel_budgeted_write_reserved(struct limekeel_rooms *rooms,
                                                                                             struct limekeel_budgeted *budgeted,
                                                                                             size_t length)
{
    if (!rooms->at)
        return limekeel_budgeted_write_lent(budgeted, NULL, 0);
    struct limekeel_pressed_written told = limekeel_budgeted_write_lent_bytes(budgeted, rooms->at, length);
    limekeel_keep_reserved(rooms, told.status, told.id, length);
    return told;
}

LIMEKEEL_TOLD static inline struct limekeel_written limekeel_write_parts(struct limekeel_connection *connection,
                                                                         const struct limekeel_piece *parts,
                                                                         size_t length)
{
    struct limekeel_piece none = {(const uint8_t *)"", 0};
    return limekeel_write_pieces(connection, length > 0 ? parts : &none, length);
}

static inline struct limekeel_gathered limekeel_gather(const struct limekeel_connection *connection,
                                                       struct limekeel_piece *pieces, size_t length,
                                                       uint32_t max_bytes)
{
    struct limekeel_piece none = {(const uint8_t *)"", 0};
    return limekeel_gather_pieces(connection, length > 0 ? pieces : &none, length, max_bytes);
}

static inline struct limekeel_gathered limekeel_managed_gather(const struct limekeel_managed *managed,
                                                               struct limekeel_piece *pieces, size_t length,
                                                               uint32_t max_bytes)
{
    struct limekeel_piece none = {(const uint8_t *)"", 0};
    return limekeel_managed_gather_pieces(managed, length > 0 ? pieces : &none, length, max_bytes);
}

static inline struct limekeel_gathered limekeel_budgeted_gather(const struct limekeel_budgeted *budgeted,
                                                                struct limekeel_piece *pieces, size_t length,
                                                                uint32_t max_bytes)
{
    struct limekeel_piece none = {(const uint8_t *)"", 0};
    return limekeel_budgeted_gather_pieces(budgeted, length > 0 ? pieces : &none, length, max_bytes);
}

#ifdef LIMEKEEL_IOVEC
LIMEKEEL_LAYOUT(iovec, 16, iov_len, offsetof(struct limekeel_piece, length));

/* The same for writev: a piece lies as a struct iovec does. */
static inline struct limekeel_gathered limekeel_gather_iovec(const struct limekeel_connection *connection,
                                                             struct iovec *slices, size_t length,
                                                             uint32_t max_bytes)
{
    return limekeel_gather(connection, (struct limekeel_piece *)slices, length, max_bytes);
}
#endif
#undef LIMEKEEL_LAYOUT

/* The text of a status. */
static inline const char *limekeel_strstatus(uint32_t status)
{
    switch (status) {
    case LIMEKEEL_OK: return "done";
    case LIMEKEEL_OVERSIZE: return "the message is too large to be counted";
    case LIMEKEEL_BAD_MARKS: return "the low mark is above the high mark, or the high mark above 2147483647";
    case LIMEKEEL_TOO_MUCH: return "too much is pending, or too many writes were accepted";
    case LIMEKEEL_CLOSED: return "the connection is closed";
    case LIMEKEEL_NOTHING_FLUSHED: return "no message is flushed";
    case LIMEKEEL_TOO_FAR: return "the progress of the message would pass 9223372036854775807";
    case LIMEKEEL_TOO_MANY_BYTES: return "the flushed blocks in front hold fewer bytes";
    case LIMEKEEL_BAD_INDEX: return "the index of a user bit is 1 to 31";
    case LIMEKEEL_FLUSHED_LEFT: return "flushed messages are left";
    case LIMEKEEL_UNKNOWN_PROMISE: return "no write has this promise";
    case LIMEKEEL_NO_MEMORY: return "out of memory";
    case LIMEKEEL_NOT_OPEN: return "the connection, block or budget owns nothing";
    case LIMEKEEL_ALREADY_OPEN: return "the connection, block or budget owns something already";
    case LIMEKEEL_BAD_ESTIMATE: return "the overhead or the size of unknown messages is above 65535";
    case LIMEKEEL_NO_BLOCK: return "the block that is to be written owns nothing";
    case LIMEKEEL_OTHER_VERSION: return "the archive is of another version than the header";
    case LIMEKEEL_BUSY: return "another call has the lock, or others came in between at the budget";
    case LIMEKEEL_FINISHING: return "the connection is finishing";
    case LIMEKEEL_FULL: return "more would be pending than the connection may hold";
    case LIMEKEEL_OVER_BUDGET: return "the budget has no room for the message";
    case LIMEKEEL_BAD_BOUNDS: return "the low mark of the budget is above the high mark, or its room above 2^62 - 1";
    default: return "no status of this version";
    }
}

#ifdef __cplusplus
}
#endif

#endif
