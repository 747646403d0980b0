/*
 * What a connection is to do, written from limekeel.h and docs/behaviour.md alone: a plain list of what waits, gone through
 * anew for each answer. It does not allocate for its answers, and nothing here is fast.
 */
#ifndef MODEL_H
#define MODEL_H

#include "limekeel.h"

/* A message that waits. */
struct row {
    uint32_t kind;        /* of LIMEKEEL_CURRENT_BLOCK and its kin */
    uint64_t number;      /* the bytes of a block, the length of a region, the number of another */
    const uint8_t *bytes; /* of a block */
    bool is_own;          /* whether the bytes are a copy of this row's */
    uint64_t size;        /* what it counts */
    uint64_t skipped;     /* bytes of a block that are sent */
    uint64_t progress;
    bool flushed, cancelled, voided;
};

/* A connection. */
struct model {
    bool open, closed;
    uint32_t low, high, overhead, unknown, word;
    uint64_t gone; /* how many rows were taken away: the id of the first that waits */
    size_t count, room;
    struct row *rows;
};

/* Each call with the status that it is refused by, or LIMEKEEL_OK, and then what it returns. A call that may be out of memory
 * is told so by `refused`. */
uint32_t model_open(struct model *model, const uint32_t settings[4], bool other, bool refused);
uint32_t model_free(struct model *model);
struct limekeel_written model_write(struct model *model, struct row row, bool refused);
struct limekeel_flushed model_flush(struct model *model);
struct limekeel_removed model_remove(struct model *model, uint32_t outcome, uint32_t cause);
struct limekeel_taken model_take_sent(struct model *model, uint64_t n);
uint32_t model_progress(struct model *model, uint64_t n);
struct limekeel_cancelled model_cancel(struct model *model, uint64_t id);
struct limekeel_taken model_fail_flushed(struct model *model, uint32_t cause, bool notify);
struct limekeel_taken model_close(struct model *model, uint32_t cause);
struct limekeel_taken model_give_up(struct model *model, uint32_t cause);
struct limekeel_changed model_user_bit(struct model *model, uint32_t index, bool writable);
uint32_t model_set_marks(struct model *model, uint32_t low, uint32_t high);

/* The looks. */
struct limekeel_look_told model_look(const struct model *model);
struct limekeel_promise_told model_promise(const struct model *model, uint64_t id);
struct limekeel_front_told model_front(const struct model *model);
struct limekeel_current_told model_current(const struct model *model);
struct limekeel_gathered model_gather(const struct model *model, struct limekeel_piece *pieces, size_t length,
                                      uint32_t max_bytes);

/* Whether a write of such a row would be refused, if not for want of memory. */
uint32_t model_refusal(const struct model *model, const struct row *row);

#endif
