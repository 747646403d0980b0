#include "model.h"

#include <stdlib.h>
#include <string.h>

#define GREATEST 2147483647u /* of a mark, and of what a message counts */
#define GREATEST_ESTIMATE 65535u

/* The pending bytes: the sum of what waits and is not voided. */
static uint64_t total(const struct model *model)
{
    uint64_t sum = 0;
    for (size_t at = 0; at < model->count; at++)
        sum += model->rows[at].voided ? 0 : model->rows[at].size;
    return sum;
}

/* How many messages are in line: flushed ones, which are in front. */
static size_t line(const struct model *model)
{
    size_t count = 0;
    while (count < model->count && model->rows[count].flushed)
        count++;
    return count;
}

static uint64_t unread(const struct row *row)
{
    return row->voided ? 0 : row->number - row->skipped;
}

static bool is_block(const struct row *row)
{
    return row->voided || row->kind == LIMEKEEL_CURRENT_BLOCK;
}

static uint32_t change_from(const struct model *model, uint32_t word)
{
    if (word == 0 && model->word != 0)
        return LIMEKEEL_UNWRITABLE;
    return word != 0 && model->word == 0 ? LIMEKEEL_WRITABLE : LIMEKEEL_UNCHANGED;
}

/* What a rise or a fall of the total does to the mark. */
static void decide(struct model *model, uint64_t before, bool notify)
{
    uint64_t now = total(model);
    if (now > before && now > model->high)
        model->word |= 1u;
    if (now < before && notify && now < model->low)
        model->word &= ~1u;
}

static uint32_t refused_by(const struct model *model)
{
    if (!model->open)
        return LIMEKEEL_NOT_OPEN;
    return model->closed ? LIMEKEEL_CLOSED : LIMEKEEL_OK;
}

static bool are_marks(uint32_t low, uint32_t high)
{
    return low <= high && high <= GREATEST;
}

static void let_go(struct row *row)
{
    if (row->is_own)
        free((void *)(uintptr_t)row->bytes);
}

/* The first messages go away, one after the other. */
static void drop(struct model *model, size_t count, bool notify)
{
    for (; count > 0; count--) {
        uint64_t before = total(model);
        let_go(&model->rows[0]);
        model->count--;
        model->gone++;
        memmove(model->rows, model->rows + 1, model->count * sizeof *model->rows);
        decide(model, before, notify);
    }
}

static struct limekeel_taken takes(struct model *model, size_t count, uint32_t outcome, uint32_t cause, bool notify)
{
    uint32_t word = model->word;
    struct limekeel_taken told = {LIMEKEEL_OK, 0, outcome, cause, count, model->gone, model->gone + count};
    drop(model, count, notify);
    told.change = change_from(model, word);
    return told;
}

uint32_t model_open(struct model *model, const uint32_t settings[4], bool other, bool refused)
{
    if (model->open)
        return LIMEKEEL_ALREADY_OPEN;
    if (other)
        return LIMEKEEL_OTHER_VERSION;
    if (!are_marks(settings[0], settings[1]))
        return LIMEKEEL_BAD_MARKS;
    if (settings[2] > GREATEST_ESTIMATE || settings[3] > GREATEST_ESTIMATE)
        return LIMEKEEL_BAD_ESTIMATE;
    if (refused)
        return LIMEKEEL_NO_MEMORY;
    struct model opened = {.open = true, .low = settings[0], .high = settings[1], .overhead = settings[2], .unknown = settings[3]};
    *model = opened;
    return LIMEKEEL_OK;
}

uint32_t model_free(struct model *model)
{
    if (!model->open)
        return LIMEKEEL_NOT_OPEN;
    for (size_t at = 0; at < model->count; at++)
        let_go(&model->rows[at]);
    free(model->rows);
    struct model none = {0};
    *model = none;
    return LIMEKEEL_OK;
}

/* What a message counts: its estimate and the overhead. */
static uint64_t counts(const struct model *model, const struct row *row)
{
    uint64_t estimate = row->kind == LIMEKEEL_CURRENT_BLOCK   ? row->number
                        : row->kind == LIMEKEEL_CURRENT_OTHER ? model->unknown
                                                              : 0;
    return estimate + model->overhead;
}

uint32_t model_refusal(const struct model *model, const struct row *row)
{
    uint32_t status = refused_by(model);
    if (status != LIMEKEEL_OK)
        return status;
    if (row->kind == LIMEKEEL_CURRENT_REGION && row->number > INT64_MAX)
        return LIMEKEEL_OVERSIZE;
    if (row->kind == LIMEKEEL_CURRENT_BLOCK && row->number > GREATEST)
        return LIMEKEEL_OVERSIZE;
    if (counts(model, row) > GREATEST)
        return LIMEKEEL_OVERSIZE;
    return total(model) + counts(model, row) > UINT32_MAX ? LIMEKEEL_TOO_MUCH : LIMEKEEL_OK;
}

struct limekeel_written model_write(struct model *model, struct row row, bool refused)
{
    struct limekeel_written told = {model_refusal(model, &row), 0, 0};
    if (told.status == LIMEKEEL_OK && refused)
        told.status = LIMEKEEL_NO_MEMORY;
    if (told.status != LIMEKEEL_OK) {
        let_go(&row);
        return told;
    }
    uint64_t before = total(model);
    uint32_t word = model->word;
    row.size = counts(model, &row);
    if (model->count == model->room) {
        model->room = 2 * model->room + 8;
        model->rows = realloc(model->rows, model->room * sizeof *model->rows);
        if (!model->rows)
            abort();
    }
    model->rows[model->count++] = row;
    decide(model, before, true);
    told.id = model->gone + model->count - 1;
    told.change = change_from(model, word);
    return told;
}

struct limekeel_flushed model_flush(struct model *model)
{
    struct limekeel_flushed told = {refused_by(model), 0, 0};
    if (told.status != LIMEKEEL_OK)
        return told;
    uint32_t word = model->word;
    for (size_t at = line(model); at < model->count; at++) {
        uint64_t before = total(model);
        model->rows[at].flushed = true;
        model->rows[at].voided = model->rows[at].cancelled;
        decide(model, before, true);
        told.count++;
    }
    told.change = change_from(model, word);
    return told;
}

struct limekeel_removed model_remove(struct model *model, uint32_t outcome, uint32_t cause)
{
    struct limekeel_removed told = {0};
    told.status = refused_by(model);
    if (told.status != LIMEKEEL_OK || line(model) == 0)
        return told;
    uint32_t word = model->word;
    told.any = true;
    told.settled = !model->rows[0].cancelled;
    if (told.settled) {
        told.outcome = outcome;
        told.cause = cause;
        told.id = model->gone;
    }
    drop(model, 1, true);
    told.change = change_from(model, word);
    return told;
}

/* How many of the first messages in line are blocks. */
static size_t byte_run(const struct model *model)
{
    size_t count = 0, most = line(model);
    while (count < most && is_block(&model->rows[count]))
        count++;
    return count;
}

struct limekeel_taken model_take_sent(struct model *model, uint64_t n)
{
    struct limekeel_taken told = {0};
    told.status = refused_by(model);
    if (told.status != LIMEKEEL_OK)
        return told;
    size_t run = byte_run(model), whole = 0;
    uint64_t held = 0;
    for (size_t at = 0; at < run; at++)
        held += unread(&model->rows[at]);
    if (n > held) {
        told.status = LIMEKEEL_TOO_MANY_BYTES;
        return told;
    }
    for (; whole < run && unread(&model->rows[whole]) <= n; whole++)
        n -= unread(&model->rows[whole]);
    told = takes(model, whole, LIMEKEEL_SUCCESS, 0, true);
    if (n > 0) {
        struct row *cut = &model->rows[0];
        cut->skipped += n;
        cut->progress = n > INT64_MAX - cut->progress ? INT64_MAX : cut->progress + n;
    }
    return told;
}

uint32_t model_progress(struct model *model, uint64_t n)
{
    uint32_t status = refused_by(model);
    if (status != LIMEKEEL_OK)
        return status;
    if (line(model) == 0)
        return LIMEKEEL_NOTHING_FLUSHED;
    if (n > INT64_MAX - model->rows[0].progress)
        return LIMEKEEL_TOO_FAR;
    model->rows[0].progress += n;
    return LIMEKEEL_OK;
}

struct limekeel_cancelled model_cancel(struct model *model, uint64_t id)
{
    struct limekeel_cancelled told = {refused_by(model), false};
    if (told.status == LIMEKEEL_OK && id >= model->gone + model->count)
        told.status = LIMEKEEL_UNKNOWN_PROMISE;
    if (told.status != LIMEKEEL_OK || id < model->gone)
        return told;
    struct row *row = &model->rows[id - model->gone];
    told.in_time = !row->flushed && !row->cancelled;
    row->cancelled = row->cancelled || told.in_time;
    return told;
}

struct limekeel_taken model_fail_flushed(struct model *model, uint32_t cause, bool notify)
{
    struct limekeel_taken told = {0};
    told.status = refused_by(model);
    return told.status == LIMEKEEL_OK ? takes(model, line(model), LIMEKEEL_FAILED, cause, notify) : told;
}

struct limekeel_taken model_close(struct model *model, uint32_t cause)
{
    struct limekeel_taken told = {0};
    told.status = refused_by(model);
    if (told.status == LIMEKEEL_OK && line(model) > 0)
        told.status = LIMEKEEL_FLUSHED_LEFT;
    return told.status == LIMEKEEL_OK ? model_give_up(model, cause) : told;
}

struct limekeel_taken model_give_up(struct model *model, uint32_t cause)
{
    struct limekeel_taken told = {0};
    told.status = refused_by(model);
    if (told.status != LIMEKEEL_OK)
        return told;
    model->closed = true;
    return takes(model, model->count, LIMEKEEL_FAILED, cause, false);
}

struct limekeel_changed model_user_bit(struct model *model, uint32_t index, bool writable)
{
    struct limekeel_changed told = {refused_by(model), 0};
    if (told.status == LIMEKEEL_OK && (index < 1 || index > 31))
        told.status = LIMEKEEL_BAD_INDEX;
    if (told.status != LIMEKEEL_OK)
        return told;
    uint32_t word = model->word;
    model->word = writable ? model->word & ~(1u << index) : model->word | 1u << index;
    told.change = change_from(model, word);
    return told;
}

uint32_t model_set_marks(struct model *model, uint32_t low, uint32_t high)
{
    /* marks that are none never reach the connection */
    if (model->open && !are_marks(low, high))
        return LIMEKEEL_BAD_MARKS;
    uint32_t status = refused_by(model);
    if (status == LIMEKEEL_OK) {
        model->low = low;
        model->high = high;
    }
    return status;
}

struct limekeel_look_told model_look(const struct model *model)
{
    struct limekeel_look_told told = {0};
    told.status = model->open ? LIMEKEEL_OK : LIMEKEEL_NOT_OPEN;
    if (!model->open)
        return told;
    uint64_t pending = total(model);
    told.total = (uint32_t)pending;
    told.word = model->word;
    told.size = line(model);
    if (model->word == 0 && pending <= model->high)
        told.before_unwritable = model->high - told.total + 1;
    if (model->word != 0 && pending >= model->low)
        told.before_writable = pending - model->low == UINT32_MAX ? UINT32_MAX : told.total - model->low + 1;
    told.current_progress = told.size > 0 ? model->rows[0].progress : 0;
    return told;
}

struct limekeel_promise_told model_promise(const struct model *model, uint64_t id)
{
    struct limekeel_promise_told told = {0};
    told.status = model->open ? LIMEKEEL_OK : LIMEKEEL_NOT_OPEN;
    if (!model->open || id >= model->gone + model->count)
        return told;
    if (id < model->gone) {
        told.state = LIMEKEEL_SETTLED_BEFORE;
        return told;
    }
    const struct row *row = &model->rows[id - model->gone];
    told.state = row->cancelled ? LIMEKEEL_SETTLED : row->flushed ? LIMEKEEL_FIXED : LIMEKEEL_WAITING;
    told.outcome = row->cancelled ? LIMEKEEL_CANCELLED : LIMEKEEL_NO_OUTCOME;
    return told;
}

struct limekeel_front_told model_front(const struct model *model)
{
    struct limekeel_front_told told = {0};
    told.status = model->open ? LIMEKEEL_OK : LIMEKEEL_NOT_OPEN;
    told.any = model->open && line(model) > 0;
    told.id = told.any ? model->gone : 0;
    return told;
}

struct limekeel_current_told model_current(const struct model *model)
{
    struct limekeel_current_told told = {0};
    told.status = model->open ? LIMEKEEL_OK : LIMEKEEL_NOT_OPEN;
    if (!model->open || line(model) == 0)
        return told;
    const struct row *front = &model->rows[0];
    if (is_block(front)) {
        told.kind = LIMEKEEL_CURRENT_BLOCK;
        told.number = unread(front);
    } else {
        told.kind = front->kind;
        told.number = front->number;
        if (front->kind == LIMEKEEL_CURRENT_REGION)
            told.number = front->progress > front->number ? 0 : front->number - front->progress;
    }
    return told;
}

struct limekeel_gathered model_gather(const struct model *model, struct limekeel_piece *pieces, size_t length,
                                      uint32_t max_bytes)
{
    struct limekeel_gathered told = {model->open ? LIMEKEEL_OK : LIMEKEEL_NOT_OPEN, LIMEKEEL_FRONT_NOTHING, 0};
    size_t run = model->open ? byte_run(model) : 0;
    uint64_t bytes = 0;
    for (size_t at = 0; at < run && told.count < length; at++) {
        const struct row *row = &model->rows[at];
        if (unread(row) == 0)
            continue;
        if (told.count > 0 && bytes + unread(row) > max_bytes)
            break;
        bytes += unread(row);
        pieces[told.count].at = row->bytes + row->skipped;
        pieces[told.count++].length = (size_t)unread(row);
    }
    if (!model->open || line(model) == 0)
        return told;
    const struct row *front = &model->rows[0];
    if (is_block(front))
        told.front = told.count == 0 && unread(front) == 0 ? LIMEKEEL_FRONT_EMPTY_BLOCKS : LIMEKEEL_FRONT_BLOCKS;
    else
        told.front = front->kind == LIMEKEEL_CURRENT_REGION ? LIMEKEEL_FRONT_REGION : LIMEKEEL_FRONT_OTHER;
    return told;
}
