/* What the queues by Limekeel have in common: queue_limekeel.c, queue_joined.c and queue_budgeted.c. */
#ifndef QUEUE_OURS_H
#define QUEUE_OURS_H
#include "queue.h"

uint64_t queue_stops;

/* A change of writability is told once. */
static inline void note(struct queue *queue, uint32_t change)
{
    if (change == LIMEKEEL_UNWRITABLE)
        queue->writable = false, queue_stops++;
    else if (change == LIMEKEEL_WRITABLE)
        queue->writable = true;
}

static inline enum sent how_it_ended(struct limekeel_sent sent)
{
    switch (sent.ending) {
    case LIMEKEEL_ENDED_DRAINED: return sent.status == LIMEKEEL_OK ? SENT_ALL : SENT_BROKEN;
    case LIMEKEEL_ENDED_BLOCKED: return SENT_BLOCKED;
    case LIMEKEEL_ENDED_BY_TURNS: return SENT_SOME;
    default: return SENT_BROKEN;
    }
}
#endif
