/*
 * Threads that drive many connections within one room, over sockets that stall: connections are opened, given up, freed and handed
 * to other threads, each byte that comes is compared, and no look finds more than the room.
 *
 *     budget_soak [SECONDS [SEED]]
 */
#define _POSIX_C_SOURCE 200809L
#include <inttypes.h>
#include <pthread.h>
#include <stdatomic.h>
#include <stdio.h>
#include <stdlib.h>
#include <string.h>
#include <sys/socket.h>
#include <time.h>
#include <unistd.h>

#include "limekeel.h"

enum { THREADS = 4, LINKS = 12, ROOM = 400000, LOW = 150000, HIGH = 300000, QUANTUM = 4096, MOST = 20000, PERIOD = 65521 };

/* A connection, its two sockets, and how far it is: what was written, and what came out at the other end. */
struct link {
    struct limekeel_budgeted budgeted;
    int own, peer;
    uint32_t stalls; /* for how many turns its peer reads nothing */
    uint64_t seed, written, came;
};

struct worker {
    pthread_t thread;
    struct limekeel_budget budget;
    struct link links[LINKS];
    uint64_t dice, writes, refused, bytes, opened, given_up, began, ended;
};

static uint8_t pool[PERIOD + MOST];
static struct link handed[THREADS]; /* between threads, under the lock */
static pthread_mutex_t lock = PTHREAD_MUTEX_INITIALIZER;
static atomic_bool over, calm; /* while it is calm nobody writes, so that pressure ends */

static void expect(const char *what, bool holds)
{
    if (!holds) {
        fprintf(stderr, "%s\n", what);
        exit(1);
    }
}

static uint64_t roll(struct worker *worker, uint64_t sides)
{
    worker->dice ^= worker->dice << 13, worker->dice ^= worker->dice >> 7, worker->dice ^= worker->dice << 17;
    return worker->dice % sides;
}

static void counts(struct worker *worker, uint32_t pressure)
{
    worker->began += pressure == LIMEKEEL_PRESSURE_BEGAN;
    worker->ended += pressure == LIMEKEEL_PRESSURE_ENDED;
}

static void keeps_the_room(struct worker *worker, const struct link *link)
{
    struct limekeel_budget_told told = limekeel_budget_look(&worker->budget);
    expect("never more than the room", told.status == LIMEKEEL_OK && told.total <= ROOM);
    struct limekeel_standing standing = limekeel_budgeted_state(&link->budgeted);
    uint32_t pending = limekeel_budgeted_look(&link->budgeted).total;
    expect("what is pending is held", standing.held >= pending && standing.held <= ROOM);
    expect("and little else", standing.held <= pending + 2 * QUANTUM);
}

static void opens(struct worker *worker, struct link *link)
{
    int pair[2], small = 4096;
    expect("sockets", socketpair(AF_UNIX, SOCK_STREAM, 0, pair) == 0);
    expect("small ones", setsockopt(pair[0], SOL_SOCKET, SO_SNDBUF, &small, sizeof(small)) == 0);
    *link = (struct link){.budgeted = LIMEKEEL_BUDGETED, .own = pair[0], .peer = pair[1], .seed = roll(worker, PERIOD)};
    expect("opened", limekeel_open_within(&link->budgeted, 16384, 32768, 96, 8, &worker->budget) == LIMEKEEL_OK);
    worker->opened++;
}

static void frees(struct worker *worker, struct link *link)
{
    struct limekeel_pressed_done freed;
    do {
        freed = limekeel_budgeted_free(&link->budgeted);
        counts(worker, freed.pressure);
    } while (freed.status == LIMEKEEL_BUSY);
    expect("freed", freed.status == LIMEKEEL_OK && close(link->own) == 0 && close(link->peer) == 0);
}

static void writes(struct worker *worker, struct link *link)
{
    uint32_t before = limekeel_budgeted_look(&link->budgeted).total;
    size_t size = 1 + roll(worker, roll(worker, 4) ? 200 : MOST);
    const uint8_t *bytes = pool + (link->seed + link->written) % PERIOD;
    struct limekeel_pressed_written told = limekeel_budgeted_write(&link->budgeted, bytes, size);
    counts(worker, told.pressure);
    uint32_t after = limekeel_budgeted_look(&link->budgeted).total;
    if (told.status == LIMEKEEL_OK) {
        expect("it is counted", after == before + size + 96);
        link->written += size;
        worker->writes++;
    } else {
        expect("no room", told.status == LIMEKEEL_OVER_BUDGET || told.status == LIMEKEEL_BUSY);
        expect("nothing changed", after == before);
        worker->refused++;
    }
}

static void sends(struct worker *worker, struct link *link)
{
    counts(worker, limekeel_budgeted_flush(&link->budgeted).pressure);
    struct limekeel_pressed_sent told = limekeel_budgeted_send(&link->budgeted, link->own, 4);
    expect("it is sent", told.sent.status == LIMEKEEL_OK && told.sent.ending != LIMEKEEL_ENDED_BROKEN);
    counts(worker, told.pressure);
}

static void reads(struct worker *worker, struct link *link)
{
    static _Thread_local uint8_t room[MOST];
    if (link->stalls > 0) {
        link->stalls--;
        return;
    }
    if (roll(worker, 500) == 0)
        link->stalls = (uint32_t)roll(worker, 1000);
    ssize_t count = recv(link->peer, room, 1 + roll(worker, MOST), MSG_DONTWAIT);
    if (count <= 0)
        return;
    expect("each byte is the one due", memcmp(room, pool + (link->seed + link->came) % PERIOD, (size_t)count) == 0);
    link->came += (uint64_t)count;
    worker->bytes += (uint64_t)count;
}

/* Reads all that was written, or gives up what waits, and opens another. */
static void ends(struct worker *worker, struct link *link)
{
    if (roll(worker, 2)) {
        counts(worker, limekeel_budgeted_give_up(&link->budgeted, 1).pressure);
        expect("nothing is pending", limekeel_budgeted_look(&link->budgeted).total == 0);
        worker->given_up++;
    } else {
        for (link->stalls = 0; link->came < link->written; link->stalls = 0)
            sends(worker, link), reads(worker, link);
        expect("all was sent", limekeel_budgeted_look(&link->budgeted).total == 0);
    }
    frees(worker, link);
    opens(worker, link);
}

static void hands_over(struct worker *worker, struct link *link)
{
    pthread_mutex_lock(&lock);
    struct link *other = &handed[roll(worker, THREADS)], kept = *other;
    *other = *link;
    *link = kept;
    pthread_mutex_unlock(&lock);
}

static void *works(void *at)
{
    struct worker *worker = at;
    while (!atomic_load(&over)) {
        struct link *link = &worker->links[roll(worker, LINKS)];
        switch (roll(worker, 64)) {
        case 0: hands_over(worker, link); break;
        case 1: roll(worker, 8) ? reads(worker, link) : ends(worker, link); break;
        case 2: counts(worker, limekeel_budgeted_rest(&link->budgeted).pressure); break;
        default:
            if (!atomic_load(&calm) && roll(worker, 2))
                writes(worker, link);
            else
                sends(worker, link), reads(worker, link);
        }
        keeps_the_room(worker, link);
    }
    return NULL;
}

static void begins(struct limekeel_budget *budget, struct worker *workers, uint64_t seed)
{
    for (size_t at = 0; at < sizeof(pool); at++)
        pool[at] = (uint8_t)((at % PERIOD) * 7 + (at % PERIOD) / 251);
    expect("a budget", limekeel_budget_open(budget, ROOM, LOW, HIGH, QUANTUM) == LIMEKEEL_OK);
    for (size_t at = 0; at < THREADS; at++) {
        workers[at].dice = (seed + at + 1) * 2654435761u;
        expect("a handle", limekeel_budget_share(budget, &workers[at].budget) == LIMEKEEL_OK);
        for (size_t one = 0; one < LINKS; one++)
            opens(&workers[at], &workers[at].links[one]);
        opens(&workers[at], &handed[at]);
    }
}

int main(int count, char **words)
{
    static struct worker workers[THREADS];
    static struct limekeel_budget budget = LIMEKEEL_BUDGET;
    time_t seconds = count > 1 ? atoi(words[1]) : 5;
    begins(&budget, workers, count > 2 ? strtoull(words[2], NULL, 10) : (uint64_t)time(NULL));
    for (size_t at = 0; at < THREADS; at++)
        expect("a thread", pthread_create(&workers[at].thread, NULL, works, &workers[at]) == 0);
    for (time_t step = 0; step < seconds * 50; step++) {
        nanosleep(&(struct timespec){.tv_nsec = 20000000}, NULL);
        atomic_store(&calm, step % 2);
    }
    atomic_store(&over, true);
    struct worker sum = {0};
    for (size_t at = 0; at < THREADS; at++) {
        struct worker *worker = &workers[at];
        expect("it ends", pthread_join(worker->thread, NULL) == 0);
        for (size_t one = 0; one < LINKS; one++)
            frees(worker, &worker->links[one]);
        frees(worker, &handed[at]);
        expect("a handle", limekeel_budget_free(&worker->budget) == LIMEKEEL_OK);
        sum.writes += worker->writes, sum.refused += worker->refused, sum.bytes += worker->bytes;
        sum.opened += worker->opened, sum.given_up += worker->given_up;
        sum.began += worker->began, sum.ended += worker->ended;
    }
    struct limekeel_budget_told told = limekeel_budget_look(&budget);
    expect("nothing is held", told.total == 0 && !told.is_pressed && limekeel_budget_free(&budget) == LIMEKEEL_OK);
    expect("as often begun as ended", sum.began == sum.ended);
    printf("%" PRIu64 " writes, %" PRIu64 " refused, %" PRIu64 " bytes came and were right, %" PRIu64 " connections, %" PRIu64
           " given up, pressure %" PRIu64 " times\n", sum.writes, sum.refused, sum.bytes, sum.opened, sum.given_up, sum.began);
    expect("each came", sum.writes > 0 && sum.refused > 0 && sum.bytes > 0 && sum.given_up > 0 && sum.began > 0);
    return 0;
}
