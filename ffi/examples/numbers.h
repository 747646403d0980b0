/*
 * The numbers of connections together, as a text for Prometheus.
 */
#ifndef NUMBERS_H
#define NUMBERS_H

#include <inttypes.h>
#include <stdio.h>
#include <string.h>

#include "limekeel.h"

/* Why a client was given up: the cause of what fails by it. */
enum cause { BROKEN, STALLED, FULL, LATE, CAUSES };
enum { STATES = 5 };
static const char *const cause_names[CAUSES] = {"broken", "stalled", "full", "late"};
static const char *const state_names[STATES] = {"accepted", "sent", "failed", "cancelled", "pending"};

/* The reasons in the order of struct limekeel_refusals. */
enum { REFUSALS = sizeof(struct limekeel_refusals) / sizeof(uint64_t) };
static const char *const reasons[REFUSALS] = {"closed", "finishing", "oversize", "full", "too_much", "no_memory",
                                              "nothing_flushed", "too_far", "too_many_bytes", "bad_index",
                                              "flushed_left", "unknown_promise"};

struct sums {
    struct limekeel_count counts[STATES];
    uint64_t clients, stops, stopped, peak, given_up[CAUSES], refused[REFUSALS];
};

static void add(struct sums *sums, const struct limekeel_managed *managed)
{
    struct limekeel_numbers n = limekeel_managed_numbers(managed);
    const struct limekeel_count counts[STATES] = {n.accepted, n.sent, n.failed, n.cancelled, n.pending};
    for (int at = 0; at < STATES; at++) {
        sums->counts[at].messages += counts[at].messages;
        sums->counts[at].bytes += counts[at].bytes;
    }
    uint64_t refused[REFUSALS];
    memcpy(refused, &n.refusals, sizeof(refused));
    for (int at = 0; at < REFUSALS; at++)
        sums->refused[at] += refused[at];
    sums->peak = n.peak > sums->peak ? n.peak : sums->peak;
    sums->stops += n.stops;
    sums->stopped += n.stopped;
}

static void show(FILE *page, const struct sums *sums)
{
    fprintf(page, "limekeel_clients %" PRIu64 "\nlimekeel_stops_total %" PRIu64 "\n", sums->clients, sums->stops);
    fprintf(page, "limekeel_stopped_milliseconds_total %" PRIu64 "\n", sums->stopped);
    fprintf(page, "limekeel_peak_pending_bytes %" PRIu64 "\n", sums->peak);
    for (int at = 0; at < STATES; at++) {
        fprintf(page, "limekeel_messages{state=\"%s\"} %" PRIu64 "\n", state_names[at], sums->counts[at].messages);
        fprintf(page, "limekeel_bytes{state=\"%s\"} %" PRIu64 "\n", state_names[at], sums->counts[at].bytes);
    }
    for (int at = 0; at < CAUSES; at++)
        fprintf(page, "limekeel_given_up_total{cause=\"%s\"} %" PRIu64 "\n", cause_names[at], sums->given_up[at]);
    for (int at = 0; at < REFUSALS; at++)
        fprintf(page, "limekeel_refusals_total{reason=\"%s\"} %" PRIu64 "\n", reasons[at], sums->refused[at]);
}

#endif
