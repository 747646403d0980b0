/*
 * Very many connections without sockets within one budget, of which half are stuck: what a process holds beside what they count.
 *
 *     crowd SIZE CONNECTIONS ROOM
 *
 * Each connection sends one message of SIZE bytes first: what is used and idle. Then each is written to by turns, and the odd ones
 * are sent at once, until the budget refuses, or each that is stuck is above its high mark. After each write the total is asked
 * for, and may not be above ROOM. It prints one line of JSON.
 */
#include <inttypes.h>
#include <limekeel.h>
#include <stdio.h>
#include <stdlib.h>
#include <string.h>
#include <unistd.h>

#define LOW 32768
#define HIGH 65536
#define OVERHEAD 96
#define MOST 16384

static struct limekeel_budget budget = LIMEKEEL_BUDGET;
static struct limekeel_budgeted *all;
static uint64_t number, room, writes;
static uint8_t bytes[MOST];
static size_t size;

static void expect(const char *what, bool holds)
{
    if (!holds) {
        fprintf(stderr, "not so after %" PRIu64 " writes: %s\n", writes, what);
        exit(1);
    }
}

static uint64_t memory(void)
{
    char line[256];
    uint64_t kib = 0;
    FILE *file = fopen("/proc/self/status", "r");
    expect("the system tells", file != NULL);
    while (fgets(line, sizeof line, file) && sscanf(line, "VmRSS: %" SCNu64, &kib) != 1)
        ;
    fclose(file);
    return kib * 1024;
}

static uint64_t total(void)
{
    struct limekeel_budget_told told = limekeel_budget_look(&budget);
    expect("never more than the room", told.status == LIMEKEEL_OK && told.total <= room);
    return told.total;
}

/* Whether it was written, and then also flushed. */
static bool is_written(struct limekeel_budgeted *one)
{
    uint64_t before = total();
    uint32_t status = limekeel_budgeted_write(one, bytes, size).status;
    writes++;
    uint64_t after = total();
    if (status == LIMEKEEL_OVER_BUDGET) {
        expect("it is refused only if there is no room", before + size + OVERHEAD > room && after == before);
        return false;
    }
    expect("it is written", status == LIMEKEEL_OK && after == before + size + OVERHEAD);
    expect("and flushed", limekeel_budgeted_flush(one).count == 1);
    return true;
}

static void send_all(struct limekeel_budgeted *one)
{
    uint64_t before = total();
    struct limekeel_pressed_taken taken = limekeel_budgeted_take_sent(one, size);
    expect("it is sent", taken.taken.status == LIMEKEEL_OK && taken.taken.count == 1);
    expect("and counted no more", total() == before - size - OVERHEAD);
}

static void open_all(void)
{
    expect("the budget", limekeel_budget_open(&budget, room, room / 4, room / 2, 0) == LIMEKEEL_OK);
    all = calloc(number, sizeof *all);
    for (uint64_t at = 0; at < number; at++)
        expect("opened", limekeel_open_within(&all[at], LOW, HIGH, OVERHEAD, 8, &budget) == LIMEKEEL_OK);
}

/* Writes once to each that is not above its high mark. False if none was left, or the budget refused. */
static bool goes_round(void)
{
    bool any = false;
    for (uint64_t at = 0; at < number; at++) {
        if (!limekeel_budgeted_state(&all[at]).writable)
            continue;
        if (!is_written(&all[at]))
            return false;
        if (at % 2)
            send_all(&all[at]);
        else
            any = true;
    }
    return any;
}

int main(int count, char **words)
{
    if (count != 4)
        return fprintf(stderr, "usage: crowd SIZE CONNECTIONS ROOM\n"), 2;
    size = strtoull(words[1], NULL, 10), number = strtoull(words[2], NULL, 10), room = strtoull(words[3], NULL, 10);
    expect("a size that there is", size > 0 && size <= MOST);
    memset(bytes, 7, sizeof bytes);
    uint64_t before = memory();
    open_all();
    uint64_t opened = memory();
    for (uint64_t at = 0; at < number; at++) {
        expect("room for one", is_written(&all[at]));
        send_all(&all[at]);
    }
    uint64_t idle = memory();
    expect("nothing is held", total() == 0);
    while (goes_round())
        ;
    printf("{\"size\": %zu, \"writes\": %" PRIu64 ", \"before\": %" PRIu64 ", \"opened\": %" PRIu64 ", \"idle\": %" PRIu64
           ", \"total\": %" PRIu64 ", \"memory\": %" PRIu64 "}\n", size, writes, before, opened, idle, total(), memory());
    return 0;
}
