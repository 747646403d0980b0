/*
 * Once it was noted, the first word behind the handle of each kind of connection says where its newest message lies: nowhere
 * before the first write, and an entry further with each message, but for the first of a segment. By it limekeel_ask_ahead asks for the memory of the next ones.
 */
#include <stdio.h>
#include <stdlib.h>

#include "limekeel.h"

#define ENTRY 64 /* bytes of an entry */
#define SEGMENT 128 /* entries of a segment */
#define GROWTHS 4 /* of a ring that takes in so many */
#define MANY 1000

static void expect(const char *what, bool holds)
{
    if (!holds) {
        fprintf(stderr, "%s\n", what);
        exit(1);
    }
}

static const uint8_t *newest(const uint8_t *at)
{
    return *(const uint8_t *const *)(const void *)at;
}

static uint32_t write_one(struct limekeel_connection *connection)
{
    uint32_t status = limekeel_write(connection, "bytes", 5).status;
    limekeel_ask_ahead(connection);
    return status;
}

static void of_a_connection(void)
{
    struct limekeel_connection connection = LIMEKEEL_CONNECTION;
    expect("a handle without a connection is not looked behind", limekeel_note_newest(&connection) == LIMEKEEL_NOT_OPEN);
    expect("nor written to", write_one(&connection) == LIMEKEEL_NOT_OPEN);
    expect("it opens", limekeel_open(&connection, 32768, 65536, 96, 8) == LIMEKEEL_OK);
    limekeel_ask_ahead(&connection);
    expect("it has no entry yet", newest(connection.at) == NULL);
    expect("a write", write_one(&connection) == LIMEKEEL_OK);
    const uint8_t *first = newest(connection.at);
    expect("it has one", first != NULL);
    expect("a second", write_one(&connection) == LIMEKEEL_OK);
    expect("it lies behind the first", newest(connection.at) == first + ENTRY);
    int moves = 0;
    for (int written = 2; written < MANY; written++) {
        const uint8_t *last = newest(connection.at);
        expect("more", write_one(&connection) == LIMEKEEL_OK);
        moves += newest(connection.at) != last + ENTRY;
    }
    expect("each segment lies elsewhere, a ring that grows may move, and else each lies behind the one before",
           moves >= MANY / SEGMENT && moves <= MANY / SEGMENT + GROWTHS);
    expect("it is freed", limekeel_free(&connection) == LIMEKEEL_OK);
}

static void of_a_managed_one(void)
{
    struct limekeel_managed managed = LIMEKEEL_MANAGED;
    struct limekeel_limits limits = {1 << 20, 1000, 1};
    expect("a managed one opens", limekeel_managed_open(&managed, 32768, 65536, 96, 8, limits, 0) == LIMEKEEL_OK);
    limekeel_managed_ask_ahead(&managed);
    expect("it has no entry yet", newest(managed.at) == NULL);
    expect("a write", limekeel_managed_write(&managed, "bytes", 5).status == LIMEKEEL_OK);
    limekeel_managed_ask_ahead(&managed);
    const uint8_t *first = newest(managed.at);
    expect("a second", limekeel_managed_write_lent(&managed, "bytes", 5).status == LIMEKEEL_OK);
    limekeel_managed_ask_ahead(&managed);
    expect("it lies behind the first", first != NULL && newest(managed.at) == first + ENTRY);
    expect("it is freed", limekeel_managed_free(&managed) == LIMEKEEL_OK);
}

static void of_one_within_a_budget(void)
{
    struct limekeel_budget budget = LIMEKEEL_BUDGET;
    struct limekeel_budgeted budgeted = LIMEKEEL_BUDGETED;
    expect("a budget opens", limekeel_budget_open(&budget, 1 << 20, 1 << 18, 1 << 19, 4096) == LIMEKEEL_OK);
    expect("a connection within it", limekeel_open_within(&budgeted, 32768, 65536, 96, 8, &budget) == LIMEKEEL_OK);
    limekeel_budgeted_ask_ahead(&budgeted);
    expect("it has no entry yet", newest(budgeted.at) == NULL);
    expect("a write", limekeel_budgeted_write(&budgeted, "bytes", 5).status == LIMEKEEL_OK);
    limekeel_budgeted_ask_ahead(&budgeted);
    const uint8_t *first = newest(budgeted.at);
    expect("a second", limekeel_budgeted_write_lent(&budgeted, "bytes", 5).status == LIMEKEEL_OK);
    limekeel_budgeted_ask_ahead(&budgeted);
    expect("it lies behind the first", first != NULL && newest(budgeted.at) == first + ENTRY);
    expect("it is freed", limekeel_budgeted_free(&budgeted).status == LIMEKEEL_OK);
    expect("and the budget", limekeel_budget_free(&budget) == LIMEKEEL_OK);
}

int main(void)
{
    of_a_connection();
    of_a_managed_one();
    of_one_within_a_budget();
    puts("the newest message is found");
    return 0;
}
