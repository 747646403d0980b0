/*
 * Carries a script of `ob_tool run` out through limekeel.h, and prints its trace: docs/formats.md has the lines of both.
 *
 *     trace LOW HIGH OVERHEAD UNKNOWN < SCRIPT
 */
#include <inttypes.h>
#include <stdio.h>
#include <stdlib.h>
#include <string.h>

#include "limekeel.h"

#define MOST 4096 /* the most writes of a script, and the most bytes of a block */

static struct limekeel_connection connection = LIMEKEEL_CONNECTION;
static uint64_t accepted;
static bool cancelled[MOST];

static void refuse(uint32_t status)
{
    printf("!%" PRIu32, status);
}

static void pending(void)
{
    struct limekeel_look_told look = limekeel_look(&connection);
    printf(" t=%" PRIu32 " w=%08" PRIx32, look.total, look.word);
}

/* How a line ends but for its settlements. */
static void told(uint32_t change)
{
    pending();
    if (change != LIMEKEEL_UNCHANGED)
        fputs(change == LIMEKEEL_UNWRITABLE ? " -" : " +", stdout);
}

static void settled(uint64_t id, uint32_t outcome, uint32_t cause)
{
    if (outcome == LIMEKEEL_SUCCESS)
        printf(" %" PRIu64 ":ok", id);
    else if (outcome == LIMEKEEL_FAILED)
        printf(" %" PRIu64 ":f%" PRIu32, id, cause);
    else
        printf(" %" PRIu64 ":x", id);
}

static void written(struct limekeel_written reply)
{
    if (reply.status != LIMEKEEL_OK) {
        refuse(reply.status);
    } else {
        printf("id %" PRIu64, reply.id);
        accepted++;
    }
    told(reply.change);
}

static void removed(struct limekeel_removed reply)
{
    if (reply.status != LIMEKEEL_OK)
        refuse(reply.status);
    else
        fputs(reply.any ? "yes" : "no", stdout);
    told(reply.change);
    if (reply.settled)
        settled(reply.id, reply.outcome, reply.cause);
}

static void taken(struct limekeel_taken reply)
{
    if (reply.status != LIMEKEEL_OK)
        refuse(reply.status);
    else
        printf("n %" PRIu64, reply.count);
    told(reply.change);
    for (uint64_t id = reply.from; id < reply.to; id++)
        if (!cancelled[id])
            settled(id, reply.outcome, reply.cause);
}

static void done(uint32_t status, uint32_t change)
{
    if (status != LIMEKEEL_OK)
        refuse(status);
    else
        fputs("ok", stdout);
    told(change);
}

static void writes(uint64_t length)
{
    uint8_t bytes[MOST];
    for (uint64_t at = 0; at < length; at++)
        bytes[at] = (uint8_t)(accepted + at);
    written(limekeel_write(&connection, bytes, length));
}

static void flushes(void)
{
    struct limekeel_flushed reply = limekeel_flush(&connection);
    if (reply.status != LIMEKEEL_OK)
        refuse(reply.status);
    else
        printf("n %" PRIu64, reply.count);
    told(reply.change);
}

static void cancels(uint64_t id)
{
    struct limekeel_cancelled reply = limekeel_cancel(&connection, id);
    if (reply.status != LIMEKEEL_OK)
        refuse(reply.status);
    else
        fputs(reply.in_time ? "yes" : "no", stdout);
    told(LIMEKEEL_UNCHANGED);
    if (reply.in_time) {
        cancelled[id] = true;
        settled(id, LIMEKEEL_CANCELLED, 0);
    }
}

static void looks(void)
{
    struct limekeel_look_told look = limekeel_look(&connection);
    printf("size=%" PRIu64 " cur=%" PRIu64 " bu=%" PRIu32 " bw=%" PRIu32, look.size, look.current_progress,
           look.before_unwritable, look.before_writable);
    pending();
}

static void gathers(size_t count, uint32_t max_bytes)
{
    struct limekeel_piece pieces[LIMEKEEL_PIECES];
    struct limekeel_gathered front = limekeel_gather(&connection, pieces, count, max_bytes);
    putchar('g');
    for (size_t at = 0; at < front.count; at++)
        printf(" %zu", pieces[at].length);
    pending();
}

static void line(const char *word, uint64_t one, uint64_t two)
{
    if (!strcmp(word, "b"))
        writes(one);
    else if (!strcmp(word, "r"))
        written(limekeel_write_region(&connection, one));
    else if (!strcmp(word, "o"))
        written(limekeel_write_other(&connection, (uint32_t)one));
    else if (!strcmp(word, "f"))
        flushes();
    else if (!strcmp(word, "rm"))
        removed(limekeel_remove(&connection));
    else if (!strcmp(word, "rc"))
        removed(limekeel_remove_with(&connection, (uint32_t)one));
    else if (!strcmp(word, "rb"))
        taken(limekeel_take_sent(&connection, one));
    else if (!strcmp(word, "p"))
        done(limekeel_progress(&connection, one), LIMEKEEL_UNCHANGED);
    else if (!strcmp(word, "x"))
        cancels(one);
    else if (!strcmp(word, "fl"))
        taken(limekeel_fail_flushed(&connection, (uint32_t)one, two == 1));
    else if (!strcmp(word, "cl"))
        taken(limekeel_close(&connection, (uint32_t)one));
    else if (!strcmp(word, "m"))
        done(limekeel_set_marks(&connection, (uint32_t)one, (uint32_t)two), LIMEKEEL_UNCHANGED);
    else if (!strcmp(word, "u")) {
        struct limekeel_changed reply = limekeel_user_bit(&connection, (uint32_t)one, two == 1);
        done(reply.status, reply.change);
    } else if (!strcmp(word, "?"))
        looks();
    else
        gathers(one, (uint32_t)two);
    putchar('\n');
}

int main(int count, char **words)
{
    uint32_t settings[4];
    for (int at = 0; at < 4 && count == 5; at++)
        settings[at] = (uint32_t)strtoul(words[at + 1], NULL, 10);
    if (count != 5 || limekeel_open(&connection, settings[0], settings[1], settings[2], settings[3]) != LIMEKEEL_OK)
        return 1;
    char text[80], word[8];
    while (fgets(text, sizeof text, stdin)) {
        uint64_t one = 0, two = 0;
        sscanf(text, "%7s %" SCNu64 " %" SCNu64, word, &one, &two);
        line(word, one, two);
    }
    return limekeel_free(&connection) == LIMEKEEL_OK ? 0 : 1;
}
