/*
 * What a call costs does not grow with what waits: the instructions of each call are counted, one by one, by a parent that
 * traces its child. Where tracing is not allowed it says so, and passes.
 */
#define _GNU_SOURCE
#include <inttypes.h>
#include <signal.h>
#include <stdio.h>
#include <stdlib.h>
#include <string.h>
#include <sys/ptrace.h>
#include <sys/wait.h>
#include <unistd.h>

#include "limekeel.h"

#define MANY 100000
#define MOST 5000 /* instructions of a call; to go over what waits takes at least one for each of MANY messages */

/* The leak sanitizer does not work in a child that is traced. */
const char *__asan_default_options(void);
const char *__asan_default_options(void)
{
    return "detect_leaks=0";
}

static void expect(const char *what, bool holds)
{
    if (!holds) {
        fprintf(stderr, "%s\n", what);
        exit(1);
    }
}

/* The child stops here: before a call and after it. */
static void mark(void)
{
    raise(SIGSTOP);
}

#define COUNTED(call) \
    do {              \
        mark();       \
        call;         \
        mark();       \
    } while (0)

static const char *const CALLS[] = {
    "write_block", "write_lent", "a flush of one cancelled message", "a flush of nothing", "gather", "progress", "take_sent", "remove",
    "remove_with", "a cancellation too late", "user_bit", "set_marks", "look", "is_writable", "promise", "current",
    "a flush of many, of which none was cancelled",
};

/* Each call once, where MANY messages wait. */
static void calls(struct limekeel_connection *connection, struct limekeel_block *block)
{
    struct limekeel_piece pieces[8];
    uint64_t id = 0;
    bool holds = true;
    COUNTED(holds = (id = limekeel_write_block(connection, block).id) == MANY);
    COUNTED(holds = holds && limekeel_write_lent(connection, "b", 1).id == MANY + 1);
    holds = holds && limekeel_cancel(connection, id).in_time;
    COUNTED(holds = holds && limekeel_flush(connection).count == 2);
    COUNTED(holds = holds && limekeel_flush(connection).count == 0);
    COUNTED(holds = holds && limekeel_gather(connection, pieces, 8, UINT32_MAX).count == 8);
    COUNTED(holds = holds && limekeel_progress(connection, 0) == LIMEKEEL_OK);
    COUNTED(holds = holds && limekeel_take_sent(connection, 1).count == 1);
    COUNTED(holds = holds && limekeel_remove(connection).any);
    COUNTED(holds = holds && limekeel_remove_with(connection, 3).any);
    COUNTED(holds = holds && !limekeel_cancel(connection, MANY - 1).in_time);
    COUNTED(holds = holds && limekeel_user_bit(connection, 3, false).status == LIMEKEEL_OK);
    COUNTED(holds = holds && limekeel_set_marks(connection, 10, 20) == LIMEKEEL_OK);
    COUNTED(holds = holds && limekeel_look(connection).size == MANY - 1);
    COUNTED(holds = holds && !limekeel_is_writable(connection).holds);
    COUNTED(holds = holds && limekeel_promise(connection, MANY - 1).status == LIMEKEEL_OK);
    COUNTED(holds = holds && limekeel_current(connection).number == 1);
    for (int count = 0; count < MANY; count++)
        holds = holds && limekeel_write_block(connection, block).status == LIMEKEEL_OK;
    COUNTED(holds = holds && limekeel_flush(connection).count == MANY);
    expect("a call told something else", holds);
}

static void child(void)
{
    struct limekeel_connection connection = LIMEKEEL_CONNECTION;
    struct limekeel_block block = LIMEKEEL_BLOCK;
    expect("open", limekeel_open(&connection, 32768, 65536, 96, 8) == LIMEKEEL_OK);
    expect("block", limekeel_block_new(&block, "b", 1) == LIMEKEEL_OK);
    for (int count = 0; count < MANY; count++)
        expect("write", limekeel_write_block(&connection, &block).status == LIMEKEEL_OK);
    expect("flush", limekeel_flush(&connection).count == MANY);
    if (ptrace(PTRACE_TRACEME, 0, NULL, NULL) != 0)
        _exit(0);
    calls(&connection, &block);
    _exit(0);
}

/* How many instructions the child makes until it stops at a mark, or -1 if it ends. */
static long steps_to_mark(pid_t of, bool one_by_one)
{
    int status = 0;
    for (long steps = 0;; steps++) {
        expect("to go on", ptrace(one_by_one ? PTRACE_SINGLESTEP : PTRACE_CONT, of, NULL, NULL) == 0);
        expect("to wait", waitpid(of, &status, 0) == of);
        if (WIFEXITED(status)) {
            expect("the child ended badly", WEXITSTATUS(status) == 0);
            return -1;
        }
        expect("the child was ended", WIFSTOPPED(status));
        if (WSTOPSIG(status) == SIGSTOP)
            return steps;
        expect("the child stopped otherwise", WSTOPSIG(status) == SIGTRAP);
    }
}

int main(void)
{
    pid_t of = fork();
    int status = 0;
    if (of == 0)
        child();
    expect("to wait", of > 0 && waitpid(of, &status, 0) == of);
    if (WIFEXITED(status)) {
        puts("not run: a child cannot be traced here");
        return WEXITSTATUS(status) == 0 ? 0 : 1;
    }
    for (size_t call = 0; call < sizeof CALLS / sizeof CALLS[0]; call++) {
        long steps = steps_to_mark(of, true);
        printf("%s: %ld instructions\n", CALLS[call], steps);
        expect("it goes over what waits", steps >= 0 && steps <= MOST);
        if (call + 1 < sizeof CALLS / sizeof CALLS[0])
            expect("another call", steps_to_mark(of, false) == 0);
    }
    expect("and that was all", steps_to_mark(of, false) == -1);
    puts("no call goes over what waits");
    return 0;
}
