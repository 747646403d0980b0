/*
 * A server over epoll within a budget: what waits for all its clients together is never more than ROOM bytes. PATTERN says who
 * gives way when that is scarce.
 *     cc -I.. budget_server.c ../limekeel.s ../heap.c ../send.c -o budget_server && ./budget_server [ROOM HIGH PATTERN]
 *
 * It prints two ports. On the first a client sends lines; each is a number, and is answered by a line with a number and as many
 * bytes. Who connects to the second is told of the budget. Pressure stands above HIGH bytes. The patterns:
 *     wait     an answer that finds no room waits until there is some
 *     slowest  who has been unwritable longest, and for GRACE at least, is given up, until the answer has room
 *     closed   nobody is accepted while pressure stands
 *     smaller  while pressure stands an answer has at most 64 bytes
 * A client that ends is let go of at once: server.c has the end that loses nothing.
 */
#define _GNU_SOURCE
#include <arpa/inet.h>
#include <errno.h>
#include <inttypes.h>
#include <signal.h>
#include <stdio.h>
#include <stdlib.h>
#include <string.h>
#include <sys/epoll.h>
#include <time.h>
#include <unistd.h>

#include "limekeel.h"

enum { LOW = 32768, HIGH = 65536, MOST = 1 << 20, SMALL = 64, HEAD = 32, TURNS = 16, EVENTS = 64, TICK = 100, QUANTUM = 4096 };
/* In microseconds: who takes what it asked for is unwritable for less. */
enum { GRACE = 500000 };
enum pattern { WAIT, SLOWEST, CLOSED, SMALLER, PATTERNS };
static const char *const patterns[PATTERNS] = {"wait", "slowest", "closed", "smaller"};

struct client {
    struct limekeel_budgeted budgeted;
    int socket;
    bool may_write;   /* as the last change said */
    bool blocked;     /* the socket has no room */
    bool waits;       /* the budget had no room for its answer */
    bool gone;
    uint64_t stopped; /* since when it is unwritable */
    char heard[HEAD]; /* what is not answered yet */
    size_t held;
    struct client *next;
};

static struct client *clients;
static struct limekeel_budget budget = LIMEKEEL_BUDGET;
static enum pattern pattern = WAIT;
static bool pressed; /* as the last change said */
static uint64_t given_up;
static int poll, answers, numbers;
static volatile sig_atomic_t asked; /* for the end */

static void ask(int signal)
{
    asked = signal;
}

static uint64_t now(void)
{
    struct timespec time;
    clock_gettime(CLOCK_MONOTONIC, &time);
    return (uint64_t)time.tv_sec * 1000000 + (uint64_t)time.tv_nsec / 1000;
}

static void watch(int operation, int socket, void *of, uint32_t events)
{
    epoll_ctl(poll, operation, socket, &(struct epoll_event){.events = events, .data.ptr = of});
}

/* A change of pressure is told once, to whichever call made it: so each reply comes by here. */
static void note_pressure(uint32_t pressure)
{
    if (pressure == LIMEKEEL_PRESSURE_UNCHANGED)
        return;
    pressed = pressure == LIMEKEEL_PRESSURE_BEGAN;
    if (pattern == CLOSED)
        watch(EPOLL_CTL_MOD, answers, &answers, pressed ? 0u : EPOLLIN);
}

static void note(struct client *client, uint32_t change)
{
    if (change == LIMEKEEL_UNCHANGED)
        return;
    client->may_write = change == LIMEKEEL_WRITABLE;
    if (!client->may_write)
        client->stopped = now();
}

/* Gives up who has been unwritable longest: its bytes are room at once. False if nobody has been for long. */
static bool give_up_the_slowest(void)
{
    struct client *slowest = NULL;
    for (struct client *client = clients; client; client = client->next)
        if (!client->may_write && !client->gone && (!slowest || client->stopped < slowest->stopped))
            slowest = client;
    if (!slowest || now() - slowest->stopped < GRACE)
        return false;
    note_pressure(limekeel_budgeted_give_up(&slowest->budgeted, 1).pressure);
    slowest->gone = true;
    given_up++;
    return true;
}

static void send_some(struct client *client)
{
    struct limekeel_pressed_sent told = limekeel_budgeted_send(&client->budgeted, client->socket, TURNS);
    note(client, told.sent.taken.change);
    note_pressure(told.pressure);
    client->blocked = told.sent.ending == LIMEKEEL_ENDED_BLOCKED || told.sent.ending == LIMEKEEL_ENDED_BY_TURNS;
    if (told.sent.ending == LIMEKEEL_ENDED_BROKEN)
        client->gone = true;
    else if (!client->blocked)
        note_pressure(limekeel_budgeted_rest(&client->budgeted).pressure);
}

/* Lays an answer out, and returns how many bytes it has with its head. */
static size_t lay_out(uint8_t *answer, uint64_t size)
{
    if (pattern == SMALLER && pressed && size > SMALL)
        size = SMALL;
    int head = sprintf((char *)answer, "%" PRIu64 "\n", size);
    for (uint64_t at = 0; at < size; at++)
        answer[(uint64_t)head + at] = (uint8_t)(7 * at % 251);
    return (size_t)head + size;
}

/* Writes the answer to the first line. False if the budget has no room for it. */
static bool answer(struct client *client, uint64_t size)
{
    static uint8_t bytes[HEAD + MOST];
    size_t length = lay_out(bytes, size);
    for (;;) {
        struct limekeel_pressed_written told = limekeel_budgeted_write(&client->budgeted, bytes, length);
        note(client, told.change);
        note_pressure(told.pressure);
        if (told.status == LIMEKEEL_OK)
            break;
        if (told.status != LIMEKEEL_OVER_BUDGET)
            return client->gone = true;
        if (pattern != SLOWEST || !give_up_the_slowest())
            return false;
    }
    struct limekeel_pressed_flushed told = limekeel_budgeted_flush(&client->budgeted);
    note(client, told.change);
    note_pressure(told.pressure);
    send_some(client);
    return true;
}

/* Answers each whole line, for as long as the client is writable and its answer has room. */
static void answer_all(struct client *client)
{
    char *end;
    while (client->may_write && !client->gone && (end = memchr(client->heard, '\n', client->held))) {
        uint64_t size = strtoull(client->heard, NULL, 10);
        client->waits = size <= MOST && !answer(client, size);
        client->gone = client->gone || size > MOST;
        if (client->waits)
            return;
        client->held -= (size_t)(++end - client->heard);
        memmove(client->heard, end, client->held);
    }
}

static void hear(struct client *client)
{
    ssize_t count = recv(client->socket, client->heard + client->held, HEAD - client->held, 0);
    if (count > 0) {
        client->held += (size_t)count;
        answer_all(client);
        client->gone = client->gone || (client->held == HEAD && !memchr(client->heard, '\n', HEAD));
    } else if (count == 0 || (errno != EAGAIN && errno != EINTR)) {
        client->gone = true;
    }
}

/* Who waits for room, or for writability with a line to answer, is not read from. */
static uint32_t wanted(const struct client *client)
{
    bool hears = client->may_write && !client->waits && client->held < HEAD;
    return (hears ? EPOLLIN : 0u) | (client->blocked ? EPOLLOUT : 0u);
}

static void welcome(void)
{
    if (pattern == CLOSED && pressed)
        return;
    int socket = accept4(answers, NULL, NULL, SOCK_NONBLOCK | SOCK_CLOEXEC);
    struct client *client = socket < 0 ? NULL : calloc(1, sizeof(*client));
    if (!client || limekeel_open_within(&client->budgeted, LOW, HIGH, 96, 8, &budget) != LIMEKEEL_OK) {
        close(socket);
        free(client);
        return;
    }
    *client = (struct client){.budgeted = client->budgeted, .socket = socket, .may_write = true, .next = clients};
    clients = client;
    watch(EPOLL_CTL_ADD, socket, client, EPOLLIN);
}

/* What is told is not within the budget: it is there also when that is full. */
static void tell(void)
{
    int socket = accept4(numbers, NULL, NULL, SOCK_CLOEXEC);
    if (socket < 0)
        return;
    struct limekeel_budget_told told = limekeel_budget_look(&budget);
    dprintf(socket, "total %" PRIu64 "\npressed %d\ngiven_up %" PRIu64 "\n", told.total, told.is_pressed, given_up);
    close(socket);
}

static void let_go(struct client *client)
{
    struct limekeel_pressed_done told;
    do {
        told = limekeel_budgeted_free(&client->budgeted);
        note_pressure(told.pressure);
    } while (told.status == LIMEKEEL_BUSY);
    close(client->socket);
    free(client);
}

/* Lets go of who is gone. Nobody wakes who waits for room, so each round asks again for them. */
static void sweep(bool all)
{
    for (struct client *client = clients; client && !all; client = client->next)
        answer_all(client);
    for (struct client **at = &clients, *client; (client = *at);) {
        if (client->gone || all) {
            *at = client->next;
            let_go(client);
        } else {
            watch(EPOLL_CTL_MOD, client->socket, client, wanted(client));
            at = &client->next;
        }
    }
}

static void serve(struct epoll_event event)
{
    struct client *client = event.data.ptr;
    if (event.data.ptr == &answers)
        welcome();
    else if (event.data.ptr == &numbers)
        tell();
    else if (event.events & (EPOLLERR | EPOLLHUP))
        client->gone = true;
    else if (event.events & wanted(client) & EPOLLIN)
        hear(client);
    else if (!client->gone)
        send_some(client);
}

static int listening(const char *name)
{
    int listener = socket(AF_INET, SOCK_STREAM | SOCK_NONBLOCK | SOCK_CLOEXEC, 0);
    struct sockaddr_in at = {.sin_family = AF_INET, .sin_addr.s_addr = htonl(INADDR_LOOPBACK)};
    socklen_t size = sizeof(at);
    if (bind(listener, (void *)&at, size) || listen(listener, 1024) || getsockname(listener, (void *)&at, &size))
        exit(1);
    printf("%s on 127.0.0.1:%d\n", name, ntohs(at.sin_port));
    return listener;
}

static void read_options(int count, char **words)
{
    uint64_t room = count > 1 ? strtoull(words[1], NULL, 10) : 256 << 20;
    uint64_t high = count > 2 ? strtoull(words[2], NULL, 10) : room / 4 * 3;
    while (count > 3 && pattern < PATTERNS && strcmp(words[3], patterns[pattern]))
        pattern++;
    uint32_t status = limekeel_budget_open(&budget, room, high / 2, high, QUANTUM);
    if (pattern == PATTERNS || status != LIMEKEEL_OK) {
        fprintf(stderr, "%s\n", pattern == PATTERNS ? "no such pattern" : limekeel_strstatus(status));
        exit(2);
    }
}

int main(int count, char **words)
{
    read_options(count, words);
    sigaction(SIGTERM, &(struct sigaction){.sa_handler = ask}, NULL);
    poll = epoll_create1(EPOLL_CLOEXEC);
    watch(EPOLL_CTL_ADD, answers = listening("answers"), &answers, EPOLLIN);
    watch(EPOLL_CTL_ADD, numbers = listening("numbers"), &numbers, EPOLLIN);
    fflush(stdout);
    struct epoll_event events[EVENTS];
    for (; !asked; sweep(false)) {
        int ready = epoll_wait(poll, events, EVENTS, TICK);
        for (int at = 0; at < ready; at++)
            serve(events[at]);
    }
    sweep(true);
    limekeel_budget_free(&budget);
    return 0;
}
