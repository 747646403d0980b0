/*
 * An echo server over epoll that lives with any client: it ends in order at SIGTERM, gives up peers that stall, refuses what is
 * past a limit, and tells its numbers as a text for Prometheus.
 *     cc -I.. server.c ../limekeel.s ../heap.c ../send.c -o server && ./server [HIGH MOST WINDOW LEAST DRAIN]
 *
 * It prints two ports: of the echo, and of the numbers. Above HIGH bytes no more is read of a client, more than MOST may not be
 * pending for one, and it has to take LEAST in each WINDOW of milliseconds. After SIGTERM what is left may take DRAIN of them.
 */
#define _GNU_SOURCE
#include <arpa/inet.h>
#include <errno.h>
#include <signal.h>
#include <stdio.h>
#include <stdlib.h>
#include <string.h>
#include <sys/epoll.h>
#include <time.h>
#include <unistd.h>

#include "limekeel.h"
#include "numbers.h"

enum { CHUNK = 16384, TURNS = 16, EVENTS = 64, TICK = 100 };
enum { HIGH, MOST, WINDOW, LEAST, DRAIN, OPTIONS };

struct client {
    struct limekeel_managed managed;
    int socket;
    bool may_write; /* as the last change said */
    bool blocked;   /* the socket has no room */
    bool heard_all; /* the client sends no more */
    bool said_all;  /* it was sent the end */
    uint64_t until; /* and then may take until this time */
    struct client *next;
};

static struct client *clients;
static uint64_t options[OPTIONS] = {65536, 1 << 20, 5000, 1024, 5000};
static struct sums gone; /* of all that are gone */
static int poll, echo, numbers;
static volatile sig_atomic_t asked; /* for the end */

static void ask(int signal)
{
    asked = signal;
}

static uint64_t now(void)
{
    struct timespec time;
    clock_gettime(CLOCK_MONOTONIC, &time);
    return (uint64_t)time.tv_sec * 1000 + (uint64_t)time.tv_nsec / 1000000;
}

static void note(struct client *client, uint32_t change)
{
    if (change != LIMEKEEL_UNCHANGED)
        client->may_write = change == LIMEKEEL_WRITABLE;
}

/* Sends the end behind the last byte. The socket is closed once the client ends too, or after a while: a close over bytes that
 * were not read would send a reset, and that would take away what the client has not read yet. */
static void say_all(struct client *client, bool finished)
{
    if (finished && !client->said_all) {
        client->said_all = true;
        client->until = now() + options[DRAIN];
        shutdown(client->socket, SHUT_WR);
    }
}

static void finish(struct client *client)
{
    say_all(client, limekeel_managed_finish(&client->managed).holds);
}

/* What is left fails, each message once, and the client is gone. */
static void give_up(struct client *client, enum cause cause)
{
    gone.given_up[cause] += !client->said_all;
    struct limekeel_told_taken told = limekeel_managed_give_up(&client->managed, cause);
    client->heard_all = client->said_all = told.taken.status != LIMEKEEL_NOT_OPEN;
}

static void send_some(struct client *client)
{
    struct limekeel_told_sent told = limekeel_managed_send(&client->managed, client->socket, TURNS);
    note(client, told.sent.taken.change);
    client->blocked = told.sent.ending == LIMEKEEL_ENDED_BLOCKED || told.sent.ending == LIMEKEEL_ENDED_BY_TURNS;
    if (told.sent.ending == LIMEKEEL_ENDED_BROKEN)
        give_up(client, BROKEN);
    else
        say_all(client, told.finished);
}

/* Sends back what came. What comes once the end was asked for is read, and dropped. */
static void hear(struct client *client)
{
    uint8_t bytes[CHUNK];
    ssize_t count = recv(client->socket, bytes, sizeof(bytes), 0);
    if (count == 0) {
        client->heard_all = true;
        finish(client);
    } else if (count < 0 && errno != EAGAIN && errno != EINTR) {
        give_up(client, BROKEN);
    } else if (count > 0) {
        struct limekeel_written written = limekeel_managed_write(&client->managed, bytes, (size_t)count);
        if (written.status == LIMEKEEL_OK) {
            note(client, written.change);
            note(client, limekeel_managed_flush(&client->managed).flushed.change);
            send_some(client);
        } else if (written.status != LIMEKEEL_FINISHING) {
            give_up(client, written.status == LIMEKEEL_FULL ? FULL : BROKEN);
        }
    }
}

static uint32_t wanted(const struct client *client)
{
    bool hears = client->may_write || limekeel_managed_state(&client->managed).finishing;
    return (hears && !client->heard_all ? EPOLLIN : 0u) | (client->blocked ? EPOLLOUT : 0u);
}

static void watch(int operation, int socket, void *of, uint32_t events)
{
    epoll_ctl(poll, operation, socket, &(struct epoll_event){.events = events, .data.ptr = of});
}

static struct client *welcome(int listener)
{
    struct limekeel_limits limits = {(uint32_t)options[MOST], options[WINDOW], options[LEAST]};
    uint32_t high = (uint32_t)options[HIGH];
    int socket = accept4(listener, NULL, NULL, SOCK_NONBLOCK | SOCK_CLOEXEC);
    struct client *client = socket < 0 ? NULL : calloc(1, sizeof(*client));
    if (!client || limekeel_managed_open(&client->managed, high / 2, high, 96, 8, limits, now()) != LIMEKEEL_OK) {
        close(socket);
        free(client);
        return NULL;
    }
    *client = (struct client){client->managed, socket, true, false, false, false, 0, clients};
    clients = client;
    watch(EPOLL_CTL_ADD, socket, client, EPOLLIN);
    return client;
}

/* Lets go of all that are done, and asks for what the others want. */
static void sweep(void)
{
    for (struct client **at = &clients, *client; (client = *at);) {
        if (client->heard_all && client->said_all) {
            *at = client->next;
            add(&gone, &client->managed);
            close(client->socket);
            limekeel_managed_free(&client->managed);
            free(client);
        } else {
            watch(EPOLL_CTL_MOD, client->socket, client, wanted(client));
            at = &client->next;
        }
    }
}

/* The numbers of all clients that were ever here. */
static void show_all(FILE *page)
{
    struct sums sums = gone;
    for (struct client *client = clients; client; client = client->next, sums.clients++)
        add(&sums, &client->managed);
    show(page, &sums);
}

/* Whoever asks for the numbers is a client too: it is sent them, and then the end. */
static void tell(void)
{
    static char text[4096];
    FILE *page = fmemopen(text, sizeof(text), "w");
    fputs("HTTP/1.0 200 OK\r\nContent-Type: text/plain; version=0.0.4\r\n\r\n", page);
    show_all(page);
    fclose(page);
    struct client *client = welcome(numbers);
    if (client && limekeel_managed_write(&client->managed, text, strlen(text)).status == LIMEKEEL_OK) {
        note(client, limekeel_managed_flush(&client->managed).flushed.change);
        finish(client);
        send_some(client);
    }
}

static void serve(struct epoll_event event)
{
    struct client *client = event.data.ptr;
    if (event.data.ptr == &echo)
        welcome(echo);
    else if (event.data.ptr == &numbers)
        tell();
    else if (event.events & wanted(client) & EPOLLIN)
        hear(client);
    else
        send_some(client);
}

/* Gives up who stalls, and who is late. */
static void tick(uint64_t time, uint64_t deadline)
{
    for (struct client *client = clients; client; client = client->next)
        if (time >= deadline || (client->said_all && time >= client->until))
            give_up(client, LATE);
        else if (limekeel_managed_tick(&client->managed, time).holds)
            give_up(client, STALLED);
}

static int listening(const char *name)
{
    int listener = socket(AF_INET, SOCK_STREAM | SOCK_NONBLOCK | SOCK_CLOEXEC, 0);
    struct sockaddr_in at = {.sin_family = AF_INET, .sin_addr.s_addr = htonl(INADDR_LOOPBACK)};
    socklen_t size = sizeof(at);
    if (bind(listener, (void *)&at, size) || listen(listener, 1024) || getsockname(listener, (void *)&at, &size))
        exit(1);
    printf("%s on 127.0.0.1:%d\n", name, ntohs(at.sin_port));
    return listener;
}

int main(int count, char **words)
{
    for (int at = 1; at < count && at <= OPTIONS; at++)
        options[at - 1] = strtoull(words[at], NULL, 10);
    sigaction(SIGTERM, &(struct sigaction){.sa_handler = ask}, NULL);
    poll = epoll_create1(EPOLL_CLOEXEC);
    watch(EPOLL_CTL_ADD, echo = listening("echoes"), &echo, EPOLLIN);
    watch(EPOLL_CTL_ADD, numbers = listening("numbers"), &numbers, EPOLLIN);
    fflush(stdout);
    struct epoll_event events[EVENTS];
    for (uint64_t time, ticked = 0, deadline = UINT64_MAX; deadline == UINT64_MAX || clients; sweep()) {
        int ready = epoll_wait(poll, events, EVENTS, TICK);
        for (int at = 0; at < ready; at++)
            serve(events[at]);
        time = now();
        if (asked && deadline == UINT64_MAX) {
            deadline = time + options[DRAIN];
            close(echo);
            for (struct client *client = clients; client; client = client->next)
                finish(client);
        }
        if (time >= ticked + TICK)
            tick(ticked = time, deadline);
    }
    show_all(stdout);
    return 0;
}
