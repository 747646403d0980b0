/*
 * The load: clients of one server on loopback, which compare every byte that comes.
 *
 *     load PORT PROCESS run  [--seconds T] [--fast N] [--threads N] [--size BYTES] [--depth N] [--stream] [--publish]
 *                            [--echo] [--slow N]
 *     load PORT PROCESS memory CLIENTS
 *     load PORT PROCESS fill CLIENTS FIRST
 *     load PORT PROCESS quit
 *
 * `run`: the fast clients are spread over threads. Each keeps `depth` requests of one response under way, or with --stream two
 * requests of 8 MiB. With --publish they join, and one more client publishes. With --echo the server sends back what comes,
 * and each client keeps `depth` pieces on the way. The slow ones ask for a stream of 16 KB responses without end, and read
 * 64 KB every half second. It prints one line of JSON.
 *
 * `memory`: what the server holds at so many clients, stage by stage, as one line of JSON.
 *
 * `fill`: opens these clients, of which FIRST were opened by others, and says `opened`. After a line of standard input each second
 * one asks for 256 KB and reads nothing, and the others ask for 64 bytes: once these came it says `full`. After another line all
 * read what is theirs, and it says `empty`. At the end of standard input it ends.
 */
#define _GNU_SOURCE
#include <pthread.h>
#include <stdio.h>
#include <sys/epoll.h>
#include <sys/socket.h>
#include <unistd.h>

#include "clients.h"
#include "process.h"

#define BURST (8u << 20)
#define SLOW_SIZE 16384u
#define SLOW_CHUNK 65536u
#define SLOW_REST 500000000u
#define MOST_THREADS 8
#define SMALL_ROOM 16384 /* of a client that keeps the system from taking much */
#define FILLING 16u
#define FILLING_ROOM 8192
#define LIFE 900u

/* Some clients, and the thread that drives them. */
struct group {
    pthread_t thread;
    struct client **clients;
    unsigned number;
    struct tally tally;
};

static int port, server;
static double seconds = 2;
static unsigned fast = 8, threads = 1, size = 64, depth = 1, slow;
static bool stream, publish, echo;
static volatile bool over;
static pthread_barrier_t barrier;

static void begin(struct group *group)
{
    for (unsigned at = 0; at < group->number && !publish; at++)
        if (echo)
            client_say(group->clients[at], depth);
        else
            client_ask(group->clients[at], stream ? 2 : depth);
}

static void *drive_fast(void *given)
{
    struct group *group = given;
    int poller = epoll_create1(0);
    for (unsigned at = 0; at < group->number; at++) {
        struct epoll_event event = {.events = EPOLLIN, .data.ptr = group->clients[at]};
        epoll_ctl(poller, EPOLL_CTL_ADD, group->clients[at]->socket, &event);
    }
    pthread_barrier_wait(&barrier);
    begin(group);
    while (!over) {
        struct epoll_event events[64];
        int found = epoll_wait(poller, events, 64, 50);
        for (int at = 0; at < found; at++) {
            struct client *client = events[at].data.ptr;
            int done = client_hear(client, SIZE_MAX, echo, &group->tally);
            if (done < 0)
                epoll_ctl(poller, EPOLL_CTL_DEL, client->socket, NULL);
            else if (done > 0 && !over)
                (echo ? client_say : client_ask)(client, (unsigned)done);
        }
    }
    close(poller);
    return NULL;
}

static void read_a_chunk(struct client *client, struct tally *tally)
{
    uint64_t before = tally->bytes, last;
    do {
        last = tally->bytes;
        if (client_hear(client, SLOW_CHUNK - (size_t)(last - before), false, tally) < 0)
            client->next = UINT64_MAX;
    } while (tally->bytes > last && tally->bytes - before < SLOW_CHUNK && !over);
}

static void *drive_slow(void *given)
{
    struct group *group = given;
    for (unsigned at = 0; at < group->number; at++) {
        group->clients[at]->next = now() + (uint64_t)SLOW_REST * at / group->number;
        client_ask(group->clients[at], 1);
    }
    while (!over) {
        for (unsigned at = 0; at < group->number; at++) {
            struct client *client = group->clients[at];
            if (client->next > now())
                continue;
            client->next += SLOW_REST;
            read_a_chunk(client, &group->tally);
        }
        usleep(5000);
    }
    return NULL;
}

static struct group *fast_groups(void)
{
    struct group *groups = calloc(threads, sizeof *groups);
    for (unsigned at = 0; at < threads; at++) {
        groups[at].clients = calloc(fast, sizeof(struct client *));
        for (unsigned one = at; one < fast; one += threads) {
            struct client *client = client_connected(port, 0, one << 20);
            client->size = size;
            client->count = stream && size < BURST ? BURST / size : 1;
            groups[at].clients[groups[at].number++] = client;
        }
    }
    return groups;
}

static struct group slow_group(void)
{
    struct group group = {.clients = calloc(slow + 1, sizeof(struct client *)), .number = slow};
    for (unsigned at = 0; at < slow; at++) {
        group.clients[at] = client_connected(port, 65536, 0x80000000u + (at << 8));
        group.clients[at]->size = SLOW_SIZE;
        group.clients[at]->count = UINT32_MAX;
    }
    return group;
}

/* All fast clients join. Returns the client that will publish. */
static struct client *join_all(struct group *groups)
{
    for (unsigned at = 0; at < threads; at++)
        for (unsigned one = 0; one < groups[at].number; one++) {
            struct client *client = groups[at].clients[one];
            client->base = 5, client->asked = 1, client->count = UINT32_MAX;
            client_send(client, (struct request){OP_JOIN, 0, 0, 0});
        }
    usleep(200000);
    return client_connected(port, 0, 5);
}

static struct tally sum_of(const struct group *groups, const struct group *slow_ones)
{
    struct tally sum = {.bytes = 0};
    for (unsigned at = 0; at < threads; at++) {
        const struct tally *tally = &groups[at].tally;
        sum.bytes += tally->bytes, sum.responses += tally->responses, sum.wrong += tally->wrong;
        sum.times.all += tally->times.all;
        for (unsigned step = 0; step < 64 * 32; step++)
            sum.times.seen[step] += tally->times.seen[step];
    }
    sum.wrong += slow_ones->tally.wrong;
    return sum;
}

static void tell(const struct tally *sum, const struct stats *stats, double took, double cpu, double others)
{
    double responses = sum->responses > 0 ? (double)sum->responses : 1;
    printf("{\"seconds\": %.3f, \"responses_a_second\": %.0f, \"mb_a_second\": %.1f, \"cpu_ns\": %.1f, \"p50_us\": %.1f, "
           "\"p99_us\": %.1f, \"others\": %.2f, \"peak\": %llu, \"stops\": %llu, \"rss_kib\": %ld, \"bytes\": %llu, \"wrong\": %llu}\n",
           took, (double)sum->responses / took, (double)sum->bytes / 1e6 / took, cpu * 1e9 / responses,
           time_at(&sum->times, .5), time_at(&sum->times, .99), others > 0 ? others : 0, (unsigned long long)stats->peak,
           (unsigned long long)stats->stops, process_rss(server), (unsigned long long)sum->bytes, (unsigned long long)sum->wrong);
}

/* Waits until the sockets of the slow clients are full: the server has little to do then. */
static void wait_for_rest(void)
{
    for (int tries = 0; tries < 60; tries++) {
        double before = process_cpu(server);
        usleep(100000);
        if (tries > 4 && process_cpu(server) - before < 0.02)
            return;
    }
}

static int run(void)
{
    struct client *watcher = client_connected(port, 0, 0);
    struct group *groups = fast_groups(), slow_ones = slow_group();
    if (!echo)
        client_stats(watcher, OP_RESET);
    pthread_barrier_init(&barrier, NULL, threads + 1);
    for (unsigned at = 0; at < threads; at++)
        pthread_create(&groups[at].thread, NULL, drive_fast, &groups[at]);
    pthread_create(&slow_ones.thread, NULL, drive_slow, &slow_ones);
    if (slow > 0)
        wait_for_rest();
    struct client *publisher = publish ? join_all(groups) : NULL;
    double cpu = process_cpu(server), own = own_cpu(), all = all_cpu();
    uint64_t start = now();
    pthread_barrier_wait(&barrier);
    if (publisher)
        client_send(publisher, (struct request){OP_PUBLISH, size, UINT32_MAX, 5});
    usleep((useconds_t)(seconds * 1e6));
    double took = (double)(now() - start) / 1e9;
    cpu = process_cpu(server) - cpu, own = own_cpu() - own, all = all_cpu() - all;
    if (publisher)
        close(publisher->socket);
    over = true;
    for (unsigned at = 0; at < threads; at++)
        pthread_join(groups[at].thread, NULL);
    pthread_join(slow_ones.thread, NULL);
    struct stats stats = {0};
    if (!echo)
        stats = client_stats(watcher, OP_STATS);
    struct tally sum = sum_of(groups, &slow_ones);
    tell(&sum, &stats, took, cpu, (all - own - cpu) / took);
    return sum.wrong > 0;
}

/* Each client asks for so many responses, of so many bytes. */
static void burst(struct client **clients, unsigned number, uint32_t bytes, uint32_t count)
{
    for (unsigned at = 0; at < number; at++) {
        clients[at]->size = bytes, clients[at]->count = count;
        client_ask(clients[at], 1);
    }
}

/* Reads all that was asked, of all clients by turns. */
static void drain(struct client **clients, unsigned number)
{
    static struct tally tally;
    uint64_t end = now() + 30000000000u;
    for (unsigned left = number; left > 0;) {
        left = 0;
        for (unsigned at = 0; at < number; at++) {
            struct client *client = clients[at];
            if (client->done == client->asked)
                continue;
            left++;
            if (client_hear(client, SIZE_MAX, false, &tally) < 0 || now() > end) {
                fprintf(stderr, "a client did not get what it asked for\n");
                exit(3);
            }
        }
    }
}

/* The memory of the server once it stays. */
static long settled(void)
{
    long before = -1, rss = process_rss(server);
    for (int tries = 0; tries < 20 && rss != before; tries++) {
        usleep(150000);
        before = rss;
        rss = process_rss(server);
    }
    return rss;
}

static int memory(unsigned number)
{
    struct client *watcher = client_connected(port, 0, 0), **clients = calloc(number, sizeof *clients);
    client_stats(watcher, OP_RESET);
    long none = process_rss(server);
    for (unsigned at = 0; at < number; at++)
        clients[at] = client_connected(port, SMALL_ROOM, at << 8);
    while (client_stats(watcher, OP_STATS).open < number + 1)
        usleep(1000);
    long opened = settled();
    burst(clients, number, 64, 100);
    drain(clients, number);
    long used = settled();
    client_stats(watcher, OP_RESET);
    burst(clients, number, 16384, 64);
    long stuck = settled();
    struct stats stats = client_stats(watcher, OP_STATS);
    drain(clients, number);
    long drained = settled();
    printf("{\"clients\": %u, \"before\": %ld, \"opened\": %ld, \"used\": %ld, \"stuck\": %ld, \"drained\": %ld, \"peak\": %llu}\n", number,
           none, opened, used, stuck, drained, (unsigned long long)stats.peak);
    return 0;
}

/* Says how far this is, and waits for a line that has it go on. */
static bool goes_on_after(const char *stage)
{
    char line[64];
    puts(stage);
    fflush(stdout);
    return fgets(line, sizeof line, stdin) != NULL;
}

static int fill(unsigned number, unsigned first)
{
    alarm(LIFE);
    unsigned half = number / 2;
    struct client **stuck = calloc(number, sizeof *stuck), **others = stuck + half;
    for (unsigned at = 0; at < number; at++) {
        clients_come_from(first + at);
        stuck[at] = client_connected(port, FILLING_ROOM, (first + at) << 4);
    }
    if (!goes_on_after("opened"))
        return 0;
    for (unsigned at = 0; at < number - half; at++) {
        if (at < half)
            burst(stuck + at, 1, SLOW_SIZE, FILLING);
        burst(others + at, 1, 64, 1);
    }
    drain(others, number - half);
    if (!goes_on_after("full"))
        return 0;
    drain(stuck, half);
    goes_on_after("empty");
    return 0;
}

static int quit(void)
{
    uint8_t byte;
    struct client *client = client_connected(port, 0, 0);
    client_send(client, (struct request){OP_QUIT, 0, 0, 0});
    return recv(client->socket, &byte, 1, 0) > 0;
}

/* Reads the options of `run`; false if one is unknown. */
static bool read_options(int count, char **words)
{
    struct {
        const char *name;
        unsigned *number;
        bool *flag;
    } known[] = {{"--fast", &fast, NULL},     {"--threads", &threads, NULL}, {"--size", &size, NULL},
                 {"--depth", &depth, NULL},   {"--slow", &slow, NULL},       {"--stream", NULL, &stream},
                 {"--publish", NULL, &publish}, {"--echo", NULL, &echo}};
    for (int at = 0; at < count; at++) {
        size_t option = 0;
        while (option < sizeof known / sizeof *known && strcmp(words[at], known[option].name))
            option++;
        if (!strcmp(words[at], "--seconds") && at + 1 < count)
            seconds = atof(words[++at]);
        else if (option == sizeof known / sizeof *known || (known[option].number && at + 1 == count))
            return false;
        else if (known[option].number)
            *known[option].number = (unsigned)atoi(words[++at]);
        else
            *known[option].flag = true;
    }
    return threads > 0 && threads <= MOST_THREADS && depth <= UNDER_WAY;
}

int main(int count, char **words)
{
    alarm(120);
    clients_prepare();
    if (count > 3) {
        port = atoi(words[1]), server = atoi(words[2]);
        if (!strcmp(words[3], "run") && read_options(count - 4, words + 4))
            return run();
        if (!strcmp(words[3], "memory") && count == 5)
            return memory((unsigned)atoi(words[4]));
        if (!strcmp(words[3], "fill") && count == 6)
            return fill((unsigned)atoi(words[4]), (unsigned)atoi(words[5]));
        if (!strcmp(words[3], "quit"))
            return quit();
    }
    fprintf(stderr, "usage: load PORT PROCESS run|memory|fill|quit ..: see the head of load.c\n");
    return 2;
}
