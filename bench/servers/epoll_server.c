/*
 * A server over epoll in C, of one thread: level-triggered. It reads from a client only while its queue is writable, and makes
 * responses while it is. The queue is one of queue_*.c.
 *
 *     epoll_server SECONDS SNDBUF [echo | ROOM HIGH QUANTUM]
 *
 * It prints its port, and ends at QUIT or after SECONDS. SNDBUF is SO_SNDBUF of its sockets, or 0 for the system's own. The
 * last three are those of a budget in bytes. A client whose next response finds no room there waits in a line: nothing more is
 * made for it or read from it until a round of the loop finds room.
 */
#define _GNU_SOURCE
#include <arpa/inet.h>
#include <errno.h>
#include <netinet/in.h>
#include <netinet/tcp.h>
#include <stdio.h>
#include <sys/epoll.h>
#include <sys/socket.h>
#include <unistd.h>

#include "protocol.h"
#include "queue.h"

#define EVENTS 256
#define ROOM 65536
#define TURNS 16 /* of one client before the others have theirs: Netty's write spin count */

struct client {
    int socket;
    uint32_t asked; /* the events that epoll watches */
    bool goes_on;   /* on the list of those that go on at once */
    bool dead;
    bool joined; /* hears what is published */
    bool held;   /* joined, and above its high mark */
    bool waits;  /* publishes, and somebody is held */
    uint32_t needs; /* the size of the response for which the budget had no room, or 0 */
    bool in_line;   /* waits for that room, since nothing that it has could be sent before */
    struct client *before, *behind; /* in that line */
    unsigned place; /* among all */
    struct client *next;
    struct queue queue;
    struct work work;
};

static int poller, listener, send_room;
static struct stats stats;
static struct client *first_to_go_on, *last_to_go_on, *dead;
static uint8_t room[ROOM], scratch[MOST];
static bool quit, echo;

static struct client **joined, *publisher;
static unsigned joined_count, held_count;

static struct client **all, *first_in_line, *last_in_line;
static unsigned all_count, all_room;

static void ask(struct client *client, uint32_t events)
{
    if (client->asked == events)
        return;
    struct epoll_event event = {.events = events, .data.ptr = client};
    epoll_ctl(poller, EPOLL_CTL_MOD, client->socket, &event);
    client->asked = events;
}

static void go_on_later(struct client *client)
{
    if (client->goes_on)
        return;
    client->goes_on = true;
    client->next = NULL;
    if (last_to_go_on)
        last_to_go_on->next = client;
    else
        first_to_go_on = client;
    last_to_go_on = client;
}

/* Counts who is above its high mark. The publisher goes on when nobody is. */
static void note_held(struct client *client)
{
    bool held = client->joined && !client->dead && !client->queue.writable;
    if (held == client->held)
        return;
    client->held = held;
    held_count += held ? 1u : -1u;
    if (held_count == 0 && publisher && publisher->waits) {
        publisher->waits = false;
        go_on_later(publisher);
    }
}

static void stand_in_line(struct client *client)
{
    if (client->in_line)
        return;
    client->in_line = true;
    client->before = last_in_line;
    client->behind = NULL;
    *(last_in_line ? &last_in_line->behind : &first_in_line) = client;
    last_in_line = client;
}

static void leave_the_line(struct client *client)
{
    if (!client->in_line)
        return;
    client->in_line = false;
    *(client->before ? &client->before->behind : &first_in_line) = client->behind;
    *(client->behind ? &client->behind->before : &last_in_line) = client->before;
}

/* Nobody tells a client that there is room again, so each round looks. Who waits longest goes first. */
static void let_go_on(void)
{
    for (uint64_t held = first_in_line ? queue_held() : 0; first_in_line;) {
        struct client *client = first_in_line;
        if (!queue_has_room(held, client->needs))
            return;
        held += client->needs;
        leave_the_line(client);
        go_on_later(client);
    }
}

static void add_to_all(struct client *client)
{
    if (all_count == all_room) {
        all_room = all_room ? 2 * all_room : 64;
        all = realloc(all, all_room * sizeof *all);
        if (!all)
            abort();
    }
    client->place = all_count;
    all[all_count++] = client;
}

static void end(struct client *client)
{
    if (client->dead)
        return;
    if (client == publisher)
        publisher = NULL;
    for (unsigned at = 0; client->joined && at < joined_count; at++)
        if (joined[at] == client)
            joined[at--] = joined[--joined_count];
    client->dead = true;
    all[client->place] = all[--all_count];
    all[client->place]->place = client->place;
    leave_the_line(client);
    note_held(client);
    close(client->socket);
    queue_free(&client->queue);
    free(client->work.list);
    stats.open--;
    if (!client->goes_on) { /* else it is freed when its turn comes */
        client->next = dead;
        dead = client;
    }
}

static void join(struct client *client)
{
    struct client **longer = realloc(joined, (joined_count + 1) * sizeof(struct client *));
    if (!longer)
        abort();
    joined = longer;
    joined[joined_count++] = client;
    client->joined = true;
}

static bool publish(struct client *client, struct request request, uint32_t index)
{
    publisher = client;
    response_make(scratch, request.id, index, request.size);
    if (!queue_shared_begin(scratch, request.size))
        return false;
    for (unsigned at = 0; at < joined_count; at++) {
        if (queue_shared_write(&joined[at]->queue) != WRITTEN)
            joined[at]->queue.broken = true;
        note_held(joined[at]);
        go_on_later(joined[at]);
    }
    queue_shared_end();
    stats.responses++;
    return true;
}

/* Makes a response where it is to lie, and writes it. What finds no room is work again. */
static bool respond(struct client *client, struct request request, uint32_t index)
{
    uint8_t *at = NULL;
    enum written written = queue_room(&client->queue, request.size, &at);
    if (written == WRITTEN) {
        response_make(at, request.id, index, request.size);
        written = queue_made(&client->queue, request.size);
    }
    client->needs = written == NO_ROOM ? request.size : 0;
    if (written == NO_ROOM)
        work_undo(&client->work, index);
    else
        stats.responses++;
    if (written == NOT_WRITTEN)
        client->queue.broken = true;
    return written == WRITTEN;
}

/* Who asks for the numbers asks for nothing else, and is told past its queue: a budget that is full does not hide them. */
static bool tell_stats(struct client *client, uint32_t id)
{
    stats.stops = queue_stops;
    stats.held = queue_held();
    stats.pending = 0;
    for (unsigned at = 0; at < all_count; at++)
        stats.pending += queue_pending(&all[at]->queue);
    uint32_t size = stats_make(scratch, id, &stats);
    if (send(client->socket, scratch, size, MSG_NOSIGNAL) != (ssize_t)size)
        client->queue.broken = true;
    return !client->queue.broken;
}

/* Makes the next response. False if there is none to make now. */
static bool answer(struct client *client)
{
    struct request request;
    uint32_t index;
    if (held_count > 0 && work_is_publishing(&client->work)) {
        client->waits = true;
        return false;
    }
    if (!work_next(&client->work, &request, &index))
        return false;
    switch (request.op) {
    case OP_GET: return respond(client, request, index);
    case OP_RESET:
        stats = (struct stats){.open = stats.open};
        queue_stops = 0;
        return tell_stats(client, request.id);
    case OP_STATS: return tell_stats(client, request.id);
    case OP_JOIN: join(client); return true;
    case OP_PUBLISH: return publish(client, request, index);
    default: quit = true; return true;
    }
}

static void answer_all(struct client *client)
{
    while (queue_may_write(&client->queue) && answer(client))
        ;
    uint64_t pending = queue_pending(&client->queue);
    if (pending > stats.peak)
        stats.peak = pending;
}

static void serve(struct client *client)
{
    for (int turn = 0; turn < TURNS; turn++) {
        answer_all(client);
        enum sent sent = client->queue.broken ? SENT_BROKEN : queue_send(&client->queue, client->socket, TURNS);
        note_held(client);
        if (sent == SENT_BROKEN) {
            end(client);
            return;
        }
        if (sent == SENT_BLOCKED) {
            answer_all(client); /* what is still writable is made ready meanwhile */
            ask(client, EPOLLOUT | (queue_may_write(&client->queue) && !work_any(&client->work) ? EPOLLIN : 0u));
            return;
        }
        if (sent == SENT_ALL && client->needs) {
            stand_in_line(client);
            ask(client, 0);
            return;
        }
        if (sent == SENT_ALL && (!work_any(&client->work) || client->waits)) {
            work_rest(&client->work);
            queue_rest(&client->queue);
            ask(client, EPOLLIN);
            return;
        }
        if (sent == SENT_SOME)
            break;
    }
    go_on_later(client);
}

static void hear(struct client *client)
{
    ssize_t count = recv(client->socket, room, sizeof room, 0);
    if (count < 0 && (errno == EAGAIN || errno == EINTR))
        return;
    bool heard = count > 0
                 && (echo ? queue_write(&client->queue, room, (uint32_t)count) == WRITTEN : work_feed(&client->work, room, (size_t)count));
    if (heard)
        serve(client);
    else
        end(client);
}

static void take_in(void)
{
    int socket, one = 1;
    while ((socket = accept4(listener, NULL, NULL, SOCK_NONBLOCK | SOCK_CLOEXEC)) >= 0) {
        setsockopt(socket, IPPROTO_TCP, TCP_NODELAY, &one, sizeof one);
        if (send_room)
            setsockopt(socket, SOL_SOCKET, SO_SNDBUF, &send_room, sizeof send_room);
        struct client *client = calloc(1, sizeof *client);
        if (!client)
            abort();
        client->socket = socket;
        client->asked = EPOLLIN;
        queue_open(&client->queue, LOW, HIGH);
        add_to_all(client);
        struct epoll_event event = {.events = EPOLLIN, .data.ptr = client};
        epoll_ctl(poller, EPOLL_CTL_ADD, socket, &event);
        stats.open++;
    }
}

static void handle(const struct epoll_event *event)
{
    struct client *client = event->data.ptr;
    if (!client)
        take_in();
    else if (client->dead)
        return;
    else if (event->events & EPOLLIN)
        hear(client);
    else if (event->events & EPOLLOUT)
        serve(client);
    else
        end(client);
}

/* Those that have more to do at once have a turn, and those that are dead are freed. */
static void go_on(void)
{
    struct client *client = first_to_go_on;
    first_to_go_on = last_to_go_on = NULL;
    while (client) {
        struct client *next = client->next;
        client->goes_on = false;
        if (client->dead) {
            client->next = dead;
            dead = client;
        } else {
            serve(client);
        }
        client = next;
    }
    let_go_on();
    while (dead) {
        client = dead;
        dead = client->next;
        free(client);
    }
}

static void listen_and_tell(void)
{
    listener = socket(AF_INET, SOCK_STREAM | SOCK_NONBLOCK | SOCK_CLOEXEC, 0);
    struct sockaddr_in address = {.sin_family = AF_INET, .sin_addr.s_addr = htonl(INADDR_LOOPBACK)};
    socklen_t length = sizeof address;
    if (bind(listener, (struct sockaddr *)&address, length) || listen(listener, 4096)
        || getsockname(listener, (struct sockaddr *)&address, &length)) {
        perror("listen");
        exit(1);
    }
    printf("%u\n", ntohs(address.sin_port));
    fflush(stdout);
}

int main(int count, char **words)
{
    if (count < 3)
        return fprintf(stderr, "usage: epoll_server SECONDS SNDBUF [echo | ROOM HIGH QUANTUM]\n"), 2;
    alarm((unsigned)atoi(words[1]));
    send_room = atoi(words[2]);
    echo = count == 4;
    uint64_t budget[] = {256u << 20, 192u << 20, 16384};
    for (int at = 0; count == 6 && at < 3; at++)
        budget[at] = strtoull(words[3 + at], NULL, 10);
    queue_share(budget[0], budget[1], budget[2]);
    pool_make();
    poller = epoll_create1(EPOLL_CLOEXEC);
    listen_and_tell();
    struct epoll_event event = {.events = EPOLLIN, .data.ptr = NULL};
    epoll_ctl(poller, EPOLL_CTL_ADD, listener, &event);
    while (!quit) {
        struct epoll_event events[EVENTS];
        int found = epoll_wait(poller, events, EVENTS, first_to_go_on ? 0 : -1);
        for (int at = 0; at < found; at++)
            handle(&events[at]);
        go_on();
    }
    return 0;
}
