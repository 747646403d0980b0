/*
 * The same server over libuv: a uv_write for each response, and uv_stream_get_write_queue_size as backpressure, with Netty's
 * marks. Reading stops while the queue is above the high mark.
 *
 *     uv_server SECONDS SNDBUF
 *
 * uv_write sends at once if nothing waits, and its callback comes in the next turn of the loop. So a loop "write while the queue
 * is small" would make every response of a request before it hears of one that is gone: a turn writes at most TURN bytes, and
 * goes on when the last of them was told.
 */
#include <signal.h>
#include <stdio.h>
#include <unistd.h>
#include <uv.h>

#include "protocol.h"

#define TURN (4u * HIGH)

struct client {
    uv_tcp_t stream;
    struct work work;
    uint32_t under_way; /* writes whose callback has not come */
    bool stopped;       /* above the high mark */
    bool reading, closing, joined;
};

/* A message to many, with the number of those that have it. */
struct shared {
    uint32_t owners;
    uint8_t bytes[];
};

struct written {
    uv_write_t request;
    struct client *client;
    struct shared *shared;
    uint8_t bytes[];
};

static struct stats stats;
static int send_room;
static uint8_t room[65536];
static struct client **joined, *publisher;
static unsigned joined_count, held_count, shared_under_way;

static void pump(struct client *client);

static void freed(uv_handle_t *handle)
{
    struct client *client = handle->data;
    free(client->work.list);
    free(client);
}

static void end(struct client *client)
{
    if (client->closing)
        return;
    client->closing = true;
    if (client == publisher)
        publisher = NULL;
    for (unsigned at = 0; client->joined && at < joined_count; at++)
        if (joined[at] == client)
            joined[at--] = joined[--joined_count];
    if (client->joined && client->stopped)
        held_count--;
    stats.open--;
    uv_close((uv_handle_t *)&client->stream, freed);
}

static void lend(uv_handle_t *handle, size_t wanted, uv_buf_t *buffer)
{
    (void)handle;
    (void)wanted;
    *buffer = uv_buf_init((char *)room, sizeof room);
}

static void hear(uv_stream_t *stream, ssize_t count, const uv_buf_t *buffer)
{
    struct client *client = stream->data;
    if (count < 0 || !work_feed(&client->work, (const uint8_t *)buffer->base, (size_t)count)) {
        end(client);
        return;
    }
    if (count > 0)
        pump(client);
}

static void read_or_not(struct client *client)
{
    bool wanted = client == publisher || client->joined || (!client->stopped && !work_any(&client->work));
    if (wanted == client->reading || client->closing)
        return;
    client->reading = wanted;
    if (wanted)
        uv_read_start((uv_stream_t *)&client->stream, lend, hear);
    else
        uv_read_stop((uv_stream_t *)&client->stream);
}

static size_t waiting(struct client *client)
{
    return uv_stream_get_write_queue_size((uv_stream_t *)&client->stream);
}

static void was_written(uv_write_t *request, int status)
{
    struct written *written = (struct written *)request;
    struct client *client = written->client;
    bool shared = written->shared != NULL;
    if (shared && --written->shared->owners == 0)
        free(written->shared);
    free(written);
    client->under_way--;
    shared_under_way -= shared;
    if (client->closing)
        return;
    if (status < 0) {
        end(client);
        return;
    }
    if (client->stopped && waiting(client) < LOW) {
        client->stopped = false;
        if (client->joined && --held_count == 0 && publisher)
            pump(publisher);
    }
    if (shared && shared_under_way == 0 && held_count == 0 && publisher)
        pump(publisher);
    if (!shared && !client->stopped && (client->under_way == 0 || waiting(client) > 0))
        pump(client);
}

static void join(struct client *client)
{
    struct client **longer = realloc(joined, (joined_count + 1) * sizeof(struct client *));
    if (!longer)
        abort();
    joined = longer;
    joined[joined_count++] = client;
    client->joined = true;
}

static void note_stopped(struct client *client)
{
    size_t queue = waiting(client);
    if (queue > stats.peak)
        stats.peak = queue;
    if (queue <= HIGH || client->stopped)
        return;
    client->stopped = true;
    stats.stops++;
    held_count += client->joined;
}

static void publish_to(struct client *to, struct shared *shared, uint32_t size)
{
    struct written *written = malloc(sizeof *written);
    if (!written)
        abort();
    written->client = to, written->shared = shared;
    shared->owners++, to->under_way++, shared_under_way++;
    uv_buf_t buffer = uv_buf_init((char *)shared->bytes, size);
    if (uv_write(&written->request, (uv_stream_t *)&to->stream, &buffer, 1, was_written)) {
        shared->owners--, to->under_way--, shared_under_way--;
        free(written);
        end(to);
        return;
    }
    note_stopped(to);
}

static void publish(struct client *client, struct request request, uint32_t index)
{
    struct shared *shared = malloc(sizeof *shared + request.size);
    if (!shared)
        abort();
    publisher = client;
    response_make(shared->bytes, request.id, index, request.size);
    shared->owners = 1;
    stats.responses++;
    for (unsigned at = 0; at < joined_count; at++)
        publish_to(joined[at], shared, request.size);
    if (--shared->owners == 0)
        free(shared);
}

/* Makes a response of GET, STATS or RESET, and writes it. */
static void respond(struct client *client, struct request request, uint32_t index)
{
    uint32_t size = request.op == OP_GET ? request.size : STATS_SIZE;
    struct written *written = malloc(sizeof *written + size);
    if (!written)
        abort();
    written->client = client, written->shared = NULL;
    if (request.op == OP_RESET)
        stats = (struct stats){.open = stats.open};
    if (request.op == OP_GET)
        response_make(written->bytes, request.id, index, size);
    else
        stats_make(written->bytes, request.id, &stats);
    uv_buf_t buffer = uv_buf_init((char *)written->bytes, size);
    stats.responses++;
    client->under_way++;
    if (uv_write(&written->request, (uv_stream_t *)&client->stream, &buffer, 1, was_written)) {
        client->under_way--;
        free(written);
        end(client);
        return;
    }
    note_stopped(client);
}

static void pump(struct client *client)
{
    uint32_t turn = 0, index;
    struct request request;
    while (!client->closing && !client->stopped && turn < TURN) {
        if (held_count > 0 && work_is_publishing(&client->work))
            break;
        if (!work_next(&client->work, &request, &index))
            break;
        turn += request.size;
        switch (request.op) {
        case OP_JOIN: join(client); break;
        case OP_PUBLISH: publish(client, request, index); break;
        case OP_QUIT: uv_stop(client->stream.loop); return;
        default: respond(client, request, index);
        }
    }
    if (!client->closing) {
        work_rest(&client->work);
        read_or_not(client);
    }
}

static void take_in(uv_stream_t *listener, int status)
{
    if (status < 0)
        return;
    struct client *client = calloc(1, sizeof *client);
    if (!client)
        return;
    uv_tcp_init(listener->loop, &client->stream);
    client->stream.data = client;
    stats.open++;
    if (uv_accept(listener, (uv_stream_t *)&client->stream)) {
        end(client);
        return;
    }
    uv_tcp_nodelay(&client->stream, 1);
    if (send_room)
        uv_send_buffer_size((uv_handle_t *)&client->stream, &send_room);
    read_or_not(client);
}

int main(int count, char **words)
{
    if (count < 3)
        return fprintf(stderr, "usage: uv_server SECONDS SNDBUF\n"), 2;
    alarm((unsigned)atoi(words[1]));
    send_room = atoi(words[2]);
    pool_make();
    signal(SIGPIPE, SIG_IGN);
    uv_loop_t *loop = uv_default_loop();
    uv_tcp_t listener;
    struct sockaddr_in address;
    uv_ip4_addr("127.0.0.1", 0, &address);
    uv_tcp_init(loop, &listener);
    uv_tcp_bind(&listener, (const struct sockaddr *)&address, 0);
    if (uv_listen((uv_stream_t *)&listener, 4096, take_in))
        return 1;
    int length = sizeof address;
    uv_tcp_getsockname(&listener, (struct sockaddr *)&address, &length);
    printf("%u\n", ntohs(address.sin_port));
    fflush(stdout);
    uv_run(loop, UV_RUN_DEFAULT);
    return 0;
}
