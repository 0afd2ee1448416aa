/* The one device of the process: its link, its locks, and things by their numbers and keys. */
#include "node.h"
#include <arpa/inet.h>
#include <errno.h>
#include <signal.h>
#include <stdio.h>
#include <stdlib.h>
#include <string.h>
#include <sys/eventfd.h>
#include <time.h>
#include <unistd.h>

#define SOCKET_BUFFER (8 << 20) /* bytes that are asked for; the system may give less */
#define DATAGRAM_COST 9216      /* of a socket's buffer, for one datagram of the longest kind */
#define LEAST_WINDOW 16         /* every eighth packet asks for an acknowledgement, so fewer would wait for a timer */

struct node node = {.lock = PTHREAD_MUTEX_INITIALIZER, .here.socket = -1, .left.socket = -1, .wake = -1, .control = -1};

int64_t now(void)
{
    struct timespec time;
    clock_gettime(CLOCK_MONOTONIC, &time);
    return (int64_t)time.tv_sec * 1000000000 + time.tv_nsec;
}

/* An IPv4 address, and a port behind a colon where it is not that of RoCEv2. */
bool parse_address(const char *text, jichurpa_address *address)
{
    char host[INET_ADDRSTRLEN + 1] = "";
    const char *colon = strchr(text, ':');
    size_t length = colon ? (size_t)(colon - text) : strlen(text);
    struct in_addr ip;
    char *end = NULL;
    unsigned long port = colon ? strtoul(colon + 1, &end, 10) : JICHURPA_PORT;
    if (length >= sizeof host || (colon && (end == colon + 1 || *end != 0)) || port == 0 || port > 65535)
        return false;
    memcpy(host, text, length);
    if (inet_pton(AF_INET, host, &ip) != 1)
        return false;
    *address = (jichurpa_address){.ip = ntohl(ip.s_addr), .port = (uint16_t)port};
    return true;
}

bool env_address(jichurpa_address *address)
{
    const char *text = getenv("JICHURPA_ADDRESS");
    if (!text || !*text)
        return false;
    if (parse_address(text, address))
        return true;
    fprintf(stderr, "jichurpa-verbs: JICHURPA_ADDRESS is no IPv4 address: %s\n", text);
    return false;
}

static void buffer(int socket, int forced, int plain)
{
    const int bytes = SOCKET_BUFFER;
    if (setsockopt(socket, SOL_SOCKET, forced, &bytes, sizeof bytes) != 0)
        setsockopt(socket, SOL_SOCKET, plain, &bytes, sizeof bytes);
}

static int bind_socket(const jichurpa_address *address)
{
    struct sockaddr_in at = {.sin_family = AF_INET, .sin_port = htons(address->port), .sin_addr.s_addr = htonl(address->ip)};
    int opened = socket(AF_INET, SOCK_DGRAM | SOCK_CLOEXEC, 0);
    if (opened < 0)
        return -1;
    buffer(opened, SO_RCVBUFFORCE, SO_RCVBUF);
    buffer(opened, SO_SNDBUFFORCE, SO_SNDBUF);
    if (bind(opened, (struct sockaddr *)&at, sizeof at) == 0)
        return opened;
    int error = errno;
    close(opened);
    errno = error;
    return -1;
}

/* A new device with an id and a socket at an address. Answers 0 or an errno, and `link` is as before then. */
int link_open(struct link *link, unsigned id, const jichurpa_address *address)
{
    struct link made = {.device = JICHURPA_NOTHING, .address = *address, .socket = bind_socket(address)};
    if (made.socket < 0)
        return errno;
    if (jichurpa_device_make(id, address, &made.device) != JICHURPA_OK) {
        close(made.socket);
        return ENOMEM;
    }
    *link = made;
    return 0;
}

void link_close(struct link *link)
{
    jichurpa_device_free(&link->device);
    if (link->socket >= 0)
        close(link->socket);
    link->socket = -1;
}

/* What is in flight is kept below what the socket's buffer holds; a partner's buffer counts as large as the own one. */
static void measure_room(int socket)
{
    int bytes = 0;
    socklen_t length = sizeof bytes;
    getsockopt(socket, SOL_SOCKET, SO_RCVBUF, &bytes, &length);
    unsigned datagrams = (unsigned)bytes / DATAGRAM_COST;
    node.read_room = (uint64_t)datagrams * 1024;
    node.window = datagrams < LEAST_WINDOW ? LEAST_WINDOW : datagrams;
}

static void before_fork(void)
{
    pthread_mutex_lock(&node.lock);
}

static void after_fork_in_parent(void)
{
    pthread_mutex_unlock(&node.lock);
}

static void after_fork_in_child(void)
{
    node.forked = true;
    pthread_mutex_unlock(&node.lock);
}

/* The thread takes no signal: those are for the program. */
static int start_thread(void)
{
    pthread_t thread;
    sigset_t all, before;
    sigfillset(&all);
    pthread_sigmask(SIG_SETMASK, &all, &before);
    int error = pthread_create(&thread, NULL, serve, NULL);
    pthread_sigmask(SIG_SETMASK, &before, NULL);
    if (error == 0)
        pthread_detach(thread);
    return error;
}

static int start(void)
{
    jichurpa_address address;
    if (jichurpa_abi() != JICHURPA_ABI)
        return ELIBBAD;
    if (!env_address(&address))
        return ENODEV;
    node.id = (address.ip & 255) ? address.ip & 255 : 1;
    int error = link_open(&node.here, node.id, &address);
    if (error != 0)
        return error;
    measure_room(node.here.socket);
    node.wake = eventfd(0, EFD_CLOEXEC | EFD_NONBLOCK);
    error = node.wake < 0 ? errno : 0;
    if (error == 0)
        control_open();
    if (error == 0)
        error = start_thread();
    if (error != 0) {
        link_close(&node.here);
        return error;
    }
    pthread_atfork(before_fork, after_fork_in_parent, after_fork_in_child);
    return 0;
}

/* The device is made, its address is bound and its thread started, once for the process. */
int node_start(void)
{
    if (node.forked)
        return ENODEV;
    pthread_mutex_lock(&node.lock);
    int error = node.started ? 0 : start();
    if (error == 0)
        node.started = true;
    pthread_mutex_unlock(&node.lock);
    if (error != 0 && error != ENODEV)
        fprintf(stderr, "jichurpa-verbs: the device at %s cannot be made: %s\n", getenv("JICHURPA_ADDRESS"), strerror(error));
    return error;
}

bool node_enter(void)
{
    if (node.forked)
        return false;
    pthread_mutex_lock(&node.lock);
    return true;
}

void node_leave(void)
{
    flush(&node.here);
    pthread_mutex_unlock(&node.lock);
}

void node_wake(int64_t due)
{
    const uint64_t one = 1;
    if (due < atomic_load(&node.asleep_until) && write(node.wake, &one, sizeof one) < 0)
        return; /* it is awake already */
}

/* ---- datagrams ---- */

void flush(struct link *link)
{
    struct outbox *out = &node.out;
    unsigned sent = 0;
    while (sent < out->count) {
        int count = sendmmsg(link->socket, out->messages + sent, out->count - sent, 0);
        sent += count > 0 ? (unsigned)count : 1; /* one that the system refuses is lost, and sent again by the timers */
    }
    out->count = 0;
}

/* Requests carry the packet sequence numbers that the program told its partner. */
static void shift_request(uint8_t *bytes, uint32_t by)
{
    uint32_t psn = ((uint32_t)bytes[9] << 16 | (uint32_t)bytes[10] << 8 | bytes[11]) + by;
    bytes[9] = (uint8_t)(psn >> 16);
    bytes[10] = (uint8_t)(psn >> 8);
    bytes[11] = (uint8_t)psn;
}

/* Puts the datagrams of the last step into the outbox; those of `pair` are its requests. */
void send_all(struct link *link, const struct pair *pair)
{
    struct outbox *out = &node.out;
    jichurpa_datagram datagram;
    for (;;) {
        if (out->count == BATCH)
            flush(link);
        unsigned i = out->count;
        if (jichurpa_next_sent(&link->device, &datagram, out->bytes[i], ROOM) != JICHURPA_OK)
            return;
        if (pair && pair->shift)
            shift_request(out->bytes[i], pair->shift);
        out->to[i] = (struct sockaddr_in){
            .sin_family = AF_INET, .sin_port = htons(datagram.to.port), .sin_addr.s_addr = htonl(datagram.to.ip)};
        out->pieces[i] = (struct iovec){out->bytes[i], datagram.length};
        out->messages[i].msg_hdr = (struct msghdr){
            .msg_name = &out->to[i], .msg_namelen = sizeof out->to[i], .msg_iov = &out->pieces[i], .msg_iovlen = 1};
        out->count += 1;
    }
}

/* ---- things by their numbers and keys ---- */

struct pair *pair_numbered(uint32_t number)
{
    struct pair *pair = node.by_number[number % BUCKETS];
    while (pair && pair->ex.qp_base.qp_num != number)
        pair = pair->next_number;
    return pair;
}

struct memory *memory_local(uint32_t key)
{
    struct memory *memory = node.by_local[key / 2 % BUCKETS];
    while (memory && memory->ibv.lkey != key)
        memory = memory->next_local;
    return memory;
}

struct memory *memory_remote(uint32_t key)
{
    struct memory *memory = node.by_remote[key / 2 % BUCKETS];
    while (memory && memory->ibv.rkey != key)
        memory = memory->next_remote;
    return memory;
}

/* A name that nothing of the context has. */
jichurpa_object next_name(struct context *context, char letter)
{
    char text[JICHURPA_NAME_BYTES + 1];
    jichurpa_object object = {.context = context->name};
    snprintf(text, sizeof text, "%c%u", letter, context->named++);
    object.name = jichurpa_name_of(text);
    return object;
}

struct context *context_of(struct ibv_context *ibv)
{
    return (struct context *)((char *)ibv - offsetof(struct context, verbs) - offsetof(struct verbs_context, context));
}

int refused(jichurpa_result result, const jichurpa_outcome *out)
{
    if (result == JICHURPA_NO_MEMORY)
        return ENOMEM;
    if (result != JICHURPA_OK)
        return EINVAL;
    if (out->answer != JICHURPA_REFUSED)
        return 0;
    switch (out->cause) {
    case JICHURPA_REFUSED_TOO_MANY:
    case JICHURPA_REFUSED_SQ_FULL:
    case JICHURPA_REFUSED_RQ_FULL:
    case JICHURPA_REFUSED_CQ_FULL:
    case JICHURPA_REFUSED_NO_PAGE:
    case JICHURPA_REFUSED_NUMBER_TAKEN:
        return ENOMEM;
    case JICHURPA_REFUSED_IN_USE:
        return EBUSY;
    case JICHURPA_REFUSED_PEER_MOVING:
        return EAGAIN;
    default:
        return EINVAL;
    }
}
