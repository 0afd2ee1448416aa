/* The thread that serves the device: what arrives, what may be sent, and the timers. */
#include "node.h"
#include <endian.h>
#include <errno.h>
#include <poll.h>
#include <sched.h>
#include <string.h>
#include <time.h>
#include <unistd.h>

#define MOST_DOUBLINGS 4               /* the retransmission timer is doubled at each expiry, up to 16 times its base */
#define SHORT_SLEEP (20 * MILLISECOND) /* the thread's, while datagrams come: then setting a timer need not wake it */
#define BUSY (1000 * MILLISECOND)
#define POLLED (MILLISECOND / 5) /* so long after such a poll the thread leaves the socket to the program that polls */
#define WATCHED (100 * MILLISECOND)
#define POLLS 16    /* polls in a row that found nothing, of a program that does nothing else */
#define PATIENCE 64 /* polls in a row that found nothing, before others may run */
#define TURNS 8     /* batches of datagrams that are taken before the timers are looked at */

/* Opcodes of reliable connections. */
enum {
    SEND_FIRST = 0x00,
    SEND_LAST_IMM = 0x03,
    SEND_ONLY = 0x04,
    SEND_ONLY_IMM = 0x05,
    WRITE_FIRST = 0x06,
    WRITE_LAST_IMM = 0x09,
    WRITE_ONLY = 0x0a,
    WRITE_ONLY_IMM = 0x0b,
    READ_REQUEST = 0x0c,
    FIRST_RESPONSE = 0x0d,
    MIDDLE_RESPONSE = 0x0e,
    ONLY_RESPONSE = 0x10,
    LAST_RESPONSE = 0x12,
    COMPARE_SWAP = 0x13,
    FETCH_ADD = 0x14,
};

#define BTH 12U
#define RETH 16U
#define IMM 4U
#define AETH 4U
#define ICRC 4U

static int64_t busy_until;
static int64_t polled_until;  /* until then a program polls, and takes what comes */
static int64_t watched_until; /* until then the thread watches the socket all the same, since a program stopped polling */

/* ---- timers ---- */

static void set(struct pair *pair)
{
    struct timers *timers = &pair->timers;
    if (timers->retransmission != NO_TIME)
        return;
    timers->retransmission = now() + (timeout_of(pair) << timers->doublings);
    node_wake(timers->retransmission);
}

/*
 * Asks the device what there is to tell of a queue pair, and sets its timers by that. The retransmission timer is set when something
 * is in flight where nothing was, and set anew where the oldest unacknowledged number moved; so a partner that sends and never
 * acknowledges does not keep it from expiring.
 */
void observe(struct pair *pair)
{
    struct timers *timers = &pair->timers;
    jichurpa_end *end = &pair->end;
    if (jichurpa_end_named(&node.here.device, &pair->name, end) != JICHURPA_OK)
        return;
    if (end->una > timers->una || end->state != timers->state) {
        timers->doublings = 0;
        timers->retransmission = NO_TIME;
    }
    timers->una = end->una;
    timers->state = end->state;
    if (end->in_flight)
        set(pair);
    else if (end->state != JICHURPA_RESUMING)
        timers->retransmission = NO_TIME;
    if (!end->rnr_wait)
        timers->rnr = NO_TIME;
    else if (timers->rnr == NO_TIME) {
        timers->rnr = now() + rnr_wait_of(pair);
        node_wake(timers->rnr);
    }
    if (end->state == JICHURPA_ERROR && pair->attr.qp_state != IBV_QPS_ERR) {
        pair->attr.qp_state = pair->attr.cur_qp_state = pair->ex.qp_base.state = IBV_QPS_ERR;
        feed(pair);
    }
}

/* A timer that is due. RESUME is sent again by the retransmission timer. */
static void expire(struct pair *pair, int64_t time)
{
    struct timers *timers = &pair->timers;
    jichurpa_outcome out;
    if (timers->rnr <= time) {
        timers->rnr = NO_TIME;
        jichurpa_rnr_over(&node.here.device, &pair->name, &out);
    }
    if (timers->retransmission <= time) {
        timers->retransmission = NO_TIME;
        timers->doublings += timers->doublings < MOST_DOUBLINGS;
        pair->lost = true;
        if (pair->end.state != JICHURPA_RESUMING)
            jichurpa_expire(&node.here.device, &pair->name, &out);
    }
    drain((struct queue *)pair->ex.qp_base.send_cq);
    drain((struct queue *)pair->ex.qp_base.recv_cq);
    pump(pair);
    feed_starved();
}

static int64_t earlier(int64_t a, int64_t b)
{
    return a < b ? a : b;
}

/* Does what is due, and answers when the next timer is. */
static int64_t run_timers(void)
{
    int64_t time = now(), due = time < busy_until ? time + SHORT_SLEEP : NO_TIME;
    for (struct pair *pair = node.pairs; pair; pair = pair->next) {
        struct timers *timers = &pair->timers;
        if (earlier(timers->rnr, timers->retransmission) <= time)
            expire(pair, time);
        due = earlier(due, earlier(timers->rnr, timers->retransmission));
        if (pair->failing)
            due = earlier(due, time + SHORT_SLEEP);
    }
    return due;
}

/* ---- what may be sent ---- */

/* A queue pair that resumes sends RESUME once, and again when its timer expired. */
static bool may_send(const struct pair *pair)
{
    const jichurpa_end *end = &pair->end;
    if (end->state == JICHURPA_RESUMING)
        return pair->timers.retransmission == NO_TIME;
    return end->may_send && (node.window >= 64 || end->next - end->una < node.window);
}

static bool transmit(struct pair *pair)
{
    jichurpa_outcome out;
    if (jichurpa_transmit(&node.here.device, &pair->name, &out) != JICHURPA_OK || out.answer != JICHURPA_SENT)
        return false;
    bool resumes = pair->end.state == JICHURPA_RESUMING;
    send_all(&node.here, resumes ? NULL : pair);
    if (resumes)
        set(pair);
    return !resumes;
}

/* Gives the device what waits for it, and sends what may be sent. */
void pump(struct pair *pair)
{
    feed(pair);
    if (!pair->connected)
        return;
    observe(pair);
    if (!may_send(pair))
        return;
    for (unsigned i = 0; i < node.window && transmit(pair); i++)
        ;
    observe(pair);
}

/* Queue pairs whose work waited for pages, or for READs of others to land, try again. */
void feed_starved(void)
{
    if (node.fed == node.freed)
        return;
    node.fed = node.freed;
    for (struct pair *pair = node.pairs; pair; pair = pair->next)
        if (pair->starved)
            pump(pair);
}

/* ---- what arrives ---- */

static uint64_t number_at(const uint8_t *bytes, unsigned size)
{
    uint64_t number = 0;
    for (unsigned i = 0; i < size; i++)
        number = number << 8 | bytes[i];
    return number;
}

struct arrival {
    struct pair *pair; /* whose it is; null where it is for nobody here */
    uint8_t *bytes;
    size_t count;
    uint8_t opcode;
    struct memory *memory; /* of a READ request or an atomic: the region of the range that it names */
    uint64_t at, held;
};

static bool is_atomic(uint8_t opcode)
{
    return opcode == COMPARE_SWAP || opcode == FETCH_ADD;
}

static bool has_reth(uint8_t opcode)
{
    return opcode == WRITE_FIRST || opcode == WRITE_ONLY || opcode == WRITE_ONLY_IMM || opcode == READ_REQUEST;
}

static struct arrival arrival_of(uint8_t *bytes, size_t count)
{
    struct arrival it = {.bytes = bytes, .count = count};
    if (count < BTH + ICRC)
        return it;
    it.opcode = bytes[0];
    it.pair = pair_numbered((uint32_t)number_at(bytes + 5, 3));
    return it;
}

/* A request of a kind that the queue pair does not allow loses its key, and so is refused as one that is not granted. */
static void check_access(const struct arrival *it)
{
    unsigned needed = is_atomic(it->opcode)        ? IBV_ACCESS_REMOTE_ATOMIC
                      : it->opcode == READ_REQUEST ? IBV_ACCESS_REMOTE_READ
                                                   : IBV_ACCESS_REMOTE_WRITE;
    if ((has_reth(it->opcode) || is_atomic(it->opcode)) && it->count >= BTH + RETH &&
        !(it->pair->attr.qp_access_flags & needed))
        memset(it->bytes + BTH + 8, 0, 4);
}

/* The program's bytes go in where a READ or an atomic is about to look at them. */
static void bring(struct arrival *it)
{
    bool atomic = is_atomic(it->opcode);
    if ((it->opcode != READ_REQUEST && !atomic) || it->count < BTH + RETH)
        return;
    uint64_t at = number_at(it->bytes + BTH, 8), length = atomic ? 8 : number_at(it->bytes + BTH + 12, 4);
    struct memory *memory = memory_remote((uint32_t)number_at(it->bytes + BTH + 8, 4));
    if (!memory || !is_in(memory, at, length) || (atomic && at % 8 != 0))
        return; /* the device refuses it */
    if (!atomic)
        copy_in(memory, at, length);
    else if (word_in(memory, at, &it->held)) {
        it->memory = memory;
        it->at = at;
    }
}

/* The bytes of payload of a datagram; 0 where it is too short to have any. */
static uint32_t payload_of(const struct arrival *it)
{
    uint8_t opcode = it->opcode;
    bool immediate = opcode == SEND_LAST_IMM || opcode == SEND_ONLY_IMM || opcode == WRITE_LAST_IMM || opcode == WRITE_ONLY_IMM;
    bool acknowledges = opcode >= FIRST_RESPONSE && opcode <= ONLY_RESPONSE && opcode != MIDDLE_RESPONSE;
    size_t rest = BTH + (has_reth(opcode) ? RETH : 0) + (immediate ? IMM : 0) + (acknowledges ? AETH : 0) + ICRC +
                  (it->bytes[1] >> 4 & 3);
    return it->count > rest ? (uint32_t)(it->count - rest) : 0;
}

/*
 * Bytes of a SEND or WRITE that was taken come out, packet by packet: the program's memory has all that the device has, before
 * anything of it goes in again for a READ or a request that is posted.
 */
static void land(const struct arrival *it)
{
    struct pair *pair = it->pair;
    uint32_t length = payload_of(it);
    if (it->opcode <= SEND_ONLY_IMM) {
        const struct receive *receive = &pair->receives[pair->rq.first % pair->rq.room];
        if (it->opcode == SEND_FIRST || it->opcode == SEND_ONLY || it->opcode == SEND_ONLY_IMM)
            pair->received = 0;
        if (receive->memory && length <= receive->length - pair->received)
            copy_out(receive->memory, receive->local + pair->received, length);
        pair->received += length;
    } else if (it->opcode <= WRITE_ONLY_IMM) {
        if (has_reth(it->opcode)) {
            pair->landing = memory_remote((uint32_t)number_at(it->bytes + BTH + 8, 4));
            pair->landing_at = number_at(it->bytes + BTH, 8);
        }
        if (pair->landing && is_in(pair->landing, pair->landing_at, length))
            copy_out(pair->landing, pair->landing_at, length);
        pair->landing_at += length;
    }
}

/* Bytes of a response that was taken come out. Responses are taken in order, so they are of the oldest READ that lacks some. */
static void land_response(const struct arrival *it)
{
    struct pair *pair = it->pair;
    uint32_t length = payload_of(it);
    if (it->opcode > ONLY_RESPONSE)
        return; /* that of an atomic, whose word comes out when it is finished */
    for (uint64_t i = pair->sq.first; i < pair->sq.given; i++) {
        struct work *work = &pair->sends[i % pair->sq.room];
        uint32_t rest = work->request.length - work->landed;
        if (work->request.kind != JICHURPA_READ || rest == 0)
            continue;
        if (length <= rest)
            copy_out(work->memory, work->request.local + work->landed, length);
        work->landed += length <= rest ? length : rest;
        return;
    }
}

/* What the device did with a datagram, for the program's memory. */
static void follow(const struct arrival *it, const jichurpa_outcome *out)
{
    if (out->answer != JICHURPA_TOOK || it->pair->leaving)
        return; /* memory of a queue pair that is destroyed may be gone */
    switch (out->cause) {
    case JICHURPA_TOOK_ACTED:
    case JICHURPA_TOOK_ACK:
        land(it);
        break;
    case JICHURPA_TOOK_LANDED:
        land_response(it);
        break;
    case JICHURPA_TOOK_OLD:
        if (it->memory)
            word_out(it->memory, it->at, it->held);
        break;
    case JICHURPA_TOOK_SEQ_NAK:
    case JICHURPA_TOOK_DUP_ACK:
    case JICHURPA_TOOK_REWOUND:
        it->pair->lost = true;
        break;
    default:
        break;
    }
}

/* A datagram for the device that is here. */
static void arrive(const jichurpa_address *from, uint8_t *bytes, size_t count)
{
    struct arrival it = arrival_of(bytes, count);
    struct pair *pair = it.pair;
    jichurpa_outcome out;
    if (pair && !pair->connected && pair->attr.qp_state == IBV_QPS_RTR)
        pair_connect(pair, true);
    if (pair) {
        if (pair->shift && it.opcode >= FIRST_RESPONSE && it.opcode <= LAST_RESPONSE) {
            uint32_t psn = htobe32(((uint32_t)number_at(bytes + 9, 3) - pair->shift) << 8);
            memcpy(bytes + 9, &psn, 3);
        }
        check_access(&it);
        bring(&it);
    }
    if (jichurpa_arrive(&node.here.device, from, bytes, count, &out) != JICHURPA_OK)
        return;
    send_all(&node.here, NULL);
    if (!pair)
        return;
    follow(&it, &out);
    drain((struct queue *)pair->ex.qp_base.send_cq);
    if (pair->ex.qp_base.recv_cq != pair->ex.qp_base.send_cq)
        drain((struct queue *)pair->ex.qp_base.recv_cq);
    pump(pair);
    if (pair->failing)
        pair_fail(pair); /* before anything else can act */
    feed_starved();
}

/* A datagram for the device that was left: its husks tell partners to wait. */
static void arrive_at_husk(const jichurpa_address *from, const uint8_t *bytes, size_t count)
{
    jichurpa_outcome out;
    flush(&node.here);
    if (jichurpa_arrive(&node.left.device, from, bytes, count, &out) == JICHURPA_OK)
        send_all(&node.left, NULL);
    flush(&node.left);
}

/* Takes datagrams that came, up to a batch. Answers whether there may be more. */
static bool take_batch(const struct link *link)
{
    static uint8_t bytes[BATCH][ROOM + 1];
    static struct sockaddr_in from[BATCH];
    struct iovec pieces[BATCH];
    struct mmsghdr messages[BATCH];
    for (unsigned i = 0; i < BATCH; i++) {
        pieces[i] = (struct iovec){bytes[i], ROOM + 1};
        messages[i] = (struct mmsghdr){
            .msg_hdr = {.msg_name = &from[i], .msg_namelen = sizeof from[i], .msg_iov = &pieces[i], .msg_iovlen = 1}};
    }
    int count = recvmmsg(link->socket, messages, BATCH, MSG_DONTWAIT, NULL);
    for (int i = 0; i < count; i++) {
        jichurpa_address at = {.ip = be32toh(from[i].sin_addr.s_addr), .port = be16toh(from[i].sin_port)};
        if (messages[i].msg_len > ROOM)
            continue; /* longer than any */
        if (link == &node.left)
            arrive_at_husk(&at, bytes[i], messages[i].msg_len);
        else
            arrive(&at, bytes[i], messages[i].msg_len);
    }
    if (count > 0)
        busy_until = now() + BUSY;
    return count == BATCH;
}

/*
 * A program that polls and finds nothing takes what has come, so that nothing waits for the thread to be scheduled. Where it does so
 * again and again, the thread leaves the socket to it for a while.
 */
void progress(void)
{
    static unsigned idle;
    if (pthread_mutex_trylock(&node.lock) != 0)
        return;
    int64_t before = busy_until;
    if (node.left.socket >= 0)
        take_batch(&node.left);
    take_batch(&node.here);
    idle = busy_until != before ? 0 : idle + 1;
    bool patient = idle < PATIENCE;
    int64_t time = now();
    if (idle >= POLLS && time >= watched_until)
        polled_until = time + POLLED;
    node_leave();
    if (!patient)
        sched_yield();
}

/* ---- the thread ---- */

static void sleep_until(int64_t due, struct pollfd *fds, nfds_t count)
{
    int64_t rest = due == NO_TIME ? 0 : due - now();
    struct timespec time = {.tv_sec = rest > 0 ? rest / 1000000000 : 0, .tv_nsec = rest > 0 ? rest % 1000000000 : 0};
    ppoll(fds, count, due == NO_TIME ? NULL : &time, NULL);
    atomic_store(&node.asleep_until, 0);
}

/*
 * What has come is taken before a timer expires: it may be what the timer waits for, where the thread had no processor for a while. It
 * is so much and no more, so that a partner that sends without end does not keep timers from expiring.
 */
static void take_before_timers(void)
{
    int64_t time = now(), before = 0;
    bool due = false;
    for (const struct pair *pair = node.pairs; pair && !due; pair = pair->next)
        due = earlier(pair->timers.rnr, pair->timers.retransmission) <= time;
    for (int i = 0; due && i < TURNS && busy_until != before; i++) {
        before = busy_until;
        take_batch(&node.here);
        flush(&node.here);
    }
}

/* Where a program polled, and does so no more, what came meanwhile is taken, and the thread watches the socket for a while. */
static void take_over(void)
{
    int64_t before = busy_until, time = now();
    if (time < polled_until)
        return;
    take_batch(&node.here);
    if (busy_until != before)
        watched_until = time + WATCHED;
}

void *serve(void *unused)
{
    uint64_t woken;
    (void)unused;
    for (;;) {
        pthread_mutex_lock(&node.lock);
        take_before_timers();
        fail_late();
        move_go_on();
        int64_t due = run_timers();
        bool polled = now() < polled_until;
        due = polled ? earlier(due, polled_until + MILLISECOND / 10) : due;
        struct pollfd fds[] = {{.fd = polled ? -1 : node.here.socket, .events = POLLIN},
                               {.fd = node.left.socket, .events = POLLIN},
                               {.fd = node.wake, .events = POLLIN},
                               {.fd = node.control, .events = POLLIN}};
        atomic_store(&node.asleep_until, due);
        node_leave();
        sleep_until(due, fds, sizeof fds / sizeof *fds);
        pthread_mutex_lock(&node.lock);
        if (fds[2].revents && read(node.wake, &woken, sizeof woken) < 0)
            woken = 0; /* it was woken only once */
        if (fds[3].revents)
            control_serve();
        for (int i = 0; i < TURNS && node.left.socket >= 0 && fds[1].revents && take_batch(&node.left); i++)
            ;
        if (polled)
            take_over();
        for (int i = 0; i < TURNS && fds[0].revents && take_batch(&node.here); i++)
            ;
        node_leave();
    }
    return NULL;
}
