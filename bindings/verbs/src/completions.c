/* Completion queues and completion channels. */
#include "node.h"
#include <arpa/inet.h>
#include <errno.h>
#include <poll.h>
#include <stdlib.h>
#include <string.h>
#include <sys/eventfd.h>
#include <unistd.h>

#define POLLED 64                        /* completions that are taken out of the device at once */
#define FIRST_ROOM 64                    /* entries of a queue that nobody asked for more of */
#define DEVICE_CQE JICHURPA_MAX_CAPACITY /* of each completion queue in the device, which the layer empties at each step */

/* ---- events ---- */

/* An event for a queue: its channel can be read. */
static void tell(struct queue *queue)
{
    struct channel *channel = (struct channel *)queue->ibv.channel;
    const uint64_t one = 1;
    if (!channel)
        return;
    pthread_mutex_lock(&channel->lock);
    if (queue->events++ == 0) {
        queue->next_event = NULL;
        *(channel->first ? &channel->last->next_event : &channel->first) = queue;
        channel->last = queue;
    }
    pthread_mutex_unlock(&channel->lock);
    while (write(channel->ibv.fd, &one, sizeof one) < 0 && errno == EINTR)
        ;
}

/* The queue of the oldest event, with the lock held; null where there is none. */
static struct queue *take_event(struct channel *channel)
{
    struct queue *queue = channel->first;
    if (!queue)
        return NULL;
    channel->first = queue->next_event;
    queue->next_event = NULL;
    if (--queue->events > 0) {
        *(channel->first ? &channel->last->next_event : &channel->first) = queue;
        channel->last = queue;
    }
    queue->told += 1;
    return queue;
}

/* Events of a queue that is destroyed are not handed out. */
static void forget_events(struct queue *queue)
{
    struct channel *channel = (struct channel *)queue->ibv.channel;
    uint64_t one;
    pthread_mutex_lock(&channel->lock);
    struct queue **at = &channel->first, *before = NULL;
    while (*at && *at != queue) {
        before = *at;
        at = &before->next_event;
    }
    if (*at) {
        *at = queue->next_event;
        if (channel->last == queue)
            channel->last = before;
    }
    for (; queue->events > 0; queue->events--) {
        struct pollfd ready = {.fd = channel->ibv.fd, .events = POLLIN};
        if (poll(&ready, 1, 0) != 1 || read(channel->ibv.fd, &one, sizeof one) < 0)
            break;
    }
    channel->ibv.refcnt -= 1;
    pthread_mutex_unlock(&channel->lock);
}

struct ibv_comp_channel *ibv_create_comp_channel(struct ibv_context *ibv)
{
    struct channel *channel = calloc(1, sizeof *channel);
    if (!channel)
        return NULL;
    channel->ibv.context = ibv;
    channel->ibv.fd = eventfd(0, EFD_SEMAPHORE | EFD_CLOEXEC);
    if (channel->ibv.fd < 0) {
        free(channel);
        return NULL;
    }
    pthread_mutex_init(&channel->lock, NULL);
    return &channel->ibv;
}

int ibv_destroy_comp_channel(struct ibv_comp_channel *ibv)
{
    struct channel *channel = (struct channel *)ibv;
    pthread_mutex_lock(&channel->lock);
    bool used = ibv->refcnt > 0;
    pthread_mutex_unlock(&channel->lock);
    if (used)
        return EBUSY;
    close(ibv->fd);
    pthread_mutex_destroy(&channel->lock);
    free(channel);
    return 0;
}

int ibv_get_cq_event(struct ibv_comp_channel *ibv, struct ibv_cq **cq, void **cq_context)
{
    struct channel *channel = (struct channel *)ibv;
    struct queue *queue = NULL;
    uint64_t one;
    while (!queue) { /* an event that another thread took, or of a queue that is gone, is waited for no more */
        if (read(ibv->fd, &one, sizeof one) < 0)
            return -1;
        pthread_mutex_lock(&channel->lock);
        queue = take_event(channel);
        pthread_mutex_unlock(&channel->lock);
    }
    *cq = &queue->ibv;
    *cq_context = queue->ibv.cq_context;
    return 0;
}

void ibv_ack_cq_events(struct ibv_cq *cq, unsigned int nevents)
{
    pthread_mutex_lock(&cq->mutex);
    cq->comp_events_completed += nevents;
    pthread_cond_signal(&cq->cond);
    pthread_mutex_unlock(&cq->mutex);
}

int req_notify_cq(struct ibv_cq *ibv, int solicited_only)
{
    struct queue *queue = (struct queue *)ibv;
    if (node.forked)
        return ENODEV;
    pthread_mutex_lock(&queue->lock);
    if (queue->armed != ARMED)
        queue->armed = solicited_only ? ARMED_SOLICITED : ARMED;
    pthread_mutex_unlock(&queue->lock);
    return 0;
}

/* ---- what completed ---- */

/* Twice the room, with the lock held. */
static bool grow(struct queue *queue)
{
    unsigned room = queue->room ? queue->room * 2 : FIRST_ROOM;
    struct entry *entries = malloc(room * sizeof *entries);
    unsigned count = atomic_load(&queue->count);
    if (!entries)
        return false;
    for (unsigned i = 0; i < count; i++)
        entries[i] = queue->entries[(queue->first + i) % queue->room];
    free(queue->entries);
    queue->entries = entries;
    queue->room = room;
    queue->first = 0;
    return true;
}

/* A completion is there to be polled. */
void complete(struct queue *queue, const struct pair *pair, const struct ibv_wc *wc, bool solicited)
{
    pthread_mutex_lock(&queue->lock);
    unsigned count = atomic_load(&queue->count);
    bool added = count < queue->room || grow(queue);
    bool due = queue->armed == ARMED || (queue->armed == ARMED_SOLICITED && (solicited || wc->status != IBV_WC_SUCCESS));
    if (added) {
        queue->entries[(queue->first + count) % queue->room] = (struct entry){*wc, pair};
        atomic_store(&queue->count, count + 1);
    }
    if (due)
        queue->armed = UNARMED;
    pthread_mutex_unlock(&queue->lock);
    if (due)
        tell(queue);
}

/* Completions of a queue pair that is destroyed are not polled. */
void forget_entries(struct queue *queue, const struct pair *pair)
{
    pthread_mutex_lock(&queue->lock);
    unsigned count = atomic_load(&queue->count), kept = 0;
    for (unsigned i = 0; i < count; i++) {
        struct entry *entry = &queue->entries[(queue->first + i) % queue->room];
        if (entry->pair != pair)
            queue->entries[(queue->first + kept++) % queue->room] = *entry;
    }
    atomic_store(&queue->count, kept);
    pthread_mutex_unlock(&queue->lock);
}

int poll_cq(struct ibv_cq *ibv, int room, struct ibv_wc *wc)
{
    struct queue *queue = (struct queue *)ibv;
    int taken = 0;
    if (node.forked)
        return -ENODEV;
    if (atomic_load(&queue->count) == 0)
        progress();
    if (atomic_load(&queue->count) == 0)
        return 0;
    pthread_mutex_lock(&queue->lock);
    unsigned count = atomic_load(&queue->count);
    for (; taken < room && count > 0; count--) {
        wc[taken++] = queue->entries[queue->first].wc;
        queue->first = (queue->first + 1) % queue->room;
    }
    atomic_store(&queue->count, count);
    pthread_mutex_unlock(&queue->lock);
    return taken;
}

static const enum ibv_wc_opcode opcodes[] = {
    [JICHURPA_WC_WRITE] = IBV_WC_RDMA_WRITE,
    [JICHURPA_WC_SEND] = IBV_WC_SEND,
    [JICHURPA_WC_READ] = IBV_WC_RDMA_READ,
    [JICHURPA_WC_COMPARE_SWAP] = IBV_WC_COMP_SWAP,
    [JICHURPA_WC_FETCH_ADD] = IBV_WC_FETCH_ADD,
    [JICHURPA_WC_RECV] = IBV_WC_RECV,
    [JICHURPA_WC_RECV_IMM] = IBV_WC_RECV_RDMA_WITH_IMM,
};

/* A request is finished: the old word of an atomic comes out, and it is told where the program asked for that or it failed. */
static void finish_send(struct pair *pair, const jichurpa_completion *done, struct ibv_wc *wc)
{
    struct work *work = &pair->sends[pair->sq.first % pair->sq.room];
    bool good = done->status == JICHURPA_WC_SUCCESS;
    if (good && work->memory && (work->request.kind == JICHURPA_COMPARE_SWAP || work->request.kind == JICHURPA_FETCH_ADD))
        old_word_out(work->memory, work->request.local);
    if (work->request.kind == JICHURPA_READ && work->given)
        node.reading -= work->request.length;
    if (work->memory)
        work->memory->waiting -= 1;
    pair->sq.first += 1;
    node.freed += 1;
    wc->wr_id = work->id;
    wc->byte_len = good ? work->request.length : 0;
    if ((work->signaled || !good) && !pair->leaving)
        complete((struct queue *)pair->ex.qp_base.send_cq, pair, wc, false);
}

/* A receive is used or flushed. Its bytes came out packet by packet. */
static void finish_receive(struct pair *pair, const jichurpa_completion *done, struct ibv_wc *wc)
{
    struct receive *receive = &pair->receives[pair->rq.first % pair->rq.room];
    if (receive->memory)
        receive->memory->waiting -= 1;
    pair->rq.first += 1;
    wc->wr_id = receive->id;
    wc->byte_len = done->length;
    if (done->flags & JICHURPA_HAS_IMM) {
        wc->wc_flags = IBV_WC_WITH_IMM;
        wc->imm_data = htonl(done->imm);
    }
    if (!pair->leaving)
        complete((struct queue *)pair->ex.qp_base.recv_cq, pair, wc, true);
}

/* A request or a receive is finished, by the device or by the layer. */
void finish(const jichurpa_completion *done)
{
    struct pair *pair = pair_numbered(done->qp);
    if (!pair)
        return;
    struct ibv_wc wc = {.status = (enum ibv_wc_status)done->status,
                        .opcode = opcodes[done->kind],
                        .qp_num = done->qp,
                        .src_qp = pair->attr.dest_qp_num};
    if (done->kind == JICHURPA_WC_RECV || done->kind == JICHURPA_WC_RECV_IMM)
        finish_receive(pair, done, &wc);
    else
        finish_send(pair, done, &wc);
}

void drain(struct queue *queue)
{
    jichurpa_completion done[POLLED];
    jichurpa_outcome out = {0};
    do {
        if (refused(jichurpa_poll(&node.here.device, &queue->name, done, POLLED, &out), &out) != 0)
            return;
        for (uint64_t i = 0; i < out.count; i++)
            finish(&done[i]);
    } while (out.count == POLLED);
}

/* ---- completion queues ---- */

/* A completion queue of the device, or one that was given back. */
static struct queue *queue_make(struct context *context, int *error)
{
    struct queue *queue = context->idle;
    jichurpa_outcome out;
    *error = 0;
    if (queue) {
        context->idle = queue->next_idle;
        return queue;
    }
    queue = calloc(1, sizeof *queue);
    if (!queue) {
        *error = ENOMEM;
        return NULL;
    }
    queue->name = next_name(context, 'c');
    *error = refused(jichurpa_make_cq(&node.here.device, &queue->name, DEVICE_CQE, &out), &out);
    if (*error == 0)
        return queue;
    free(queue);
    return NULL;
}

struct ibv_cq *ibv_create_cq(struct ibv_context *ibv, int cqe, void *cq_context, struct ibv_comp_channel *channel,
                             int comp_vector)
{
    struct context *context = context_of(ibv);
    struct queue *queue = NULL;
    int error = cqe < 1 || cqe > MOST_CQE || comp_vector < 0 || comp_vector >= ibv->num_comp_vectors ? EINVAL : ENODEV;
    if (error == ENODEV && node_enter()) {
        queue = queue_make(context, &error);
        node_leave();
    }
    if (!queue) {
        errno = error;
        return NULL;
    }
    queue->ibv = (struct ibv_cq){.context = ibv, .channel = channel, .cq_context = cq_context, .cqe = cqe};
    queue->armed = UNARMED;
    queue->told = queue->events = 0;
    pthread_mutex_init(&queue->lock, NULL);
    pthread_mutex_init(&queue->ibv.mutex, NULL);
    pthread_cond_init(&queue->ibv.cond, NULL);
    if (channel) {
        pthread_mutex_lock(&((struct channel *)channel)->lock);
        channel->refcnt += 1;
        pthread_mutex_unlock(&((struct channel *)channel)->lock);
    }
    return &queue->ibv;
}

int ibv_resize_cq(struct ibv_cq *cq, int cqe)
{
    if (cqe < 1 || cqe > MOST_CQE)
        return EINVAL;
    cq->cqe = cqe; /* the entries of the layer grow as they are needed */
    return 0;
}

int ibv_destroy_cq(struct ibv_cq *cq)
{
    struct queue *queue = (struct queue *)cq;
    struct context *context = context_of(cq->context);
    if (!node_enter())
        return ENODEV;
    bool used = queue->users > 0;
    node_leave();
    if (used)
        return EBUSY;
    if (cq->channel) {
        forget_events(queue);
        pthread_mutex_lock(&cq->mutex);
        while (cq->comp_events_completed != queue->told)
            pthread_cond_wait(&cq->cond, &cq->mutex);
        pthread_mutex_unlock(&cq->mutex);
    }
    node_enter();
    free(queue->entries);
    queue->entries = NULL;
    queue->room = queue->first = 0;
    atomic_store(&queue->count, 0);
    queue->next_idle = context->idle;
    context->idle = queue;
    node_leave();
    return 0;
}
