/* Requests and receives, from the program to the device. */
#include "node.h"
#include <arpa/inet.h>
#include <errno.h>
#include <string.h>

#define STAGING_BASE 4096 /* the address of a region of the layer's own; no request of a program names it */

/* ---- requests ---- */

struct shape {
    uint32_t kind;
    uint32_t flags;
};

/* The kind of a request of the device; 0 where the device has none. */
static struct shape shape_of(enum ibv_wr_opcode opcode)
{
    switch (opcode) {
    case IBV_WR_RDMA_WRITE:
        return (struct shape){JICHURPA_WRITE, 0};
    case IBV_WR_RDMA_WRITE_WITH_IMM:
        return (struct shape){JICHURPA_WRITE, JICHURPA_HAS_IMM};
    case IBV_WR_SEND:
        return (struct shape){JICHURPA_SEND, 0};
    case IBV_WR_SEND_WITH_IMM:
        return (struct shape){JICHURPA_SEND, JICHURPA_HAS_IMM};
    case IBV_WR_RDMA_READ:
        return (struct shape){JICHURPA_READ, 0};
    case IBV_WR_ATOMIC_CMP_AND_SWP:
        return (struct shape){JICHURPA_COMPARE_SWAP, 0};
    case IBV_WR_ATOMIC_FETCH_AND_ADD:
        return (struct shape){JICHURPA_FETCH_ADD, 0};
    default:
        return (struct shape){0, 0};
    }
}

static bool is_atomic(uint32_t kind)
{
    return kind == JICHURPA_COMPARE_SWAP || kind == JICHURPA_FETCH_ADD;
}

/* Where the request goes at the partner. */
static void aim(jichurpa_request *request, const struct ibv_send_wr *wr)
{
    if (is_atomic(request->kind)) {
        bool swaps = request->kind == JICHURPA_COMPARE_SWAP;
        request->remote = wr->wr.atomic.remote_addr;
        request->remote_key = wr->wr.atomic.rkey;
        request->compare = swaps ? wr->wr.atomic.compare_add : 0;
        request->swap_add = swaps ? wr->wr.atomic.swap : wr->wr.atomic.compare_add;
    } else if (request->kind != JICHURPA_SEND) {
        request->remote = wr->wr.rdma.remote_addr;
        request->remote_key = wr->wr.rdma.rkey;
    }
}

/* The region of a piece of the program's memory; null where it is not granted. `lands`: bytes are to land there. */
static struct memory *memory_of(const struct pair *pair, const struct ibv_sge *sge, bool lands)
{
    struct memory *memory = memory_local(sge->lkey);
    bool granted = memory && memory->ibv.pd == pair->ex.qp_base.pd && is_in(memory, sge->addr, sge->length);
    if (!granted || (lands && !memory->writable))
        return NULL;
    memory->waiting += 1;
    return memory;
}

/* The bytes of the program's memory that a request names. */
static int locate(struct work *work, const struct pair *pair, const struct ibv_send_wr *wr)
{
    const struct ibv_sge *sge = wr->num_sge == 1 ? wr->sg_list : NULL;
    jichurpa_request *request = &work->request;
    request->length = sge ? sge->length : 0;
    if (request->length > JICHURPA_MAX_MESSAGE || (is_atomic(request->kind) && request->length != 8))
        return EINVAL;
    if (work->is_inline) {
        if (request->length > pair->init.cap.max_inline_data ||
            (request->kind != JICHURPA_SEND && request->kind != JICHURPA_WRITE))
            return EINVAL;
        if (request->length > 0)
            memcpy(pair->inlined + (pair->sq.last % pair->sq.room) * pair->init.cap.max_inline_data,
                   (const void *)(uintptr_t)sge->addr, request->length);
        return 0;
    }
    if (request->length == 0)
        return 0;
    bool lands = request->kind == JICHURPA_READ || is_atomic(request->kind);
    work->memory = memory_of(pair, sge, lands);
    request->local = sge->addr;
    request->local_key = sge->lkey;
    return work->memory ? 0 : EINVAL;
}

/* One request into the send queue of the layer. */
static int take_send(struct pair *pair, const struct ibv_send_wr *wr)
{
    struct shape shape = shape_of(wr->opcode);
    struct work *work = &pair->sends[pair->sq.last % pair->sq.room];
    if (shape.kind == 0)
        return EOPNOTSUPP;
    if (wr->num_sge < 0 || wr->num_sge > 1)
        return EINVAL;
    if (pair->sq.last - pair->sq.first == pair->sq.room)
        return ENOMEM;
    *work = (struct work){.id = wr->wr_id,
                          .signaled = pair->init.sq_sig_all || (wr->send_flags & IBV_SEND_SIGNALED),
                          .is_inline = wr->send_flags & IBV_SEND_INLINE,
                          .request = {.id = pair->sq.last, .kind = shape.kind, .flags = shape.flags | JICHURPA_SIGNALED}};
    if (wr->send_flags & IBV_SEND_FENCE)
        work->request.flags |= JICHURPA_FENCE;
    if (shape.flags & JICHURPA_HAS_IMM)
        work->request.imm = ntohl(wr->imm_data);
    aim(&work->request, wr);
    int error = locate(work, pair, wr);
    if (error == 0)
        pair->sq.last += 1;
    return error;
}

/* A list into the send queue, up to the first that is refused, which `bad` is then. */
static int take_list(struct pair *pair, struct ibv_send_wr *wr, struct ibv_send_wr **bad)
{
    int error = pair->attr.qp_state == IBV_QPS_RTS || pair->attr.qp_state == IBV_QPS_ERR ? 0 : EINVAL;
    for (; error == 0 && wr; wr = error == 0 ? wr->next : wr)
        error = take_send(pair, wr);
    if (error != 0)
        *bad = wr;
    return error;
}

int post_send(struct ibv_qp *ibv, struct ibv_send_wr *wr, struct ibv_send_wr **bad)
{
    struct pair *pair = (struct pair *)ibv;
    if (!node_enter()) {
        *bad = wr;
        return ENODEV;
    }
    int error = take_list(pair, wr, bad);
    pump(pair);
    node_leave();
    return error;
}

int post_all(struct pair *pair, struct ibv_send_wr *first)
{
    struct ibv_send_wr *bad;
    if (!node_enter())
        return ENODEV;
    uint64_t before = pair->sq.last;
    int error = take_list(pair, first, &bad);
    for (; error != 0 && pair->sq.last > before; pair->sq.last--) {
        struct work *work = &pair->sends[(pair->sq.last - 1) % pair->sq.room];
        if (work->memory)
            work->memory->waiting -= 1;
    }
    pump(pair);
    node_leave();
    return error;
}

/* ---- receives ---- */

static int take_receive(struct pair *pair, const struct ibv_recv_wr *wr)
{
    struct receive *receive = &pair->receives[pair->rq.last % pair->rq.room];
    if (wr->num_sge < 0 || wr->num_sge > 1)
        return EINVAL;
    if (pair->rq.last - pair->rq.first == pair->rq.room)
        return ENOMEM;
    *receive = (struct receive){.id = wr->wr_id};
    if (wr->num_sge == 1 && wr->sg_list->length > 0) {
        receive->memory = memory_of(pair, wr->sg_list, true);
        receive->local = wr->sg_list->addr;
        receive->length = wr->sg_list->length;
        if (!receive->memory)
            return EINVAL;
    }
    pair->rq.last += 1;
    return 0;
}

int post_recv(struct ibv_qp *ibv, struct ibv_recv_wr *wr, struct ibv_recv_wr **bad)
{
    struct pair *pair = (struct pair *)ibv;
    int error = node_enter() ? 0 : ENODEV;
    if (error != 0) {
        *bad = wr;
        return error;
    }
    if (pair->attr.qp_state == IBV_QPS_RESET)
        error = EINVAL;
    for (; error == 0 && wr; wr = wr->next) {
        error = take_receive(pair, wr);
        if (error != 0)
            break;
    }
    if (error != 0)
        *bad = wr;
    feed(pair);
    node_leave();
    return error;
}

/* ---- what the device takes ---- */

/* A region of the layer's own, into which inline bytes are put before the device takes them. */
static struct memory *staging(struct domain *domain)
{
    int error;
    if (!domain->staging)
        domain->staging = memory_make(domain, NULL, MOST_INLINE, STAGING_BASE, 0, &error);
    return domain->staging;
}

/* The bytes of a request as the device takes them. */
static bool bring(struct pair *pair, struct work *work)
{
    jichurpa_request *request = &work->request;
    if (request->length == 0 && request->kind != JICHURPA_READ)
        return true;
    if (!work->is_inline)
        return (request->kind != JICHURPA_SEND && request->kind != JICHURPA_WRITE) ||
               copy_in(work->memory, request->local, request->length);
    struct memory *place = staging((struct domain *)pair->ex.qp_base.pd);
    if (!place)
        return false;
    const uint8_t *bytes = pair->inlined + (request->id % pair->sq.room) * pair->init.cap.max_inline_data;
    jichurpa_outcome out;
    request->local = place->base;
    request->local_key = place->ibv.lkey;
    return refused(jichurpa_store(&node.here.device, &place->name, place->base, bytes, request->length, &out), &out) == 0;
}

/* Whether a READ may go now: the socket has room for what is in flight. One READ always may. */
static bool may_read(const struct work *work)
{
    return work->request.kind != JICHURPA_READ || node.reading == 0 || node.reading + work->request.length <= node.read_room;
}

/* Whether the device took what was given to it. What it never takes, as a place that is not granted, ends the queue pair. */
static bool is_taken(struct pair *pair, jichurpa_result result, const jichurpa_outcome *out)
{
    int error = refused(result, out);
    if (error != 0 && error != ENOMEM)
        pair_fail(pair);
    return error == 0;
}

static bool give_send(struct pair *pair)
{
    struct work *work = &pair->sends[pair->sq.given % pair->sq.room];
    jichurpa_outcome out;
    if (!may_read(work) || !bring(pair, work))
        return false;
    if (!is_taken(pair, jichurpa_post_send(&node.here.device, &pair->name, &work->request, &out), &out))
        return false;
    if (work->request.kind == JICHURPA_READ)
        node.reading += work->request.length;
    work->given = true;
    pair->sq.given += 1;
    return true;
}

static bool give_receive(struct pair *pair)
{
    const struct receive *receive = &pair->receives[pair->rq.given % pair->rq.room];
    jichurpa_receive posted = {.id = pair->rq.given, .length = receive->length, .local = receive->local};
    jichurpa_outcome out;
    if (receive->memory)
        posted.local_key = receive->memory->ibv.lkey;
    if (!is_taken(pair, jichurpa_post_recv(&node.here.device, &pair->name, &posted, &out), &out))
        return false;
    pair->rq.given += 1;
    return true;
}

/* What the device does not have yet is flushed here, behind what it flushed. */
static void flush_rest(struct pair *pair)
{
    const uint32_t number = pair->ex.qp_base.qp_num;
    drain((struct queue *)pair->ex.qp_base.send_cq);
    drain((struct queue *)pair->ex.qp_base.recv_cq);
    while (pair->rq.first == pair->rq.given && pair->rq.given < pair->rq.last) {
        pair->rq.given += 1;
        finish(&(jichurpa_completion){.qp = number, .kind = JICHURPA_WC_RECV, .status = JICHURPA_WC_FLUSH});
    }
    while (pair->sq.first == pair->sq.given && pair->sq.given < pair->sq.last) {
        uint32_t kind =
            pair->sends[pair->sq.given % pair->sq.room].request.kind; /* completions of requests have these numbers too */
        pair->sq.given += 1;
        finish(&(jichurpa_completion){.qp = number, .kind = kind, .status = JICHURPA_WC_FLUSH});
    }
}

/* Whether something waits for which the device has a place. */
static bool has_place(const struct positions *queue)
{
    return queue->given < queue->last && queue->given - queue->first < queue->depth;
}

/*
 * Gives the device what was posted, in order, as much as it takes: it has places for 256 requests and 256 receives of a queue pair,
 * and pages for 32 MiB. What it does not take now waits for something to complete.
 */
void feed(struct pair *pair)
{
    if (pair->end.state == JICHURPA_ERROR) {
        pair->starved = false;
        flush_rest(pair);
        return;
    }
    while (has_place(&pair->rq) && give_receive(pair))
        ;
    if (pair->starved && pair->starved_at == node.freed)
        return;
    pair->starved_at = node.freed;
    while (has_place(&pair->sq) && give_send(pair))
        ;
    pair->starved = has_place(&pair->sq);
}
