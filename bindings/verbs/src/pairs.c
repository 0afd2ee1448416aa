/* Queue pairs: made, taken from state to state, told of and destroyed. */
#include "node.h"
#include <endian.h>
#include <errno.h>
#include <stdlib.h>
#include <string.h>
#include <time.h>

#define LEAST_TIMEOUT (20 * MILLISECOND)    /* a smaller timeout counts as this */
#define DEFAULT_TIMEOUT (100 * MILLISECOND) /* where the program asks for none */
#define LONGEST_LINGER (1000 * MILLISECOND)
#define PSN_MASK JICHURPA_MAX_PSN

/* ---- making ---- */

static int check_caps(const struct ibv_qp_init_attr *init)
{
    const struct ibv_qp_cap *cap = &init->cap;
    if (init->qp_type != IBV_QPT_RC || init->srq)
        return EOPNOTSUPP;
    if (!init->send_cq || !init->recv_cq || cap->max_send_wr > MOST_WORK || cap->max_recv_wr > MOST_WORK)
        return EINVAL;
    return cap->max_send_sge > 1 || cap->max_recv_sge > 1 || cap->max_inline_data > MOST_INLINE ? EINVAL : 0;
}

static unsigned least(unsigned a, unsigned b)
{
    return a < b ? a : b;
}

static struct positions positions(unsigned wanted)
{
    unsigned room = wanted ? wanted : 1;
    return (struct positions){.room = room, .depth = least(room, JICHURPA_MAX_DEPTH)};
}

static void pair_free(struct pair *pair)
{
    free(pair->sends);
    free(pair->inlined);
    free(pair->receives);
    extended_free(pair->extended);
    free(pair);
}

static struct pair *pair_alloc(const struct ibv_qp_init_attr *init)
{
    struct pair *pair = calloc(1, sizeof *pair);
    if (!pair)
        return NULL;
    pair->sq = positions(init->cap.max_send_wr);
    pair->rq = positions(init->cap.max_recv_wr);
    pair->sends = calloc(pair->sq.room, sizeof *pair->sends);
    pair->receives = calloc(pair->rq.room, sizeof *pair->receives);
    pair->inlined = malloc((size_t)pair->sq.room * init->cap.max_inline_data + 1);
    if (pair->sends && pair->receives && pair->inlined)
        return pair;
    pair_free(pair);
    return NULL;
}

/* The device's queue pair, with node.lock held. */
static int pair_name(struct pair *pair, struct domain *domain)
{
    const struct queue *send_cq = (struct queue *)pair->init.send_cq, *recv_cq = (struct queue *)pair->init.recv_cq;
    jichurpa_qp_options options = {domain->name.name, send_cq->name.name, recv_cq->name.name, pair->sq.depth, pair->rq.depth};
    jichurpa_outcome out;
    pair->name = next_name(context_of(domain->ibv.context), 'q');
    int error = refused(jichurpa_make_qp(&node.here.device, &pair->name, &options, &out), &out);
    if (error == 0)
        pair->ex.qp_base.qp_num = out.number;
    return error;
}

static void pair_list(struct pair *pair)
{
    struct pair **at = &node.by_number[pair->ex.qp_base.qp_num % BUCKETS];
    pair->next_number = *at;
    *at = pair;
    pair->next = node.pairs;
    node.pairs = pair;
}

static void pair_unlist(struct pair *pair)
{
    struct pair **at = &node.by_number[pair->ex.qp_base.qp_num % BUCKETS];
    while (*at != pair)
        at = &(*at)->next_number;
    *at = pair->next_number;
    at = &node.pairs;
    while (*at != pair)
        at = &(*at)->next;
    *at = pair->next;
}

struct ibv_qp *pair_make(struct ibv_pd *pd, struct ibv_qp_init_attr *init, int *error)
{
    struct domain *domain = (struct domain *)pd;
    *error = check_caps(init);
    struct pair *pair = *error == 0 ? pair_alloc(init) : NULL;
    if (!pair) {
        *error = *error ? *error : ENOMEM;
        return NULL;
    }
    pair->init = *init;
    pair->attr.cap = init->cap;
    pair->timers = (struct timers){.retransmission = NO_TIME, .rnr = NO_TIME};
    pair->ex.qp_base = (struct ibv_qp){.context = pd->context,
                                       .qp_context = init->qp_context,
                                       .pd = pd,
                                       .send_cq = init->send_cq,
                                       .recv_cq = init->recv_cq,
                                       .state = IBV_QPS_RESET,
                                       .qp_type = init->qp_type};
    pthread_mutex_init(&pair->ex.qp_base.mutex, NULL);
    pthread_cond_init(&pair->ex.qp_base.cond, NULL);
    *error = node_enter() ? pair_name(pair, domain) : ENODEV;
    if (*error == 0) {
        pair_list(pair);
        domain->users += 1;
        ((struct queue *)init->send_cq)->users += 1;
        ((struct queue *)init->recv_cq)->users += 1;
    }
    if (*error != ENODEV)
        node_leave();
    if (*error == 0)
        return &pair->ex.qp_base;
    pair_free(pair);
    return NULL;
}

struct ibv_qp *ibv_create_qp(struct ibv_pd *pd, struct ibv_qp_init_attr *init)
{
    int error;
    struct ibv_qp *made = pair_make(pd, init, &error);
    if (!made)
        errno = error;
    return made;
}

/* ---- connecting ---- */

/* The partner of a global address: an IPv4 address that is mapped to IPv6. Its port is that of this device. */
static bool partner_of(const struct pair *pair, jichurpa_address *partner)
{
    static const uint8_t mapped[12] = {[10] = 0xff, [11] = 0xff};
    const struct ibv_ah_attr *ah = &pair->attr.ah_attr;
    uint32_t ip;
    if (!ah->is_global || memcmp(ah->grh.dgid.raw, mapped, sizeof mapped) != 0)
        return false;
    memcpy(&ip, ah->grh.dgid.raw + 12, sizeof ip);
    *partner = (jichurpa_address){.ip = be32toh(ip), .port = node.here.address.port};
    return true;
}

/*
 * Connects the device's queue pair. `passive`: something arrived for it before the program took it to RTS. What RTS would say is not
 * known then: its own packet sequence numbers begin at 0, and are shifted when the program says what it told its partner.
 */
int pair_connect(struct pair *pair, bool passive)
{
    const struct ibv_qp_attr *attr = &pair->attr;
    jichurpa_address partner;
    jichurpa_outcome out;
    unsigned reads = passive ? attr->max_dest_rd_atomic : attr->max_rd_atomic;
    jichurpa_terms terms = {.mtu = 128u << attr->path_mtu,
                            .own_start = passive ? 0 : attr->sq_psn & PSN_MASK,
                            .peer_start = attr->rq_psn & PSN_MASK,
                            .retry = passive ? 7 : attr->retry_cnt,
                            .rnr = passive ? 7 : attr->rnr_retry,
                            .reads = (uint8_t)(reads < 1 ? 1 : least(reads, MOST_READS))};
    if (!partner_of(pair, &partner))
        return EINVAL;
    int error = refused(
        jichurpa_connect(&node.here.device, &pair->name, attr->dest_qp_num & JICHURPA_MAX_QP_NUMBER, &partner, &terms, &out),
        &out);
    pair->connected = error == 0;
    return error;
}

/* A queue pair that never had a partner gets one that nobody is, so that it can be put in Error. */
static void connect_to_nobody(struct pair *pair)
{
    const jichurpa_terms terms = {.mtu = 1024, .retry = 0, .rnr = 0, .reads = 1};
    jichurpa_outcome out;
    pair->attr.rq_psn = 0;
    pair->connected = jichurpa_connect(&node.here.device, &pair->name, 0, &node.here.address, &terms, &out) == JICHURPA_OK;
}

/*
 * Puts a queue pair in Error. The device does that by itself alone, so it is handed a request of the partner's that no device may
 * follow: an atomic on an address that is not aligned. Its answer is not sent. All work is flushed, in order.
 */
void pair_fail(struct pair *pair)
{
    uint8_t bytes[44] = {0x14, 0, 0xff, 0xff, [19] = 1};
    uint64_t expected = 0, top = 0;
    jichurpa_outcome out;
    uint32_t number = pair->ex.qp_base.qp_num;
    if (!pair->connected)
        connect_to_nobody(pair);
    if (jichurpa_end_named(&node.here.device, &pair->name, &pair->end) != JICHURPA_OK || pair->end.state == JICHURPA_ERROR)
        return;
    pair->failing = pair->end.state == JICHURPA_PAUSED; /* such a queue pair takes no request; it is tried again */
    if (pair->failing || jichurpa_marks(&node.here.device, number, &expected, &top) != JICHURPA_OK)
        return;
    uint32_t psn = htobe32((uint32_t)(pair->attr.rq_psn + expected) & PSN_MASK);
    memcpy(bytes + 4, &(uint32_t){htobe32(number)}, 4);
    memcpy(bytes + 8, &psn, 4);
    jichurpa_arrive(&node.here.device, &node.here.address, bytes, sizeof bytes, &out);
    observe(pair);
    feed(pair);
}

/* ---- from state to state ---- */

#define TO_INIT (IBV_QP_PKEY_INDEX | IBV_QP_PORT | IBV_QP_ACCESS_FLAGS)
#define TO_RTR                                                                                                                 \
    (IBV_QP_AV | IBV_QP_PATH_MTU | IBV_QP_DEST_QPN | IBV_QP_RQ_PSN | IBV_QP_MAX_DEST_RD_ATOMIC | IBV_QP_MIN_RNR_TIMER)
#define TO_RTS (IBV_QP_SQ_PSN | IBV_QP_MAX_QP_RD_ATOMIC | IBV_QP_RETRY_CNT | IBV_QP_RNR_RETRY | IBV_QP_TIMEOUT)

/* Whether a queue pair may go from a state to another one, and has what that needs. */
static int check_change(const struct pair *pair, enum ibv_qp_state to, int mask)
{
    enum ibv_qp_state from = pair->attr.qp_state;
    bool fresh = !pair->connected && pair->rq.last == 0;
    if (mask & (IBV_QP_ALT_PATH | IBV_QP_PATH_MIG_STATE | IBV_QP_QKEY | IBV_QP_CAP | IBV_QP_RATE_LIMIT))
        return EOPNOTSUPP;
    switch (to) {
    case IBV_QPS_RESET:
        return fresh ? 0 : EOPNOTSUPP; /* a number that was connected is not connected anew */
    case IBV_QPS_INIT:
        return from == IBV_QPS_INIT || (from == IBV_QPS_RESET && (mask & TO_INIT) == TO_INIT) ? 0 : EINVAL;
    case IBV_QPS_RTR:
        return from == IBV_QPS_INIT && (mask & TO_RTR) == TO_RTR ? 0 : EINVAL;
    case IBV_QPS_RTS:
        return from == IBV_QPS_RTS || (from == IBV_QPS_RTR && (mask & TO_RTS) == TO_RTS) ? 0 : EINVAL;
    case IBV_QPS_ERR:
        return 0;
    default:
        return EOPNOTSUPP;
    }
}

static int check_values(const struct ibv_qp_attr *attr, int mask)
{
    if ((mask & IBV_QP_PORT && attr->port_num != PORT_NUMBER) || (mask & IBV_QP_PKEY_INDEX && attr->pkey_index != 0) ||
        (mask & IBV_QP_PATH_MTU && (attr->path_mtu < IBV_MTU_256 || attr->path_mtu > IBV_MTU_4096)) ||
        (mask & IBV_QP_RETRY_CNT && attr->retry_cnt > 7) || (mask & IBV_QP_RNR_RETRY && attr->rnr_retry > 7) ||
        (mask & IBV_QP_TIMEOUT && attr->timeout > 31) || (mask & IBV_QP_MIN_RNR_TIMER && attr->min_rnr_timer > 31) ||
        (mask & IBV_QP_MAX_QP_RD_ATOMIC && attr->max_rd_atomic > MOST_READS))
        return EINVAL;
    return 0;
}

static void take(struct ibv_qp_attr *to, const struct ibv_qp_attr *from, int mask)
{
#define TAKE(bit, field)                                                                                                       \
    if (mask & (bit))                                                                                                          \
    to->field = from->field
    TAKE(IBV_QP_ACCESS_FLAGS, qp_access_flags);
    TAKE(IBV_QP_PKEY_INDEX, pkey_index);
    TAKE(IBV_QP_PORT, port_num);
    TAKE(IBV_QP_AV, ah_attr);
    TAKE(IBV_QP_PATH_MTU, path_mtu);
    TAKE(IBV_QP_TIMEOUT, timeout);
    TAKE(IBV_QP_RETRY_CNT, retry_cnt);
    TAKE(IBV_QP_RNR_RETRY, rnr_retry);
    TAKE(IBV_QP_RQ_PSN, rq_psn);
    TAKE(IBV_QP_MAX_QP_RD_ATOMIC, max_rd_atomic);
    TAKE(IBV_QP_MIN_RNR_TIMER, min_rnr_timer);
    TAKE(IBV_QP_SQ_PSN, sq_psn);
    TAKE(IBV_QP_MAX_DEST_RD_ATOMIC, max_dest_rd_atomic);
    TAKE(IBV_QP_DEST_QPN, dest_qp_num);
#undef TAKE
}

/* What the device has to do for a new state. */
static int enter_state(struct pair *pair, enum ibv_qp_state to)
{
    jichurpa_address partner;
    if (to == IBV_QPS_RTR)
        return partner_of(pair, &partner) ? 0 : EINVAL;
    if (to == IBV_QPS_ERR)
        pair_fail(pair);
    if (to != IBV_QPS_RTS || pair->attr.qp_state == IBV_QPS_RTS)
        return 0;
    if (!pair->connected)
        return pair_connect(pair, false);
    pair->shift = pair->attr.sq_psn & PSN_MASK;
    return 0;
}

static int modify(struct pair *pair, const struct ibv_qp_attr *attr, int mask)
{
    enum ibv_qp_state to = mask & IBV_QP_STATE ? attr->qp_state : pair->attr.qp_state;
    struct ibv_qp_attr before = pair->attr;
    int error = check_change(pair, to, mask);
    if (error == 0)
        error = check_values(attr, mask);
    if (error != 0)
        return error;
    take(&pair->attr, attr, mask);
    error = enter_state(pair, to);
    if (error != 0) {
        pair->attr = before;
        return error;
    }
    pair->attr.qp_state = pair->attr.cur_qp_state = pair->ex.qp_base.state = to;
    if (to == IBV_QPS_RTS)
        pump(pair);
    return 0;
}

int ibv_modify_qp(struct ibv_qp *qp, struct ibv_qp_attr *attr, int attr_mask)
{
    if (!node_enter())
        return ENODEV;
    int error = modify((struct pair *)qp, attr, attr_mask);
    node_leave();
    return error;
}

int ibv_query_qp(struct ibv_qp *qp, struct ibv_qp_attr *attr, int attr_mask, struct ibv_qp_init_attr *init_attr)
{
    struct pair *pair = (struct pair *)qp;
    (void)attr_mask;
    if (!node_enter())
        return ENODEV;
    *attr = pair->attr;
    *init_attr = pair->init;
    node_leave();
    return 0;
}

/* The time that a sender waits where its partner has no receive; 0 stands for 655.36 milliseconds (IBA). */
int64_t rnr_wait_of(const struct pair *pair)
{
    static const int hundredths[32] = {65536, 1,    2,    3,    4,    6,     8,     12,    16,    24,   32,
                                       48,    64,   96,   128,  192,  256,   384,   512,   768,   1024, 1536,
                                       2048,  3072, 4096, 6144, 8192, 12288, 16384, 24576, 32768, 49152};
    int64_t wait = hundredths[pair->attr.min_rnr_timer & 31] * (MILLISECOND / 100);
    return wait < MILLISECOND ? MILLISECOND : wait;
}

/* Where something was lost, the partner may still lack an acknowledgement: it is answered for a while before the end. */
static void linger(const struct pair *pair)
{
    const struct timespec step = {.tv_nsec = 10 * MILLISECOND};
    int64_t base = 4 * timeout_of(pair), end = now() + (base < LONGEST_LINGER ? base : LONGEST_LINGER);
    bool owes = true;
    while (owes && now() < end && node_enter()) {
        owes = pair->lost && pair->attr.qp_state == IBV_QPS_RTS;
        node_leave();
        if (owes)
            nanosleep(&step, NULL);
    }
}

/* The base of its retransmission timer: 4.096 microseconds, doubled as often as the program says. */
int64_t timeout_of(const struct pair *pair)
{
    unsigned timeout = pair->attr.timeout;
    int64_t base = timeout ? (int64_t)4096 << timeout : DEFAULT_TIMEOUT;
    return base < LEAST_TIMEOUT ? LEAST_TIMEOUT : base;
}

/* Queue pairs that were to be put in Error while their partner moved. */
void fail_late(void)
{
    struct pair *next;
    for (struct pair *pair = node.pairs; pair; pair = next) {
        next = pair->next;
        if (pair->failing)
            pair_fail(pair);
        if (pair->leaving && !pair->failing) {
            pair_unlist(pair);
            pair_free(pair);
        }
    }
}

/* The queue pairs of a context that goes. */
void pairs_drop(struct context *context)
{
    struct pair *next;
    for (struct pair *pair = node.pairs; pair; pair = next) {
        next = pair->next;
        if (pair->ex.qp_base.context == &context->verbs.context)
            pair_unlist(pair);
    }
}

int ibv_destroy_qp(struct ibv_qp *qp)
{
    struct pair *pair = (struct pair *)qp;
    struct queue *send_cq = (struct queue *)qp->send_cq, *recv_cq = (struct queue *)qp->recv_cq;
    if (node.forked)
        return ENODEV;
    linger(pair);
    node_enter();
    pair->leaving = true;
    pair_fail(pair);
    forget_entries(send_cq, pair);
    forget_entries(recv_cq, pair);
    ((struct domain *)qp->pd)->users -= 1;
    send_cq->users -= 1;
    recv_cq->users -= 1;
    fail_late();
    node_leave();
    return 0;
}
