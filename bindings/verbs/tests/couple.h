/* For verbs.c: two queue pairs of one process, requests, and what is waited for. */
#ifndef COUPLE_H
#define COUPLE_H

#include <arpa/inet.h>
#include <errno.h>
#include <fcntl.h>
#include <infiniband/verbs.h>
#include <poll.h>
#include <stdbool.h>
#include <stdint.h>
#include <stdio.h>
#include <stdlib.h>
#include <string.h>
#include <sys/wait.h>
#include <time.h>
#include <unistd.h>

#define CHECK(fact) ((fact) ? (void)0 : fail(#fact, __LINE__))
#define HALF (2 << 20) /* bytes of the memory of each side */
#define ALL (IBV_ACCESS_LOCAL_WRITE | IBV_ACCESS_REMOTE_WRITE | IBV_ACCESS_REMOTE_READ | IBV_ACCESS_REMOTE_ATOMIC)

static struct ibv_context *context;
static struct ibv_pd *pd;
static struct ibv_comp_channel *channel;
static struct ibv_cq *cq;
static struct ibv_mr *mine, *theirs;
static uint8_t *bytes; /* the first half is one side's, the second the other's */
static union ibv_gid gid;
static const char *current = "open_all"; /* the test that runs */

static void fail(const char *fact, int line)
{
    fprintf(stderr, "verbs.c:%d: %s: %s (errno %d: %s)\n", line, current, fact, errno, strerror(errno));
    exit(1);
}

/* ---- queue pairs ---- */

struct options {
    unsigned access, timeout, retry, rnr, depth;
    enum ibv_mtu mtu;
    uint32_t psn; /* of the first packet of the pair; its partner's is that and 1000 */
};

static const struct options usual = {
    .access = ALL, .timeout = 14, .retry = 7, .rnr = 7, .depth = 64, .mtu = IBV_MTU_1024, .psn = 0xfffff0};

static struct ibv_qp *make(const struct options *options)
{
    struct ibv_qp_init_attr init = {
        .send_cq = cq, .recv_cq = cq, .cap = {options->depth, options->depth, 1, 1, 256}, .qp_type = IBV_QPT_RC};
    struct ibv_qp *qp = ibv_create_qp(pd, &init);
    CHECK(qp != NULL);
    CHECK(qp->state == IBV_QPS_RESET && init.cap.max_inline_data >= 256);
    return qp;
}

static void to_init(struct ibv_qp *qp, const struct options *options)
{
    struct ibv_qp_attr attr = {.qp_state = IBV_QPS_INIT, .port_num = 1, .qp_access_flags = options->access};
    CHECK(ibv_modify_qp(qp, &attr, IBV_QP_STATE | IBV_QP_PKEY_INDEX | IBV_QP_PORT | IBV_QP_ACCESS_FLAGS) == 0);
}

static void to_rtr(struct ibv_qp *qp, uint32_t partner, uint32_t psn, const struct options *options)
{
    struct ibv_qp_attr attr = {.qp_state = IBV_QPS_RTR,
                               .path_mtu = options->mtu,
                               .dest_qp_num = partner,
                               .rq_psn = psn & 0xffffff,
                               .max_dest_rd_atomic = 4,
                               .min_rnr_timer = 12,
                               .ah_attr = {.is_global = 1, .port_num = 1, .grh = {.dgid = gid, .hop_limit = 1}}};
    CHECK(ibv_modify_qp(qp, &attr,
                        IBV_QP_STATE | IBV_QP_AV | IBV_QP_PATH_MTU | IBV_QP_DEST_QPN | IBV_QP_RQ_PSN |
                            IBV_QP_MAX_DEST_RD_ATOMIC | IBV_QP_MIN_RNR_TIMER) == 0);
}

static void to_rts(struct ibv_qp *qp, uint32_t psn, const struct options *options)
{
    struct ibv_qp_attr attr = {.qp_state = IBV_QPS_RTS,
                               .timeout = (uint8_t)options->timeout,
                               .retry_cnt = (uint8_t)options->retry,
                               .rnr_retry = (uint8_t)options->rnr,
                               .sq_psn = psn & 0xffffff,
                               .max_rd_atomic = 4};
    CHECK(ibv_modify_qp(qp, &attr,
                        IBV_QP_STATE | IBV_QP_TIMEOUT | IBV_QP_RETRY_CNT | IBV_QP_RNR_RETRY | IBV_QP_SQ_PSN |
                            IBV_QP_MAX_QP_RD_ATOMIC) == 0);
}

struct couple {
    struct ibv_qp *a, *b;
};

static void connect_made(struct couple two, const struct options *options)
{
    to_init(two.a, options);
    to_init(two.b, options);
    to_rtr(two.a, two.b->qp_num, options->psn + 1000, options);
    to_rtr(two.b, two.a->qp_num, options->psn, options);
    to_rts(two.a, options->psn, options);
    to_rts(two.b, options->psn + 1000, options);
}

static struct couple connect_two(const struct options *options)
{
    struct couple two = {make(options), make(options)};
    connect_made(two, options);
    return two;
}

static void part(struct couple two)
{
    CHECK(ibv_destroy_qp(two.a) == 0);
    CHECK(ibv_destroy_qp(two.b) == 0);
    CHECK(ibv_poll_cq(cq, 1, &(struct ibv_wc){0}) == 0); /* completions of what is destroyed are gone */
}

static enum ibv_qp_state state_of(struct ibv_qp *qp)
{
    struct ibv_qp_attr attr;
    struct ibv_qp_init_attr init;
    CHECK(ibv_query_qp(qp, &attr, IBV_QP_STATE, &init) == 0);
    return attr.qp_state;
}

/* ---- requests ---- */

static void receive(struct ibv_qp *qp, uint64_t id, uint8_t *at, uint32_t length)
{
    struct ibv_sge sge = {(uintptr_t)at, length, at < bytes + HALF ? mine->lkey : theirs->lkey};
    struct ibv_recv_wr wr = {.wr_id = id, .sg_list = &sge, .num_sge = 1}, *bad;
    CHECK(ibv_post_recv(qp, &wr, &bad) == 0);
}

static struct ibv_send_wr request(enum ibv_wr_opcode opcode, struct ibv_sge *sge, uint64_t id)
{
    return (struct ibv_send_wr){.wr_id = id, .sg_list = sge, .num_sge = 1, .opcode = opcode, .send_flags = IBV_SEND_SIGNALED};
}

static void post(struct ibv_qp *qp, struct ibv_send_wr *wr)
{
    struct ibv_send_wr *bad;
    CHECK(ibv_post_send(qp, wr, &bad) == 0);
}

/* The next completion, within half a minute. */
static struct ibv_wc next(void)
{
    struct ibv_wc wc;
    time_t end = time(NULL) + 30;
    int count;
    while ((count = ibv_poll_cq(cq, 1, &wc)) == 0)
        CHECK(time(NULL) < end);
    CHECK(count == 1);
    return wc;
}

/* The completions of a request and of what it does at the partner, in either order. */
static void both(struct ibv_wc *sent, struct ibv_wc *received)
{
    for (int i = 0; i < 2; i++) {
        struct ibv_wc wc = next();
        *(wc.opcode & IBV_WC_RECV ? received : sent) = wc;
    }
}

static void fill(uint8_t *at, size_t length, unsigned seed)
{
    for (size_t i = 0; i < length; i++)
        at[i] = (uint8_t)(i * 7 + i / 251 + seed);
}

#endif
