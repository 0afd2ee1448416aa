/* Requests by ibv_wr_start and its kin: they are drafted one by one, and posted together or not at all. */
#include "node.h"
#include <errno.h>
#include <stdlib.h>
#include <string.h>

#define SUPPORTED                                                                                                              \
    (IBV_QP_EX_WITH_RDMA_WRITE | IBV_QP_EX_WITH_RDMA_WRITE_WITH_IMM | IBV_QP_EX_WITH_SEND | IBV_QP_EX_WITH_SEND_WITH_IMM |     \
     IBV_QP_EX_WITH_RDMA_READ | IBV_QP_EX_WITH_ATOMIC_CMP_AND_SWP | IBV_QP_EX_WITH_ATOMIC_FETCH_AND_ADD)

struct draft {
    struct ibv_send_wr wr;
    struct ibv_sge sge;
};

struct extended {
    pthread_mutex_t lock; /* from wr_start to wr_complete or wr_abort */
    int error;            /* the first one since wr_start */
    unsigned count, room, most_inline;
    struct draft *drafts;
    uint8_t *bytes; /* most_inline for each draft */
};

static struct pair *pair_of(struct ibv_qp_ex *ex)
{
    return (struct pair *)ex;
}

/* The draft that was begun last; null where there was an error. */
static struct draft *latest(struct extended *extended)
{
    return extended->error == 0 && extended->count > 0 ? &extended->drafts[extended->count - 1] : NULL;
}

static struct draft *begin(struct ibv_qp_ex *ex, enum ibv_wr_opcode opcode)
{
    struct extended *extended = pair_of(ex)->extended;
    if (extended->error == 0 && extended->count == extended->room)
        extended->error = ENOMEM;
    if (extended->error != 0)
        return NULL;
    struct draft *draft = &extended->drafts[extended->count++];
    *draft =
        (struct draft){.wr = {.wr_id = ex->wr_id, .opcode = opcode, .send_flags = ex->wr_flags & ~(unsigned)IBV_SEND_INLINE}};
    return draft;
}

static void aim(struct draft *draft, uint32_t rkey, uint64_t remote_addr)
{
    if (draft) {
        draft->wr.wr.rdma.remote_addr = remote_addr;
        draft->wr.wr.rdma.rkey = rkey;
    }
}

static void aim_atomic(struct draft *draft, uint32_t rkey, uint64_t remote_addr, uint64_t compare_add, uint64_t swap)
{
    if (draft) {
        draft->wr.wr.atomic.remote_addr = remote_addr;
        draft->wr.wr.atomic.rkey = rkey;
        draft->wr.wr.atomic.compare_add = compare_add;
        draft->wr.wr.atomic.swap = swap;
    }
}

/* ---- the kinds of requests ---- */

static void wr_atomic_cmp_swp(struct ibv_qp_ex *ex, uint32_t rkey, uint64_t remote_addr, uint64_t compare, uint64_t swap)
{
    aim_atomic(begin(ex, IBV_WR_ATOMIC_CMP_AND_SWP), rkey, remote_addr, compare, swap);
}

static void wr_atomic_fetch_add(struct ibv_qp_ex *ex, uint32_t rkey, uint64_t remote_addr, uint64_t add)
{
    aim_atomic(begin(ex, IBV_WR_ATOMIC_FETCH_AND_ADD), rkey, remote_addr, add, 0);
}

static void wr_rdma_read(struct ibv_qp_ex *ex, uint32_t rkey, uint64_t remote_addr)
{
    aim(begin(ex, IBV_WR_RDMA_READ), rkey, remote_addr);
}

static void wr_rdma_write(struct ibv_qp_ex *ex, uint32_t rkey, uint64_t remote_addr)
{
    aim(begin(ex, IBV_WR_RDMA_WRITE), rkey, remote_addr);
}

static void wr_rdma_write_imm(struct ibv_qp_ex *ex, uint32_t rkey, uint64_t remote_addr, __be32 imm_data)
{
    struct draft *draft = begin(ex, IBV_WR_RDMA_WRITE_WITH_IMM);
    aim(draft, rkey, remote_addr);
    if (draft)
        draft->wr.imm_data = imm_data;
}

static void wr_send(struct ibv_qp_ex *ex)
{
    begin(ex, IBV_WR_SEND);
}

static void wr_send_imm(struct ibv_qp_ex *ex, __be32 imm_data)
{
    struct draft *draft = begin(ex, IBV_WR_SEND_WITH_IMM);
    if (draft)
        draft->wr.imm_data = imm_data;
}

/* ---- their bytes ---- */

static void wr_set_sge(struct ibv_qp_ex *ex, uint32_t lkey, uint64_t addr, uint32_t length)
{
    struct draft *draft = latest(pair_of(ex)->extended);
    if (!draft)
        return;
    draft->sge = (struct ibv_sge){addr, length, lkey};
    draft->wr.sg_list = &draft->sge;
    draft->wr.num_sge = 1;
}

static void wr_set_sge_list(struct ibv_qp_ex *ex, size_t num_sge, const struct ibv_sge *sg_list)
{
    if (num_sge == 1)
        wr_set_sge(ex, sg_list->lkey, sg_list->addr, sg_list->length);
    else if (num_sge > 1)
        pair_of(ex)->extended->error = EINVAL;
}

static void wr_set_inline_data_list(struct ibv_qp_ex *ex, size_t num_buf, const struct ibv_data_buf *buf_list)
{
    struct extended *extended = pair_of(ex)->extended;
    struct draft *draft = latest(extended);
    if (!draft)
        return;
    uint8_t *bytes = extended->bytes + (size_t)(extended->count - 1) * extended->most_inline;
    size_t length = 0;
    for (size_t i = 0; i < num_buf; i++) {
        if (buf_list[i].length > extended->most_inline - length) {
            extended->error = EINVAL;
            return;
        }
        memcpy(bytes + length, buf_list[i].addr, buf_list[i].length);
        length += buf_list[i].length;
    }
    wr_set_sge(ex, 0, (uintptr_t)bytes, (uint32_t)length);
    draft->wr.send_flags |= IBV_SEND_INLINE;
}

static void wr_set_inline_data(struct ibv_qp_ex *ex, void *addr, size_t length)
{
    const struct ibv_data_buf whole = {.addr = addr, .length = length};
    wr_set_inline_data_list(ex, 1, &whole);
}

/* ---- from the first to the last ---- */

static void wr_start(struct ibv_qp_ex *ex)
{
    struct extended *extended = pair_of(ex)->extended;
    pthread_mutex_lock(&extended->lock);
    extended->error = 0;
    extended->count = 0;
}

static int wr_complete(struct ibv_qp_ex *ex)
{
    struct extended *extended = pair_of(ex)->extended;
    int error = extended->error;
    for (unsigned i = 0; i + 1 < extended->count; i++)
        extended->drafts[i].wr.next = &extended->drafts[i + 1].wr;
    if (error == 0 && extended->count > 0)
        error = post_all(pair_of(ex), &extended->drafts[0].wr);
    pthread_mutex_unlock(&extended->lock);
    return error;
}

static void wr_abort(struct ibv_qp_ex *ex)
{
    pthread_mutex_unlock(&pair_of(ex)->extended->lock);
}

/* ---- queue pairs that are made for it ---- */

void extended_free(struct extended *extended)
{
    if (extended) {
        free(extended->drafts);
        free(extended->bytes);
        pthread_mutex_destroy(&extended->lock);
    }
    free(extended);
}

static struct extended *extended_make(const struct pair *pair)
{
    struct extended *extended = calloc(1, sizeof *extended);
    if (!extended)
        return NULL;
    pthread_mutex_init(&extended->lock, NULL);
    extended->room = pair->sq.room;
    extended->most_inline = pair->init.cap.max_inline_data;
    extended->drafts = calloc(extended->room, sizeof *extended->drafts);
    extended->bytes = malloc((size_t)extended->room * extended->most_inline + 1);
    if (extended->drafts && extended->bytes)
        return extended;
    extended_free(extended);
    return NULL;
}

static void extended_fill(struct ibv_qp_ex *ex)
{
    ex->wr_atomic_cmp_swp = wr_atomic_cmp_swp;
    ex->wr_atomic_fetch_add = wr_atomic_fetch_add;
    ex->wr_rdma_read = wr_rdma_read;
    ex->wr_rdma_write = wr_rdma_write;
    ex->wr_rdma_write_imm = wr_rdma_write_imm;
    ex->wr_send = wr_send;
    ex->wr_send_imm = wr_send_imm;
    ex->wr_set_inline_data = wr_set_inline_data;
    ex->wr_set_inline_data_list = wr_set_inline_data_list;
    ex->wr_set_sge = wr_set_sge;
    ex->wr_set_sge_list = wr_set_sge_list;
    ex->wr_start = wr_start;
    ex->wr_complete = wr_complete;
    ex->wr_abort = wr_abort;
}

struct ibv_qp_ex *ibv_qp_to_qp_ex(struct ibv_qp *qp)
{
    struct pair *pair = (struct pair *)qp;
    return pair->extended ? &pair->ex : NULL;
}

static int check_init(const struct ibv_qp_init_attr_ex *init)
{
    const uint32_t known = IBV_QP_INIT_ATTR_PD | IBV_QP_INIT_ATTR_SEND_OPS_FLAGS;
    if (!(init->comp_mask & IBV_QP_INIT_ATTR_PD))
        return EINVAL;
    if (init->comp_mask & ~known)
        return EOPNOTSUPP;
    return init->comp_mask & IBV_QP_INIT_ATTR_SEND_OPS_FLAGS && init->send_ops_flags & ~(uint64_t)SUPPORTED ? EOPNOTSUPP : 0;
}

struct ibv_qp *create_qp_ex(struct ibv_context *context, struct ibv_qp_init_attr_ex *init)
{
    int error = check_init(init);
    (void)context;
    /* the extended attributes begin with the plain ones */
    struct ibv_qp *qp = error == 0 ? pair_make(init->pd, (struct ibv_qp_init_attr *)(void *)init, &error) : NULL;
    struct pair *pair = (struct pair *)qp;
    if (qp && init->comp_mask & IBV_QP_INIT_ATTR_SEND_OPS_FLAGS) {
        pair->extended = extended_make(pair);
        extended_fill(&pair->ex);
        if (!pair->extended) {
            ibv_destroy_qp(qp);
            qp = NULL;
            error = ENOMEM;
        }
    }
    if (!qp)
        errno = error;
    return qp;
}
