/*
 * What programs can see of the verbs: two queue pairs of one process, connected to each other over its own address. Each check
 * compares with what libibverbs' man pages and the transport say, and the first that fails ends the program.
 */
#include "couple.h"

/* ---- what works ---- */

static void try_sends(void)
{
    static const uint32_t lengths[] = {0, 1, 3, 255, 256, 257, 1024, 4096, 5000, 65536, 1 << 20};
    for (enum ibv_mtu mtu = IBV_MTU_256; mtu <= IBV_MTU_4096; mtu++) {
        struct options options = usual;
        options.mtu = mtu;
        struct couple two = connect_two(&options);
        for (unsigned i = 0; i < sizeof lengths / sizeof *lengths; i++) {
            struct ibv_sge sge = {(uintptr_t)bytes + 8, lengths[i], mine->lkey};
            struct ibv_send_wr wr = request(i % 2 ? IBV_WR_SEND_WITH_IMM : IBV_WR_SEND, &sge, 100 + i);
            struct ibv_wc sent = {0}, received = {0};
            wr.imm_data = htonl(0x01020304 + i);
            fill(bytes + 8, lengths[i], i + mtu);
            memset(bytes + HALF, 0xee, lengths[i] + 64);
            receive(two.b, 200 + i, bytes + HALF + 16, 1 << 20);
            post(two.a, &wr);
            both(&sent, &received);
            CHECK(sent.status == IBV_WC_SUCCESS && sent.wr_id == 100 + i && sent.opcode == IBV_WC_SEND);
            CHECK(sent.qp_num == two.a->qp_num && received.qp_num == two.b->qp_num);
            CHECK(received.status == IBV_WC_SUCCESS && received.wr_id == 200 + i && received.opcode == IBV_WC_RECV);
            CHECK(received.byte_len == lengths[i] && (received.wc_flags & IBV_WC_WITH_IMM) == (i % 2 ? IBV_WC_WITH_IMM : 0));
            CHECK(i % 2 == 0 || received.imm_data == htonl(0x01020304 + i));
            CHECK(memcmp(bytes + 8, bytes + HALF + 16, lengths[i]) == 0);
            CHECK(bytes[HALF + 15] == 0xee && bytes[HALF + 16 + lengths[i]] == 0xee);
        }
        part(two);
    }
}

static void try_writes_and_reads(void)
{
    static const uint32_t lengths[] = {0, 1, 2, 1024, 3000, 65536, 1 << 20};
    struct couple two = connect_two(&usual);
    for (unsigned i = 0; i < sizeof lengths / sizeof *lengths; i++) {
        struct ibv_sge sge = {(uintptr_t)bytes, lengths[i], mine->lkey};
        struct ibv_send_wr wr = request(IBV_WR_RDMA_WRITE, &sge, i);
        struct ibv_wc wc, received = {0};
        wr.wr.rdma.remote_addr = (uintptr_t)bytes + HALF + 5;
        wr.wr.rdma.rkey = theirs->rkey;
        memset(bytes + HALF, 0, lengths[i] + 16);
        fill(bytes, lengths[i], i);
        post(two.a, &wr);
        wc = next();
        CHECK(wc.status == IBV_WC_SUCCESS && wc.opcode == IBV_WC_RDMA_WRITE && wc.wr_id == i);
        CHECK(memcmp(bytes, bytes + HALF + 5, lengths[i]) == 0 && bytes[HALF + 5 + lengths[i]] == 0);
        fill(bytes, lengths[i], i + 1);
        wr.opcode = IBV_WR_RDMA_WRITE_WITH_IMM;
        wr.imm_data = htonl(77);
        receive(two.b, 9, bytes + HALF, 0);
        post(two.a, &wr);
        both(&wc, &received);
        CHECK(wc.status == IBV_WC_SUCCESS && received.status == IBV_WC_SUCCESS && received.wr_id == 9);
        CHECK(received.opcode == IBV_WC_RECV_RDMA_WITH_IMM && received.imm_data == htonl(77) &&
              received.byte_len == lengths[i]);
        CHECK(memcmp(bytes, bytes + HALF + 5, lengths[i]) == 0);
        fill(bytes + HALF + 5, lengths[i], i + 2); /* the owner changes its memory without telling anybody */
        memset(bytes, 0, lengths[i] + 1);
        wr.opcode = IBV_WR_RDMA_READ;
        post(two.a, &wr);
        wc = next();
        CHECK(wc.status == IBV_WC_SUCCESS && wc.opcode == IBV_WC_RDMA_READ);
        CHECK(memcmp(bytes, bytes + HALF + 5, lengths[i]) == 0 && bytes[lengths[i]] == 0);
    }
    part(two);
}

static void try_atomics(void)
{
    struct couple two = connect_two(&usual);
    uint64_t *old = (uint64_t *)(void *)bytes, *word = (uint64_t *)(void *)(bytes + HALF + 64);
    struct ibv_sge sge = {(uintptr_t)old, 8, mine->lkey};
    struct ibv_send_wr wr = request(IBV_WR_ATOMIC_FETCH_AND_ADD, &sge, 1);
    wr.wr.atomic.remote_addr = (uintptr_t)word;
    wr.wr.atomic.rkey = theirs->rkey;
    wr.wr.atomic.compare_add = 5;
    *word = UINT64_C(0x1122334455667788);
    post(two.a, &wr);
    struct ibv_wc wc = next();
    CHECK(wc.status == IBV_WC_SUCCESS && wc.opcode == IBV_WC_FETCH_ADD);
    CHECK(*old == UINT64_C(0x1122334455667788) && *word == UINT64_C(0x112233445566778d));
    wr.opcode = IBV_WR_ATOMIC_CMP_AND_SWP;
    wr.wr.atomic.compare_add = 1; /* it is not */
    wr.wr.atomic.swap = 2;
    post(two.a, &wr);
    wc = next();
    CHECK(wc.status == IBV_WC_SUCCESS && wc.opcode == IBV_WC_COMP_SWAP);
    CHECK(*old == UINT64_C(0x112233445566778d) && *word == UINT64_C(0x112233445566778d));
    wr.wr.atomic.compare_add = UINT64_C(0x112233445566778d);
    post(two.a, &wr);
    CHECK(next().status == IBV_WC_SUCCESS && *old == UINT64_C(0x112233445566778d) && *word == 2);
    *word = 40; /* the owner changes it */
    wr.opcode = IBV_WR_ATOMIC_FETCH_AND_ADD;
    wr.wr.atomic.compare_add = 2;
    post(two.a, &wr);
    CHECK(next().status == IBV_WC_SUCCESS && *old == 40 && *word == 42);
    wr.wr.atomic.remote_addr += 4;
    post(two.a, &wr);
    CHECK(next().status == IBV_WC_REM_INV_REQ_ERR && *word == 42);
    part(two);
}

/* Inline bytes may change after the call; unsignaled requests do not complete; a list is posted in order; a fence waits. */
static void try_flags(void)
{
    struct couple two = connect_two(&usual);
    struct ibv_sge sge[3] = {
        {(uintptr_t)bytes, 200, 0}, {(uintptr_t)bytes + 4096, 8, mine->lkey}, {(uintptr_t)bytes + 4096, 8, mine->lkey}};
    struct ibv_send_wr wr[3] = {request(IBV_WR_SEND, &sge[0], 1), request(IBV_WR_RDMA_READ, &sge[1], 2),
                                request(IBV_WR_RDMA_WRITE, &sge[2], 3)};
    struct ibv_wc sent = {0}, received = {0};
    fill(bytes, 200, 3);
    memcpy(bytes + 512, bytes, 200);
    receive(two.b, 5, bytes + HALF, 4096);
    wr[0].send_flags = IBV_SEND_INLINE | IBV_SEND_SIGNALED;
    post(two.a, &wr[0]);
    memset(bytes, 0, 200);
    both(&sent, &received);
    CHECK(received.status == IBV_WC_SUCCESS && memcmp(bytes + HALF, bytes + 512, 200) == 0);

    memset(bytes + HALF, 1, 8);      /* read from here .. */
    memset(bytes + HALF + 64, 0, 8); /* .. and written there */
    wr[0].send_flags = IBV_SEND_INLINE;
    wr[0].next = &wr[1];
    wr[1].next = &wr[2];
    wr[1].send_flags = 0;
    wr[1].wr.rdma.remote_addr = (uintptr_t)bytes + HALF;
    wr[2].wr.rdma.remote_addr = (uintptr_t)bytes + HALF + 64;
    wr[1].wr.rdma.rkey = wr[2].wr.rdma.rkey = theirs->rkey;
    wr[2].send_flags = IBV_SEND_SIGNALED | IBV_SEND_FENCE;
    receive(two.b, 6, bytes + HALF + 8192, 4096);
    post(two.a, wr);
    both(&sent, &received);
    CHECK(sent.wr_id == 3 && sent.status == IBV_WC_SUCCESS && received.wr_id == 6);
    CHECK(bytes[4096] == 1); /* the unsignaled READ landed before the fenced WRITE was finished */
    part(two);
}

/* What is read or sent of a place where a message is arriving may be old or new, and the message is whole all the same. */
static void try_overlaps(void)
{
    struct couple two = connect_two(&usual), others = connect_two(&usual);
    for (unsigned round = 0; round < 4; round++) {
        struct ibv_sge whole = {(uintptr_t)bytes, 1 << 20, mine->lkey},
                       part_of = {(uintptr_t)bytes + (1 << 20), 1 << 19, mine->lkey};
        struct ibv_send_wr wr = request(round % 2 ? IBV_WR_RDMA_READ : IBV_WR_SEND, &whole, 1);
        struct ibv_send_wr read = request(IBV_WR_RDMA_READ, &part_of, 2);
        uint8_t *from = round % 2 ? bytes + HALF : bytes, *to = round % 2 ? bytes : bytes + HALF;
        unsigned left = round % 2 ? 1 : 2, reads = 0;
        fill(from, 1 << 20, round);
        memset(to, 0, 1 << 20);
        wr.wr.rdma.remote_addr = (uintptr_t)from;
        wr.wr.rdma.rkey = theirs->rkey;
        read.wr.rdma.remote_addr = (uintptr_t)to;
        read.wr.rdma.rkey = to < bytes + HALF ? mine->rkey : theirs->rkey;
        receive(two.b, 3, bytes + HALF, round % 2 ? 8 : 1 << 20);
        post(two.a, &wr);
        while (left > 0 || reads > 0) {
            struct ibv_wc wc;
            if (left > 0 && reads == 0) {
                post(others.a, &read);
                reads = 1;
            }
            wc = next();
            CHECK(wc.status == IBV_WC_SUCCESS);
            *(wc.wr_id == 2 ? &reads : &left) -= 1;
        }
        CHECK(memcmp(from, to, 1 << 20) == 0);
        if (round % 2) {
            part(two);
            two = connect_two(&usual);
        }
    }
    part(two);
    part(others);
}

/* Queue pairs that read at once, more than is let into flight. */
static void try_reads_at_once(void)
{
    enum { PAIRS = 6, EACH = 2 };
    struct couple two[PAIRS];
    fill(bytes + HALF, 1 << 20, 5);
    memset(bytes, 0, 1 << 20);
    for (unsigned i = 0; i < PAIRS; i++)
        two[i] = connect_two(&usual);
    for (unsigned k = 0; k < EACH; k++)
        for (unsigned i = 0; i < PAIRS; i++) {
            struct ibv_sge sge = {(uintptr_t)bytes, 1 << 20, mine->lkey};
            struct ibv_send_wr wr = request(IBV_WR_RDMA_READ, &sge, i);
            wr.wr.rdma.remote_addr = (uintptr_t)bytes + HALF;
            wr.wr.rdma.rkey = theirs->rkey;
            post(two[i].a, &wr);
        }
    for (unsigned k = 0; k < PAIRS * EACH; k++)
        CHECK(next().status == IBV_WC_SUCCESS);
    CHECK(memcmp(bytes, bytes + HALF, 1 << 20) == 0);
    for (unsigned i = 0; i < PAIRS; i++)
        part(two[i]);
}

/* More work than the device has pages for, of several queue pairs: what does not fit waits for what is finished. */
static void try_pages(void)
{
    enum { PAIRS = 4, EACH = 9 };
    struct couple two[PAIRS];
    unsigned left = 2 * PAIRS * EACH;
    fill(bytes, 1 << 20, 6);
    for (unsigned i = 0; i < PAIRS; i++) {
        two[i] = connect_two(&usual);
        for (unsigned k = 0; k < EACH; k++)
            receive(two[i].b, k, bytes + HALF, 1 << 20);
    }
    for (unsigned k = 0; k < EACH; k++)
        for (unsigned i = 0; i < PAIRS; i++) {
            struct ibv_sge sge = {(uintptr_t)bytes, 1 << 20, mine->lkey};
            struct ibv_send_wr wr = request(IBV_WR_SEND, &sge, k);
            post(two[i].a, &wr);
        }
    for (; left > 0; left--)
        CHECK(next().status == IBV_WC_SUCCESS);
    CHECK(memcmp(bytes, bytes + HALF, 1 << 20) == 0);
    for (unsigned i = 0; i < PAIRS; i++)
        part(two[i]);
}

/* More requests than the device has places for, posted at once; their bytes are taken when their turn comes. */
static void try_depth(void)
{
    enum { MANY = 1000 };
    struct options options = usual;
    options.depth = MANY;
    struct couple two = connect_two(&options);
    uint64_t *from = (uint64_t *)(void *)bytes, *to = (uint64_t *)(void *)(bytes + HALF);
    unsigned sent = 0, received = 0;
    for (uint64_t i = 0; i < MANY; i++) {
        struct ibv_sge sge = {(uintptr_t)&from[i], 8, mine->lkey};
        struct ibv_send_wr wr = request(IBV_WR_SEND, &sge, i);
        from[i] = i * i + 1;
        to[i] = 0;
        receive(two.b, i, (uint8_t *)&to[i], 8);
        post(two.a, &wr);
    }
    while (sent + received < 2 * MANY) {
        struct ibv_wc wc = next();
        CHECK(wc.status == IBV_WC_SUCCESS && wc.wr_id == (wc.opcode & IBV_WC_RECV ? received++ : sent++));
    }
    for (uint64_t i = 0; i < MANY; i++)
        CHECK(to[i] == i * i + 1);
    part(two);
}

static void try_events(void)
{
    struct couple two = connect_two(&usual);
    struct ibv_sge sge = {(uintptr_t)bytes, 8, mine->lkey};
    struct ibv_send_wr wr = request(IBV_WR_SEND, &sge, 1);
    struct pollfd ready = {.fd = channel->fd, .events = POLLIN};
    struct ibv_cq *told;
    void *own;
    CHECK(poll(&ready, 1, 0) == 0);
    CHECK(fcntl(channel->fd, F_SETFL, fcntl(channel->fd, F_GETFL) | O_NONBLOCK) == 0);
    CHECK(ibv_get_cq_event(channel, &told, &own) == -1 && errno == EAGAIN);
    CHECK(fcntl(channel->fd, F_SETFL, fcntl(channel->fd, F_GETFL) & ~O_NONBLOCK) == 0);
    for (int i = 0; i < 3; i++) {
        CHECK(ibv_req_notify_cq(cq, i % 2) == 0);
        receive(two.b, 2, bytes + HALF, 8);
        post(two.a, &wr);
        CHECK(ibv_get_cq_event(channel, &told, &own) == 0 && told == cq && own == &gid);
        ibv_ack_cq_events(cq, 1);
        CHECK(next().status == IBV_WC_SUCCESS && next().status == IBV_WC_SUCCESS);
    }
    receive(two.b, 2, bytes + HALF, 8); /* nobody asked for an event */
    post(two.a, &wr);
    CHECK(next().status == IBV_WC_SUCCESS && next().status == IBV_WC_SUCCESS);
    CHECK(poll(&ready, 1, 0) == 0);
    CHECK(ibv_destroy_comp_channel(channel) == EBUSY);
    part(two);
}

/* Requests by ibv_wr_start and its kin, all or none of them. */
static void try_extended(void)
{
    struct ibv_qp_init_attr_ex init = {.send_cq = cq,
                                       .recv_cq = cq,
                                       .cap = {8, 8, 1, 1, 64},
                                       .qp_type = IBV_QPT_RC,
                                       .comp_mask = IBV_QP_INIT_ATTR_PD | IBV_QP_INIT_ATTR_SEND_OPS_FLAGS,
                                       .pd = pd,
                                       .send_ops_flags = IBV_QP_EX_WITH_SEND | IBV_QP_EX_WITH_RDMA_WRITE_WITH_IMM};
    struct couple two = {ibv_create_qp_ex(context, &init), make(&usual)};
    CHECK(two.a && ibv_qp_to_qp_ex(two.a) && !ibv_qp_to_qp_ex(two.b));
    struct ibv_qp_ex *ex = ibv_qp_to_qp_ex(two.a);
    uint8_t words[8] = "inline";
    connect_made(two, &usual);
    fill(bytes, 100, 4);
    receive(two.b, 1, bytes + HALF + 4096, 64);
    receive(two.b, 2, bytes + HALF + 8192, 64);
    ibv_wr_start(ex);
    ex->wr_id = 10;
    ex->wr_flags = 0;
    ibv_wr_send(ex);
    ibv_wr_set_inline_data(ex, words, sizeof words);
    memset(words, 0, sizeof words);
    ex->wr_id = 11;
    ex->wr_flags = IBV_SEND_SIGNALED;
    ibv_wr_rdma_write_imm(ex, theirs->rkey, (uintptr_t)bytes + HALF, htonl(6));
    ibv_wr_set_sge(ex, mine->lkey, (uintptr_t)bytes, 100);
    CHECK(ibv_wr_complete(ex) == 0);
    for (unsigned sent = 0, received = 0; sent + received < 3;) {
        struct ibv_wc wc = next();
        CHECK(wc.status == IBV_WC_SUCCESS && wc.wr_id == (wc.opcode & IBV_WC_RECV ? ++received : 11 + sent++));
    }
    CHECK(memcmp(bytes + HALF + 4096, "inline", 7) == 0 && memcmp(bytes, bytes + HALF, 100) == 0);
    ibv_wr_start(ex);
    ibv_wr_send(ex);
    ibv_wr_set_sge(ex, mine->lkey, (uintptr_t)bytes, 8);
    ibv_wr_send(ex);
    ibv_wr_set_sge(ex, mine->lkey + 2, (uintptr_t)bytes, 8); /* granted to nobody */
    CHECK(ibv_wr_complete(ex) == EINVAL);
    ibv_wr_start(ex);
    ibv_wr_send(ex);
    ibv_wr_abort(ex);
    CHECK(ibv_poll_cq(cq, 1, &(struct ibv_wc){0}) == 0);
    part(two);
    init.send_ops_flags |= IBV_QP_EX_WITH_BIND_MW;
    CHECK(!ibv_create_qp_ex(context, &init) && errno == EOPNOTSUPP);
}

/* A side that is only in RTR receives; when it goes to RTS its requests have the packet sequence numbers that it told. */
static void try_passive_side(void)
{
    struct couple two = {make(&usual), make(&usual)};
    struct ibv_sge sge = {(uintptr_t)bytes, 3000, mine->lkey};
    struct ibv_send_wr wr = request(IBV_WR_SEND, &sge, 1);
    struct ibv_wc sent = {0}, received = {0};
    to_init(two.a, &usual);
    to_init(two.b, &usual);
    receive(two.b, 4, bytes + HALF, 4096);
    to_rtr(two.b, two.a->qp_num, usual.psn, &usual);
    to_rtr(two.a, two.b->qp_num, usual.psn + 1000, &usual);
    to_rts(two.a, usual.psn, &usual);
    fill(bytes, 3000, 9);
    post(two.a, &wr);
    both(&sent, &received);
    CHECK(sent.status == IBV_WC_SUCCESS && received.status == IBV_WC_SUCCESS && memcmp(bytes, bytes + HALF, 3000) == 0);
    CHECK(state_of(two.b) == IBV_QPS_RTR);
    to_rts(two.b, usual.psn + 1000, &usual);
    receive(two.a, 5, bytes + 4096, 4096);
    sge = (struct ibv_sge){(uintptr_t)bytes + HALF, 3000, theirs->lkey};
    post(two.b, &wr);
    both(&sent, &received);
    CHECK(sent.status == IBV_WC_SUCCESS && received.wr_id == 5 && memcmp(bytes + 4096, bytes + HALF, 3000) == 0);
    wr.opcode = IBV_WR_RDMA_READ;
    wr.wr.rdma.remote_addr = (uintptr_t)bytes;
    wr.wr.rdma.rkey = mine->rkey;
    fill(bytes, 3000, 11);
    post(two.b, &wr);
    CHECK(next().status == IBV_WC_SUCCESS && memcmp(bytes, bytes + HALF, 3000) == 0);
    part(two);
}

/* ---- what fails ---- */

static void try_failures(void)
{
    struct couple two = connect_two(&usual);
    struct ibv_sge sge = {(uintptr_t)bytes, 64, mine->lkey};
    struct ibv_send_wr wr = request(IBV_WR_RDMA_WRITE, &sge, 1);
    struct ibv_wc sent = {0}, received = {0};
    wr.wr.rdma.remote_addr = (uintptr_t)bytes + HALF;
    wr.wr.rdma.rkey = theirs->rkey + 2; /* granted to nobody */
    receive(two.a, 7, bytes + 4096, 64);
    post(two.a, &wr);
    CHECK(next().status == IBV_WC_REM_ACCESS_ERR);
    sent = next(); /* the receive of the same queue pair is flushed */
    CHECK(sent.status == IBV_WC_WR_FLUSH_ERR && sent.wr_id == 7);
    CHECK(state_of(two.a) == IBV_QPS_ERR && state_of(two.b) == IBV_QPS_ERR);
    post(two.a, &wr);
    CHECK(next().status == IBV_WC_WR_FLUSH_ERR);
    part(two);

    two = connect_two(&usual);
    wr.opcode = IBV_WR_SEND;
    receive(two.b, 8, bytes + HALF, 63);
    post(two.a, &wr);
    both(&sent, &received);
    CHECK(sent.status == IBV_WC_REM_INV_REQ_ERR && received.status == IBV_WC_LOC_LEN_ERR && received.wr_id == 8);
    part(two);
}

/* Waits for a receive, and expiries, up to what the program allows. */
static void try_spent_retries(void)
{
    struct options options = usual;
    struct ibv_sge sge = {(uintptr_t)bytes, 64, mine->lkey};
    struct ibv_send_wr wr = request(IBV_WR_SEND, &sge, 1);
    options.rnr = 1;
    struct couple two = connect_two(&options);
    post(two.a, &wr); /* no receive is posted */
    CHECK(next().status == IBV_WC_RNR_RETRY_EXC_ERR);
    part(two);

    options = usual;
    options.timeout = 1;
    options.retry = 1;
    two = connect_two(&options);
    CHECK(ibv_destroy_qp(two.b) == 0);
    post(two.a, &wr);
    CHECK(next().status == IBV_WC_RETRY_EXC_ERR);
    CHECK(ibv_destroy_qp(two.a) == 0);
}

/* A queue pair allows what its access flags say, whatever its regions grant. */
static void try_access_flags(void)
{
    static const enum ibv_wr_opcode opcodes[] = {IBV_WR_RDMA_WRITE, IBV_WR_RDMA_READ, IBV_WR_ATOMIC_FETCH_AND_ADD};
    for (unsigned i = 0; i < 3; i++) {
        struct options options = usual;
        options.access = i == 0   ? IBV_ACCESS_REMOTE_READ | IBV_ACCESS_REMOTE_ATOMIC
                         : i == 1 ? IBV_ACCESS_REMOTE_WRITE
                                  : IBV_ACCESS_REMOTE_READ;
        struct couple two = connect_two(&options);
        struct ibv_sge sge = {(uintptr_t)bytes, 8, mine->lkey};
        struct ibv_send_wr wr = request(opcodes[i], &sge, 1);
        if (i == 2) {
            wr.wr.atomic.remote_addr = (uintptr_t)bytes + HALF;
            wr.wr.atomic.rkey = theirs->rkey;
        } else {
            wr.wr.rdma.remote_addr = (uintptr_t)bytes + HALF;
            wr.wr.rdma.rkey = theirs->rkey;
        }
        post(two.a, &wr);
        CHECK(next().status == IBV_WC_REM_ACCESS_ERR);
        part(two);
    }
}

/* To ERR by the program: what is posted is flushed in order, also what waits for a place in the device. */
static void try_flush(void)
{
    enum { MANY = 600 };
    struct options options = usual;
    options.depth = MANY;
    struct couple two = connect_two(&options);
    struct ibv_qp_attr attr = {.qp_state = IBV_QPS_ERR};
    for (uint64_t i = 0; i < MANY; i++)
        receive(two.b, i, bytes + HALF, 8);
    CHECK(ibv_dereg_mr(theirs) == EBUSY);
    CHECK(ibv_modify_qp(two.b, &attr, IBV_QP_STATE) == 0 && state_of(two.b) == IBV_QPS_ERR);
    for (uint64_t i = 0; i < MANY; i++) {
        struct ibv_wc wc = next();
        CHECK(wc.status == IBV_WC_WR_FLUSH_ERR && wc.wr_id == i && wc.qp_num == two.b->qp_num);
    }
    part(two);
    struct ibv_qp *alone = make(&usual); /* one that never had a partner */
    to_init(alone, &usual);
    receive(alone, 3, bytes, 8);
    CHECK(ibv_modify_qp(alone, &attr, IBV_QP_STATE) == 0);
    CHECK(next().status == IBV_WC_WR_FLUSH_ERR);
    CHECK(ibv_destroy_qp(alone) == 0);
}

/* ---- what is refused ---- */

static void try_refused_calls(void)
{
    struct ibv_qp_init_attr init = {.send_cq = cq, .recv_cq = cq, .cap = {8, 8, 1, 1, 0}, .qp_type = IBV_QPT_UD};
    struct ibv_srq_init_attr srq = {.attr = {8, 1, 0}};
    struct ibv_xrcd_init_attr xrcd = {.comp_mask = IBV_XRCD_INIT_ATTR_FD | IBV_XRCD_INIT_ATTR_OFLAGS, .fd = -1};
    struct ibv_ah_attr ah = {.port_num = 1};
    struct ibv_cq_init_attr_ex cq_ex = {.cqe = 8};
    union ibv_gid other;
    CHECK(!ibv_create_qp(pd, &init) && errno == EOPNOTSUPP);
    init.qp_type = IBV_QPT_UC;
    CHECK(!ibv_create_qp(pd, &init) && errno == EOPNOTSUPP);
    init.qp_type = IBV_QPT_RC;
    init.cap.max_send_sge = 2;
    CHECK(!ibv_create_qp(pd, &init) && errno == EINVAL);
    CHECK(!ibv_create_srq(pd, &srq) && errno == EOPNOTSUPP);
    CHECK(!ibv_open_xrcd(context, &xrcd) && errno == EOPNOTSUPP);
    CHECK(!ibv_create_ah(pd, &ah) && errno == EOPNOTSUPP);
    CHECK(!ibv_alloc_mw(pd, IBV_MW_TYPE_1) && errno == EOPNOTSUPP);
    CHECK(!ibv_create_cq_ex(context, &cq_ex) && errno == EOPNOTSUPP);
    CHECK(!ibv_create_cq(context, 0, NULL, NULL, 0) && errno == EINVAL);
    CHECK(!ibv_create_cq(context, 8, NULL, NULL, 1) && errno == EINVAL);
    CHECK(!ibv_reg_mr(pd, bytes, (16 << 20) + 1, IBV_ACCESS_LOCAL_WRITE) && errno == ENOMEM);
    CHECK(!ibv_reg_mr(pd, bytes, 64, IBV_ACCESS_REMOTE_WRITE) && errno == EINVAL);
    CHECK(!ibv_reg_mr(pd, bytes, 64, IBV_ACCESS_MW_BIND) && errno == EOPNOTSUPP);
    CHECK(ibv_query_gid(context, 1, 1, &other) == -1 && ibv_query_gid(context, 2, 0, &other) == -1);
    CHECK(ibv_fork_init() == ENOSYS && ibv_is_fork_initialized() == IBV_FORK_DISABLED);
    struct ibv_qp *qp = make(&usual);
    CHECK(ibv_dealloc_pd(pd) == EBUSY && ibv_destroy_cq(cq) == EBUSY);
    CHECK(ibv_destroy_qp(qp) == 0);
}

static void try_refused_requests(void)
{
    struct ibv_qp *qp = make(&usual);
    struct ibv_sge sge[2] = {{(uintptr_t)bytes, 8, mine->lkey}, {(uintptr_t)bytes + 8, 8, mine->lkey}};
    struct ibv_send_wr first = request(IBV_WR_SEND, sge, 1), second = first, *bad = NULL;
    struct ibv_recv_wr wr = {.sg_list = sge, .num_sge = 2}, *bad_recv = NULL;
    struct ibv_qp_attr attr = {.qp_state = IBV_QPS_INIT, .port_num = 2};
    CHECK(ibv_post_send(qp, &first, &bad) == EINVAL && bad == &first); /* in RESET */
    CHECK(ibv_post_recv(qp, &wr, &bad_recv) == EINVAL);
    CHECK(ibv_modify_qp(qp, &attr, IBV_QP_STATE) == EINVAL); /* what INIT needs is missing */
    CHECK(ibv_modify_qp(qp, &attr, IBV_QP_STATE | IBV_QP_PKEY_INDEX | IBV_QP_PORT | IBV_QP_ACCESS_FLAGS) == EINVAL);
    attr.qp_state = IBV_QPS_RTS;
    CHECK(ibv_modify_qp(qp, &attr, IBV_QP_STATE) == EINVAL);
    to_init(qp, &usual);
    CHECK(ibv_post_recv(qp, &wr, &bad_recv) == EINVAL && bad_recv == &wr); /* two pieces */
    attr = (struct ibv_qp_attr){.qp_state = IBV_QPS_RTR, .path_mtu = IBV_MTU_1024, .ah_attr = {.dlid = 1, .port_num = 1}};
    CHECK(ibv_modify_qp(qp, &attr,
                        IBV_QP_STATE | IBV_QP_AV | IBV_QP_PATH_MTU | IBV_QP_DEST_QPN | IBV_QP_RQ_PSN |
                            IBV_QP_MAX_DEST_RD_ATOMIC | IBV_QP_MIN_RNR_TIMER) == EINVAL); /* no global address */
    CHECK(ibv_destroy_qp(qp) == 0);

    struct couple two = connect_two(&usual);
    first.next = &second;
    second.num_sge = 2;
    receive(two.b, 1, bytes + HALF, 64);
    CHECK(ibv_post_send(two.a, &first, &bad) == EINVAL && bad == &second); /* the one before it is posted */
    CHECK(next().status == IBV_WC_SUCCESS && next().status == IBV_WC_SUCCESS);
    first.next = NULL;
    sge[0].length = HALF + 1;
    CHECK(ibv_post_send(two.a, &first, &bad) == EINVAL); /* not in the region, and too long */
    sge[0].length = 8;
    sge[0].lkey += 2;
    CHECK(ibv_post_send(two.a, &first, &bad) == EINVAL);
    first.opcode = IBV_WR_SEND_WITH_INV;
    CHECK(ibv_post_send(two.a, &first, &bad) == EOPNOTSUPP);
    sge[0].lkey -= 2;
    for (unsigned i = 0; i < usual.depth; i++)
        receive(two.b, i, bytes + HALF, 8);
    wr.num_sge = 1;
    CHECK(ibv_post_recv(two.b, &wr, &bad_recv) == ENOMEM && bad_recv == &wr); /* one more than was asked for */
    part(two);
}

/* A child of a fork has no device; its parent goes on. */
static void try_fork(void)
{
    struct couple two = connect_two(&usual);
    struct ibv_sge sge = {(uintptr_t)bytes, 8, mine->lkey};
    struct ibv_send_wr wr = request(IBV_WR_SEND, &sge, 1), *bad;
    int status = -1;
    pid_t child = fork();
    CHECK(child >= 0);
    if (child == 0)
        _exit(ibv_post_send(two.a, &wr, &bad) == ENODEV && !ibv_reg_mr(pd, bytes, 8, 0) && errno == ENODEV &&
                      ibv_poll_cq(cq, 1, &(struct ibv_wc){0}) < 0
                  ? 0
                  : 1);
    CHECK(waitpid(child, &status, 0) == child && status == 0);
    receive(two.b, 1, bytes + HALF, 8);
    post(two.a, &wr);
    CHECK(next().status == IBV_WC_SUCCESS && next().status == IBV_WC_SUCCESS);
    part(two);
}

/* ---- all of it ---- */

static void open_all(void)
{
    int count = 0;
    struct ibv_device **list = ibv_get_device_list(&count);
    struct ibv_port_attr port;
    CHECK(list && count == 1 && list[0] && !list[1] && strcmp(ibv_get_device_name(list[0]), "jichurpa0") == 0);
    context = ibv_open_device(list[0]);
    CHECK(context != NULL);
    ibv_free_device_list(list);
    CHECK(ibv_query_port(context, 1, &port) == 0 && port.state == IBV_PORT_ACTIVE && port.max_msg_sz == 1 << 20);
    CHECK(port.link_layer == IBV_LINK_LAYER_ETHERNET && port.gid_tbl_len == 1 && port.lid == 0);
    CHECK(ibv_query_port(context, 2, &port) == EINVAL);
    CHECK(ibv_query_gid(context, 1, 0, &gid) == 0 && gid.raw[10] == 0xff && gid.raw[12] == 127);
    pd = ibv_alloc_pd(context);
    channel = ibv_create_comp_channel(context);
    bytes = aligned_alloc(4096, 2 * HALF);
    CHECK(pd && channel && bytes);
    cq = ibv_create_cq(context, 2048, &gid, channel, 0);
    mine = ibv_reg_mr(pd, bytes, HALF, ALL);
    theirs = ibv_reg_mr(pd, bytes + HALF, HALF, ALL);
    CHECK(cq && mine && theirs && mine->lkey != theirs->lkey && mine->rkey != theirs->rkey);
}

static void close_all(void)
{
    CHECK(ibv_dereg_mr(mine) == 0 && ibv_dereg_mr(theirs) == 0);
    CHECK(ibv_destroy_cq(cq) == 0 && ibv_destroy_comp_channel(channel) == 0);
    CHECK(ibv_dealloc_pd(pd) == 0 && ibv_close_device(context) == 0);
    free(bytes);
}

/* A test; with the argument `times` it is told how long it took. */
static void run(const char *name, void (*test)(void), bool told)
{
    struct timespec begin, end;
    current = name;
    clock_gettime(CLOCK_MONOTONIC, &begin);
    test();
    clock_gettime(CLOCK_MONOTONIC, &end);
    if (told)
        printf("%s: %.3f s\n", name, (double)(end.tv_sec - begin.tv_sec) + (double)(end.tv_nsec - begin.tv_nsec) / 1e9);
}

#define RUN(test) run(#test, test, times)

int main(int count, char **words)
{
    bool times = count > 1 && strcmp(words[1], "times") == 0;
    bool light = count > 1 && strcmp(words[1], "light") == 0; /* where each step takes long */
    setvbuf(stdout, NULL, _IOLBF, 0);
    open_all();
    RUN(try_sends);
    RUN(try_writes_and_reads);
    RUN(try_atomics);
    RUN(try_flags);
    RUN(try_depth);
    RUN(try_overlaps);
    if (!light)
        RUN(try_reads_at_once);
    RUN(try_events);
    RUN(try_extended);
    RUN(try_passive_side);
    close_all();
    open_all(); /* the queue pairs of a context that were destroyed count until it is closed */
    RUN(try_failures);
    RUN(try_spent_retries);
    RUN(try_access_flags);
    RUN(try_flush);
    if (!light)
        RUN(try_pages);
    RUN(try_refused_calls);
    RUN(try_refused_requests);
    RUN(try_fork);
    close_all();
    puts("verbs.c: all is as it must be");
    return 0;
}
