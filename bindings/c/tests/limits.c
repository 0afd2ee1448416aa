/* Each function with each argument at its limits and beyond them. Its expected numbers are those of jichurpa.h and of docs/wire.md. */
#define _DEFAULT_SOURCE /* for mmap without its memory */
#include "checks.h"

#ifdef __linux__
#include <sys/mman.h>
#endif

#define FOUR_GIB ((size_t)1 << 32)

static const jichurpa_address here = {0x0a000001, JICHURPA_PORT, 0}, there = {0x0a000002, JICHURPA_PORT, 0};
static jichurpa_device device = JICHURPA_NOTHING;
static jichurpa_outcome out;
static jichurpa_name a, none;
static jichurpa_object p, m, c, q;

/* Texts that are no names, as the sixteen bytes that C passes. */
static const jichurpa_name bad_names[] = {
    {{0}},      {"A"},
    {"1a"},     {"_a"},
    {"a-"},     {"a b"},
    {"aB"},     {{'a', 0x80}},
    {{0, 'a'}}, {{'a', 'a', 'a', 'a', 'a', 'a', 'a', 'a', 'a', 'a', 'a', 'a', 'a', 'a', 'a', '.'}},
};
#define EACH(i, table) (size_t i = 0; i < sizeof(table) / sizeof(table)[0]; i++)

static void the_library(void)
{
    CHECK(jichurpa_abi() == JICHURPA_ABI);
    const jichurpa_name longest = jichurpa_name_of("a23456789012345_"), longer = jichurpa_name_of("a23456789012345_x");
    CHECK(memcmp(longest.bytes, "a23456789012345_", 16) == 0 && memcmp(&longer, &none, sizeof none) == 0);
}

static void devices(void)
{
    const jichurpa_address highest = {UINT32_MAX, UINT16_MAX, UINT16_MAX};
    jichurpa_address told = {0, 0, 7};
    uint32_t id = 0;
    INVALID(jichurpa_device_make(0, &here, &device));
    INVALID(jichurpa_device_make(256, &here, &device));
    INVALID(jichurpa_device_make(UINT32_MAX, &here, &device));
    OK(jichurpa_device_make(255, &highest, &device));
    OK(jichurpa_device_id(&device, &id));
    CHECK(id == 255);
    OK(jichurpa_device_address(&device, &told));
    CHECK(told.ip == UINT32_MAX && told.port == UINT16_MAX && told.reserved == 0);
    OK(jichurpa_device_free(&device));
    OK(jichurpa_device_make(1, &here, &device));
}

static void contexts(void)
{
    const jichurpa_name longest = jichurpa_name_of("a23456789012345_");
    for
        EACH(i, bad_names)
    INVALID(jichurpa_make_context(&device, &bad_names[i], &out));
    ANSWERS(jichurpa_make_context(&device, &longest, &out), JICHURPA_DONE);
    ANSWERS(jichurpa_make_context(&device, &a, &out), JICHURPA_DONE);
    REFUSED(jichurpa_make_context(&device, &a, &out), JICHURPA_REFUSED_NUMBER_TAKEN);
}

/* The functions of one thing alone, whose names are wrong in either part. */
static void wrong_objects(void)
{
    jichurpa_result (*const steps[])(jichurpa_device *, const jichurpa_object *, jichurpa_outcome *) = {
        jichurpa_make_domain, jichurpa_drop_region, jichurpa_transmit, jichurpa_expire, jichurpa_rnr_over};
    jichurpa_end end;
    for
        EACH(i, bad_names)
        {
            const jichurpa_object wrong[] = {{bad_names[i], a}, {a, bad_names[i]}};
        for
            EACH(j, wrong)
            {
            for
                EACH(k, steps)
            INVALID(steps[k](&device, &wrong[j], &out));
            INVALID(jichurpa_end_named(&device, &wrong[j], &end));
            }
        INVALID(jichurpa_end_at(&device, &bad_names[i], 0, &end));
        INVALID(jichurpa_release(&device, &bad_names[i], &out));
        }
}

/* The other functions of a thing, whose name is wrong in either part. */
static void more_wrong_objects(void)
{
    const jichurpa_qp_options options = {p.name, c.name, c.name, 8, 8};
    const jichurpa_terms terms = {256, 1, 1, 7, 7, 4, 0};
    const jichurpa_request request = {.kind = JICHURPA_WRITE};
    const jichurpa_receive receive = {0};
    jichurpa_completion completion;
    uint8_t byte = 0;
    for
        EACH(i, bad_names)
        {
            const jichurpa_object wrong[] = {{bad_names[i], a}, {a, bad_names[i]}};
        for
            EACH(j, wrong)
            {
                INVALID(jichurpa_make_region(&device, &wrong[j], &a, 0, 1, 0, &out));
                INVALID(jichurpa_make_cq(&device, &wrong[j], 1, &out));
                INVALID(jichurpa_make_qp(&device, &wrong[j], &options, &out));
                INVALID(jichurpa_connect(&device, &wrong[j], 1, &there, &terms, &out));
                INVALID(jichurpa_store(&device, &wrong[j], 0, &byte, 1, &out));
                INVALID(jichurpa_load(&device, &wrong[j], 0, &byte, 1, &out));
                INVALID(jichurpa_post_send(&device, &wrong[j], &request, &out));
                INVALID(jichurpa_post_recv(&device, &wrong[j], &receive, &out));
                INVALID(jichurpa_poll(&device, &wrong[j], &completion, 1, &out));
            }
        }
}

static void domains(void)
{
    const jichurpa_object elsewhere = {jichurpa_name_of("nowhere"), p.name};
    ANSWERS(jichurpa_make_domain(&device, &p, &out), JICHURPA_DONE);
    REFUSED(jichurpa_make_domain(&device, &p, &out), JICHURPA_REFUSED_NUMBER_TAKEN);
    REFUSED(jichurpa_make_domain(&device, &elsewhere, &out), JICHURPA_REFUSED_NO_SUCH);
}

static void regions(void)
{
    const jichurpa_name other = jichurpa_name_of("other");
    const jichurpa_object large = jichurpa_object_of("a", "large");
    INVALID(jichurpa_make_region(&device, &m, &p.name, JICHURPA_MAX_BASE + 1, 1, 0, &out));
    INVALID(jichurpa_make_region(&device, &m, &p.name, UINT64_MAX, 1, 0, &out));
    INVALID(jichurpa_make_region(&device, &m, &p.name, 0, 0, 0, &out));
    INVALID(jichurpa_make_region(&device, &m, &p.name, 0, JICHURPA_MAX_REGION + 1, 0, &out));
    INVALID(jichurpa_make_region(&device, &m, &p.name, 0, UINT32_MAX, 0, &out));
    INVALID(jichurpa_make_region(&device, &m, &p.name, 0, 1, 16, &out));
    INVALID(jichurpa_make_region(&device, &m, &p.name, 0, 1, UINT32_MAX, &out));
    INVALID(jichurpa_make_region(&device, &m, &bad_names[1], 0, 1, 0, &out));
    REFUSED(jichurpa_make_region(&device, &m, &none, 0, 1, 0, &out), JICHURPA_REFUSED_NO_SUCH);
    REFUSED(jichurpa_make_region(&device, &m, &other, 0, 1, 0, &out), JICHURPA_REFUSED_NO_SUCH);
    ANSWERS(jichurpa_make_region(&device, &m, &p.name, JICHURPA_MAX_BASE, 64, 15, &out), JICHURPA_REGION);
    CHECK(out.local_key == 0x01000002 && out.remote_key == 0x01000003);
    REFUSED(jichurpa_make_region(&device, &m, &p.name, 0, 1, 0, &out), JICHURPA_REFUSED_NUMBER_TAKEN);
    ANSWERS(jichurpa_make_region(&device, &large, &p.name, 0, JICHURPA_MAX_REGION, 0, &out), JICHURPA_REGION);
    ANSWERS(jichurpa_drop_region(&device, &large, &out), JICHURPA_DONE);
    REFUSED(jichurpa_drop_region(&device, &large, &out), JICHURPA_REFUSED_NO_SUCH);
}

static void memory(void)
{
    uint8_t bytes[65] = {1, 2, 3}, read[65] = {9};
    ANSWERS(jichurpa_store(&device, &m, JICHURPA_MAX_BASE, bytes, 64, &out), JICHURPA_DONE);
    ANSWERS(jichurpa_store(&device, &m, JICHURPA_MAX_BASE + 64, bytes, 0, &out), JICHURPA_DONE);
    REFUSED(jichurpa_store(&device, &m, JICHURPA_MAX_BASE, bytes, 65, &out), JICHURPA_REFUSED_BAD_KEY);
    REFUSED(jichurpa_store(&device, &m, JICHURPA_MAX_BASE - 1, bytes, 1, &out), JICHURPA_REFUSED_BAD_KEY);
    REFUSED(jichurpa_store(&device, &m, UINT64_MAX, bytes, 2, &out), JICHURPA_REFUSED_BAD_KEY);
    REFUSED(jichurpa_store(&device, &q, 0, bytes, 1, &out), JICHURPA_REFUSED_NO_SUCH);
    ANSWERS(jichurpa_load(&device, &m, JICHURPA_MAX_BASE, read, 64, &out), JICHURPA_BYTES);
    CHECK(out.count == 64 && memcmp(bytes, read, 64) == 0);
    ANSWERS(jichurpa_load(&device, &m, JICHURPA_MAX_BASE, read, 0, &out), JICHURPA_BYTES);
    read[0] = 9;
    REFUSED(jichurpa_load(&device, &m, JICHURPA_MAX_BASE, read, 65, &out), JICHURPA_REFUSED_BAD_KEY);
    REFUSED(jichurpa_load(&device, &m, UINT64_MAX, read, 2, &out), JICHURPA_REFUSED_BAD_KEY);
    REFUSED(jichurpa_load(&device, &q, 0, read, 1, &out), JICHURPA_REFUSED_NO_SUCH);
    CHECK(read[0] == 9);
}

/* Rooms of 2^32 bytes and completions. The system reserves addresses for them, and no memory. */
static void large_rooms(void)
{
#if defined MAP_NORESERVE && SIZE_MAX > UINT32_MAX
    const size_t bytes = FOUR_GIB * sizeof(jichurpa_completion);
    void *room = mmap(NULL, bytes, PROT_READ | PROT_WRITE, MAP_PRIVATE | MAP_ANONYMOUS | MAP_NORESERVE, -1, 0);
    if (room == MAP_FAILED) {
        puts("bindings/c: rooms of 2^32 entries left out, since the system does not reserve addresses for them");
        return;
    }
    INVALID(jichurpa_load(&device, &m, JICHURPA_MAX_BASE, room, FOUR_GIB, &out));
    REFUSED(jichurpa_load(&device, &m, JICHURPA_MAX_BASE, room, FOUR_GIB - 1, &out), JICHURPA_REFUSED_BAD_KEY);
    INVALID(jichurpa_poll(&device, &c, room, FOUR_GIB, &out));
    ANSWERS(jichurpa_poll(&device, &c, room, FOUR_GIB - 1, &out), JICHURPA_POLLED);
    munmap(room, bytes);
#else
    puts("bindings/c: rooms of 2^32 entries left out, since this system is no Linux of 64 bits");
#endif
}

static void queues(void)
{
    INVALID(jichurpa_make_cq(&device, &c, 0, &out));
    INVALID(jichurpa_make_cq(&device, &c, JICHURPA_MAX_CAPACITY + 1, &out));
    INVALID(jichurpa_make_cq(&device, &c, UINT32_MAX, &out));
    ANSWERS(jichurpa_make_cq(&device, &c, JICHURPA_MAX_CAPACITY, &out), JICHURPA_DONE);
    REFUSED(jichurpa_make_cq(&device, &c, 1, &out), JICHURPA_REFUSED_NUMBER_TAKEN);
}

static void queue_pairs(void)
{
    const jichurpa_qp_options good = {p.name, c.name, c.name, 1, JICHURPA_MAX_DEPTH};
    const uint32_t depths[] = {0, JICHURPA_MAX_DEPTH + 1, UINT32_MAX};
    for
        EACH(i, depths)
        {
            const jichurpa_qp_options sends = {p.name, c.name, c.name, depths[i], 1},
                                      receives = {p.name, c.name, c.name, 1, depths[i]};
            INVALID(jichurpa_make_qp(&device, &q, &sends, &out));
            INVALID(jichurpa_make_qp(&device, &q, &receives, &out));
        }
    const jichurpa_name absent[] = {none, jichurpa_name_of("other")};
    for
        EACH(i, absent)
        {
            const jichurpa_qp_options lacks[] = {
                {absent[i], c.name, c.name, 1, 1}, {p.name, absent[i], c.name, 1, 1}, {p.name, c.name, absent[i], 1, 1}};
        for
            EACH(j, lacks)
        REFUSED(jichurpa_make_qp(&device, &q, &lacks[j], &out), JICHURPA_REFUSED_NO_SUCH);
        }
    for (size_t i = 1; i < sizeof bad_names / sizeof bad_names[0] - 2; i++) {
        const jichurpa_name bad = bad_names[i];
        const jichurpa_qp_options wrong[] = {
            {bad, c.name, c.name, 1, 1}, {p.name, bad, c.name, 1, 1}, {p.name, c.name, bad, 1, 1}};
        for
            EACH(j, wrong)
        INVALID(jichurpa_make_qp(&device, &q, &wrong[j], &out));
    }
    ANSWERS(jichurpa_make_qp(&device, &q, &good, &out), JICHURPA_QP);
    CHECK(out.number == 0x010001);
}

static void terms_out_of_range(void)
{
    const jichurpa_terms bad[] = {
        {0, 1, 1, 7, 7, 4, 0},           {255, 1, 1, 7, 7, 4, 0},
        {300, 1, 1, 7, 7, 4, 0},         {4097, 1, 1, 7, 7, 4, 0},
        {8192, 1, 1, 7, 7, 4, 0},        {UINT32_MAX, 1, 1, 7, 7, 4, 0},
        {256, 0x1000000, 1, 7, 7, 4, 0}, {256, UINT32_MAX, 1, 7, 7, 4, 0},
        {256, 1, 0x1000000, 7, 7, 4, 0}, {256, 1, UINT32_MAX, 7, 7, 4, 0},
        {256, 1, 1, 8, 7, 4, 0},         {256, 1, 1, 255, 7, 4, 0},
        {256, 1, 1, 7, 8, 4, 0},         {256, 1, 1, 7, 255, 4, 0},
        {256, 1, 1, 7, 7, 0, 0},         {256, 1, 1, 7, 7, 17, 0},
        {256, 1, 1, 7, 7, 255, 0},
    };
    for
        EACH(i, bad)
    INVALID(jichurpa_connect(&device, &q, 0x020001, &there, &bad[i], &out));
}

static void connections(void)
{
    const jichurpa_terms good = {256, 100, JICHURPA_MAX_PSN, 7, 7, 16, 255}; /* `reserved` is not read */
    const uint32_t mtus[] = {256, 512, 1024, 2048, 4096};
    const jichurpa_object absent = jichurpa_object_of("a", "absent");
    for
        EACH(i, mtus)
        {
            const jichurpa_terms terms = {mtus[i], JICHURPA_MAX_PSN, 0, 0, 0, 1, 0};
            REFUSED(jichurpa_connect(&device, &absent, 0, &there, &terms, &out), JICHURPA_REFUSED_NO_SUCH);
        }
    INVALID(jichurpa_connect(&device, &q, JICHURPA_MAX_QP_NUMBER + 1, &there, &good, &out));
    INVALID(jichurpa_connect(&device, &q, UINT32_MAX, &there, &good, &out));
    REFUSED(jichurpa_transmit(&device, &q, &out), JICHURPA_REFUSED_BAD_STATE);
    ANSWERS(jichurpa_connect(&device, &q, JICHURPA_MAX_QP_NUMBER, &there, &good, &out), JICHURPA_DONE);
    REFUSED(jichurpa_connect(&device, &q, 0x020001, &there, &good, &out), JICHURPA_REFUSED_BAD_STATE);
}

/* A request that is right for its kind. */
static jichurpa_request request_of(uint32_t kind)
{
    const uint32_t length = kind == JICHURPA_COMPARE_SWAP || kind == JICHURPA_FETCH_ADD ? 8 : 4;
    return (jichurpa_request){.id = 7,
                              .kind = kind,
                              .flags = JICHURPA_SIGNALED,
                              .length = length,
                              .local = JICHURPA_MAX_BASE,
                              .local_key = 0x01000002};
}

static void wrong_requests(void)
{
    const uint32_t atomics[] = {JICHURPA_COMPARE_SWAP, JICHURPA_FETCH_ADD};
    const uint32_t lengths[] = {0, 7, 9, UINT32_MAX};
    jichurpa_request bad[64];
    size_t count = 0;
    const uint32_t kinds[] = {0, 6, UINT32_MAX};
    for
        EACH(i, kinds)
    bad[count++] = request_of(kinds[i]);
    for
        EACH(i, atomics)
        {
        for
            EACH(j, lengths)
            {
                bad[count] = request_of(atomics[i]);
                bad[count++].length = lengths[j];
            }
        }
    for (uint32_t kind = JICHURPA_WRITE; kind <= JICHURPA_FETCH_ADD; kind++) {
        const uint32_t flags[] = {8, UINT32_MAX};
        for
            EACH(i, flags)
            {
                bad[count] = request_of(kind);
                bad[count++].flags = flags[i];
            }
        bad[count] = request_of(kind); /* an immediate, without the flag */
        bad[count++].imm = 1;
    }
    for (size_t i = 0; i < count; i++)
        INVALID(jichurpa_post_send(&device, &q, &bad[i], &out));
}

/* Fields that the kind does not use. */
static void unused_fields(void)
{
    for (uint32_t kind = JICHURPA_WRITE; kind <= JICHURPA_FETCH_ADD; kind++) {
        jichurpa_request request[5];
        for
            EACH(i, request)
        request[i] = request_of(kind);
        request[0].remote = 1;
        request[1].remote_key = 1;
        request[2].swap_add = 1;
        request[3].compare = 1;
        request[4].flags |= JICHURPA_HAS_IMM;
        const int takes_bytes = kind == JICHURPA_WRITE || kind == JICHURPA_SEND;
        const int unused[] = {kind == JICHURPA_SEND, kind == JICHURPA_SEND, kind < JICHURPA_COMPARE_SWAP,
                              kind != JICHURPA_COMPARE_SWAP, !takes_bytes};
        for
            EACH(i, request)
            {
                if (unused[i])
                    INVALID(jichurpa_post_send(&device, &q, &request[i], &out));
            }
    }
}

static void requests(void)
{
    jichurpa_request request = request_of(JICHURPA_WRITE);
    request.length = JICHURPA_MAX_MESSAGE + 1;
    REFUSED(jichurpa_post_send(&device, &q, &request, &out), JICHURPA_REFUSED_TOO_LONG);
    request.length = UINT32_MAX;
    REFUSED(jichurpa_post_send(&device, &q, &request, &out), JICHURPA_REFUSED_TOO_LONG);
    request.length = JICHURPA_MAX_MESSAGE; /* longer than the region */
    REFUSED(jichurpa_post_send(&device, &q, &request, &out), JICHURPA_REFUSED_BAD_KEY);
    request.length = 4;
    request.local_key = UINT32_MAX;
    REFUSED(jichurpa_post_send(&device, &q, &request, &out), JICHURPA_REFUSED_BAD_KEY);
    request.local_key = 0x01000002;
    request.local = UINT64_MAX;
    REFUSED(jichurpa_post_send(&device, &q, &request, &out), JICHURPA_REFUSED_BAD_KEY);
    request = request_of(JICHURPA_WRITE);
    request.id = request.remote = UINT64_MAX;
    request.remote_key = request.imm = UINT32_MAX;
    request.flags = JICHURPA_SIGNALED | JICHURPA_FENCE | JICHURPA_HAS_IMM;
    ANSWERS(jichurpa_post_send(&device, &q, &request, &out), JICHURPA_DONE);
    REFUSED(jichurpa_post_send(&device, &q, &request, &out), JICHURPA_REFUSED_SQ_FULL);
}

static void receives(void)
{
    jichurpa_receive receive = {UINT64_MAX, JICHURPA_MAX_BASE, 0x01000002, 64};
    ANSWERS(jichurpa_post_recv(&device, &q, &receive, &out), JICHURPA_DONE);
    receive.length = 65;
    REFUSED(jichurpa_post_recv(&device, &q, &receive, &out), JICHURPA_REFUSED_BAD_KEY);
    receive.length = JICHURPA_MAX_MESSAGE;
    REFUSED(jichurpa_post_recv(&device, &q, &receive, &out), JICHURPA_REFUSED_BAD_KEY);
    receive.length = UINT32_MAX;
    CHECK(jichurpa_post_recv(&device, &q, &receive, &out) == JICHURPA_OK && out.answer == JICHURPA_REFUSED);
    receive.length = 64;
    receive.local = UINT64_MAX;
    REFUSED(jichurpa_post_recv(&device, &q, &receive, &out), JICHURPA_REFUSED_BAD_KEY);
    receive.local = JICHURPA_MAX_BASE;
    receive.local_key = UINT32_MAX;
    REFUSED(jichurpa_post_recv(&device, &q, &receive, &out), JICHURPA_REFUSED_BAD_KEY);
}

static void sending(void)
{
    uint8_t bytes[JICHURPA_MAX_DATAGRAM] = {9};
    jichurpa_datagram datagram;
    NONE(jichurpa_next_sent(&device, &datagram, bytes, sizeof bytes));
    ANSWERS(jichurpa_transmit(&device, &q, &out), JICHURPA_SENT);
    CHECK(out.sent == 1);
    /* a WRITE Only with immediate: base header 12, RETH 16, immediate 4, payload 4, CRC 4 */
    CHECK(jichurpa_next_sent(&device, &datagram, bytes, 0) == JICHURPA_TOO_SMALL && datagram.length == 40);
    CHECK(jichurpa_next_sent(&device, &datagram, bytes, 39) == JICHURPA_TOO_SMALL && bytes[0] == 9);
    OK(jichurpa_next_sent(&device, &datagram, bytes, 40));
    CHECK(datagram.to.ip == there.ip && datagram.to.port == JICHURPA_PORT && datagram.has_number == 1 && datagram.number == 0);
    CHECK(bytes[0] == 0x0b && bytes[5] == 0xff && bytes[6] == 0xff && bytes[7] == 0xff && bytes[11] == 100 && bytes[40] == 0);
    NONE(jichurpa_next_sent(&device, &datagram, bytes, sizeof bytes));
    ANSWERS(jichurpa_transmit(&device, &q, &out), JICHURPA_IDLE);
    CHECK(out.sent == 0);
}

static void arriving(void)
{
    static uint8_t bytes[1048576] = {0xff}; /* no opcode */
    const size_t counts[] = {0, 1, 19, 20, 65535, 65536, sizeof bytes};
    const jichurpa_address highest = {UINT32_MAX, UINT16_MAX, UINT16_MAX};
    for
        EACH(i, counts)
        {
            ANSWERS(jichurpa_arrive(&device, &highest, bytes, counts[i], &out), JICHURPA_TOOK);
            CHECK(out.cause == JICHURPA_TOOK_SILENT && out.detail == JICHURPA_SILENT_MALFORMED && out.count == 0 &&
                  out.sent == 0);
        }
}

static void timers(void)
{
    const jichurpa_object absent = jichurpa_object_of("a", "absent");
    ANSWERS(jichurpa_expire(&device, &q, &out), JICHURPA_EXPIRED);
    CHECK(out.count == 1);
    REFUSED(jichurpa_expire(&device, &absent, &out), JICHURPA_REFUSED_NO_SUCH);
    ANSWERS(jichurpa_rnr_over(&device, &q, &out), JICHURPA_NOT_WAITING);
    REFUSED(jichurpa_rnr_over(&device, &absent, &out), JICHURPA_REFUSED_NO_SUCH);
}

static void polling(void)
{
    jichurpa_completion completions[2] = {{.id = 9}};
    REFUSED(jichurpa_poll(&device, &q, completions, 2, &out), JICHURPA_REFUSED_NO_SUCH);
    ANSWERS(jichurpa_poll(&device, &c, completions, 0, &out), JICHURPA_POLLED);
    ANSWERS(jichurpa_poll(&device, &c, completions, 2, &out), JICHURPA_POLLED);
    CHECK(out.count == 0 && completions[0].id == 9);
}

static void reading(void)
{
    jichurpa_name name;
    jichurpa_end end;
    uint64_t expected = 0, top = 0;
    OK(jichurpa_context_at(&device, 1, &name));
    CHECK(memcmp(&name, &a, sizeof a) == 0);
    NONE(jichurpa_context_at(&device, 2, &name));
    NONE(jichurpa_context_at(&device, SIZE_MAX, &name));
    OK(jichurpa_end_at(&device, &a, 0, &end));
    CHECK(memcmp(&end.name, &q, sizeof q) == 0 && end.number == 0x010001 && end.peer == JICHURPA_MAX_QP_NUMBER);
    NONE(jichurpa_end_at(&device, &a, 1, &end));
    NONE(jichurpa_end_at(&device, &a, SIZE_MAX, &end));
    NONE(jichurpa_end_at(&device, &p.name, 0, &end));
    OK(jichurpa_end_named(&device, &q, &end));
    /* the expiry of `timers` went back to the oldest packet */
    CHECK(end.state == JICHURPA_RUNNING && end.untold == 1 && end.last == end.una + 1 && end.moves == 0 && end.reserved == 0);
    NONE(jichurpa_end_named(&device, &c, &end));
    OK(jichurpa_end_numbered(&device, 0x010001, &end));
    NONE(jichurpa_end_numbered(&device, 0, &end));
    NONE(jichurpa_end_numbered(&device, 0x010002, &end));
    NONE(jichurpa_end_numbered(&device, UINT32_MAX, &end));
    OK(jichurpa_marks(&device, 0x010001, &expected, &top));
    CHECK(expected == 0 && top == 1);
    NONE(jichurpa_marks(&device, 0, &expected, &top));
    NONE(jichurpa_marks(&device, UINT32_MAX, &expected, &top));
}

static uint8_t dump[65536];
static uint64_t length;

/* Stops the context a, and reads its image. */
static void stopping(jichurpa_image *image)
{
    jichurpa_name name;
    jichurpa_end end;
    uint64_t count = 0;
    uint8_t one = 0;
    INVALID(jichurpa_stop(&device, &a, 2, image, &out));
    INVALID(jichurpa_stop(&device, &a, UINT32_MAX, image, &out));
    for
        EACH(i, bad_names)
    INVALID(jichurpa_stop(&device, &bad_names[i], 1, image, &out));
    REFUSED(jichurpa_stop(&device, &p.name, 0, image, &out), JICHURPA_REFUSED_NO_SUCH);
    CHECK(image->there == 0);
    ANSWERS(jichurpa_stop(&device, &a, 1, image, &out), JICHURPA_STOPPED);
    OK(jichurpa_image_length(image, &length));
    CHECK(length > 64 && length < sizeof dump);
    OK(jichurpa_image_read(image, 0, dump, sizeof dump, &count));
    CHECK(count == length && memcmp(dump, "MIGDUMP", 8) == 0);
    OK(jichurpa_image_read(image, length - 1, &one, 1, &count));
    CHECK(count == 1 && one == dump[length - 1]);
    const uint64_t behind[] = {length, length + 1, UINT64_MAX};
    for
        EACH(i, behind)
        {
            OK(jichurpa_image_read(image, behind[i], &one, 1, &count));
            CHECK(count == 0 && one == dump[length - 1]);
        }
    OK(jichurpa_image_read(image, 0, &one, 0, &count));
    CHECK(count == 0);
    OK(jichurpa_image_name(image, &name));
    CHECK(memcmp(&name, &a, sizeof a) == 0);
    OK(jichurpa_image_end(image, 0, &end));
    CHECK(end.number == 0x010001 && end.state == JICHURPA_RUNNING && end.untold == 1 && end.last == 0);
    NONE(jichurpa_image_end(image, 1, &end));
    NONE(jichurpa_image_end(image, SIZE_MAX, &end));
}

/* Bytes that are a dump, and bytes that are none. */
static void decoding(jichurpa_image *copy)
{
    jichurpa_fault fault = {0, 0, 7};
    CHECK(jichurpa_image_decode(dump, 0, copy, &fault) == JICHURPA_BAD_DUMP);
    CHECK(fault.why == JICHURPA_DUMP_SHORT && fault.place == 0 && fault.reserved == 0);
    CHECK(jichurpa_image_decode(dump, length - 1, copy, &fault) == JICHURPA_BAD_DUMP);
    CHECK(fault.why == JICHURPA_DUMP_SHORT && fault.place == length - 1);
    CHECK(jichurpa_image_decode(dump, length + 1, copy, &fault) == JICHURPA_BAD_DUMP);
    CHECK(fault.why == JICHURPA_DUMP_TRAILING && fault.place == length && copy->there == 0);
    OK(jichurpa_image_decode(dump, length, copy, &fault));
    OK(jichurpa_image_free(copy));
}

/* The same in pieces. */
static void feeding(jichurpa_image *copy)
{
    jichurpa_reader reader = JICHURPA_NOTHING;
    jichurpa_fault fault;
    OK(jichurpa_reader_make(&reader));
    CHECK(jichurpa_reader_finish(&reader, copy, &fault) == JICHURPA_BAD_DUMP);
    CHECK(fault.why == JICHURPA_DUMP_SHORT && fault.place == 0);
    for (uint64_t i = 0; i < length; i++) {
        OK(jichurpa_reader_feed(&reader, dump + i, 0, &fault));
        OK(jichurpa_reader_feed(&reader, dump + i, 1, &fault));
    }
    OK(jichurpa_reader_finish(&reader, copy, &fault));
    CHECK(jichurpa_reader_feed(&reader, (const uint8_t *)"MIGDUMP\0\0", 9, &fault) == JICHURPA_OK);
    CHECK(jichurpa_reader_feed(&reader, (const uint8_t *)"\377", 1, &fault) == JICHURPA_BAD_DUMP);
    CHECK(fault.why == JICHURPA_DUMP_VERSION && fault.place == 8);
    CHECK(jichurpa_reader_feed(&reader, dump, 1, &fault) == JICHURPA_BAD_DUMP); /* it is answered from then on */
    OK(jichurpa_reader_free(&reader));
}

static void restoring(jichurpa_image *copy)
{
    jichurpa_end end;
    REFUSED(jichurpa_restore(&device, copy, &out), JICHURPA_REFUSED_NUMBER_TAKEN); /* its husk is here */
    CHECK(copy->there != 0);
    ANSWERS(jichurpa_release(&device, &a, &out), JICHURPA_DONE);
    REFUSED(jichurpa_release(&device, &a, &out), JICHURPA_REFUSED_NO_SUCH);
    ANSWERS(jichurpa_restore(&device, copy, &out), JICHURPA_DONE);
    OK(jichurpa_end_named(&device, &q, &end));
    CHECK(end.state == JICHURPA_RESUMING && end.moves == 1 && end.may_send == 1 && end.in_flight == 0);
}

int main(void)
{
    jichurpa_image image = JICHURPA_NOTHING, copy = JICHURPA_NOTHING;
    void (*const parts[])(void) = {
        the_library, devices,        contexts,      wrong_objects, more_wrong_objects, domains,
        regions,     memory,         queues,        queue_pairs,   large_rooms,        terms_out_of_range,
        connections, wrong_requests, unused_fields, requests,      receives,           sending,
        arriving,    timers,         polling,       reading};
    a = jichurpa_name_of("a");
    none = jichurpa_name_of("");
    p = jichurpa_object_of("a", "p");
    m = jichurpa_object_of("a", "m");
    c = jichurpa_object_of("a", "c");
    q = jichurpa_object_of("a", "q");
    for
        EACH(i, parts)
    parts[i]();
    stopping(&image);
    decoding(&copy);
    feeding(&copy);
    restoring(&copy);
    OK(jichurpa_image_free(&image));
    OK(jichurpa_image_free(&copy));
    OK(jichurpa_device_free(&device));
    return 0;
}
