/*
 * Each allocation of each call is refused in turn: the call answers JICHURPA_NO_MEMORY, and what is seen of the device is as
 * before. Linked with --wrap=malloc and --wrap=realloc.
 */
#include "checks.h"

void *__real_malloc(size_t size);
void *__real_realloc(void *block, size_t size);
void *__wrap_malloc(size_t size);
void *__wrap_realloc(void *block, size_t size);

static int refused_at = -1; /* so many allocations are granted, and the next is refused; none is refused where it is -1 */
static int refusals;

static int refuses(void)
{
    if (refused_at < 0 || refused_at-- > 0)
        return 0;
    refusals += 1;
    return 1;
}

void *__wrap_malloc(size_t size)
{
    return refuses() ? NULL : __real_malloc(size);
}

void *__wrap_realloc(void *block, size_t size)
{
    return refuses() ? NULL : __real_realloc(block, size);
}

static jichurpa_device device = JICHURPA_NOTHING;
static jichurpa_image image = JICHURPA_NOTHING, copy = JICHURPA_NOTHING;
static jichurpa_outcome out;
static jichurpa_fault fault;
static jichurpa_name a, p_name, c_name;
static jichurpa_object p, m, c, q;
static uint8_t bytes[4096], packet[JICHURPA_MAX_DATAGRAM], dump[65536];
static uint8_t known[8192], now[8192]; /* what the region had after the last step that changes it, and what it has */
static uint64_t length, packet_length;
static const jichurpa_address here = {0x0a000001, JICHURPA_PORT, 0};

/* What is seen of the device, where it is there, and of the datagram that is to be read next. */
typedef struct seen {
    jichurpa_result of_device, of_end, of_context, of_datagram;
    jichurpa_datagram datagram;
    jichurpa_end end;
    jichurpa_name context;
} seen;

static seen look(void)
{
    seen s;
    uint32_t id = 0;
    uint8_t none = 0;
    memset(&s, 0, sizeof s);
    s.of_device = jichurpa_device_id(&device, &id);
    s.of_context = jichurpa_context_at(&device, 0, &s.context);
    s.of_end = jichurpa_end_named(&device, &q, &s.end);
    s.of_datagram = jichurpa_next_sent(&device, &s.datagram, &none, 0);
    return s;
}

/* Reads the region into memory, where it is there. It is a step, so datagrams that were not read are dropped. */
static int read_region(uint8_t *into)
{
    jichurpa_outcome loaded = {0};
    return jichurpa_load(&device, &m, 4096, into, 8192, &loaded) == JICHURPA_OK && loaded.answer == JICHURPA_BYTES;
}

static jichurpa_result make(void)
{
    return jichurpa_device_make(1, &here, &device);
}

static jichurpa_result context(void)
{
    return jichurpa_make_context(&device, &a, &out);
}

static jichurpa_result domain(void)
{
    return jichurpa_make_domain(&device, &p, &out);
}

static jichurpa_result region(void)
{
    return jichurpa_make_region(&device, &m, &p_name, 4096, 8192, 15, &out);
}

static jichurpa_result cq(void)
{
    return jichurpa_make_cq(&device, &c, 16, &out);
}

static jichurpa_result qp(void)
{
    const jichurpa_qp_options options = {p_name, c_name, c_name, 8, 8};
    return jichurpa_make_qp(&device, &q, &options, &out);
}

static jichurpa_result connected(void)
{
    /* to itself, so that what it sends may arrive at it */
    const jichurpa_terms terms = {256, 100, 100, 7, 7, 4, 0};
    return jichurpa_connect(&device, &q, 0x010001, &here, &terms, &out);
}

static jichurpa_result other_region(void)
{
    return jichurpa_make_region(&device, &p, &p_name, 0, 1, 0, &out);
}

static jichurpa_result drop(void)
{
    return jichurpa_drop_region(&device, &p, &out);
}

static jichurpa_result receive(void)
{
    const jichurpa_receive place = {2, 4096, 0x01000002, 256};
    return jichurpa_post_recv(&device, &q, &place, &out);
}

static jichurpa_result store(void)
{
    return jichurpa_store(&device, &m, 4096, bytes, sizeof bytes, &out);
}

static jichurpa_result post(void)
{
    jichurpa_request request = {0};
    request.kind = JICHURPA_WRITE;
    request.length = 600;
    request.local = 4096;
    request.remote = 8192;
    request.local_key = 0x01000002;
    request.remote_key = 0x01000003;
    return jichurpa_post_send(&device, &q, &request, &out);
}

static jichurpa_result transmit(void)
{
    return jichurpa_transmit(&device, &q, &out);
}

static jichurpa_result fetch(void)
{
    jichurpa_datagram datagram;
    const jichurpa_result result = jichurpa_next_sent(&device, &datagram, packet, sizeof packet);
    packet_length = datagram.length;
    return result;
}

static jichurpa_result arrive(void)
{
    return jichurpa_arrive(&device, &here, packet, packet_length, &out);
}

/* A datagram ahead of the expected one, which is answered. */
static jichurpa_result arrive_early(void)
{
    const uint8_t psn = packet[11];
    packet[11] = (uint8_t)(psn + 5);
    const jichurpa_result result = arrive();
    packet[11] = psn;
    CHECK(result != JICHURPA_OK || out.cause == JICHURPA_TOOK_SEQ_NAK);
    return result;
}

static jichurpa_result expire(void)
{
    return jichurpa_expire(&device, &q, &out);
}

static jichurpa_result rnr_over(void)
{
    return jichurpa_rnr_over(&device, &q, &out);
}

static jichurpa_result load(void)
{
    return jichurpa_load(&device, &m, 4096, bytes, sizeof bytes, &out);
}

static jichurpa_result poll(void)
{
    jichurpa_completion completions[4];
    return jichurpa_poll(&device, &c, completions, 4, &out);
}

static jichurpa_result stop(void)
{
    return jichurpa_stop(&device, &a, 1, &image, &out);
}

static jichurpa_result take(void)
{
    jichurpa_result result = jichurpa_image_length(&image, &length);
    CHECK(result == JICHURPA_OK && length < sizeof dump);
    return jichurpa_image_read(&image, 0, dump, sizeof dump, &length);
}

static jichurpa_result decode(void)
{
    return jichurpa_image_decode(dump, length, &copy, &fault);
}

/* The same by pieces. The reader is given up where memory runs out, since its bytes may be lost. */
static jichurpa_result pieces(void)
{
    jichurpa_reader reader = JICHURPA_NOTHING;
    jichurpa_image whole = JICHURPA_NOTHING;
    jichurpa_result result = jichurpa_reader_make(&reader);
    for (uint64_t i = 0; result == JICHURPA_OK && i < length; i += 1000)
        result = jichurpa_reader_feed(&reader, dump + i, length - i < 1000 ? length - i : 1000, &fault);
    if (result == JICHURPA_OK)
        result = jichurpa_reader_finish(&reader, &whole, &fault);
    CHECK((result == JICHURPA_OK) == (whole.there != 0));
    CHECK(jichurpa_image_free(&whole) == JICHURPA_OK && jichurpa_reader_free(&reader) == JICHURPA_OK);
    return result;
}

static jichurpa_result release(void)
{
    return jichurpa_release(&device, &a, &out);
}

static jichurpa_result restore(void)
{
    return jichurpa_restore(&device, &copy, &out);
}

static jichurpa_result let_go(void)
{
    CHECK(jichurpa_image_free(&copy) == JICHURPA_OK && jichurpa_image_free(&image) == JICHURPA_OK);
    return jichurpa_device_free(&device);
}

/* Refuses the first allocation of a call, then the second, and so on, until it needs no more. */
static int in_turn(jichurpa_result (*call)(void))
{
    for (int granted = 0;; granted++) {
        const seen before = look();
        refused_at = granted;
        refusals = 0;
        const jichurpa_result result = call();
        refused_at = -1;
        if (refusals == 0) {
            CHECK(result == JICHURPA_OK && out.answer != JICHURPA_REFUSED);
            if (call == region || call == store || call == arrive)
                CHECK(read_region(known));
            return granted;
        }
        CHECK(result == JICHURPA_NO_MEMORY);
        const seen after = look();
        CHECK(memcmp(&before, &after, sizeof before) == 0);
        CHECK(!read_region(now) || memcmp(now, known, sizeof now) == 0);
    }
}

int main(void)
{
    jichurpa_result (*const calls[])(void) = {make,         context,      domain,  region,   cq,      qp,       connected,
                                              other_region, drop,         receive, store,    post,    transmit, fetch,
                                              arrive,       arrive_early, expire,  rnr_over, load,    poll,     stop,
                                              take,         decode,       pieces,  release,  restore, let_go};
    int taken = 0;
    a = jichurpa_name_of("a");
    p_name = jichurpa_name_of("p");
    c_name = jichurpa_name_of("c");
    p = jichurpa_object_of("a", "p");
    m = jichurpa_object_of("a", "m");
    c = jichurpa_object_of("a", "c");
    q = jichurpa_object_of("a", "q");
    for (size_t i = 0; i < sizeof calls / sizeof calls[0]; i++)
        taken += in_turn(calls[i]);
    CHECK(taken > 20); /* so the allocator that was refused is the library's */
    return 0;
}
