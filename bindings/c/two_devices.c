/*
 * Context `a` on device 1 writes 600 bytes to `b` on device 2, which moves to device 3 after the first of the three packets.
 */
#include "jichurpa.h"

#include <stdio.h>
#include <stdlib.h>
#include <string.h>

static jichurpa_device devices[4]; /* by their ids, from 1 */
static jichurpa_outcome out;

static void done(jichurpa_result result)
{
    if (result != JICHURPA_OK || out.answer == JICHURPA_REFUSED) {
        printf("result %d, answer %u, cause %u\n", (int)result, out.answer, out.cause);
        exit(1);
    }
}

static jichurpa_address address_of(uint32_t id)
{
    return (jichurpa_address){.ip = 0x0a000000 + id, .port = JICHURPA_PORT};
}

/* What a device has to send arrives at once, and so does what answers it. */
static void carry(uint32_t id)
{
    uint8_t bytes[JICHURPA_MAX_DATAGRAM];
    jichurpa_datagram datagram;
    const jichurpa_address from = address_of(id);
    while (jichurpa_next_sent(&devices[id], &datagram, bytes, sizeof bytes) == JICHURPA_OK) {
        done(jichurpa_arrive(&devices[datagram.to.ip & 3], &from, bytes, datagram.length, &out));
        carry(datagram.to.ip & 3);
    }
}

/* A queue pair sends what it may, at most so many packets. */
static void send(uint32_t id, const jichurpa_object *qp, int most)
{
    for (int i = 0; i < most; i++) {
        done(jichurpa_transmit(&devices[id], qp, &out));
        carry(id);
    }
}

/* A context with a region of 1,024 bytes at 4096, and a queue pair connected to that of a partner. The region's keys. */
static jichurpa_outcome open_context(uint32_t id, const char *context, uint32_t partner)
{
    const jichurpa_object p = jichurpa_object_of(context, "p"), c = jichurpa_object_of(context, "c");
    const jichurpa_object m = jichurpa_object_of(context, "m"), q = jichurpa_object_of(context, "q");
    const jichurpa_qp_options options = {p.name, c.name, c.name, 8, 8};
    const jichurpa_terms terms = {.mtu = 256, .own_start = 100, .peer_start = 100, .retry = 7, .rnr = 7, .reads = 4};
    const jichurpa_address there = address_of(partner);
    jichurpa_outcome keys;
    done(jichurpa_make_context(&devices[id], &p.context, &out));
    done(jichurpa_make_domain(&devices[id], &p, &out));
    done(jichurpa_make_region(&devices[id], &m, &p.name, 4096, 1024, 15, &keys));
    done(jichurpa_make_cq(&devices[id], &c, 16, &out));
    done(jichurpa_make_qp(&devices[id], &q, &options, &out));
    done(jichurpa_connect(&devices[id], &q, (partner << 16) + 1, &there, &terms, &out));
    return keys;
}

int main(void)
{
    const jichurpa_object am = jichurpa_object_of("a", "m"), bm = jichurpa_object_of("b", "m");
    const jichurpa_object aq = jichurpa_object_of("a", "q"), bq = jichurpa_object_of("b", "q");
    jichurpa_image image = JICHURPA_NOTHING, copy = JICHURPA_NOTHING;
    jichurpa_request write = {.id = 1, .kind = JICHURPA_WRITE, .flags = JICHURPA_SIGNALED, .local = 4096, .remote = 4096};
    const jichurpa_object ac = jichurpa_object_of("a", "c");
    jichurpa_completion wc;
    jichurpa_fault fault;
    uint8_t bytes[600] = "six hundred bytes", read[600], dump[65536];
    uint64_t length;
    for (uint32_t id = 1; id < 4; id++) {
        const jichurpa_address here = address_of(id);
        done(jichurpa_device_make(id, &here, &devices[id]));
    }
    write.local_key = open_context(1, "a", 2).local_key;
    write.remote_key = open_context(2, "b", 1).remote_key;
    write.length = sizeof bytes;
    done(jichurpa_store(&devices[1], &am, 4096, bytes, sizeof bytes, &out));
    done(jichurpa_post_send(&devices[1], &aq, &write, &out));
    send(1, &aq, 1); /* the first of three packets */
    done(jichurpa_stop(&devices[2], &bq.context, 1, &image, &out));
    done(jichurpa_image_read(&image, 0, dump, sizeof dump, &length));
    done(jichurpa_image_decode(dump, length, &copy, &fault)); /* on the other machine */
    done(jichurpa_restore(&devices[3], &copy, &out));
    send(3, &bq, 1); /* it tells its partner its new place */
    send(1, &aq, 8);
    done(jichurpa_release(&devices[2], &bq.context, &out));
    done(jichurpa_poll(&devices[1], &ac, &wc, 1, &out));
    printf("completions %u: id %u, status %u, %u bytes\n", (unsigned)out.count, (unsigned)wc.id, wc.status, wc.length);
    done(jichurpa_load(&devices[3], &bm, 4096, read, sizeof read, &out));
    printf("the bytes %s\n", memcmp(bytes, read, sizeof bytes) == 0 ? "are there" : "differ");
    for (uint32_t id = 1; id < 4; id++)
        jichurpa_device_free(&devices[id]);
    return (int)(jichurpa_image_free(&image) + jichurpa_image_free(&copy));
}
