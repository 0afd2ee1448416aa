/* Context a on device 1 writes five bytes into the memory of context b on device 2. */
#include <jichurpa.h>
#include <stdio.h>
#include <stdlib.h>
#define DO(step) ((step) == JICHURPA_OK && out.answer != JICHURPA_REFUSED ? (void)0 : exit(1))

int main(void)
{
    const jichurpa_address at[] = {{0x0a000001, JICHURPA_PORT, 0}, {0x0a000002, JICHURPA_PORT, 0}};
    jichurpa_request write = {.id = 7, .kind = JICHURPA_WRITE, .flags = JICHURPA_SIGNALED, .length = 5};
    jichurpa_device device[2] = {JICHURPA_NOTHING, JICHURPA_NOTHING};
    jichurpa_object d[2], c[2], m[2], q[2];
    jichurpa_outcome out = {0}, key[2];
    jichurpa_datagram datagram;
    jichurpa_completion done;
    uint8_t bytes[JICHURPA_MAX_DATAGRAM];
    for (unsigned i = 0; i < 2; i++) { /* a device with a context, whose queue pair is connected to the other's */
        const char *name = i == 0 ? "a" : "b";
        d[i] = jichurpa_object_of(name, "d"), c[i] = jichurpa_object_of(name, "c");
        m[i] = jichurpa_object_of(name, "m"), q[i] = jichurpa_object_of(name, "q");
        DO(jichurpa_device_make(i + 1, &at[i], &device[i]));
        DO(jichurpa_make_context(&device[i], &d[i].context, &out));
        DO(jichurpa_make_domain(&device[i], &d[i], &out));
        DO(jichurpa_make_region(&device[i], &m[i], &d[i].name, 4096, 64, 15, &key[i]));
        DO(jichurpa_make_cq(&device[i], &c[i], 16, &out));
        DO(jichurpa_make_qp(&device[i], &q[i], &(jichurpa_qp_options){d[i].name, c[i].name, c[i].name, 8, 8}, &out));
        DO(jichurpa_connect(&device[i], &q[i], (2 - i) << 16 | 1, &at[1 - i], &(jichurpa_terms){1024, 1, 1, 7, 7, 4, 0}, &out));
    }
    write.local = write.remote = 4096, write.local_key = key[0].local_key, write.remote_key = key[1].remote_key;
    DO(jichurpa_store(&device[0], &m[0], 4096, (const uint8_t *)"hello", 5, &out));
    DO(jichurpa_post_send(&device[0], &q[0], &write, &out));
    DO(jichurpa_transmit(&device[0], &q[0], &out));
    for (int i = 0; jichurpa_next_sent(&device[i], &datagram, bytes, sizeof bytes) == JICHURPA_OK; i = 1 - i)
        DO(jichurpa_arrive(&device[1 - i], &at[i], bytes, datagram.length, &out)); /* the packet, its acknowledgement */
    DO(jichurpa_poll(&device[0], &c[0], &done, 1, &out));
    DO(jichurpa_load(&device[1], &m[1], 4096, bytes, 5, &out));
    printf("request %u: status %u; b has %.5s\n", (unsigned)done.id, done.status, (const char *)bytes);
    return (int)(jichurpa_device_free(&device[0]) + jichurpa_device_free(&device[1]));
}
