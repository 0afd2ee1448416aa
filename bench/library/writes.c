/*
 * WRITEs of 1 KiB through the C library, a thousand for each word of the command: posted, sent, arrived, acknowledged and polled.
 * main.rt.txt does the same in Rattle. It ends with 0 where each completed.
 */
#include <jichurpa.h>
#include <stdio.h>
#include <stdlib.h>

static jichurpa_device device[2];
static jichurpa_outcome out;

static void done(jichurpa_result result, uint32_t answer)
{
    if (result != JICHURPA_OK || out.answer != answer)
        exit(1);
}

/* Device i with context `a`: a region of 1 MiB at 65536, and a queue pair that is connected to the other device's. */
static void make(uint32_t i, const jichurpa_address *here, const jichurpa_address *there)
{
    const jichurpa_object p = jichurpa_object_of("a", "p"), c = jichurpa_object_of("a", "c");
    const jichurpa_object m = jichurpa_object_of("a", "m"), q = jichurpa_object_of("a", "q");
    const jichurpa_qp_options options = {p.name, c.name, c.name, 64, 64};
    const jichurpa_terms terms = {1024, 100, 100, 7, 7, 4, 0};
    if (jichurpa_device_make(i + 1, here, &device[i]) != JICHURPA_OK)
        exit(1);
    done(jichurpa_make_context(&device[i], &p.context, &out), JICHURPA_DONE);
    done(jichurpa_make_domain(&device[i], &p, &out), JICHURPA_DONE);
    done(jichurpa_make_region(&device[i], &m, &p.name, 65536, 1048576, 15, &out), JICHURPA_REGION);
    done(jichurpa_make_cq(&device[i], &c, 256, &out), JICHURPA_DONE);
    done(jichurpa_make_qp(&device[i], &q, &options, &out), JICHURPA_QP);
    done(jichurpa_connect(&device[i], &q, (2 - i) << 16 | 1, there, &terms, &out), JICHURPA_DONE);
}

/* The datagram of one device arrives at the other. */
static void carry(int from, const jichurpa_address *source)
{
    uint8_t bytes[JICHURPA_MAX_DATAGRAM];
    jichurpa_datagram datagram;
    if (jichurpa_next_sent(&device[from], &datagram, bytes, sizeof bytes) != JICHURPA_OK)
        exit(1);
    done(jichurpa_arrive(&device[1 - from], source, bytes, datagram.length, &out), JICHURPA_TOOK);
}

int main(int words, char **word)
{
    const jichurpa_address at[] = {{0x0a000001, JICHURPA_PORT, 0}, {0x0a000002, JICHURPA_PORT, 0}};
    const jichurpa_object q = jichurpa_object_of("a", "q"), c = jichurpa_object_of("a", "c");
    jichurpa_request write = {.kind = JICHURPA_WRITE, .flags = JICHURPA_SIGNALED, .length = 1024};
    jichurpa_completion completion;
    uint64_t completed = 0;
    (void)word;
    make(0, &at[0], &at[1]);
    make(1, &at[1], &at[0]);
    write.local_key = 0x01000002;
    write.remote_key = 0x02000003;
    for (long i = 0; i < (words - 1) * 1000L; i++) {
        write.id = (uint64_t)i % 60;
        write.local = write.remote = 65536 + write.id * 1024;
        done(jichurpa_post_send(&device[0], &q, &write, &out), JICHURPA_DONE);
        done(jichurpa_transmit(&device[0], &q, &out), JICHURPA_SENT);
        carry(0, &at[0]);
        carry(1, &at[1]);
        done(jichurpa_poll(&device[0], &c, &completion, 1, &out), JICHURPA_POLLED);
        completed += out.count;
    }
    printf("%llu\n", (unsigned long long)completed);
    return 0;
}
