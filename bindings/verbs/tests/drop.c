/*
 * For tests alone: preloaded beside the layer, it loses one datagram in JICHURPA_TEST_DROP that is to be sent, by chance. What it loses
 * counts as sent, as on a network.
 */
#include <dlfcn.h>
#include <stdatomic.h>
#include <stdint.h>
#include <stdlib.h>
#include <sys/socket.h>
#include <unistd.h>

typedef int sending(int, struct mmsghdr *, unsigned, int);

static uint64_t state;

static unsigned long chance(void)
{
    if (state == 0)
        state = (uint64_t)getpid() * UINT64_C(0x9e3779b97f4a7c15) + 1;
    state ^= state << 13;
    state ^= state >> 7;
    state ^= state << 17;
    return (unsigned long)(state >> 33);
}

int sendmmsg(int socket, struct mmsghdr *messages, unsigned count, int flags)
{
    static sending *real;
    const char *text = getenv("JICHURPA_TEST_DROP");
    unsigned long one_in = text ? strtoul(text, NULL, 10) : 0;
    if (!real)
        real = (sending *)dlsym(RTLD_NEXT, "sendmmsg");
    for (unsigned i = 0; i < count; i++)
        if ((one_in == 0 || chance() % one_in != 0) && real(socket, messages + i, 1, flags) != 1)
            return i > 0 ? (int)i : -1;
    return (int)count;
}
