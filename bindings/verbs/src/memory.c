/* Protection domains, and memory regions: the program's memory, and the regions of the device that stand for it. */
#include "node.h"
#include <endian.h>
#include <errno.h>
#include <stdlib.h>
#include <string.h>

#undef ibv_reg_mr
#undef ibv_reg_mr_iova

#define SUPPORTED_ACCESS                                                                                                       \
    (IBV_ACCESS_LOCAL_WRITE | IBV_ACCESS_REMOTE_WRITE | IBV_ACCESS_REMOTE_READ | IBV_ACCESS_REMOTE_ATOMIC |                    \
     IBV_ACCESS_ZERO_BASED | IBV_ACCESS_HUGETLB | (int)IBV_ACCESS_OPTIONAL_RANGE)

/* ---- bytes between the program and the device ---- */

bool is_in(const struct memory *memory, uint64_t at, uint64_t length)
{
    return at >= memory->base && length <= memory->ibv.length && at - memory->base <= memory->ibv.length - length;
}

static uint8_t *place(const struct memory *memory, uint64_t at)
{
    return (uint8_t *)memory->ibv.addr + (at - memory->base);
}

/* Puts the program's bytes into the device. */
bool copy_in(struct memory *memory, uint64_t at, uint64_t length)
{
    jichurpa_outcome out;
    if (length == 0)
        return true;
    return refused(jichurpa_store(&node.here.device, &memory->name, at, place(memory, at), length, &out), &out) == 0;
}

/*
 * Takes bytes that landed out of the device. The last byte comes behind all others, for programs that look at it alone to see that
 * a message is there.
 */
void copy_out(struct memory *memory, uint64_t at, uint64_t length)
{
    uint8_t *to = place(memory, at), last;
    jichurpa_outcome out;
    if (length == 0)
        return;
    if (length > 1)
        jichurpa_load(&node.here.device, &memory->name, at, to, length - 1, &out);
    jichurpa_load(&node.here.device, &memory->name, at + length - 1, &last, 1, &out);
    __atomic_store_n(to + length - 1, last, __ATOMIC_RELEASE);
}

/* The word that an atomic is for goes in; the device has words with the most significant byte first. */
bool word_in(struct memory *memory, uint64_t at, uint64_t *held)
{
    jichurpa_outcome out;
    *held = __atomic_load_n((uint64_t *)(void *)place(memory, at), __ATOMIC_ACQUIRE);
    uint64_t word = htobe64(*held);
    return refused(jichurpa_store(&node.here.device, &memory->name, at, (uint8_t *)&word, 8, &out), &out) == 0;
}

/* The word that an atomic made comes out, where the program has not changed it meanwhile. */
void word_out(struct memory *memory, uint64_t at, uint64_t held)
{
    uint64_t word = 0;
    jichurpa_outcome out;
    jichurpa_load(&node.here.device, &memory->name, at, (uint8_t *)&word, 8, &out);
    __atomic_compare_exchange_n((uint64_t *)(void *)place(memory, at), &held, be64toh(word), false, __ATOMIC_RELEASE,
                                __ATOMIC_RELAXED);
}

/* The old word that an atomic of the program's own brought. */
void old_word_out(struct memory *memory, uint64_t at)
{
    uint64_t word = 0;
    jichurpa_outcome out;
    jichurpa_load(&node.here.device, &memory->name, at, (uint8_t *)&word, 8, &out);
    word = be64toh(word);
    memcpy(place(memory, at), &word, 8);
}

/* ---- protection domains ---- */

struct ibv_pd *ibv_alloc_pd(struct ibv_context *ibv)
{
    struct context *context = context_of(ibv);
    jichurpa_outcome out;
    int error = ENODEV;
    if (!node_enter()) {
        errno = ENODEV;
        return NULL;
    }
    struct domain *domain = context->spare;
    if (domain) {
        context->spare = domain->next_spare;
        error = 0;
    } else if ((domain = calloc(1, sizeof *domain))) {
        domain->ibv.context = ibv;
        domain->name = next_name(context, 'd');
        error = refused(jichurpa_make_domain(&node.here.device, &domain->name, &out), &out);
    } else {
        error = ENOMEM;
    }
    node_leave();
    if (error == 0)
        return &domain->ibv;
    free(domain);
    errno = error;
    return NULL;
}

int ibv_dealloc_pd(struct ibv_pd *pd)
{
    struct domain *domain = (struct domain *)pd;
    struct context *context = context_of(pd->context);
    if (!node_enter())
        return ENODEV;
    int error = domain->users ? EBUSY : 0;
    if (error == 0) { /* the device has no way to drop a domain, so the next one that is asked for is this */
        domain->next_spare = context->spare;
        context->spare = domain;
    }
    node_leave();
    return error;
}

/* ---- memory regions ---- */

static uint32_t rights(unsigned access)
{
    return (access & IBV_ACCESS_LOCAL_WRITE ? JICHURPA_LOCAL_WRITE : 0) |
           (access & IBV_ACCESS_REMOTE_WRITE ? JICHURPA_REMOTE_WRITE : 0) |
           (access & IBV_ACCESS_REMOTE_READ ? JICHURPA_REMOTE_READ : 0) |
           (access & IBV_ACCESS_REMOTE_ATOMIC ? JICHURPA_REMOTE_ATOMIC : 0);
}

static int check_region(size_t length, uint64_t base, unsigned access)
{
    const unsigned written = IBV_ACCESS_REMOTE_WRITE | IBV_ACCESS_REMOTE_ATOMIC;
    if (access & ~(unsigned)SUPPORTED_ACCESS)
        return EOPNOTSUPP;
    if (length == 0 || base > JICHURPA_MAX_BASE || ((access & written) && !(access & IBV_ACCESS_LOCAL_WRITE)))
        return EINVAL;
    return length > JICHURPA_MAX_REGION ? ENOMEM : 0;
}

/* A region, with node.lock held. Where there is none, `error` says why. */
struct memory *memory_make(struct domain *domain, void *at, size_t length, uint64_t base, unsigned access, int *error)
{
    jichurpa_outcome out;
    struct memory *memory = calloc(1, sizeof *memory);
    *error = memory ? check_region(length, base, access) : ENOMEM;
    if (*error == 0) {
        memory->name = next_name(context_of(domain->ibv.context), 'r');
        *error = refused(jichurpa_make_region(&node.here.device, &memory->name, &domain->name.name, base, (uint32_t)length,
                                              rights(access), &out),
                         &out);
    }
    if (*error != 0) {
        free(memory);
        return NULL;
    }
    memory->base = base;
    memory->writable = access & IBV_ACCESS_LOCAL_WRITE;
    memory->ibv = (struct ibv_mr){.context = domain->ibv.context, .pd = &domain->ibv, .addr = at, .length = length};
    memory->ibv.lkey = out.local_key;
    memory->ibv.rkey = out.remote_key;
    struct memory **local = &node.by_local[out.local_key / 2 % BUCKETS],
                  **remote = &node.by_remote[out.remote_key / 2 % BUCKETS];
    memory->next_local = *local;
    *local = memory;
    memory->next_remote = *remote;
    *remote = memory;
    return memory;
}

/* Takes a region out of the tables. */
static void memory_unlist(struct memory *memory)
{
    struct memory **at = &node.by_local[memory->ibv.lkey / 2 % BUCKETS];
    while (*at != memory)
        at = &(*at)->next_local;
    *at = memory->next_local;
    at = &node.by_remote[memory->ibv.rkey / 2 % BUCKETS];
    while (*at != memory)
        at = &(*at)->next_remote;
    *at = memory->next_remote;
}

/* The regions of a context that goes. */
void memories_drop(struct context *context)
{
    for (unsigned i = 0; i < BUCKETS; i++) {
        struct memory *next;
        for (struct memory *memory = node.by_local[i]; memory; memory = next) {
            next = memory->next_local;
            if (memory->ibv.context == &context->verbs.context)
                memory_unlist(memory);
        }
    }
}

struct ibv_mr *ibv_reg_mr_iova2(struct ibv_pd *pd, void *addr, size_t length, uint64_t iova, unsigned int access)
{
    struct domain *domain = (struct domain *)pd;
    int error = ENODEV;
    struct memory *memory = NULL;
    if (node_enter()) {
        memory = memory_make(domain, addr, length, access & IBV_ACCESS_ZERO_BASED ? 0 : iova, access, &error);
        domain->users += memory != NULL;
        node_leave();
    }
    if (memory)
        return &memory->ibv;
    errno = error;
    return NULL;
}

struct ibv_mr *ibv_reg_mr(struct ibv_pd *pd, void *addr, size_t length, int access)
{
    return ibv_reg_mr_iova2(pd, addr, length, (uintptr_t)addr, (unsigned)access);
}

struct ibv_mr *ibv_reg_mr_iova(struct ibv_pd *pd, void *addr, size_t length, uint64_t iova, int access)
{
    return ibv_reg_mr_iova2(pd, addr, length, iova, (unsigned)access);
}

int ibv_dereg_mr(struct ibv_mr *mr)
{
    struct memory *memory = (struct memory *)mr;
    jichurpa_outcome out;
    if (!node_enter())
        return ENODEV;
    int error = memory->waiting ? EBUSY : refused(jichurpa_drop_region(&node.here.device, &memory->name, &out), &out);
    if (error == 0) {
        ((struct domain *)mr->pd)->users -= 1;
        memory_unlist(memory);
        free(memory);
        node.freed += 1;
        feed_starved();
    }
    node_leave();
    return error;
}
